#ifndef STACK_H
#define STACK_H
#include <vector>

// Numbers, of which the one that came last goes first. There is one of each stack: it is not copied.
class Stack {
public:
    Stack() = default;
    Stack(const Stack&) = delete;
    Stack& operator=(const Stack&) = delete;

    bool empty() const;
    void push(int number);
    // The number that came last. Where there is none the program ends with status 1.
    int pop();

private:
    std::vector<int> numbers;
};

#endif
