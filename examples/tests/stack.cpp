#include "stack.h"
#include <cstdlib>
#include <iostream>

bool Stack::empty() const
{
    return numbers.empty();
}

void Stack::push(int number)
{
    numbers.push_back(number);
}

int Stack::pop()
{
    if (numbers.empty()) {
        std::cerr << "pop of an empty stack\n";
        std::exit(1);
    }
    const int number = numbers.back();
    numbers.pop_back();
    return number;
}
