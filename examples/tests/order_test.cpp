// What came last goes first.
#include "stack.h"
#include <iostream>

int main()
{
    Stack stack;
    for (int number : {1, 2, 3})
        stack.push(number);
    for (int expected : {3, 2, 1}) {
        const int number = stack.pop();
        if (number != expected) {
            std::cout << "pop gave " << number << ", and not " << expected << '\n';
            return 1;
        }
    }
    return stack.empty() ? 0 : 1;
}
