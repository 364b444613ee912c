// A program that takes a number from an empty stack ends badly.
#include "stack.h"

int main()
{
    Stack stack;
    stack.pop();
    return 0;
}
