#include <iostream>
#include "split.h"

int main()
{
    const bool passed = split(" two  words ").size() == 2 && split("").empty();
    std::cout << (passed ? "passed" : "failed") << '\n';
    return passed ? 0 : 1;
}
