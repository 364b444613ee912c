#include "primes.h"

#include <iostream>

void print(const std::vector<int>& numbers)
{
    const char* before = "";
    for (int number : numbers)
    {
        std::cout << before << number;
        before = " ";
    }
    std::cout << '\n';
}
