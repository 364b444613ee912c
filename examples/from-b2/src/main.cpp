// Prints how many words a line has, and the root of this number.
#include <cmath>
#include <iostream>
#include "split.h"

int main()
{
    std::string line;
    std::getline(std::cin, line);
    const auto words = split(line);
    std::cout << words.size() << ' ' << std::sqrt(words.size()) << '\n';
}
