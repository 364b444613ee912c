#ifndef MEAN_H
#define MEAN_H
#include <vector>

// The mean without its fraction. This header serves the library alone.
inline int mean(const std::vector<int>& numbers)
{
    int sum = 0;
    for (const int number : numbers)
        sum += number;
    return numbers.empty() ? 0 : sum / static_cast<int>(numbers.size());
}

#endif
