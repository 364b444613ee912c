#include "primes.h"

std::vector<int> primes_up_to(int limit)
{
    std::vector<int> primes;
    std::vector<bool> is_multiple(limit + 1);
    for (int number = 2; number <= limit; ++number)
    {
        if (is_multiple[number]) continue;
        primes.push_back(number);
        for (int multiple = 2 * number; multiple <= limit; multiple += number) is_multiple[multiple] = true;
    }
    return primes;
}
