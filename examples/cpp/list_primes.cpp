// Writes a header with the first primes.
#include <cstdio>
#include "limit.h"

static bool is_prime(int number)
{
    for (int divisor = 2; divisor * divisor <= number; ++divisor)
        if (number % divisor == 0)
            return false;
    return number > 1;
}

int main()
{
    std::printf("static const int primes[] = {");
    for (int number = 2, count = 0; count < limit; ++number)
        if (is_prime(number))
            std::printf(count++ == 0 ? "%d" : ", %d", number);
    std::printf("};\n");
}
