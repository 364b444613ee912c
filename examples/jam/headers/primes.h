#ifndef PRIMES_H
#define PRIMES_H

#include <vector>

std::vector<int> primes_up_to(int limit);

void print(const std::vector<int>& numbers);

#endif
