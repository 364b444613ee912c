#include "limit.h"
#include "primes.h"

int main()
{
    print(primes_up_to(LIMIT));
}
