static const char title[] = "the first primes";
