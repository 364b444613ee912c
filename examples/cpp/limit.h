// How many primes are listed.
static const int limit = 8;
