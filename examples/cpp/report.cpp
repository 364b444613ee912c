// Prints the listed primes and what is known of them.
#include <cstdio>
#include <text/join.h>
#include <stats/stats.h>
#include "limit.h"
#include "primes.h"

// A checkout may have a title of its own.
#if __has_include("title.h")
#include "title.h"
#else
static const char title[] = "primes";
#endif

int main()
{
    const std::vector<int> numbers(primes, primes + limit);
    const stats::Summary summary = stats::summary_of(numbers);
    std::printf("%s: %s\n", title, text::join(numbers, ", ").c_str());
    std::printf("mean %d, largest %d\n", summary.mean, summary.largest);
}
