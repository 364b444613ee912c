#ifndef STATS_STATS_H
#define STATS_STATS_H
#include <vector>
#include <stats/summary.h>

namespace stats {

Summary summary_of(const std::vector<int>& numbers);

}

#endif
