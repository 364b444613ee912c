#include <algorithm>
#include <stats/stats.h>
#include "mean.h"

namespace stats {

Summary summary_of(const std::vector<int>& numbers)
{
    const auto largest = std::max_element(numbers.begin(), numbers.end());
    return {mean(numbers), largest == numbers.end() ? 0 : *largest};
}

}
