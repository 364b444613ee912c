#include <text/join.h>
#include "digits.h"

namespace text {

std::string join(const std::vector<int>& numbers, const std::string& mark)
{
    std::string joined;
    for (const int number : numbers) {
        if (!joined.empty())
            joined += mark;
        joined += digits(number);
    }
    return joined;
}

}
