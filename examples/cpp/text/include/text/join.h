#ifndef TEXT_JOIN_H
#define TEXT_JOIN_H
#include <string>
#include <vector>

namespace text {

// The numbers in decimal, with a mark between them.
std::string join(const std::vector<int>& numbers, const std::string& mark);

}

#endif
