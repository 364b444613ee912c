#ifndef SPLIT_H
#define SPLIT_H
#include <string>
#include <vector>

// The words of a line, which blanks divide.
std::vector<std::string> split(const std::string& line);

#endif
