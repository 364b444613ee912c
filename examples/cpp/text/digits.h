#ifndef DIGITS_H
#define DIGITS_H
#include <string>

// A number in decimal. This header serves the library alone.
std::string digits(int number);

#endif
