#include "digits.h"

std::string digits(int number)
{
    return std::to_string(number);
}
