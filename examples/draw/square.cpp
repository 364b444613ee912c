#include "square.h"

std::string square(int rows)
{
    std::string drawing;
    for (int row = 0; row < rows; ++row)
        drawing += std::string(2 * rows, '*') + '\n';
    return drawing;
}
