#include <iostream>
#include "square.h"

int main()
{
    std::cout << square(3);
}
