#include "inc/util.h"

#include <iostream>

void greet() {
    std::cout << "hello\n";
}
