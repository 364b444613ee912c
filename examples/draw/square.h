#include <string>

// A square of this many rows.
std::string square(int rows);
