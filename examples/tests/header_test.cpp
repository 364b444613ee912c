// The header needs no other one before it.
#include "stack.h"

Stack stack;
