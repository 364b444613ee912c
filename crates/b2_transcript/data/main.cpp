#include <util.h>

int main() {
    greet();
}
