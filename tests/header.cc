// The header in C++: it compiles, and a function is found by its C name.
#include "agal.h"

int main()
{
    return agal_check(1, nullptr, 0).number == 2 ? 0 : 1;
}
