// The header as C++17, every inline function of it called: the same program as in C.
// c++ -std=c++17 -Wall -Wextra -Iinclude examples/inline.cpp LIBDIR/libbounds.a LIBDIR/libbounds_prepare.a -o inline && ./inline
#include "inline.c"
