/* The float environment: bounds_float_environment sees each rounding but the one to nearest, flush-to-zero and
 * denormals-are-zero.
 * cc -std=c11 -Wall -Wextra -Iinclude examples/environment.c LIBDIR/libbounds.a -lm -o environment && ./environment */
#include "bounds.h"
#include <assert.h>
#include <fenv.h>
#include <stdio.h>
#include <xmmintrin.h>

enum { FLUSH_TO_ZERO = 0x8000, DENORMALS_ARE_ZERO = 0x0040 };

static int wrong;

static void environment(const char *what, int want) {
    const int got = bounds_float_environment();
    printf("%-36s %d%s\n", what, got, got == want ? "" : "  WRONG");
    wrong |= got != want;
}

static void rounding(const char *what, int mode) {
    if (fesetround(mode)) wrong = 1;
    environment(what, mode == FE_TONEAREST);
    if (fesetround(FE_TONEAREST)) wrong = 1;
}

static void control(const char *what, unsigned bits) {
    const unsigned was = _mm_getcsr();
    _mm_setcsr(was | bits);
    environment(what, bits == 0);
    _mm_setcsr(was);
}

int main(void) {
    assert(bounds_float_environment()); /* as a server says it, at the start of each thread */
    rounding("upward", FE_UPWARD);
    rounding("downward", FE_DOWNWARD);
    rounding("toward zero", FE_TOWARDZERO);
    rounding("to nearest", FE_TONEAREST);
    control("flush-to-zero", FLUSH_TO_ZERO);
    control("denormals-are-zero", DENORMALS_ARE_ZERO);
    control("both, as crtfastmath.o sets them", FLUSH_TO_ZERO | DENORMALS_ARE_ZERO);
    control("neither", 0);
    puts(wrong ? "some value is wrong" : "all values are right");
    return wrong;
}
