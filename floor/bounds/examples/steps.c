/* The float steps from C: prints each value beside the one it must be, and fails at the first that is not.
 * cc -std=c11 -Wall -Wextra -Iinclude examples/steps.c LIBDIR/libbounds.a -o steps && ./steps */
#include "bounds.h"
#include <inttypes.h>
#include <math.h>
#include <stdio.h>
#include <string.h>

static int wrong;

static void number(const char *what, int64_t got, int64_t want) {
    printf("%-36s %12" PRId64 "%s\n", what, got, got == want ? "" : "  WRONG");
    wrong |= got != want;
}

static uint32_t word(float x) {
    uint32_t w;
    memcpy(&w, &x, sizeof w);
    return w;
}

static void bits(const char *what, uint32_t got, uint32_t want) {
    printf("%-36s     %08" PRIX32 "%s\n", what, got, got == want ? "" : "  WRONG");
    wrong |= got != want;
}

static void point(const char *what, bounds_vec3 got, float x, float y, float z) {
    int same = got.x == x && got.y == y && got.z == z;
    printf("%-36s %g %g %g%s\n", what, got.x, got.y, got.z, same ? "" : "  WRONG");
    wrong |= !same;
}

static void floats(void) {
    number("to_short(40000)", bounds_to_short(40000.0f), -25536);
    number("to_short(+infinity)", bounds_to_short(INFINITY), -1);
    number("to_short(NaN)", bounds_to_short(NAN), 0);
    number("vertex_value(40000)", bounds_vertex_value(40000.0f), 32767);
    number("vertex_value(-0.9)", bounds_vertex_value(-0.9f), 0);
    number("to_i32(-1e20)", bounds_to_i32(-1e20f), INT32_MIN);
    number("wrap_i16(-32769)", bounds_wrap_i16(-32769), 32767);
    bits("sqrt(2)", word(bounds_sqrt(2.0f)), 0x3FB504F3);
    bits("sqrt(-0)", word(bounds_sqrt(-0.0f)), 0x80000000);
    bits("of_count(65535)", word(bounds_of_count(65535)), 0x477FFF00);
    bits("value_bits(FFC12345)", bounds_value_bits(0xFFC12345), 0x7FC00000);
    bits("bits(value(80000001))", bounds_bits(bounds_value(0x80000001)), 0x80000001);
    number("relate(1, NaN)", bounds_relate(1.0f, NAN), 3);
    number("cmp_f32(NaN, -infinity)", bounds_cmp_f32(NAN, -INFINITY), -1);
    bits("order_key(-0)", bounds_order_key(0x80000000), 0x80000000);
    bits("vmin_word(1, FF800001)", bounds_vmin_word(0x3F800000, 0xFF800001), 0xFF800001);
    bits("vmax_word(FF800001, 1)", bounds_vmax_word(0xFF800001, 0x3F800000), 0x3F800000);
    bits("vmin(0, -0)", word(bounds_vmin(0.0f, -0.0f)), 0x80000000);
    bits("vmax(2, 1)", word(bounds_vmax(2.0f, 1.0f)), 0x40000000);
    bits("min_number(NaN, 1)", word(bounds_min_number(NAN, 1.0f)), 0x3F800000);
    bits("max_number(1, NaN)", word(bounds_max_number(1.0f, NAN)), 0x3F800000);
}

static void points(void) {
    bounds_vec3 a = {1, 2, 3}, b = {4, 5, 6};
    point("add", bounds_add(a, b), 5, 7, 9);
    point("sub", bounds_sub(a, b), -3, -3, -3);
    point("scale", bounds_scale(a, 2), 2, 4, 6);
    point("neg", bounds_neg(a), -1, -2, -3);
    point("abs", bounds_abs(bounds_neg(a)), 1, 2, 3);
    point("cross", bounds_cross(a, b), -3, 6, -3);
    point("norm", bounds_norm((bounds_vec3){0, 4, 0}), 0, 1, 0);
    point("vmul", bounds_vmul(a, b), 4, 10, 18);
    point("vdiv", bounds_vdiv(b, (bounds_vec3){2, 5, 3}), 2, 1, 2);
    point("vadd_f", bounds_vadd_f(a, 1), 2, 3, 4);
    point("vmin3", bounds_vmin3(a, (bounds_vec3){0, 9, 3}), 0, 2, 3);
    point("vmax3", bounds_vmax3(a, (bounds_vec3){0, 9, 3}), 1, 9, 3);
    bits("dot", word(bounds_dot(a, b)), word(32));
    bits("length", word(bounds_length((bounds_vec3){3, 0, 4})), word(5));
    number("cmp_vec3", bounds_cmp_vec3(a, (bounds_vec3){1, 2, 2}), 1);
    bounds_words3 low = bounds_vmin_words3((bounds_words3){0, 0x3F800000, 0}, (bounds_words3){0x80000000, 0, 0x7F800001});
    bits("vmin_words3, x", low.x, 0x80000000);
    bits("vmin_words3, y", low.y, 0);
    bits("vmin_words3, z", low.z, 0x7F800001);
    bounds_words3 high = bounds_vmax_words3((bounds_words3){0, 0x3F800000, 7}, (bounds_words3){0x80000000, 0, 0xFFFFFFFF});
    bits("vmax_words3, y", high.y, 0x3F800000);
    bits("vmax_words3, z", high.z, 0xFFFFFFFF);
}

static void transforms(void) {
    bounds_mat4 m = {{2, 0, 0, 0}, {0, 3, 0, 0}, {0, 0, 4, 0}, {10, 20, 30, 2}};
    bounds_vec3 one = {1, 1, 1};
    bounds_vec4 p = bounds_transform_point(m, one);
    point("transform_point", (bounds_vec3){p.x, p.y, p.z}, 12, 23, 34);
    bits("transform_point, w", word(p.w), word(2));
    point("transform_vector", bounds_transform_vector(m, one), 2, 3, 4);
    bounds_aabb box = bounds_transform_box((bounds_aabb){{-1, -1, -1}, one}, m);
    point("transform_box, min", box.min, 3, 7, 11);
    point("transform_box, max", box.max, 7, 13, 19);
    bounds_mat4 turn = {{0, 1, 0, 0}, {0, 0, 1, 0}, {1, 0, 0, 0}, {10, 20, 30, 1}};
    bounds_aabb turned = bounds_transform_box((bounds_aabb){{1, 2, 3}, {5, 8, 11}}, turn);
    point("transform_box, turned, min", turned.min, 13, 21, 32);
    point("transform_box, turned, max", turned.max, 21, 25, 38);
}

int main(void) {
    floats();
    points();
    transforms();
    puts(wrong ? "some value is wrong" : "all values are right");
    return wrong;
}
