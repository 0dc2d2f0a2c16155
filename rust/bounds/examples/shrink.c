/* Shrunk vertices from C: a cube, a thin plate, a triangle with a corner that is not there, and what is refused.
 * cc -std=c11 -Wall -Wextra -Iinclude examples/shrink.c LIBDIR/libbounds.a -o shrink && ./shrink */
#include "bounds.h"
#include <inttypes.h>
#include <stdio.h>
#include <string.h>

static int wrong;

static void number(const char *what, uint64_t got, uint64_t want) {
    printf("%-36s %20" PRIX64 "%s\n", what, got, got == want ? "" : "  WRONG");
    wrong |= got != want;
}

static uint32_t word(float x) {
    uint32_t bits;
    memcpy(&bits, &x, sizeof bits);
    return bits;
}

enum { CORNERS = 8, TRIANGLES = 12, MORE = TRIANGLES + 1, WORK = 36 * MORE + CORNERS };

/* A box about 0, its sides turned outwards. */
static const uint16_t sides[TRIANGLES][3] = {{0, 3, 1}, {0, 2, 3}, {4, 7, 6}, {4, 5, 7}, {0, 5, 4}, {0, 1, 5},
                                             {2, 7, 3}, {2, 6, 7}, {0, 6, 2}, {0, 4, 6}, {1, 7, 5}, {1, 3, 7}};

static uint32_t vertices[3 * CORNERS], points[3 * CORNERS + 1], work[WORK];
static uint8_t polygons[16 * MORE];

static bounds_geometry box(float x, float y, float z, float margin) {
    bounds_geometry g = {{-x, -y, -z}, {x, y, z}, {0, 0, 0}, margin,
                         {{1, 0, 0, 0}, {0, 1, 0, 0}, {0, 0, 1, 0}, {0, 0, 0, 1}}};
    for (uint32_t i = 0; i < CORNERS; i++) {
        vertices[3 * i] = word(i & 1 ? x : -x);
        vertices[3 * i + 1] = word(i & 2 ? y : -y);
        vertices[3 * i + 2] = word(i & 4 ? z : -z);
    }
    return g;
}

static void triangle(int at, uint16_t a, uint16_t b, uint16_t c) {
    const bounds_polygon p = {0, 0, a, b, c, 9, 9, 9}; /* links of no meaning */
    number("a record", bounds_polygon_write(polygons + 16 * at, 16, p), 0);
}

static bounds_shrink_answer shrunk(bounds_geometry g, size_t polygon_count, size_t work_len) {
    return bounds_calculate_verts_shrunk_in(g, polygon_count, polygons, 16 * polygon_count, CORNERS,
                                            vertices, 3 * CORNERS, points, sizeof points / 4, work, work_len);
}

int main(void) {
    for (int i = 0; i < TRIANGLES; i++)
        triangle(i, sides[i][0], sides[i][1], sides[i][2]);
    number("words to work in", bounds_shrink_work_len(TRIANGLES, CORNERS), 36 * TRIANGLES + CORNERS);
    memset(points, 0x55, sizeof points);
    memset(work, 0xFF, sizeof work); /* as floats, NaN */

    bounds_geometry cube = box(1, 1, 1, 0.25f);
    number("cube: one word short", shrunk(cube, TRIANGLES, 36 * TRIANGLES + CORNERS - 1).refusal, 2);
    number("cube: points one short", bounds_calculate_verts_shrunk_in(cube, TRIANGLES, polygons, sizeof polygons, CORNERS,
                                                                      vertices, 24, points, 23, work, WORK).refusal, 2);
    number("cube: 32,768 polygons", bounds_calculate_verts_shrunk_in(cube, 32768, polygons, sizeof polygons, CORNERS,
                                                                     vertices, 24, points, 24, work, WORK).refusal, 1);
    bounds_geometry endless = cube;
    endless.max = (bounds_vec3){bounds_value(0x7F800000), bounds_value(0x7FC00000), bounds_value(0x7FC00000)};
    endless.margin = bounds_value(0x7F800000);
    number("cube: infinite margin", shrunk(endless, TRIANGLES, WORK).refusal, 7);
    polygons[0] = 5;
    number("cube: a kind of 5", shrunk(endless, TRIANGLES, WORK).refusal, 6);
    polygons[0] = 0;
    number("after refusals", points[0], 0x55555555);

    bounds_shrink_answer answer = shrunk(cube, TRIANGLES, 36 * TRIANGLES + CORNERS);
    number("cube: refusal", answer.refusal, 0);
    number("cube: by a margin", answer.by, 1);
    number("cube: the margin", word(answer.margin), word(0.25f));
    number("cube: first vertex, x", points[0], word(-0.75f));
    number("cube: last vertex, z", points[23], word(0.75f));
    number("cube: the word behind", points[24], 0x55555555);

    /* 0.02 thick: by half of it, the starting margin, its sides would meet. The clamp takes 0.025 off, and the low side wins. */
    answer = shrunk(box(1, 1, 0.01f, 0.25f), TRIANGLES, WORK);
    number("plate: by a margin", answer.by, 1);
    number("plate: half the starting margin", word(answer.margin), word(0.005f));
    number("plate: first vertex, z", points[2], word(-0.01f + 0.025f));

    triangle(TRIANGLES, 0, 1, 9);
    answer = shrunk(box(1, 1, 1, 0.25f), MORE, WORK);
    number("no such corner: by normals", answer.by, 2);
    number("no such corner: no margin", word(answer.margin), 0);
    number("no such corner: outwards, no clamp", points[23] > word(1.0f), 1);

    answer = bounds_calculate_verts_shrunk_in(endless, TRIANGLES, polygons, sizeof polygons, 0, vertices, 0, points, 0, work,
                                              WORK);
    number("no vertices: refusal", answer.refusal, 0);
    number("no vertices: by nothing", answer.by, 0);
    puts(wrong ? "some value is wrong" : "all values are right");
    return wrong;
}
