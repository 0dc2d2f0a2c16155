/* Polygons from C: records written and read, a box, links, materials, stored vertices.
 * cc -std=c11 -Wall -Wextra -Iinclude examples/polygons.c LIBDIR/libbounds.a -o polygons && ./polygons */
#include "bounds.h"
#include <inttypes.h>
#include <math.h>
#include <stdio.h>
#include <string.h>

static int wrong;

static void number(const char *what, int64_t got, int64_t want) {
    printf("%-36s %12" PRId64 "%s\n", what, got, got == want ? "" : "  WRONG");
    wrong |= got != want;
}

static const uint16_t none = 0xFFFF;

/* Area 1, no links. */
static bounds_polygon triangle(uint16_t v1, uint16_t v2, uint16_t v3) {
    return (bounds_polygon){0, 0x3F800000, v1, v2, v3, none, none, none};
}

static void records(void) {
    static const uint8_t want[16] = {0, 0, 0x80, 0x3F, 1, 0, 2, 0, 3, 0, 0xFF, 0xFF, 0xFF, 0xFF, 0xFF, 0xFF};
    uint8_t bytes[16];
    number("write: refusal", bounds_polygon_write(bytes, sizeof bytes, triangle(1, 2, 3)), 0);
    number("write: bytes differ", memcmp(bytes, want, sizeof want) != 0, 0);
    bounds_polygon odd = triangle(1, 2, 3);
    odd.word = 0x3F800005; /* the low three bits are the kind's */
    number("area 3F800005: refusal", bounds_polygon_write(bytes, sizeof bytes, odd), 0);
    number("area 3F800005: bytes differ", memcmp(bytes, want, sizeof want) != 0, 0);
    bounds_read_answer read = bounds_polygon_read(bytes, sizeof bytes);
    number("read: refusal", read.refusal, 0);
    number("read: kind", read.polygon.kind, 0);
    number("read: area", read.polygon.word, 0x3F800000);
    number("read: second vertex", read.polygon.h1, 2);
    number("read: 15 bytes", bounds_polygon_read(bytes, 15).refusal, 5);
    number("write: 15 bytes", bounds_polygon_write(bytes, 15, odd), 2);
    odd.kind = 5;
    number("write: kind 5", bounds_polygon_write(bytes, 15, odd), 6);
    bytes[0] = 7;
    number("read: kind 7", bounds_polygon_read(bytes, sizeof bytes).refusal, 6);
}

/* Vertices (1, 2, 3), (-4, 5, -6), (7, -8, 9), and one with a NaN, whose bits stay. */
static void triangles(void) {
    static const float floats[10] = {1, 2, 3, -4, 5, -6, 7, -8, 9, 0};
    uint32_t words[13] = {0};
    memcpy(words, floats, sizeof floats);
    words[9] = 0xFFC12345;
    bounds_polygon_box b = bounds_triangle_bbox(0, 0x8001, 2, words, 10);
    number("a NaN behind a vertex: min x", b.min.x, 0xC0800000);
    words[9] = 0;
    number("by floats: told", bounds_triangle_float_box(0, 0x8001, 2, floats, 10).told, 1);
    number("none behind the last: told", bounds_triangle_float_box(0, 0x8001, 2, floats, 9).told, 0);
    b = bounds_triangle_bbox(0, 0x8001, 2, words, 10);
    number("by floats: min x", b.min.x, 0xC0800000);
    number("by floats: min y", b.min.y, 0xC1000000);
    number("by floats: min z", b.min.z, 0xC0C00000);
    number("by floats: max x", b.max.x, 0x40E00000);
    number("by floats: max y", b.max.y, 0x40A00000);
    number("by floats: max z", b.max.z, 0x41100000);
    words[1] = 0xFFC12345;
    number("a NaN last: its bits", bounds_triangle_bbox(1, 2, 0, words, 10).max.y, 0xFFC12345);
}

/* The same by floats of the other kinds: vertices (1, 2, 3), (-4, 5, -6), (7, -8, -0). */
static void moved(void) {
    static const float floats[10] = {1, 2, 3, -4, 5, -6, 7, -8, -0.0f, 0};
    bounds_float_box b = bounds_moved_float_box(0, 0, 0, 0, 1.5f, 1.5f, floats, 10);
    number("moved: sphere: told", b.told, 1);
    number("moved: sphere: twice min x", (int64_t)(2 * b.min.x), -1);
    number("moved: sphere: twice max z", (int64_t)(2 * b.max.z), 9);
    b = bounds_moved_float_box(0, 0, 0, 1, 1, 1, floats, 10);
    number("moved: capsule: min z", (int64_t)b.min.z, -7);
    number("moved: capsule: max y", (int64_t)b.max.y, 6);
    b = bounds_moved_float_box(2, 2, 2, 2, 0.0f, -0.0f, floats, 10);
    number("moved: box: -0 stays, min z", signbit(b.min.z) != 0, 1);
    number("moved: box: -0 stays, max z", signbit(b.max.z) != 0, 1);
    b = bounds_moved_float_box(0, 1, 2, 0, 0.0f, -0.0f, floats, 10);
    number("moved: box: max z, of the first", (int64_t)b.max.z, 3);
    number("moved: box: min x, of the second", (int64_t)b.min.x, -4);
    number("moved: box: min y, of the third", (int64_t)b.min.y, -8);
    number("moved: box: max x, of the third", (int64_t)b.max.x, 7);
    number("moved: bit 15 counts: told", bounds_moved_float_box(0, 0, 0, 0x8000, 1, 1, floats, 10).told, 0);
    number("moved: none behind the last: told", bounds_moved_float_box(2, 0, 0, 0, 1, 1, floats, 9).told, 0);
    number("moved: a NaN for a radius: told", bounds_moved_float_box(0, 0, 0, 0, NAN, NAN, floats, 10).told, 0);
}

static void boxes(void) {
    static const uint32_t vertices[6] = {0x3F800000, 0x40000000, 0x40400000, 0, 0, 0}; /* (1, 2, 3), (0, 0, 0) */
    bounds_polygon sphere = {1, 0x3F800000, 0, 0, 0, 0, 0, 0};
    bounds_box_answer box = bounds_polygon_bbox(sphere, vertices, 6);
    number("sphere: min x", box.min.x, 0);
    number("sphere: max z", box.max.z, 0x40800000);
    number("triangle: max y", bounds_polygon_bbox(triangle(0x8000, 1, 9), vertices, 6).max.y, 0x40000000);
    number("by numbers: triangle", bounds_triangle_bbox(0x8000, 1, 9, vertices, 6).max.y, 0x40000000);
    triangles();
    moved();
    number("by numbers: sphere", bounds_sphere_bbox(0, 1.0f, vertices, 6).max.z, 0x40800000);
    number("by numbers: capsule", bounds_capsule_bbox(0, 1, 1.0f, vertices, 6).min.x, 0xBF800000);
    number("by numbers: box", bounds_box_bbox(1, 9, 1, 0, vertices, 6).max.x, 0x3F800000);
    sphere.kind = 9;
    number("kind 9: refusal", bounds_polygon_bbox(sphere, vertices, 6).refusal, 6);
}

static void links(void) {
    static const uint16_t corners[3][3] = {{0, 1, 2}, {2, 1, 3}, {1, 2, 4}};
    static const int16_t want[3][3] = {{-1, 1, -1}, {0, -1, -1}, {0, -1, -1}};
    uint8_t bytes[48];
    uint32_t work[45];
    number("words to work in", (int64_t)bounds_edges_work_len(3), 45);
    for (int i = 0; i < 3; i++)
        wrong |= bounds_polygon_write(bytes + 16 * i, 16, triangle(corners[i][0], corners[i][1], corners[i][2])) != 0;
    memset(work, 0, sizeof work);
    number("links: one word short", bounds_update_edge_indices_in(bytes, sizeof bytes, 3, work, 44), 2);
    number("links: refusal", bounds_update_edge_indices_in(bytes, sizeof bytes, 3, work, 45), 0);
    for (int i = 0; i < 3; i++) {
        bounds_polygon p = bounds_polygon_read(bytes + 16 * i, 16).polygon;
        number("first link", (int16_t)p.h3, want[i][0]);
        number("second link", (int16_t)p.h4, want[i][1]);
        number("third link", (int16_t)p.h5, want[i][2]);
    }
}

static void materials(void) {
    static const uint8_t numbers[4] = {2, 0, 2, 9};
    static const uint32_t mats[6] = {1, 0, 2, 0, 1, 0};
    static uint8_t list[2048], indices[4];
    bounds_materials_answer answer = bounds_build_materials(4, numbers, 4, 3, mats, 6, list, sizeof list, indices, 4);
    number("materials: refusal", answer.refusal, 0);
    number("materials: count", (int64_t)answer.count, 2);
    number("materials: first", list[0], 1);
    number("materials: last index", indices[3], 1);
    number("materials: 257", bounds_build_materials(4, numbers, 4, 257, mats, 6, list, sizeof list, indices, 4).refusal, 1);
    number("materials: 2,047 bytes", bounds_build_materials(4, numbers, 4, 3, mats, 6, list, 2047, indices, 4).refusal, 2);
}

static void vertices(void) {
    const bounds_aabb box = {{0, 0, 0}, {65534, 65534, 65534}};
    bounds_vec3 quantum = bounds_quantum(box);
    number("quantum: x", (int64_t)quantum.x, 1);
    bounds_vertex stored = bounds_stored_vertex((bounds_vec3){40000, -0.9f, -3.9f}, quantum);
    number("stored: x", stored.x, 32767);
    number("stored: y", stored.y, 0);
    number("read back: z", (int64_t)bounds_read_back(stored, quantum).z, -3);
}

int main(void) {
    records();
    boxes();
    links();
    materials();
    vertices();
    puts(wrong ? "some value is wrong" : "all values are right");
    return wrong;
}
