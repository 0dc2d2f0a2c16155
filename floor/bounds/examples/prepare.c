/* A mesh prepared from C: a pyramid of kind 4 and of kind 8, a query over the latter's tree, and what is refused.
 * cc -std=c11 -Wall -Wextra -Iinclude examples/prepare.c LIBDIR/libbounds.a LIBDIR/libbounds_prepare.a \
 *     -o prepare && ./prepare */
#include "bounds.h"
#include <inttypes.h>
#include <stdio.h>
#include <stdlib.h>
#include <string.h>

static int wrong;

static void number(const char *what, uint64_t got, uint64_t want) {
    printf("%-40s %20" PRIX64 "%s\n", what, got, got == want ? "" : "  WRONG");
    wrong |= got != want;
}

static uint32_t word(float x) {
    uint32_t bits;
    memcpy(&bits, &x, sizeof bits);
    return bits;
}

static uint32_t little_endian(const uint8_t *bytes, int count) {
    uint32_t sum = 0;
    while (count-- > 0)
        sum = sum << 8 | bytes[count];
    return sum;
}

enum { TRIANGLES = 4, CORNERS = 4 };

static const float corners[CORNERS][3] = {{-1, -1, 0}, {1, -1, 0}, {0, 1, 0}, {0, 0, 1}};
static const uint16_t triangles[TRIANGLES][3] = {{0, 2, 1}, {0, 1, 3}, {1, 2, 3}, {2, 0, 3}};

static uint8_t polygons[16 * TRIANGLES];
static uint32_t vertices[3 * CORNERS];

static bounds_mesh pyramid(uint32_t kind) {
    static const uint8_t numbers[TRIANGLES] = {1, 1, 0, 9}; /* the last one's is not given */
    static const uint32_t materials[4] = {7, 0, 8, 0};
    for (int i = 0; i < TRIANGLES; i++) {
        const bounds_polygon p = {0, word(1), triangles[i][0], triangles[i][1], triangles[i][2], 9, 9, 9};
        number("a record", bounds_polygon_write(polygons + 16 * i, 16, p), 0);
    }
    memcpy(vertices, corners, sizeof vertices);
    const uint32_t one = word(1), less = word(-1);
    bounds_mesh mesh = {{kind, {{less, less, 0}, {one, one, one}, {0, 0, 0}, {0, 0, 0}, word(2)}, 0.04f, {0, 0, 0},
                         {{1, 0, 0, 0}, {0, 1, 0, 0}, {0, 0, 1, 0}, {0, 0, 0, 1}}},
                        {TRIANGLES, CORNERS, 2}, polygons, numbers, materials, vertices,
                        sizeof polygons, sizeof numbers, 4, 3 * CORNERS};
    return mesh;
}

static void *room(size_t bytes) {
    void *at = malloc(bytes);
    if (at == NULL) {
        puts("no memory");
        exit(2);
    }
    return at;
}

/* Buffers as long as they have to be, each of its own; the outputs full of A5, so that it is seen where nothing is written. */
static void *filled(size_t bytes) { return memset(room(bytes), 0xA5, bytes); }

static bounds_buffers lent(size_t polygon_count, size_t vertex_count) {
    bounds_buffers b = bounds_prepare_lengths(polygon_count, vertex_count);
    b.materials = filled(b.materials_len);
    b.indices = filled(b.indices_len);
    b.polygons = filled(b.polygons_len);
    b.vertices = filled(b.vertices_len);
    b.floats = filled(4 * b.floats_len);
    b.shrunk = filled(b.shrunk_len);
    b.shrunk_floats = filled(4 * b.shrunk_floats_len);
    b.octants = filled(4 * b.octants_len);
    b.node_bytes = filled(b.node_bytes_len);
    b.tree_bytes = filled(b.tree_bytes_len);
    b.order = filled(2 * b.order_len);
    b.work = room(4 * b.work_len); /* what it holds does not matter */
    return b;
}

static void returned(bounds_buffers b) {
    void *all[12] = {b.materials, b.indices, b.polygons, b.vertices, b.floats, b.shrunk, b.shrunk_floats, b.octants,
                     b.node_bytes, b.tree_bytes, b.order, b.work};
    for (int i = 0; i < 12; i++)
        free(all[i]);
}

/* Each length one less, in turn: the lengths are the last fields of their structs. */
static void refusals(uint32_t kind) {
    bounds_buffers b = lent(TRIANGLES, CORNERS);
    bounds_mesh mesh = pyramid(kind);
    size_t *lengths[16] = {&mesh.polygons_len, &mesh.numbers_len, &mesh.materials_len, &mesh.vertices_len,
                           &b.materials_len, &b.indices_len, &b.polygons_len, &b.vertices_len, &b.floats_len,
                           &b.shrunk_len, &b.shrunk_floats_len, &b.octants_len, &b.node_bytes_len, &b.tree_bytes_len,
                           &b.order_len, &b.work_len};
    for (int i = 0; i < 16; i++) {
        --*lengths[i];
        number("one short", bounds_prepare(&mesh, &b).refusal, 2);
        ++*lengths[i];
    }
    mesh.counts.materials = 257;
    number("257 materials", bounds_prepare(&mesh, &b).refusal, 1);
    mesh.bound.kind = 5;
    number("a kind of 5", bounds_prepare(&mesh, &b).refusal, 6);
    mesh = pyramid(kind);
    polygons[16] = 7;
    mesh.bound.margin = bounds_value(0x7F800000);
    mesh.bound.frame.box_max = (bounds_words3){0x7F800000, 0x7F800000, 0x7F800000};
    number("a polygon of kind 7", bounds_prepare(&mesh, &b).refusal, 6);
    polygons[16] = 0;
    if (kind == 4)
        number("an infinite margin", bounds_prepare(&mesh, &b).refusal, 7);
    number("after refusals", b.materials[0] ^ b.polygons[0] ^ b.vertices[0] ^ b.node_bytes[0], 0);
    number("after refusals", b.indices[0], 0xA5);
    returned(b);
}

static void plain(void) {
    bounds_buffers b = lent(TRIANGLES, CORNERS);
    const bounds_mesh mesh = pyramid(4);
    const bounds_prepare_answer answer = bounds_prepare(&mesh, &b);
    number("kind 4: refusal", answer.refusal, 0);
    number("kind 4: quantum, x", word(answer.quantum.x), word(bounds_quantum((bounds_aabb){{-1, -1, 0}, {1, 1, 1}}).x));
    number("kind 4: radius, as it was", answer.frame.sphere_radius, word(2));
    number("kind 4: materials", answer.materials, 3);
    number("kind 4: second material", little_endian(b.materials + 8, 4), 7);
    number("kind 4: the fourth, filled in", little_endian(b.materials + 24, 4), 0);
    number("kind 4: the byte behind", b.materials[32], 0xA5);
    number("kind 4: last index", b.indices[3], 2);
    number("kind 4: first link", little_endian(b.polygons + 10, 2), 3);
    number("kind 4: first vertex, x", little_endian(b.vertices, 2), 0x8001); /* -32767 */
    number("kind 4: read back", b.floats[0], word(bounds_read_back((bounds_vertex){-32767, 0, 0}, answer.quantum).x));
    number("kind 4: shrunk inwards", b.shrunk_floats[0] < b.floats[0], 1); /* both below 0 */
    number("kind 4: octants", answer.octants.c0 > 0, 1);
    number("kind 4: no tree", answer.tree.nodes, 0);
    number("kind 4: no nodes written", b.node_bytes[0], 0xA5);
    returned(b);
}

static void tree(void) {
    bounds_buffers b = lent(TRIANGLES, CORNERS);
    const bounds_mesh mesh = pyramid(8);
    const bounds_prepare_answer answer = bounds_prepare(&mesh, &b);
    number("kind 8: refusal", answer.refusal, 0);
    number("kind 8: nodes", answer.tree.nodes, 1);
    number("kind 8: present", answer.tree.present, TRIANGLES);
    number("kind 8: centre, z", answer.frame.box_center.z, word(0.5f));
    number("kind 8: its sphere's", answer.frame.sphere_center.z, word(0.5f));
    number("kind 8: no octants", answer.octants.c0, 0);
    number("kind 8: no vertex shrunk", b.shrunk[0], 0xA5);

    uint16_t found[TRIANGLES];
    const bounds_aabb query = {{0, 0, 0.5f}, {1, 1, 1}};
    const bounds_walk_answer walk = bounds_walk(query, answer.tree.scale.cen, answer.tree.scale.inverse,
                                                b.node_bytes, b.node_bytes_len, answer.tree.nodes,
                                                b.tree_bytes, b.tree_bytes_len, answer.tree.trees, answer.tree.present,
                                                found, TRIANGLES);
    number("query: polygons handed out", walk.handed, TRIANGLES);
    number("query: last, in the prepared order", found[3], 3);
    returned(b);
}

/* The given numbers, one bit each, of the polygons that a walk at this x hands out. */
static uint32_t given_at(const bounds_build_answer *tree, const bounds_buffers *b, float x) {
    const bounds_aabb query = {{x, 0, 0}, {x, 0, 0}};
    uint16_t found[8];
    uint32_t given = 0;
    const bounds_walk_answer walk = bounds_walk(query, tree->scale.cen, tree->scale.inverse, b->node_bytes, b->node_bytes_len,
                                                tree->nodes, b->tree_bytes, b->tree_bytes_len, tree->trees, tree->present,
                                                found, 8);
    for (size_t k = 0; k < walk.handed; k++)
        given |= 1u << b->order[found[k]];
    return given;
}

/* Five spheres of radius 1, given at x = 0, 10, 20, 30, 40, with the centre (100, 0, 0): they stand at 100 to 140. */
static void space(void) {
    enum { SPHERES = 5 };
    uint8_t records[16 * SPHERES], numbers[SPHERES] = {0};
    uint32_t centres[3 * SPHERES] = {0};
    bounds_buffers b = lent(SPHERES, SPHERES);
    bounds_mesh mesh = pyramid(8);
    for (uint16_t i = 0; i < SPHERES; i++) {
        const bounds_polygon sphere = {1, word(1), i, 0, 0, 0, 0, 0};
        number("space: a record", bounds_polygon_write(records + 16 * i, 16, sphere), 0);
        centres[3 * i] = word(10 * (float)i);
    }
    mesh.bound.center.x = 100;
    mesh.counts = (bounds_counts){SPHERES, SPHERES, 0};
    mesh.polygons = records, mesh.polygons_len = sizeof records;
    mesh.numbers = numbers, mesh.numbers_len = sizeof numbers;
    mesh.vertices = centres, mesh.vertices_len = 3 * SPHERES;
    mesh.materials = NULL, mesh.materials_len = 0; /* none are given */
    const bounds_prepare_answer answer = bounds_prepare(&mesh, &b);
    number("space: refusal", answer.refusal, 0);
    number("space: the box, min x", answer.tree.min.x, word(99));
    number("space: the box, max x", answer.tree.max.x, word(141));
    number("space: at 140 the one given at 40", given_at(&answer.tree, &b, 140), 1 << 3 | 1 << 4);
    number("space: at 40 the first three, not it", given_at(&answer.tree, &b, 40), 1 << 0 | 1 << 1 | 1 << 2);
    returned(b);
}

int main(void) {
    number("words to work in", bounds_prepare_work_len(TRIANGLES, CORNERS), 55 * TRIANGLES + 13 * CORNERS + 8);
    refusals(4);
    refusals(8);
    plain();
    tree();
    space();
    puts(wrong ? "some value is wrong" : "all values are right");
    return wrong;
}
