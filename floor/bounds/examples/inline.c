/* Every inline function with null pointers of length 0, and with as little as it takes to get an answer. It is C and C++:
 * inline.cpp has it compiled as the latter.
 * cc -std=c11 -Wall -Wextra -Iinclude examples/inline.c LIBDIR/libbounds.a LIBDIR/libbounds_prepare.a -o inline && ./inline */
#include "bounds.h"
#include <stdio.h>
#include <string.h>

static int wrong;

static void number(const char *what, uint64_t got, uint64_t want) {
    printf("%-52s %10llX%s\n", what, (unsigned long long)got, got == want ? "" : "  WRONG");
    wrong |= got != want;
}

static void lent(void) {
    uint64_t cell = 0;
    number("a null pointer of length 0 is replaced", bounds_lent_in(NULL, 0) != NULL && bounds_lent_out(NULL, 0) != NULL, 1);
    number("by one that is aligned", (uintptr_t)bounds_lent_in(NULL, 0) % 8 + (uintptr_t)bounds_lent_out(NULL, 0) % 8, 0);
    number("another pointer stays", bounds_lent_in(&cell, 0) == &cell && bounds_lent_out(&cell, 1) == &cell, 1);
}

static void values(void) {
    const bounds_aabb unit = {{0, 0, 0}, {1, 1, 1}};
    const bounds_mat4 twice = {{2, 0, 0, 0}, {0, 2, 0, 0}, {0, 0, 2, 0}, {0, 0, 0, 1}};
    size_t left = 3, at[7];
    number("a box through a matrix", bounds_words_of(bounds_transform_box(unit, twice).max).y, 0x40000000);
    number("the float environment", (uint64_t)bounds_float_environment(), 1);
    number("no refusal in words", strcmp(bounds_refusal_text(0), "not refused") != 0, 0);
    number("an unknown refusal is no known one", strcmp(bounds_refusal_text(14), bounds_refusal_text(13)) != 0, 1);
    number("a part of what is left", bounds_part(5, &left) + left, 3);
    bounds_build_parts(0, 8, at);
    number("the parts of a build of none", at[4] + at[5] + at[6], 16);
}

static void tree(void) {
    uint8_t nodes[16], trees[16];
    uint32_t work[8];
    bounds_build_answer none = bounds_build_bvh_in(NULL, 0, 1, NULL, 0, NULL, 0, NULL, 0, NULL, 0);
    number("build: no buffers", none.refusal, 2);
    bounds_build_answer empty = bounds_build_bvh_in(NULL, 0, 1, nodes, 16, trees, 16, NULL, 0, work, 8);
    number("build: no items: refusal", empty.refusal, 0);
    number("build: no items: nodes", empty.nodes, 1);
    number("premises: no items", bounds_ordinary_items(NULL, 0).refusal + bounds_ordinary_items(NULL, 0).fault, 0);
    const bounds_item turned = {1, {0, 0, 0x40000000}, {0, 0, 0}};
    number("premises: min z above max z", bounds_ordinary_items(&turned, 1).fault, 9);
    number("premises: 32,768 items", bounds_ordinary_items(&turned, 32768).refusal, 1);
}

static void loaded(void) {
    const bounds_aabb query = {{0, 0, 0}, {1, 1, 1}};
    uint8_t header[129];
    bounds_tree_files files;
    bounds_tree tree;
    memset(&files, 0, sizeof files);
    files.threshold = 1;
    number("load: no files", bounds_load_tree(&files, &tree).damage, BOUNDS_LOAD_HEADER_LENGTH);
    number("load: in words", strcmp(bounds_load_text(BOUNDS_LOAD_HEADER_LENGTH), "header.bin has not 128 bytes") != 0, 0);
    memset(header, 0, sizeof header);
    files.header = header + 1; /* at an odd address */
    files.header_len = 128;
    number("load: no records", bounds_load_tree(&files, &tree).damage, BOUNDS_LOADED);
    number("load: walked", bounds_walk_tree(&tree, query, NULL, 0).refusal, 0);
    number("load: queried", bounds_query_tree(&tree, query, NULL, 0).handed, 0);
    number("load: no item", bounds_item_at(&tree, 0), 0);
    number("load: no box", (uint64_t)bounds_meets(&tree, 0, query), 0);
    const uint8_t bytes[12] = {1, 2, 3, 4, 0, 0, 0x80, 0x3F, 0, 0, 0, 0x80};
    number("two bytes", bounds_u16_at(bytes + 1), 0x0302);
    number("four bytes", bounds_u32_at(bytes), 0x04030201);
    number("three floats", bounds_words_of(bounds_vec3_at(bytes)).z, 0x80000000);
}

static void geometry(void) {
    const bounds_geometry cube = {{0, 0, 0}, {1, 1, 1}, {0, 0, 0}, 0.1f,
                                  {{1, 0, 0, 0}, {0, 1, 0, 0}, {0, 0, 1, 0}, {0, 0, 0, 1}}};
    number("a triangle without vertices", bounds_triangle_bbox(0, 1, 2, NULL, 0).max.x, 0);
    number("links: no polygons", bounds_update_edge_indices_in(NULL, 0, 0, NULL, 0), 0);
    number("links: no buffers", bounds_update_edge_indices_in(NULL, 0, 1, NULL, 0), 2);
    bounds_shrink_answer shrunk = bounds_calculate_verts_shrunk_in(cube, 0, NULL, 0, 0, NULL, 0, NULL, 0, NULL, 0);
    number("shrinking: nothing", shrunk.refusal + shrunk.by, 0);
    shrunk = bounds_calculate_verts_shrunk_in(cube, 0, NULL, 0, 1, NULL, 0, NULL, 0, NULL, 0);
    number("shrinking: no buffers", shrunk.refusal, 2);
}

static void octants(void) {
    const uint32_t vertices[6] = {0, 0, 0, 0x3F800000, 0x3F800000, 0x3F800000};
    uint32_t lists[16], work[20];
    uint8_t bytes[128 + 4 * 14];
    bounds_octants_answer none = bounds_calculate_octants_in(0, NULL, 0, NULL, 0, NULL, 0);
    number("octants: no vertices", none.refusal + none.c0, 0);
    number("octants: no buffers", bounds_calculate_octants_in(1, NULL, 0, NULL, 0, NULL, 0).refusal, 2);
    number("octants: bytes of no vertices", bounds_octants_length(none), 128);
    number("octants: no lists", bounds_write_octant_lists(0, 0, NULL, 0, none, bytes, 128), 0);
    number("octants: nowhere to", bounds_write_octant_lists(0, 0, NULL, 0, none, NULL, 0), 2);

    bounds_octants_answer two = bounds_calculate_octants_in(2, vertices, 6, lists, 16, work, 20);
    number("octants: bytes of two", bounds_octants_length(two), sizeof bytes);
    number("octants: lists one short", bounds_write_octant_lists(0, 2, lists, 15, two, bytes, sizeof bytes), 2);
    number("octants: bytes one short", bounds_write_octant_lists(0, 2, lists, 16, two, bytes, sizeof bytes - 1), 2);
    number("octants: a count above the vertices", bounds_write_octant_lists(0, 1, lists, 16, two, bytes, sizeof bytes), 2);
    number("octants: 32,769 vertices", bounds_write_octant_lists(0, 32769, lists, 16, two, bytes, sizeof bytes), 1);
    number("octants: written", bounds_write_octant_lists(0x1000, 2, lists, 16, two, bytes, sizeof bytes), 0);
    number("octants: list 0 has vertex 1", bytes[0] * 16u + bytes[96], 0x11);
    number("octants: list 7 has vertex 0", bytes[28] * 16u + bytes[96 + 4 * 13], 0x10);
    const bounds_octants_answer one_each = {0, 1, 1, 1, 1, 1, 1, 1, 1};
    uint32_t each = 0;
    for (uint32_t k = 0; k < 16; k++)
        lists[k] = 0x100 + k;
    number("octants: one index in each list", bounds_write_octant_lists(0, 2, lists, 16, one_each, bytes, sizeof bytes), 0);
    for (size_t k = 0; k < 8; k++)
        each += bounds_u32_at(bytes + 96 + 4 * k) != 0x100 + 2 * k;
    number("octants: lists from another place", each, 0);
    two.refusal = 2;
    number("octants: refused before", bounds_write_octant_lists(0, 2, lists, 16, two, bytes, sizeof bytes), 2);
}

static void composite(void) {
    number("composite: no children", bounds_composite_tree_in(0, NULL, 0, NULL, 0, NULL, 0, NULL, 0, NULL, 0).nodes, 0);
    number("composite: no buffers", bounds_composite_tree_in(6, NULL, 0, NULL, 0, NULL, 0, NULL, 0, NULL, 0).refusal, 2);
}

static void prepared(uint32_t kind) {
    uint8_t materials[2048], nodes[16], trees[16];
    uint32_t work[8];
    bounds_mesh mesh;
    memset(&mesh, 0, sizeof mesh);
    mesh.bound.kind = kind;
    bounds_buffers to = bounds_prepare_lengths(0, 0);
    number("prepare: words to work in", to.work_len, 8);
    number("prepare: a buffer without a length is none", bounds_lent_buffers(to).order != NULL, 1);
    number("prepare: a mesh without vertices", bounds_lent_mesh(mesh).vertices != NULL, 1);
    to.materials = materials, to.node_bytes = nodes, to.tree_bytes = trees, to.work = work;
    number("prepare: nothing", bounds_prepare(&mesh, &to).refusal, 0);
    memset(&to, 0, sizeof to);
    number("prepare: no buffers", bounds_prepare(&mesh, &to).refusal, 2);
}

int main(void) {
    lent();
    values();
    tree();
    loaded();
    geometry();
    octants();
    composite();
    prepared(4);
    prepared(8);
    puts(wrong ? "some value is wrong" : "all values are right");
    return wrong;
}
