/* A tree from C: two boxes, its records and its header, each value beside the one it must be.
 * cc -std=c11 -Wall -Wextra -Iinclude examples/tree.c LIBDIR/libbounds.a -o tree && ./tree */
#include "bounds.h"
#include <inttypes.h>
#include <stdio.h>
#include <stdlib.h>
#include <string.h>

enum { ENTRIES = 2, ROWS = 2 * ENTRIES + 1 };

static int wrong;

static void number(const char *what, int64_t got, int64_t want) {
    printf("%-36s %12" PRId64 "%s\n", what, got, got == want ? "" : "  WRONG");
    wrong |= got != want;
}

static int16_t field(const uint8_t *record, int at) {
    return (int16_t)(record[2 * at] | record[2 * at + 1] << 8);
}

static uint32_t word(const uint8_t *bytes, int at) {
    return bytes[at] | bytes[at + 1] << 8 | bytes[at + 2] << 16 | (uint32_t)bytes[at + 3] << 24;
}

static void record(const char *what, const uint8_t *record, const int16_t want[8]) {
    int same = 1;
    printf("%-36s", what);
    for (int i = 0; i < 8; i++) {
        printf(" %d", field(record, i));
        same &= field(record, i) == want[i];
    }
    puts(same ? "" : "  WRONG");
    wrong |= !same;
}

static bounds_item item(const float min[3], const float max[3]) {
    bounds_item item = {.present = 1};
    memcpy(&item.min, min, sizeof item.min);
    memcpy(&item.max, max, sizeof item.max);
    return item;
}

static bounds_build_answer build(const bounds_item *items, uint32_t threshold, uint8_t *nodes, uint8_t *trees,
                                 uint16_t *order, uint32_t *work, size_t work_len) {
    return bounds_build_bvh_in(items, ENTRIES, threshold, nodes, 16 * ROWS, trees, 16 * ROWS, order, ENTRIES, work,
                               work_len);
}

int main(void) {
    const bounds_item items[ENTRIES] = {
        item((float[]){-1, -1, -1}, (float[]){-0.5f, 1, 1}),
        item((float[]){0.5f, -1, -1}, (float[]){1, 1, 1}),
    };
    uint8_t nodes[16 * ROWS] = {0}, trees[16 * ROWS] = {0}, header[128] = {0};
    uint16_t order[ENTRIES] = {0};
    number("work_len(2)", (int64_t)bounds_work_len(ENTRIES), 30 * ENTRIES + 8);
    size_t words = bounds_work_len(ENTRIES);
    uint32_t *work = malloc(words * sizeof *work); /* what it holds does not matter */
    if (!work) return 2;

    number("size of an item", sizeof(bounds_item), 28);
    number("threshold 0: refused", build(items, 0, nodes, trees, order, work, words).refusal, 3);
    for (size_t len = 0; len < words; len++)
        wrong |= build(items, 1, nodes, trees, order, work, len).refusal != 2;
    number("work buffer short: refused", wrong, 0);
    number("no byte of it written", nodes[12], 0);

    bounds_build_answer built = build(items, 1, nodes, trees, order, work, words);
    number("refusal", built.refusal, 0);
    number("nodes", (int64_t)built.nodes, 3);
    number("capacity", (int64_t)built.capacity, 5);
    number("trees", (int64_t)built.trees, 1);
    number("present", (int64_t)built.present, 2);
    number("min x, its word", built.min.x, 0xBF800000);
    record("node 0", nodes, (int16_t[]){-32767, -32767, -32767, 32767, 32767, 32767, 3, 0});
    record("node 1", nodes + 16, (int16_t[]){16383, -32767, -32767, 32767, 32767, 32767, 1, 1});
    record("node 2", nodes + 32, (int16_t[]){-32767, -32767, -32767, -16383, 32767, 32767, 0, 1});
    record("padding", nodes + 64, (int16_t[]){0, 0, 0, 0, 0, 0, 1, 0});
    record("tree 0", trees, (int16_t[]){-32767, -32767, -32767, 32767, 32767, 32767, 0, 3});
    number("order of 1", order[1], 1);

    bounds_bvh bvh = {.nodes_address = 0x50000080, .nodes_count = 3, .nodes_capacity = 5, .bb_min = built.min,
                      .bb_max = built.max, .bb_center = bounds_words_of(built.scale.cen),
                      .quantum_inverse = bounds_words_of(built.scale.inverse),
                      .quantum = bounds_words_of(built.scale.quantum), .trees_address = 0x500000D0, .trees_count = 1};
    number("header of 127 bytes: refused", bounds_tree_header(header, 127, bvh), 2);
    number("header", bounds_tree_header(header, 128, bvh), 0);
    number("address, low byte", header[0], 0x80);
    number("w of min, high byte", header[47], 0xFF);
    number("centre x, its word", word(header, 64), 0);
    number("inverse x, its word", word(header, 80), 0x46FFFE00);
    number("quantum x, its word", word(header, 96), 0x38000100);
    number("trees, twice", header[120] + header[122], 2);

    /* The axes of the listing are alike, so that these three tell them apart. */
    bounds_words3 three = bounds_words_of((bounds_vec3){1.0f, -2.0f, 0.5f});
    number("word of x, 1", three.x, 0x3F800000);
    number("word of y, -2", three.y, 0xC0000000);
    number("word of z, 0.5", three.z, 0x3F000000);

    /* A NaN that is given is copied with its bits: signalling ones, and one with every bit. */
    bvh.bb_center.y = 0x7F800001, bvh.quantum_inverse.z = 0xFF800002, bvh.quantum.x = 0xFFFFFFFF;
    number("header with NaNs", bounds_tree_header(header, 128, bvh), 0);
    number("centre y, a signalling NaN", word(header, 68), 0x7F800001);
    number("inverse z, a signalling NaN", word(header, 88), 0xFF800002);
    number("quantum x, a NaN", word(header, 96), 0xFFFFFFFF);
    free(work);
    puts(wrong ? "some value is wrong" : "all values are right");
    return wrong;
}
