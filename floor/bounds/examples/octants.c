/* Octants and their bytes, and composites: child boxes, computed boxes, the tree, from C.
 * cc -std=c11 -Wall -Wextra -Iinclude examples/octants.c LIBDIR/libbounds.a -o octants && ./octants */
#include "bounds.h"
#include <inttypes.h>
#include <stdio.h>
#include <string.h>

static int wrong;

static void number(const char *what, uint64_t got, uint64_t want) {
    printf("%-36s %20" PRIX64 "%s\n", what, got, got == want ? "" : "  WRONG");
    wrong |= got != want;
}

static uint64_t little_endian(const uint8_t *bytes, int count) {
    uint64_t sum = 0;
    while (count-- > 0)
        sum = sum << 8 | bytes[count];
    return sum;
}

static void octants(void) {
    static const uint32_t one = 0x3F800000;
    const uint32_t vertices[9] = {0, 0, 0, one, one, one, one, one, one}; /* (0, 0, 0) and twice (1, 1, 1) */
    uint32_t lists[24], work[30]; /* what the work buffer holds does not matter */
    number("words to work in", bounds_octants_work_len(3), 30);
    memset(lists, 0x55, sizeof lists);
    number("octants: one word short", bounds_calculate_octants_in(3, vertices, 9, lists, 24, work, 29).refusal, 2);
    number("octants: lists one short", bounds_calculate_octants_in(3, vertices, 9, lists, 23, work, 30).refusal, 2);
    number("octants: vertices one short", bounds_calculate_octants_in(3, vertices, 8, lists, 24, work, 30).refusal, 2);
    number("octants: 32,769", bounds_calculate_octants_in(32769, vertices, 9, lists, 24, work, 30).refusal, 1);
    number("octants: lists after refusals", lists[0], 0x55555555);
    bounds_octants_answer answer = bounds_calculate_octants_in(3, vertices, 9, lists, 24, work, 30);
    number("octants: refusal", answer.refusal, 0);
    number("octant 0: count", answer.c0, 1);
    number("octant 0: first", lists[0], 1);
    number("octant 0: the word behind", lists[1], 0x55555555);
    number("octant 7: count", answer.c7, 1);
    number("octant 7: first", lists[21], 0);
    number("octant 1: count", answer.c1, 2);
    number("octant 1: first", lists[3], 0);
    number("octant 1: second", lists[4], 1);
}

/* Lists of one, none, two, none and so on, and at last one index, at an address. */
static uint32_t written(uint64_t address, uint8_t *out, size_t out_len) {
    static const uint32_t first[1] = {5}, third[2] = {6, 7}, last[1] = {9}, none[1] = {0};
    return bounds_write_octants(address, first, 1, none, 0, third, 2, none, 0, none, 0, none, 0, none, 0, last, 1,
                                out, out_len);
}

static void bytes_of_octants(void) {
    static const uint64_t pointers[8] = {0x1060, 0x1064, 0x1064, 0x106C, 0x106C, 0x106C, 0x106C, 0x106C};
    uint8_t out[145];
    memset(out, 0xA5, sizeof out);
    number("bytes: one short", written(0x1000, out, 143), 2);
    number("bytes: past the last address", written(UINT64_MAX - 96 - 4 * 4 + 1, out, sizeof out), 12);
    number("bytes: after refusals", out[0], 0xA5);
    number("bytes: the last address", written(UINT64_MAX - 96 - 4 * 4, out, sizeof out), 0);
    number("bytes: refusal", written(0x1000, out, sizeof out), 0);
    number("bytes: third count", little_endian(out + 8, 4), 2);
    for (int k = 0; k < 8; k++)
        number("bytes: pointer", little_endian(out + 32 + 8 * k, 8), pointers[k]);
    number("bytes: first index", little_endian(out + 96, 4), 5);
    number("bytes: last index", little_endian(out + 108, 4), 9);
    number("bytes: the zeros", little_endian(out + 136, 8), 0);
    number("bytes: the byte behind", out[144], 0xA5);
    static uint32_t many[32769];
    number("bytes: a list of 32,769",
           bounds_write_octants(0, many, 32769, many, 0, many, 0, many, 0, many, 0, many, 0, many, 0, many, 0, out, 0), 1);
}

/* A unit cube that stands so many units away on x. */
static void child(uint32_t words[24], float away) {
    const float cube[6] = {0, 0, 0, 1, 1, 1}, margin = 0.5f;
    const float transform[16] = {1, 0, 0, 0, 0, 1, 0, 0, 0, 0, 1, 0, away, 0, 0, 1};
    words[0] = 1;
    memcpy(words + 1, cube, sizeof cube);
    memcpy(words + 7, &margin, sizeof margin);
    memcpy(words + 8, transform, sizeof transform);
}

static void composites(void) {
    enum { CHILDREN = 6, RECORDS = 16 * (2 * CHILDREN + 1), WORK = 30 * CHILDREN + 8 };
    uint32_t children[24 * CHILDREN], work[WORK];
    memset(children, 0, sizeof children);
    for (int i = 0; i < 5; i++) /* the sixth stays absent */
        child(children + 24 * i, (float)(2 * i));

    uint8_t boxes[32 * CHILDREN];
    number("child boxes: one byte short", bounds_child_boxes(6, children, 144, boxes, sizeof boxes - 1), 2);
    number("child boxes: one word short", bounds_child_boxes(6, children, 143, boxes, sizeof boxes), 2);
    number("child boxes: 32,768", bounds_child_boxes(32768, children, 144, boxes, sizeof boxes), 1);
    number("child boxes: refusal", bounds_child_boxes(6, children, 144, boxes, sizeof boxes), 0);
    number("child boxes: w of min", little_endian(boxes + 12, 4), 1);
    number("child boxes: max x, not moved", little_endian(boxes + 32 + 16, 4), 0x3F800000);
    number("child boxes: margin", little_endian(boxes + 28, 4), 0x3F000000);
    number("child boxes: absent, its w", little_endian(boxes + 160 + 12, 4), 0);

    bounds_child_box box = bounds_computed_box(children, 144, 4);
    number("computed box: present", box.present, 1);
    number("computed box: min x", (uint64_t)box.min.x, 8);
    number("computed box: max x", (uint64_t)box.max.x, 9);
    number("computed box: absent", bounds_computed_box(children, 144, 5).present, 0);
    number("computed box: one word short", bounds_computed_box(children, 119, 4).present, 0);

    uint8_t nodes[RECORDS], trees[RECORDS];
    uint16_t order[CHILDREN];
    memset(nodes, 0xA5, sizeof nodes);
    number("words to work in", bounds_work_len(CHILDREN), WORK);
    bounds_build_answer none = bounds_composite_tree_in(5, children, 120, nodes, 0, trees, 0, order, 0, work, 0);
    number("five children: refusal", none.refusal, 0);
    number("five children: nodes", none.nodes, 0);
    number("six children: a word short", bounds_composite_tree_in(6, children, 144, nodes, RECORDS, trees, RECORDS,
                                                                   order, CHILDREN, work, WORK - 1).refusal, 2);
    number("six children: after these", nodes[0], 0xA5);
    bounds_build_answer tree = bounds_composite_tree_in(6, children, 144, nodes, RECORDS, trees, RECORDS,
                                                        order, CHILDREN, work, WORK);
    number("six children: refusal", tree.refusal, 0);
    number("six children: nodes", tree.nodes, 9);
    number("six children: capacity", tree.capacity, 13);
    number("six children: present", tree.present, 5);
    number("six children: max x", tree.max.x, 0x41100000); /* 9 */
    number("six children: last place", order[4], 4);
}

int main(void) {
    octants();
    bytes_of_octants();
    composites();
    puts(wrong ? "some value is wrong" : "all values are right");
    return wrong;
}
