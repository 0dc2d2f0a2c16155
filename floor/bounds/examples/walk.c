/* A walk from C over records that are written here by hand: two leaves below a root, in one range.
 * cc -std=c11 -Wall -Wextra -Iinclude examples/walk.c LIBDIR/libbounds.a -o walk && ./walk */
#include "bounds.h"
#include <inttypes.h>
#include <math.h>
#include <stdio.h>

static int wrong;

static void number(const char *what, int64_t got, int64_t want) {
    printf("%-36s %12" PRId64 "%s\n", what, got, got == want ? "" : "  WRONG");
    wrong |= got != want;
}

static void put(uint8_t *record, const int16_t fields[8]) {
    for (int i = 0; i < 8; i++) {
        record[2 * i] = (uint8_t)((uint16_t)fields[i] & 0xFF);
        record[2 * i + 1] = (uint8_t)((uint16_t)fields[i] >> 8);
    }
}

static uint8_t nodes[3 * 16], trees[16];
static uint16_t out[3];

/* With a quantum of 1 around 0. */
static bounds_walk_answer walk(float low, float high) {
    const bounds_aabb query = {{low, low, low}, {high, high, high}};
    const bounds_vec3 cen = {0, 0, 0}, inverse = {1, 1, 1};
    return bounds_walk(query, cen, inverse, nodes, sizeof nodes, 3, trees, sizeof trees, 1, 3, out, 3);
}

int main(void) {
    put(nodes, (int16_t[]){-10, -10, -10, 10, 10, 10, 3, 0});     /* the root: three nodes, itself included */
    put(nodes + 16, (int16_t[]){-10, -10, -10, -5, 10, 10, 0, 2}); /* positions 0 and 1 */
    put(nodes + 32, (int16_t[]){5, -10, -10, 10, 10, 10, 2, 1});   /* position 2 */
    put(trees, (int16_t[]){-10, -10, -10, 10, 10, 10, 0, 3});

    bounds_walk_answer all = walk(-INFINITY, INFINITY);
    number("all: refusal", all.refusal, 0);
    number("all: records read", (int64_t)all.reads, 4);
    number("all: handed out", (int64_t)all.handed, 3);
    bounds_walk_answer right = walk(5, 6);
    number("right: handed out", (int64_t)right.handed, 1);
    number("right: the position", out[0], 2);
    bounds_walk_answer none = walk(11, 12);
    number("beyond: records read", (int64_t)none.reads, 1);
    number("beyond: handed out", (int64_t)none.handed, 0);

    put(nodes + 32, (int16_t[]){5, -10, -10, 10, 10, 10, 2, 2}); /* damaged: position 3 is none */
    bounds_walk_answer damaged = walk(-INFINITY, INFINITY);
    number("damaged: refusal", damaged.refusal, 10);
    number("damaged: records read", (int64_t)damaged.reads, 4);
    number("damaged: handed out before", (int64_t)damaged.handed, 2);
    puts(wrong ? "some value is wrong" : "all values are right");
    return wrong;
}
