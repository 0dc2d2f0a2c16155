/* From boxes to the items that a query meets: builds a tree, writes its header, walks over the records, goes from
 * positions to items by `order`, and compares the boxes as floats.
 * cc -std=c11 -Wall -Wextra -Iinclude examples/query.c LIBDIR/libbounds.a -o query && ./query */
#include "bounds.h"
#include <stdio.h>
#include <stdlib.h>
#include <string.h>

enum { ENTRIES = 100, THRESHOLD = 4, ROWS = 2 * ENTRIES + 1 };

/* A row of boxes along x, each 2 wide, 3 apart; every tenth entry is absent. */
static int present(int i) { return i % 10 != 9; }

static bounds_aabb box_of(int i) {
    float x = 3 * (float)i;
    return (bounds_aabb){{x, -1, -1}, {x + 2, 1, 1}};
}

static int meets(bounds_aabb a, bounds_aabb b) {
    return a.min.x <= b.max.x && b.min.x <= a.max.x && a.min.y <= b.max.y && b.min.y <= a.max.y &&
           a.min.z <= b.max.z && b.min.z <= a.max.z;
}

int main(void) {
    static uint8_t nodes[16 * ROWS], trees[16 * ROWS], header[128];
    static uint16_t order[ENTRIES], out[ENTRIES];
    static bounds_item items[ENTRIES];
    size_t words = bounds_work_len(ENTRIES);
    uint32_t *work = malloc(words * sizeof *work);
    if (!work) return 2;
    for (int i = 0; i < ENTRIES; i++) {
        bounds_aabb box = box_of(i);
        items[i].present = present(i);
        memcpy(&items[i].min, &box, sizeof box);
    }

    bounds_build_answer built = bounds_build_bvh_in(items, ENTRIES, THRESHOLD, nodes, sizeof nodes, trees, sizeof trees,
                                                    order, ENTRIES, work, words);
    free(work);
    if (built.refusal) return printf("build refused: %u\n", (unsigned)built.refusal), 1;

    bounds_bvh bvh = {.nodes_address = 0x50000080, .nodes_count = (uint32_t)built.nodes,
                      .nodes_capacity = (uint32_t)built.capacity, .bb_min = built.min, .bb_max = built.max,
                      .bb_center = bounds_words_of(built.scale.cen),
                      .quantum_inverse = bounds_words_of(built.scale.inverse),
                      .quantum = bounds_words_of(built.scale.quantum),
                      .trees_address = 0x50000080 + 16 * built.capacity, .trees_count = (uint32_t)built.trees};
    uint32_t refusal = bounds_tree_header(header, sizeof header, bvh);
    if (refusal) return printf("header refused: %u\n", (unsigned)refusal), 1;

    /* Counts without padding; the item count is that of the list at threshold 1, else that of the present items. */
    size_t item_count = THRESHOLD == 1 ? ENTRIES : built.present;
    bounds_aabb query = {{50, 0, 0}, {80, 0, 0}};
    bounds_walk_answer walked = bounds_walk(query, built.scale.cen, built.scale.inverse, nodes, sizeof nodes,
                                            built.nodes, trees, sizeof trees, built.trees, item_count, out, ENTRIES);
    if (walked.refusal) return printf("walk refused: %u\n", (unsigned)walked.refusal), 1;

    int met[ENTRIES] = {0}, wrong = 0;
    for (size_t k = 0; k < walked.handed; k++) {
        int place = THRESHOLD == 1 ? out[k] : order[out[k]];
        met[place] = meets(box_of(place), query);
    }
    for (int i = 0; i < ENTRIES; i++) {
        if (met[i]) printf(" %d", i);
        wrong |= met[i] != (present(i) && meets(box_of(i), query));
    }
    printf("\n%zu items, %zu nodes, %zu read, %zu handed out: %s\n", built.present, built.nodes, walked.reads,
           walked.handed, wrong ? "WRONG" : "what comparing all boxes gives");
    return wrong;
}
