/* A tree from files: a build's records as bytes, loaded and queried, and each way in which they can be damaged.
 * cc -std=c11 -Wall -Wextra -Iinclude examples/load.c LIBDIR/libbounds.a -o load && ./load */
#include "bounds.h"
#include <math.h>
#include <stdio.h>
#include <stdlib.h>
#include <string.h>

enum { ENTRIES = 400, ROWS = 2 * ENTRIES + 1, HEADER = 128 };

static int wrong;

static void number(const char *what, size_t got, size_t want) {
    printf("%-52s %8zu%s\n", what, got, got == want ? "" : "  WRONG");
    wrong |= got != want;
}

/* The bytes of the five files, each at an odd address, as a server may have them. */
static _Alignas(8) uint8_t header_room[HEADER + 1], nodes_room[16 * ROWS + 1], trees_room[16 * ROWS + 1],
    order_room[2 * ENTRIES + 1], boxes_room[28 * ENTRIES + 1];
static uint8_t *const header = header_room + 1, *const nodes = nodes_room + 1, *const trees = trees_room + 1,
               *const order = order_room + 1, *const boxes = boxes_room + 1;

static bounds_item items[ENTRIES];

static void put16(uint8_t *at, int value) {
    at[0] = (uint8_t)((unsigned)value & 0xFF);
    at[1] = (uint8_t)((unsigned)value >> 8 & 0xFF);
}

static int get16(const uint8_t *at) { return (int16_t)(at[0] | at[1] << 8); }

/* A field of record k: 6 is a node's id and a tree's first node, 7 a node's count and a tree's last. */
static uint8_t *field(uint8_t *records, size_t k, size_t which) { return records + 16 * k + 2 * which; }

/* Boxes along x, 2 wide and 3 apart, every tenth absent. */
static void fill_items(void) {
    for (int i = 0; i < ENTRIES; i++) {
        const float x = 3 * (float)i, box[6] = {x, -1, -1, x + 2, 1, 1};
        items[i].present = i % 10 != 9;
        memcpy(&items[i].min, box, sizeof box);
    }
}

/* What `bounds build --out` writes of these boxes. */
static bounds_tree_files built(uint32_t threshold) {
    uint16_t places[ENTRIES];
    const size_t words = bounds_work_len(ENTRIES);
    uint32_t *work = malloc(words * sizeof *work);
    if (!work) exit(2);
    bounds_build_answer b = bounds_build_bvh_in(items, ENTRIES, threshold, nodes, 16 * ROWS, trees, 16 * ROWS, places,
                                                ENTRIES, work, words);
    free(work);
    const bounds_bvh bvh = {0x50000080, (uint32_t)b.nodes, (uint32_t)b.capacity, b.min, b.max, bounds_words_of(b.scale.cen),
                            bounds_words_of(b.scale.inverse), bounds_words_of(b.scale.quantum), 0x50001080,
                            (uint32_t)b.trees};
    if (b.refusal || bounds_tree_header(header, HEADER, bvh)) exit(2);
    for (size_t k = 0; k < b.present; k++)
        put16(order + 2 * k, places[k]);
    memcpy(boxes, items, 28 * ENTRIES);
    const bounds_tree_files files = {BOUNDS_BOXES, threshold, ENTRIES, header, nodes, trees, order, boxes, HEADER,
                                     16 * b.capacity, 16 * b.trees, 2 * b.present, 28 * ENTRIES};
    return files;
}

static int meets(const bounds_item *item, bounds_aabb query) {
    bounds_aabb box;
    memcpy(&box, &item->min, sizeof box);
    return item->present && box.min.x <= query.max.x && query.min.x <= box.max.x && box.min.y <= query.max.y &&
           query.min.y <= box.max.y && box.min.z <= query.max.z && query.min.z <= box.max.z;
}

/* Every query along x: those found, by their places, are those that comparing all boxes finds. */
static void queries(const char *what, const bounds_tree *tree) {
    int missed = 0;
    for (int at = -2; at < 3 * ENTRIES; at++) {
        const bounds_aabb query = {{(float)at, 0, 0}, {(float)at + 4, 0, 0}};
        uint16_t out[ENTRIES];
        uint8_t found[ENTRIES] = {0};
        const bounds_walk_answer answer = bounds_query_tree(tree, query, out, ENTRIES);
        missed |= answer.refusal != 0;
        for (size_t k = 0; k < answer.handed; k++)
            missed |= found[bounds_item_at(tree, out[k])]++;
        for (int i = 0; i < ENTRIES; i++)
            missed |= found[i] != meets(items + i, query);
    }
    number(what, (size_t)missed, 0);
}

static void whole(void) {
    const uint32_t thresholds[3] = {1, 4, 100};
    const bounds_aabb all = {{-INFINITY, -INFINITY, -INFINITY}, {INFINITY, INFINITY, INFINITY}};
    bounds_tree tree;
    uint16_t out[ENTRIES];
    for (int i = 0; i < 3; i++) {
        bounds_tree_files files = built(thresholds[i]);
        number("loaded", bounds_load_tree(&files, &tree).damage, BOUNDS_LOADED);
        number("the item count", tree.items, thresholds[i] == 1 ? ENTRIES : ENTRIES - ENTRIES / 10);
        queries("what queries find, against comparing all", &tree);
    }
    bounds_tree_files files = built(4);
    bounds_load_tree(&files, &tree);
    number("ranges", tree.trees > 1, 1);
    number("the box: max x", (size_t)tree.box.max.x, 3 * 398 + 2);
    number("the centre: x", (size_t)tree.scale.cen.x, (3 * 398 + 2) / 2);
    number("an output that is one short", bounds_walk_tree(&tree, all, out, tree.items - 1).refusal, 2);
    number("a position that is none", bounds_item_at(&tree, (uint16_t)tree.items), ENTRIES);
    files.boxes_len = 0;
    number("without boxes.bin", bounds_load_tree(&files, &tree).damage, BOUNDS_LOADED);
    number("without boxes.bin: the records", bounds_walk_tree(&tree, all, out, ENTRIES).handed, tree.items);
    number("without boxes.bin: with the filter", bounds_query_tree(&tree, all, out, ENTRIES).refusal, 2);
    number("without boxes.bin: whether one meets", (size_t)bounds_meets(&tree, 0, all), 0);
    files = built(1);
    files.order_len = 0;
    number("threshold 1 without order.bin", bounds_load_tree(&files, &tree).damage, BOUNDS_LOADED);
    number("whether the ninth meets", (size_t)bounds_meets(&tree, 8, all), 1);
    number("whether the tenth meets, which is absent", (size_t)bounds_meets(&tree, 9, all), 0);
    files.kind = BOUNDS_COMPOSITE;
    files.threshold = 9; /* not looked at: a composite's is 1 */
    number("a composite's", bounds_load_tree(&files, &tree).damage, BOUNDS_LOADED);
    number("a composite's: the item count", tree.items, ENTRIES);
}

/* The same records as a mesh's: boxes.bin has the boxes by position. */
static void mesh(void) {
    const bounds_aabb query = {{3, 0, 0}, {4, 0, 0}}; /* the second box */
    bounds_tree tree;
    uint16_t out[ENTRIES];
    for (int i = 0; i < ENTRIES; i++)
        items[i].present = 1;
    bounds_tree_files files = built(4);
    for (size_t k = 0; k < ENTRIES; k++)
        memcpy(boxes + 28 * k, items + get16(order + 2 * k), 28);
    files.kind = BOUNDS_MESH;
    files.threshold = 0; /* not looked at: a mesh's is 4 */
    number("a mesh's", bounds_load_tree(&files, &tree).damage, BOUNDS_LOADED);
    number("a mesh's: found", bounds_query_tree(&tree, query, out, ENTRIES).handed, 1);
    number("a mesh's: the number it was given", bounds_item_at(&tree, out[0]), 1);
    files.order_len -= 2;
    number("a mesh's: a place missing", bounds_load_tree(&files, &tree).damage, BOUNDS_LOAD_ORDER_LENGTH);
    fill_items();
}

/* A line of the table: what was done to the files, and what loading says of it. */
static void damaged(const char *what, bounds_tree_files files, bounds_load_damage want, size_t record) {
    bounds_tree tree;
    uint16_t out[ENTRIES];
    const bounds_aabb query = {{0, 0, 0}, {1, 0, 0}};
    const bounds_load_answer got = bounds_load_tree(&files, &tree);
    int same = got.damage == want && got.record == record && bounds_load_text(got.damage) == bounds_load_text(want);
    same &= bounds_walk_tree(&tree, query, out, ENTRIES).handed == 0 && tree.nodes == 0; /* an empty tree is left */
    printf("%-44s %2d, record %3zu: %s%s\n", what, (int)got.damage, got.record, bounds_load_text(got.damage),
           same ? "" : "  WRONG");
    wrong |= !same;
}

/* The number of the first leaf in a range, or with `inner` of the first inner node there. */
static size_t first_in_range(int inner) {
    size_t k = (size_t)get16(field(trees, 0, 6));
    while ((get16(field(nodes, k, 7)) == 0) != inner)
        k++;
    return k;
}

static void lengths(void) {
    bounds_tree_files files = built(4), f = files;
    f.entries = 32768, damaged("32,768 entries", f, BOUNDS_LOAD_ENTRIES, 0), f = files;
    f.kind = 3, damaged("kind 3", f, BOUNDS_LOAD_KIND, 0), f = files;
    f.threshold = 0, damaged("threshold 0", f, BOUNDS_LOAD_THRESHOLD, 0), f = files;
    f.threshold = 32768, damaged("threshold 32,768", f, BOUNDS_LOAD_THRESHOLD, 0), f = files;
    f.header_len = 127, damaged("header.bin: 127 bytes", f, BOUNDS_LOAD_HEADER_LENGTH, 0);
    f.header = NULL, f.header_len = 0, damaged("header.bin: none", f, BOUNDS_LOAD_HEADER_LENGTH, 0), f = files;
    f.nodes_len -= 1, damaged("nodes.bin: a byte short", f, BOUNDS_LOAD_NODES_LENGTH, 0), f = files;
    f.nodes_len += 16, damaged("nodes.bin: a record more", f, BOUNDS_LOAD_NODES_LENGTH, 0);
    f.nodes = NULL, f.nodes_len = 0, damaged("nodes.bin: none", f, BOUNDS_LOAD_NODES_LENGTH, 0), f = files;
    f.trees_len -= 16, damaged("trees.bin: a record short", f, BOUNDS_LOAD_TREES_LENGTH, 0);
    f.trees = NULL, f.trees_len = 0, damaged("trees.bin: none", f, BOUNDS_LOAD_TREES_LENGTH, 0), f = files;
    f.order_len -= 1, damaged("order.bin: a byte short", f, BOUNDS_LOAD_ORDER_LENGTH, 0);
    f.order_len = 2 * ENTRIES + 2, damaged("order.bin: more than entries", f, BOUNDS_LOAD_ORDER_LENGTH, 0);
    f.order = NULL, f.order_len = 0; /* as of a list in which all are absent, but the last leaf has items */
    damaged("order.bin: none", f, BOUNDS_LOAD_NODE_RECORD, (size_t)get16(header + 8) - 1), f = files;
    f.boxes_len -= 28, damaged("boxes.bin: a box short", f, BOUNDS_LOAD_BOXES_LENGTH, 0);
}

static void counts(void) {
    bounds_tree_files files = built(4);
    const int capacity = get16(header + 12);
    put16(header + 8, capacity + 1), damaged("header.bin: a node more", files, BOUNDS_LOAD_NODE_COUNT, 0), built(4);
    put16(header + 14, 1), damaged("header.bin: 65,536 node records more", files, BOUNDS_LOAD_CAPACITY, 0), built(4);
    put16(header + 12, capacity + 1), damaged("header.bin: a node record more", files, BOUNDS_LOAD_NODES_LENGTH, 0), built(4);
    put16(header + 120, 1), damaged("header.bin: a tree less", files, BOUNDS_LOAD_TREES_LENGTH, 0), built(4);
}

/* At threshold 1 the leaf of a place. */
static size_t leaf_of(int place) {
    size_t k = 0;
    while (get16(field(nodes, k, 7)) == 0 || get16(field(nodes, k, 6)) != place)
        k++;
    return k;
}

/* An inner node that counts too many nodes or too few lets a walk skip leaves that meet: it is told within its range and above. */
static void sizes(bounds_tree_files files, size_t inner, int last) {
    const int size = get16(field(nodes, inner, 6)), all = get16(header + 8);
    put16(field(nodes, inner, 6), last - (int)inner + 1);
    damaged("an inner node: past its tree", files, BOUNDS_LOAD_NODE_SIZE, inner), built(4);
    put16(field(nodes, inner, 6), size + 2), damaged("an inner node: two more", files, BOUNDS_LOAD_NODE_SIZE, inner), built(4);
    put16(field(nodes, inner, 6), size - 2), damaged("an inner node: two less", files, BOUNDS_LOAD_NODE_SIZE, inner), built(4);
    put16(field(nodes, (size_t)all - 1, 7), 0), put16(field(nodes, (size_t)all - 1, 6), 1);
    put16(field(nodes, (size_t)all - 2, 7), 0), put16(field(nodes, (size_t)all - 2, 6), 2);
    damaged("an inner node: one child", files, BOUNDS_LOAD_NODE_SIZE, (size_t)all - 2), built(4);
    put16(field(nodes, 0, 6), 1), damaged("node 0, in no tree: without children", files, BOUNDS_LOAD_NODE_OUTSIDE, 0), built(4);
    const size_t child = (size_t)get16(field(trees, 1, 6)) + 1;
    size_t behind = child + (size_t)get16(field(nodes, child, 6));
    put16(field(trees, 1, 6), (int)child), put16(field(trees, 1, 7), (int)behind);
    while (get16(field(nodes, behind, 7)) == 0)
        behind++;
    damaged("tree 1: its first child alone", files, BOUNDS_LOAD_NODE_OUTSIDE, behind), built(4);
}

static void records(void) {
    bounds_tree_files files = built(4);
    const int all = (int)(files.nodes_len / 16), first = get16(field(trees, 1, 6)), last = get16(field(trees, 0, 7));
    const size_t leaf = first_in_range(0), inner = first_in_range(1);
    put16(field(trees, 1, 6), -1), damaged("tree 1: first below 0", files, BOUNDS_LOAD_TREE_RANGE, 1), built(4);
    put16(field(trees, 1, 7), first - 1), damaged("tree 1: last below first", files, BOUNDS_LOAD_TREE_RANGE, 1), built(4);
    put16(field(trees, 1, 7), all + 1), damaged("tree 1: last past the nodes", files, BOUNDS_LOAD_TREE_RANGE, 1), built(4);
    put16(field(trees, 1, 6), last - 1), damaged("tree 1: begins in tree 0", files, BOUNDS_LOAD_TREE_OVERLAP, 1), built(4);
    put16(field(trees, 1, 7), first), damaged("tree 1: without nodes", files, BOUNDS_LOAD_TREE_WHOLE, 1), built(4);
    put16(field(trees, 1, 6), first + 1), damaged("tree 1: without its root", files, BOUNDS_LOAD_TREE_WHOLE, 1), built(4);
    put16(field(trees, 1, 7), get16(field(trees, 1, 7)) - 1);
    damaged("tree 1: without its last leaf", files, BOUNDS_LOAD_TREE_WHOLE, 1), built(4);
    put16(field(nodes, leaf + 1, 7), -1), damaged("a leaf: count below 0", files, BOUNDS_LOAD_NODE_RECORD, leaf + 1), built(4);
    put16(field(nodes, leaf, 6), -1), damaged("a leaf: id below 0", files, BOUNDS_LOAD_NODE_RECORD, leaf), built(4);
    put16(field(nodes, leaf, 6), 360), damaged("a leaf: past the items", files, BOUNDS_LOAD_NODE_RECORD, leaf), built(4);
    put16(field(nodes, leaf + 1, 6), get16(field(nodes, leaf, 6)));
    damaged("a leaf: the one before it again", files, BOUNDS_LOAD_HELD_TWICE, leaf + 1), built(4);
    put16(field(nodes, leaf, 7), get16(field(nodes, leaf, 7)) - 1);
    damaged("a leaf: one less", files, BOUNDS_LOAD_NOT_HELD, (size_t)(get16(field(nodes, leaf, 6)) + get16(field(nodes, leaf, 7))));
    built(4);
    put16(field(nodes, 0, 6), all + 1), damaged("node 0, in no tree: past all", files, BOUNDS_LOAD_NODE_RECORD, 0), built(4);
    sizes(files, inner, last), files = built(1);
    put16(field(nodes, first_in_range(0), 6), 9);
    damaged("a leaf: an absent entry, at threshold 1", files, BOUNDS_LOAD_HELD_TWICE, first_in_range(0)), files = built(1);
    put16(field(nodes, leaf_of(1), 7), 0);
    damaged("a leaf: empty, at threshold 1", files, BOUNDS_LOAD_NOT_HELD, 1), files = built(4);
    put16(order + 10, ENTRIES), damaged("order.bin: past the entries", files, BOUNDS_LOAD_ORDER_PLACE, 5), built(4);
    put16(order + 10, get16(order)), damaged("order.bin: the first again", files, BOUNDS_LOAD_ORDER_TWICE, 5), built(4);
}

/* Whatever a byte is set to: what is loaded is walked without a refusal, and no position is past the items. */
static size_t refused_after(bounds_tree_files files, uint8_t *at) {
    const bounds_aabb all = {{-INFINITY, -INFINITY, -INFINITY}, {INFINITY, INFINITY, INFINITY}};
    const uint8_t was = *at, values[6] = {0, 1, 0x7F, 0x80, 0xFF, (uint8_t)(was + 1)};
    size_t refused = 0;
    for (int i = 0; i < 6; i++) {
        bounds_tree tree;
        uint16_t out[ENTRIES];
        *at = values[i];
        if (bounds_load_tree(&files, &tree).damage) continue;
        const bounds_walk_answer answer = bounds_walk_tree(&tree, all, out, ENTRIES);
        refused += answer.refusal != 0;
        for (size_t k = 0; k < answer.handed; k++)
            refused += bounds_item_at(&tree, out[k]) >= ENTRIES;
    }
    *at = was;
    return refused;
}

static void every_byte(uint32_t threshold) {
    const bounds_tree_files files = built(threshold);
    size_t refused = 0;
    for (size_t i = 0; i < files.header_len; i++)
        refused += refused_after(files, header + i);
    for (size_t i = 0; i < files.nodes_len; i++)
        refused += refused_after(files, nodes + i);
    for (size_t i = 0; i < files.trees_len; i++)
        refused += refused_after(files, trees + i);
    for (size_t i = 0; i < files.order_len; i++)
        refused += refused_after(files, order + i);
    number("every byte set to six values: walks refused", refused, 0);
}

/* The last four bytes of a record lead a walk: whichever bit of them is another, the tree is not loaded. */
static void leading_bits(uint32_t threshold) {
    const bounds_tree_files files = built(threshold);
    uint8_t *const of[2] = {nodes, trees};
    const size_t records[2] = {(size_t)get16(header + 8), files.trees_len / 16};
    size_t loaded = 0;
    for (int f = 0; f < 2; f++)
        for (size_t bit = 0; bit < 32 * records[f]; bit++) {
            uint8_t *const at = of[f] + 16 * (bit / 32) + 12 + bit % 32 / 8;
            const uint8_t was = *at;
            bounds_tree tree;
            *at ^= (uint8_t)(1 << bit % 8);
            loaded += bounds_load_tree(&files, &tree).damage == BOUNDS_LOADED;
            *at = was;
        }
    number("every bit that leads a walk changed: loaded", loaded, 0);
}

/* The next word of a fixed series: half of them special values', the others any bits. */
static uint32_t drawn(void) {
    static const uint32_t special[8] = {0, 0x80000000, 0x7F800000, 0xFF800000, 0x7FC00000, 1, 0x7F7FFFFF, 0x3F800000};
    static uint32_t state = 1;
    state = state * 1664525u + 1013904223u;
    return state >> 31 ? special[state >> 28 & 7] : state * 0x9E3779B1u ^ state >> 15;
}

/* Whatever the boxes are, what was built of them is loaded. */
static void any_build(void) {
    size_t refused = 0;
    for (int i = 0; i < 300; i++) {
        bounds_tree tree;
        for (int k = 0; k < ENTRIES; k++) {
            const uint32_t words[7] = {drawn() >> 30, drawn(), drawn(), drawn(), drawn(), drawn(), drawn()};
            memcpy(items + k, words, sizeof words);
        }
        const bounds_tree_files files = built(1 + drawn() % 9);
        refused += bounds_load_tree(&files, &tree).damage != BOUNDS_LOADED;
    }
    number("builds of any boxes: not loaded", refused, 0);
    fill_items();
}

int main(void) {
    fill_items();
    whole();
    mesh();
    lengths();
    counts();
    records();
    every_byte(1);
    every_byte(4);
    leading_bits(1);
    leading_bits(4);
    any_build();
    puts(wrong ? "some value is wrong" : "all values are right");
    return wrong;
}
