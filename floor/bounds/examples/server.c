/* A server's loop: loads the folder that `bounds prepare MESH --out DIR` or `bounds build BOXES --out DIR` wrote, and lets 16
 * wheels ask 100,000 times what is at their place, by the records alone and with the float filter. Without a folder it builds
 * the tree of a terrain in memory, of which it has the same files as bytes. server.rs asks the same queries.
 * cc -std=c11 -O2 -Wall -Wextra -Iinclude examples/server.c LIBDIR/libbounds.a -o server && ./server [DIR] */
#include "bounds.h"
#include <assert.h>
#include <stdio.h>
#include <stdlib.h>
#include <string.h>
#include <time.h>

enum { WHEELS = 16, QUERIES = 100000, ROUNDS = 10, CHECKED = 2000, WIDE = 40, DEEP = 38, SMALL = 2 * WIDE * DEEP };

static void *room(size_t bytes) {
    void *at = malloc(bytes ? bytes : 1);
    if (at == NULL) {
        puts("no memory");
        exit(2);
    }
    return at;
}

/* ---- the bytes of a folder ---- */

/* A file of the folder, whole; without one no bytes, unless it is needed. */
static uint8_t *read_file(const char *dir, const char *name, int needed, size_t *len) {
    char path[4096];
    snprintf(path, sizeof path, "%s/%s", dir, name);
    FILE *file = fopen(path, "rb");
    *len = 0;
    if (file == NULL && !needed) return NULL;
    if (file == NULL || fseek(file, 0, SEEK_END) || ftell(file) < 0) {
        printf("%s: cannot be read\n", path);
        exit(2);
    }
    *len = (size_t)ftell(file);
    rewind(file);
    uint8_t *bytes = room(*len + 1);
    if (fread(bytes, 1, *len, file) != *len) exit(2);
    bytes[*len] = 0; /* so that dump.txt is a string */
    fclose(file);
    return bytes;
}

/* What dump.txt says: the kind and, for it, the threshold and the number of entries. */
static bounds_tree_files first_lines(const char *dir) {
    bounds_tree_files files = {0};
    size_t len;
    char *text = (char *)read_file(dir, "dump.txt", 1, &len);
    unsigned bound = 0, polygons = 0, threshold = 0, entries = 0;
    if (sscanf(text, "bounds dump 1 kind boxes threshold %u entries %u", &threshold, &entries) == 2) {
        files.kind = BOUNDS_BOXES, files.threshold = threshold, files.entries = entries;
    } else if (sscanf(text, "bounds dump 1 kind mesh bound %u polygons %u", &bound, &polygons) == 2 && bound == 8) {
        files.kind = BOUNDS_MESH, files.entries = polygons;
    } else {
        printf("%s: no tree; give a folder of boxes or of a mesh of kind 8\n", dir);
        exit(2);
    }
    free(text);
    return files;
}

static bounds_tree_files read_folder(const char *dir) {
    bounds_tree_files files = first_lines(dir);
    files.header = read_file(dir, "header.bin", 1, &files.header_len);
    files.nodes = read_file(dir, "nodes.bin", 1, &files.nodes_len);
    files.trees = read_file(dir, "trees.bin", 1, &files.trees_len);
    files.order = read_file(dir, "order.bin", 1, &files.order_len);
    files.boxes = read_file(dir, "boxes.bin", 0, &files.boxes_len);
    return files;
}

/* ---- the same in memory ---- */

static float height(int x, int y) { return (float)(x * 7 % 11) * 0.2f + (float)(y * 5 % 13) * 0.3f; }

/* The box of a triangle of a hilly terrain: 40 by 38 squares of a metre, two triangles each. */
static bounds_item small_item(int i) {
    const int x = i / 2 % WIDE, y = i / 2 / WIDE;
    const float a = i % 2 ? height(x + 1, y + 1) : height(x, y), b = height(x + 1, y), c = height(x, y + 1);
    const float low = bounds_min_number(a, bounds_min_number(b, c)), high = bounds_max_number(a, bounds_max_number(b, c));
    const float box[6] = {100 + (float)x, -200 + (float)y, low, 101 + (float)x, -199 + (float)y, high};
    bounds_item item = {.present = 1};
    memcpy(&item.min, box, sizeof box);
    return item;
}

static bounds_tree_files small_tree(void) {
    const size_t records = 16 * (2 * SMALL + 1), words = bounds_work_len(SMALL);
    bounds_item *items = room(SMALL * sizeof *items);
    uint8_t *header = room(128), *nodes = room(records), *trees = room(records);
    uint16_t *order = room(SMALL * sizeof *order);
    uint32_t *work = room(words * sizeof *work);
    for (int i = 0; i < SMALL; i++)
        items[i] = small_item(i);
    const bounds_build_answer b = bounds_build_bvh_in(items, SMALL, 4, nodes, records, trees, records, order, SMALL, work, words);
    free(work);
    const bounds_bvh bvh = {0x50000080, (uint32_t)b.nodes, (uint32_t)b.capacity, b.min, b.max, bounds_words_of(b.scale.cen),
                            bounds_words_of(b.scale.inverse), bounds_words_of(b.scale.quantum),
                            0x50000080 + 16 * b.capacity, (uint32_t)b.trees};
    const uint32_t refusal = b.refusal ? b.refusal : bounds_tree_header(header, 128, bvh);
    if (refusal) {
        printf("refused %u: %s\n", (unsigned)refusal, bounds_refusal_text(refusal));
        exit(1);
    }
    /* Little-endian, as the files are: the cells of the order list and of the items are their bytes. */
    const bounds_tree_files files = {BOUNDS_BOXES, 4, SMALL, header, nodes, trees, (uint8_t *)order, (uint8_t *)items, 128,
                                     16 * b.capacity, 16 * b.trees, 2 * b.present, 28 * SMALL};
    return files;
}

/* ---- the wheels ---- */

/* A number from 0 to 1, the next of a fixed series. */
static float drawn(uint32_t *state) {
    *state = *state * 1664525u + 1013904223u;
    return (float)(*state >> 8) / 16777216.0f;
}

/* Each wheel stands somewhere in the box around all and drives on by 0.1; where it leaves it, it begins somewhere else. It asks
 * for a column: 0.7 long, 0.3 wide, as high as all. */
static bounds_aabb *wheel_queries(bounds_aabb box) {
    bounds_aabb *queries = room(QUERIES * sizeof *queries);
    float x[WHEELS] = {0}, y[WHEELS] = {0};
    uint32_t state = 1;
    for (int i = 0; i < QUERIES; i++) {
        const int w = i % WHEELS;
        x[w] += 0.1f;
        if (i < WHEELS || x[w] > box.max.x) {
            x[w] = box.min.x + drawn(&state) * (box.max.x - box.min.x);
            y[w] = box.min.y + drawn(&state) * (box.max.y - box.min.y);
        }
        const bounds_aabb column = {{x[w] - 0.35f, y[w] - 0.15f, box.min.z}, {x[w] + 0.35f, y[w] + 0.15f, box.max.z}};
        queries[i] = column;
    }
    return queries;
}

typedef bounds_walk_answer asked(const bounds_tree *, bounds_aabb, uint16_t *, size_t);

/* All queries once: what they find and read, and the nanoseconds that they take. */
static double ask_round(asked *ask, const bounds_tree *tree, const bounds_aabb *queries, uint16_t *out, size_t *found, size_t *read) {
    struct timespec start, end;
    *found = *read = 0;
    timespec_get(&start, TIME_UTC);
    for (int i = 0; i < QUERIES; i++) {
        const bounds_walk_answer answer = ask(tree, queries[i], out, tree->items);
        if (answer.refusal) {
            printf("refused %u: %s\n", (unsigned)answer.refusal, bounds_refusal_text(answer.refusal));
            exit(1);
        }
        *found += answer.handed, *read += answer.reads;
    }
    timespec_get(&end, TIME_UTC);
    return 1e9 * (double)(end.tv_sec - start.tv_sec) + (double)(end.tv_nsec - start.tv_nsec);
}

/* Asks all queries, and says how long one takes and how much it finds: the least of ten rounds, since what else runs on the
 * machine only adds time. */
static void ask_all(const char *how, asked *ask, const bounds_tree *tree, const bounds_aabb *queries, uint16_t *out) {
    size_t found = 0, read = 0;
    double least = ask_round(ask, tree, queries, out, &found, &read);
    for (int i = 1; i < ROUNDS; i++) {
        const double ns = ask_round(ask, tree, queries, out, &found, &read);
        if (ns < least) least = ns;
    }
    printf("%-18s %7.0f ns a query, %6.2f found a query, %6.1f records read\n", how, least / QUERIES, (double)found / QUERIES,
           (double)read / QUERIES);
}

static int meets(const uint8_t *bytes, bounds_aabb query) {
    bounds_item item;
    bounds_aabb box;
    memcpy(&item, bytes, sizeof item);
    memcpy(&box, &item.min, sizeof box);
    return item.present && box.min.x <= query.max.x && query.min.x <= box.max.x && box.min.y <= query.max.y &&
           query.min.y <= box.max.y && box.min.z <= query.max.z && query.min.z <= box.max.z;
}

/* How many queries, of the first ones, find something else than comparing all boxes does. boxes.bin of a mesh is in the order of
 * polygons.bin, whose numbers are positions; that of boxes is in the order of the list. */
static int differing(const bounds_tree *tree, const bounds_aabb *queries, uint16_t *out) {
    uint8_t *found = room(tree->entries);
    int differ = 0;
    for (int i = 0; i < CHECKED; i++) {
        const bounds_walk_answer answer = bounds_query_tree(tree, queries[i], out, tree->items);
        int same = answer.refusal == 0;
        memset(found, 0, tree->entries);
        for (size_t k = 0; k < answer.handed; k++)
            found[tree->kind == BOUNDS_MESH ? out[k] : bounds_item_at(tree, out[k])]++;
        for (size_t k = 0; k < tree->entries; k++)
            same &= found[k] == meets(tree->boxes + 28 * k, queries[i]);
        differ += !same;
    }
    free(found);
    return differ;
}

int main(int argc, char **argv) {
    assert(bounds_float_environment());
    const bounds_tree_files files = argc > 1 ? read_folder(argv[1]) : small_tree();
    bounds_tree tree;
    const bounds_load_answer loaded = bounds_load_tree(&files, &tree);
    if (loaded.damage) return printf("damaged, record %zu: %s\n", loaded.record, bounds_load_text(loaded.damage)), 1;
    printf("%zu items, %zu nodes in %zu ranges; %d wheels, %d queries\n", tree.items, tree.nodes, tree.trees, WHEELS, QUERIES);

    bounds_aabb *queries = wheel_queries(tree.box);
    uint16_t *out = room(tree.items * sizeof *out);
    int differ = 0;
    ask_all("by the records", bounds_walk_tree, &tree, queries, out);
    if (tree.boxes_len == 0) {
        puts("boxes.bin is missing: no float filter");
    } else {
        ask_all("with the filter", bounds_query_tree, &tree, queries, out);
        differ = differing(&tree, queries, out);
        printf("%d queries held against comparing all boxes: %d differ\n", CHECKED, differ);
    }
    free(queries), free(out);
    free((void *)files.header), free((void *)files.nodes), free((void *)files.trees), free((void *)files.order);
    free((void *)files.boxes);
    return differ != 0;
}
