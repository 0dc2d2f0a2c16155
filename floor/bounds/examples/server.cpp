// A server's loop in C++17: loads the folder that `bounds prepare MESH --out DIR` or `bounds build BOXES --out DIR` wrote, and
// lets 16 wheels ask 100,000 times what is at their place, by the records alone and with the float filter. Without a folder it
// builds a tree in memory, of which it has the same files as bytes. server.c is the same in C.
// c++ -std=c++17 -O2 -Wall -Wextra -Iinclude examples/server.cpp LIBDIR/libbounds.a -o server && ./server [DIR]
#include "bounds.h"
#include <algorithm>
#include <cassert>
#include <chrono>
#include <cstdio>
#include <cstdlib>
#include <cstring>
#include <fstream>
#include <iterator>
#include <stdexcept>
#include <string>
#include <vector>

using Bytes = std::vector<uint8_t>;

// The files of a tree. They must be there for as long as the tree is in use: it has no copy.
struct Folder {
    uint32_t kind = BOUNDS_BOXES, threshold = 0;
    size_t entries = 0;
    Bytes header, nodes, trees, order, boxes;

    // An empty vector's pointer may be null: bounds_load_tree takes it.
    bounds_tree_files files() const {
        return {kind, threshold, entries, header.data(), nodes.data(), trees.data(), order.data(), boxes.data(),
                header.size(), nodes.size(), trees.size(), order.size(), boxes.size()};
    }
};

// A file of the folder, whole; without one no bytes, unless it is needed.
static Bytes read_file(const std::string &path, bool needed) {
    std::ifstream file(path, std::ios::binary);
    if (!file && needed) throw std::runtime_error(path + ": cannot be read");
    return Bytes(std::istreambuf_iterator<char>(file), {});
}

static Folder read_folder(const std::string &dir) {
    Folder folder;
    std::ifstream first(dir + "/dump.txt");
    std::string kind, name;
    unsigned third = 0;
    first.ignore(64, '\n');
    first >> name >> kind >> name >> third >> name >> folder.entries;
    const bool mesh = kind == "mesh" && third == 8;
    if (!first || (!mesh && kind != "boxes"))
        throw std::runtime_error(dir + ": no tree; give a folder of boxes or of a mesh of kind 8");
    folder.kind = mesh ? BOUNDS_MESH : BOUNDS_BOXES;
    folder.threshold = mesh ? 0 : third;
    folder.header = read_file(dir + "/header.bin", true);
    folder.nodes = read_file(dir + "/nodes.bin", true);
    folder.trees = read_file(dir + "/trees.bin", true);
    folder.order = read_file(dir + "/order.bin", true);
    folder.boxes = read_file(dir + "/boxes.bin", false);
    return folder;
}

static void check(uint32_t refusal) {
    if (refusal) throw std::runtime_error("refused " + std::to_string(refusal) + ": " + bounds_refusal_text(refusal));
}

// The bytes of cells as they lie in memory: little-endian, as the files are.
template <class Cell> static Bytes bytes_of(const std::vector<Cell> &cells) {
    const auto *at = reinterpret_cast<const uint8_t *>(cells.data());
    return Bytes(at, at + cells.size() * sizeof(Cell));
}

// A field of boxes, each a metre and a half wide, that rises toward the middle.
static std::vector<bounds_item> field(int side) {
    std::vector<bounds_item> items;
    for (int i = 0; i < side * side; i++) {
        const float x = float(i % side), y = float(i / side);
        const float z = float(std::abs(i % side - side / 2) + std::abs(i / side - side / 2));
        items.push_back({1, bounds_words_of({x, y, -z}), bounds_words_of({x + 1.5f, y + 1.5f, 1 - z})});
    }
    return items;
}

// What `bounds build --threshold 4 --out` writes of them.
static Folder build(const std::vector<bounds_item> &items) {
    const size_t n = items.size();
    Folder folder;
    std::vector<uint16_t> order(n);
    std::vector<uint32_t> work(bounds_work_len(uint32_t(n)));
    folder.header.resize(128), folder.nodes.resize(16 * (2 * n + 1)), folder.trees.resize(16 * (2 * n + 1));
    const auto b = bounds_build_bvh_in(items.data(), n, 4, folder.nodes.data(), folder.nodes.size(), folder.trees.data(),
                                       folder.trees.size(), order.data(), n, work.data(), work.size());
    check(b.refusal);
    const bounds_bvh bvh = {0x50000080, uint32_t(b.nodes), uint32_t(b.capacity), b.min, b.max, bounds_words_of(b.scale.cen),
                            bounds_words_of(b.scale.inverse), bounds_words_of(b.scale.quantum), 0x50000080 + 16 * b.capacity,
                            uint32_t(b.trees)};
    check(bounds_tree_header(folder.header.data(), 128, bvh));
    folder.nodes.resize(16 * b.capacity), folder.trees.resize(16 * b.trees), order.resize(b.present);
    folder.kind = BOUNDS_BOXES, folder.threshold = 4, folder.entries = n;
    folder.order = bytes_of(order), folder.boxes = bytes_of(items);
    return folder;
}

static bounds_tree load(const Folder &folder) {
    const bounds_tree_files files = folder.files();
    bounds_tree tree;
    const auto loaded = bounds_load_tree(&files, &tree);
    if (loaded.damage)
        throw std::runtime_error("damaged, record " + std::to_string(loaded.record) + ": " + bounds_load_text(loaded.damage));
    return tree;
}

// Sixteen wheels stand somewhere in the box around all and drive on by 0.1; where one leaves it, it begins somewhere else. Each
// asks for a column: 0.7 long, 0.3 wide, as high as all.
static std::vector<bounds_aabb> wheels(bounds_aabb box, size_t count) {
    std::vector<bounds_aabb> queries;
    std::vector<bounds_vec3> at(16, {box.max.x, 0, 0});
    uint32_t state = 1;
    const auto drawn = [&state](float low, float high) {
        state = state * 1664525u + 1013904223u;
        return low + float(state >> 8) / 16777216.0f * (high - low);
    };
    for (size_t i = 0; i < count; i++) {
        bounds_vec3 &wheel = at[i % at.size()];
        wheel.x += 0.1f;
        if (i < at.size() || wheel.x > box.max.x) {
            wheel.x = drawn(box.min.x, box.max.x);
            wheel.y = drawn(box.min.y, box.max.y);
        }
        queries.push_back({{wheel.x - 0.35f, wheel.y - 0.15f, box.min.z}, {wheel.x + 0.35f, wheel.y + 0.15f, box.max.z}});
    }
    return queries;
}

// Asks all queries, and says how long one takes and how much it finds.
template <class Ask>
static void ask_all(const char *how, Ask ask, const bounds_tree &tree, const std::vector<bounds_aabb> &queries) {
    std::vector<uint16_t> out(tree.items);
    size_t found = 0, read = 0;
    const auto start = std::chrono::steady_clock::now();
    for (const bounds_aabb &query : queries) {
        const bounds_walk_answer answer = ask(&tree, query, out.data(), out.size());
        check(answer.refusal);
        found += answer.handed, read += answer.reads;
    }
    const std::chrono::duration<double, std::nano> ns = std::chrono::steady_clock::now() - start;
    const double n = double(queries.size());
    std::printf("%-18s %7.0f ns a query, %6.2f found a query, %6.1f records read\n", how, ns.count() / n, double(found) / n,
                double(read) / n);
}

static bool meets(const uint8_t *bytes, const bounds_aabb &query) {
    bounds_item item;
    bounds_aabb box;
    std::memcpy(&item, bytes, sizeof item);
    std::memcpy(&box, &item.min, sizeof box);
    return item.present && box.min.x <= query.max.x && query.min.x <= box.max.x && box.min.y <= query.max.y &&
           query.min.y <= box.max.y && box.min.z <= query.max.z && query.min.z <= box.max.z;
}

// How many of the first queries find something else than comparing all boxes does.
static int differing(const bounds_tree &tree, const std::vector<bounds_aabb> &queries, size_t first) {
    int differ = 0;
    for (size_t i = 0; i < std::min(first, queries.size()); i++) {
        std::vector<uint16_t> out(tree.items);
        std::vector<size_t> found, expected;
        const bounds_walk_answer answer = bounds_query_tree(&tree, queries[i], out.data(), out.size());
        for (size_t k = 0; k < answer.handed; k++)
            found.push_back(tree.kind == BOUNDS_MESH ? out[k] : bounds_item_at(&tree, out[k]));
        for (size_t k = 0; k < tree.entries; k++)
            if (meets(tree.boxes + 28 * k, queries[i])) expected.push_back(k);
        std::sort(found.begin(), found.end());
        differ += answer.refusal != 0 || found != expected;
    }
    return differ;
}

static int run(int argc, char **argv) {
    const Folder folder = argc > 1 ? read_folder(argv[1]) : build(field(40));
    const bounds_tree tree = load(folder);
    const auto queries = wheels(tree.box, 100000);
    std::printf("%zu items, %zu nodes in %zu ranges; 16 wheels, %zu queries\n", tree.items, tree.nodes, tree.trees, queries.size());
    ask_all("by the records", bounds_walk_tree, tree, queries);
    if (tree.boxes_len == 0) {
        std::puts("boxes.bin is missing: no float filter");
        return 0;
    }
    ask_all("with the filter", bounds_query_tree, tree, queries);
    const int differ = differing(tree, queries, 2000);
    std::printf("2000 queries held against comparing all boxes: %d differ\n", differ);
    return differ != 0;
}

int main(int argc, char **argv) {
    assert(bounds_float_environment());
    try {
        return run(argc, argv);
    } catch (const std::exception &error) {
        std::printf("%s\n", error.what());
        return 2;
    }
}
