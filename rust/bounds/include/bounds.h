/* Collision-bound preparation, proved in Rattle: the C interface of libbounds.a, and of
 * libbounds_prepare.a, which has the functions under "prepare" and is needed for them alone.
 *
 * Every function is total: it takes any argument and keeps no state. A float's word is its 32 bits. A function over
 * words that copies one keeps a NaN's bits; one that computes gives some NaN where it gives a NaN.
 *
 * A lent buffer is a pointer and a number of elements. It must be there, aligned and initialised, and overlap no other
 * one of the call; the pointer must not be null, also where the number is 0. Nothing else is touched.
 */
#ifndef BOUNDS_H
#define BOUNDS_H

#include <stddef.h>
#include <stdint.h>
#include <string.h>

#ifdef __cplusplus
extern "C" {
#endif

/* ---- words and values ---- */

float bounds_value(uint32_t word);
uint32_t bounds_bits(float x);              /* 7FC00000 for a NaN */
uint32_t bounds_value_bits(uint32_t word);  /* bits(value(word)): the word, or 7FC00000 for every NaN */

/* ---- order ---- */

uint32_t bounds_relate(float a, float b);   /* 0 less, 1 equal, 2 greater, 3 unordered */
int32_t bounds_cmp_f32(float a, float b);   /* -1, 0, 1: NaN below all else, two NaNs equal, -0 equal to 0 */
uint32_t bounds_order_key(uint32_t word);   /* orders words as cmp_f32 orders their floats */

/* ---- the lesser and the greater ---- */

float bounds_vmin(float a, float b);        /* a if a < b, else b: a NaN or a tie gives b */
float bounds_vmax(float a, float b);        /* a if a > b, else b */
uint32_t bounds_vmin_word(uint32_t a, uint32_t b);
uint32_t bounds_vmax_word(uint32_t a, uint32_t b);
float bounds_min_number(float a, float b);  /* the number where one is a NaN: Rust's f32::min */
float bounds_max_number(float a, float b);  /* Rust's f32::max */

/* ---- to integers and back ---- */

int32_t bounds_to_i32(float x);             /* toward zero, saturating, NaN to 0 */
int16_t bounds_wrap_i16(int32_t n);         /* the low 16 bits, signed */
int16_t bounds_to_short(float x);           /* a node value: wrap_i16(to_i32(x)) */
int16_t bounds_vertex_value(float x);       /* a vertex value: NaN to 0, clamped to 32767 either way, truncated */
float bounds_of_count(uint16_t n);          /* n, exactly */
float bounds_sqrt(float x);                 /* correctly rounded; -0 for -0, a NaN below 0 */

/* ---- points, boxes, transforms: all by value ---- */

typedef struct { float x, y, z; } bounds_vec3;
typedef struct { float x, y, z, w; } bounds_vec4;
typedef struct { bounds_vec3 min, max; } bounds_aabb;
typedef struct { bounds_vec4 row0, row1, row2, row3; } bounds_mat4;  /* p * M: the translation is row3 */
typedef struct { uint32_t x, y, z; } bounds_words3;

bounds_vec3 bounds_add(bounds_vec3 a, bounds_vec3 b);
bounds_vec3 bounds_sub(bounds_vec3 a, bounds_vec3 b);
bounds_vec3 bounds_scale(bounds_vec3 v, float f);
bounds_vec3 bounds_neg(bounds_vec3 v);
bounds_vec3 bounds_abs(bounds_vec3 v);
float bounds_dot(bounds_vec3 a, bounds_vec3 b);
bounds_vec3 bounds_cross(bounds_vec3 a, bounds_vec3 b);
float bounds_length(bounds_vec3 v);
bounds_vec3 bounds_norm(bounds_vec3 v);              /* v unless its length is above 1e-6 */
bounds_vec3 bounds_vmul(bounds_vec3 a, bounds_vec3 b);
bounds_vec3 bounds_vdiv(bounds_vec3 a, bounds_vec3 b);
bounds_vec3 bounds_vadd_f(bounds_vec3 v, float f);
bounds_vec3 bounds_vmin3(bounds_vec3 a, bounds_vec3 b);
bounds_vec3 bounds_vmax3(bounds_vec3 a, bounds_vec3 b);
bounds_words3 bounds_vmin_words3(bounds_words3 a, bounds_words3 b);
bounds_words3 bounds_vmax_words3(bounds_words3 a, bounds_words3 b);
int32_t bounds_cmp_vec3(bounds_vec3 a, bounds_vec3 b);  /* cmp_f32 of x, then y, then z */
bounds_vec4 bounds_transform_point(bounds_mat4 m, bounds_vec3 p);
bounds_vec3 bounds_transform_vector(bounds_mat4 m, bounds_vec3 v);

/* A box through a matrix, of which the rows go in registers: no struct is copied whole. */
bounds_aabb bounds_transform_box_rows(bounds_vec4 row0, bounds_vec4 row1, bounds_vec4 row2, bounds_vec4 row3,
                                      float min_x, float min_y, float min_z, float max_x, float max_y, float max_z);

static inline bounds_aabb bounds_transform_box(bounds_aabb b, bounds_mat4 m) {
    return bounds_transform_box_rows(m.row0, m.row1, m.row2, m.row3, b.min.x, b.min.y, b.min.z,
                                     b.max.x, b.max.y, b.max.z);
}

/* ---- the tree over a list of boxes ----
 *
 * A refusal has a number: 1 list over its limit, 2 lent buffer too short, 3 threshold, 4 too many nodes. It changes no
 * output buffer. 0 stands for no refusal.
 */

/* An entry of the list: a mark, 0 for absent, and the words of a box. It is known by its place in the list. */
typedef struct {
    uint32_t present;
    bounds_words3 min, max;
} bounds_item;

typedef struct { bounds_vec3 cen, inverse, quantum; } bounds_units;

typedef struct {
    uint32_t refusal;
    size_t nodes, capacity, trees, present;  /* these and the rest are 0 at a refusal */
    bounds_words3 min, max;                  /* copied from the boxes */
    bounds_units scale;
} bounds_build_answer;

/* What a tree's header holds. The points are words: a NaN's bits are copied like any others. */
typedef struct {
    uint64_t nodes_address;
    uint32_t nodes_count, nodes_capacity;
    bounds_words3 bb_min, bb_max, bb_center, quantum_inverse, quantum;
    uint64_t trees_address;
    uint32_t trees_count;
} bounds_bvh;

/* Words of entries, places, temp, stack, rows and centres together for so many entries: 30 each, and 8. */
uint64_t bounds_work_len(uint32_t entries);

/* Builds the tree of the present ones among n items, a leaf of which holds at most `threshold`. Refusals 1 (over
 * 32,767 items, absent ones included), 3 (outside 1 to 32,767), 2, 4 (over 32,767 nodes), looked for in this order.
 * Written are:
 *   node_bytes  16 bytes a node; 16 * (2n + 1) are needed
 *   tree_bytes  16 bytes a range of nodes; 16 * (2n + 1) are needed
 *   order       the places of the items; n are needed
 * and what lies behind stays as it was. What these hold does not matter, nor what they hold afterwards:
 *   entries     7n are needed
 *   places      n
 *   temp        n
 *   stack       n
 *   rows        8 * (2n + 1)
 *   centres     4n */
bounds_build_answer bounds_build_bvh(const bounds_item *items, size_t item_count, uint32_t threshold,
                                     uint8_t *node_bytes, size_t node_bytes_len,
                                     uint8_t *tree_bytes, size_t tree_bytes_len, uint16_t *order, size_t order_len,
                                     uint32_t *entries, size_t entries_len, uint32_t *places, size_t places_len,
                                     uint32_t *temp, size_t temp_len, uint32_t *stack, size_t stack_len,
                                     uint32_t *rows, size_t rows_len, float *centres, size_t centres_len);

/* The length of a part of which `least` are needed, taken off what is left. */
static inline size_t bounds_part(size_t least, size_t *left) {
    size_t part = least < *left ? least : *left;
    *left -= part;
    return part;
}

/* Where the six parts of a build's work buffer begin, and where the last one ends: each part gets its length or what is
 * left, and the last all that is left. */
static inline void bounds_build_parts(size_t entry_count, size_t work_len, size_t at[7]) {
    size_t n = entry_count < 32767 ? entry_count : 32767, left = work_len;
    const size_t least[5] = {7 * n, n, n, n, 8 * (2 * n + 1)};
    at[0] = 0;
    for (int i = 0; i < 5; i++)
        at[i + 1] = at[i] + bounds_part(least[i], &left);
    at[6] = work_len;
}

/* bounds_build_bvh in one work buffer, of which bounds_work_len(n) words are needed. */
static inline bounds_build_answer bounds_build_bvh_in(const bounds_item *items, size_t item_count, uint32_t threshold,
                                                      uint8_t *node_bytes, size_t node_bytes_len,
                                                      uint8_t *tree_bytes, size_t tree_bytes_len,
                                                      uint16_t *order, size_t order_len,
                                                      uint32_t *work, size_t work_len) {
    size_t at[7];
    bounds_build_parts(item_count, work_len, at);
    return bounds_build_bvh(items, item_count, threshold, node_bytes, node_bytes_len, tree_bytes, tree_bytes_len,
                            order, order_len, work, at[1], work + at[1], at[2] - at[1], work + at[2], at[3] - at[2],
                            work + at[3], at[4] - at[3], work + at[4], at[5] - at[4],
                            (float *)(work + at[5]), at[6] - at[5]);
}

/* The words of three floats: their bits as they are, a NaN's too. */
static inline bounds_words3 bounds_words_of(bounds_vec3 v) {
    bounds_words3 words;
    memcpy(&words, &v, sizeof words);
    return words;
}

/* Writes the 128 bytes of a tree's header. Of a build these are its min and max, and the words of its scale.cen,
 * scale.inverse and scale.quantum. Refusals 1 (over 65,535 trees), 2 (under 128 bytes), in this order. */
uint32_t bounds_tree_header(uint8_t *out, size_t out_len, bounds_bvh bvh);

/* ---- the walk over a tree's records ----
 *
 * Refusals 1 (over 65,535 nodes, trees or items), 2 (fewer bytes than 16 for each record, or an output shorter than the
 * item count) before anything is read; 9 (tree range), 10 (node record), 11 (more handed out than items) as records are
 * read. Those keep what was handed out before, and the counts so far, the refused record being one of those read.
 */

typedef struct {
    uint32_t refusal;
    size_t reads, handed;  /* records read; positions at the start of the output */
} bounds_walk_answer;

/* Hands out the positions of the items in leaves whose boxes meet the query. Any bytes will do.
 *
 * Over a build: give its node and tree bytes as they are, its scale.cen and scale.inverse, its nodes and trees (not
 * capacity, which counts the padding), and as item_count the number of entries at threshold 1, else present. A
 * position stands for an item: at threshold 1 for the one at that place of the list, above 1 for the one at the place
 * order[position]. Its leaf's record meets the query, its box perhaps not: compare them as floats. examples/query.c
 * does all of this. */
bounds_walk_answer bounds_walk(bounds_aabb query, bounds_vec3 cen, bounds_vec3 inverse,
                               const uint8_t *node_bytes, size_t node_bytes_len, size_t node_count,
                               const uint8_t *tree_bytes, size_t tree_bytes_len, size_t tree_count, size_t item_count,
                               uint16_t *out, size_t out_len);

/* ---- the premises of the walk's promise ----
 *
 * A walk over a build's records hands out every present item whose box meets the query as floats, if all present boxes
 * are finite with min at most max, no coordinate exceeds 2^100 in size, and on each axis the half extent of the box
 * around them all is 0 or at least 2^-100. Outside these premises items can be missed.
 */

typedef struct {
    uint32_t refusal;  /* as Build's: 1 over 32,767 entries, 2 fewer words than 7n; then nothing was read */
    uint32_t fault;    /* what breaks the premises first; 0: they hold, if there is no refusal
                        * 1 to 6    min x, y, z, max x, y, z of the entry is not finite, or above 2^100 in size
                        * 7 to 9    min is above max on x, y, z in the entry
                        * 10 to 12  the half extent of the box around all on x, y, z */
    uint32_t place;    /* the first such entry's number in the list, for faults 1 to 9 */
} bounds_premises;

/* Whether n entries, of seven words each as a build reads them, meet the premises. */
bounds_premises bounds_ordinary(size_t entry_count, const uint32_t *entries, size_t entries_len);

/* ---- polygons, links, materials, stored vertices ----
 *
 * Refusals 5 short record, 6 unknown kind; the others as above.
 */

/* A polygon by its kind: 0 triangle, 1 sphere, 2 capsule, 3 box, 4 cylinder. `word` has the bits of the area or of the
 * radius. The halves: a triangle's three vertices (bit 15 a flag) and three links (i16, -1 for none), a sphere's index, a
 * capsule's and a cylinder's two, a box's four (i16). What a kind has not is 0 in an answer, and not looked at
 * otherwise. */
typedef struct {
    uint32_t kind, word;
    uint16_t h0, h1, h2, h3, h4, h5;
} bounds_polygon;

typedef struct {
    uint32_t refusal;
    bounds_polygon polygon;  /* 0 throughout where refused */
} bounds_read_answer;

typedef struct {
    uint32_t refusal;
    bounds_words3 min, max;  /* 0 where refused */
} bounds_box_answer;

typedef struct { bounds_words3 min, max; } bounds_polygon_box;

/* A box as two runs of four floats, where told is 1; 0 throughout where it is 0. A spare float is the least, or the greatest,
 * of those behind the vertices, moved as the corner is. */
typedef struct {
    bounds_vec3 min;
    float spare_min;
    bounds_vec3 max;
    float spare_max;
    uint32_t told;
} bounds_float_box;

typedef struct {
    uint32_t refusal;
    size_t count;  /* materials in the list; 0 where refused */
} bounds_materials_answer;

typedef struct { int16_t x, y, z; } bounds_vertex;

/* The polygon of a record's first 16 bytes. Refusals 5 (under 16 bytes), 6 (a kind above 4), in this order. */
bounds_read_answer bounds_polygon_read(const uint8_t *bytes, size_t bytes_len);

/* Writes the 16 bytes of a polygon. Refusals 6 (a kind above 4), 2 (under 16 bytes), in this order. */
uint32_t bounds_polygon_write(uint8_t *out, size_t out_len, bounds_polygon polygon);

/* The box of a polygon over vertices of three words each; one that is not there is zero. Refusal 6 (a kind above 4). */
bounds_box_answer bounds_polygon_bbox(bounds_polygon polygon, const uint32_t *vertices, size_t vertices_len);

/* The same by the kind, from the numbers of its vertices: no struct is copied, and nothing is refused. Of a triangle's
 * numbers bit 15 is left out; a cylinder's box is a capsule's. */
bounds_polygon_box bounds_triangle_word_box(uint16_t v1, uint16_t v2, uint16_t v3, const uint32_t *vertices, size_t vertices_len);

/* The same over floats, three a vertex, and quicker. It is told where none of the nine is a NaN, nor one of the three floats that
 * stand behind the vertices, and none of the twelve is missing. */
bounds_float_box bounds_triangle_float_box(uint16_t v1, uint16_t v2, uint16_t v3, const float *vertices, size_t vertices_len);

/* The same of the other kinds, with no branch on the kind: the box of four vertices, its least corner less low and its greatest plus
 * high. A sphere's is that of i, i, i, i with its radius twice; a capsule's and a cylinder's that of i1, i1, i1, i2; a box's that of its
 * four with 0.0f and -0.0f, which leave every float as it is. It is told where none of the sixteen floats is missing and no sum of the
 * four vertices, nor of the two corners, is a NaN: so no float is one. */
bounds_float_box bounds_moved_float_box(uint32_t i1, uint32_t i2, uint32_t i3, uint32_t i4, float low, float high,
                                        const float *vertices, size_t vertices_len);

/* By floats where that is told, else by words. */
static inline bounds_polygon_box bounds_triangle_bbox(uint16_t v1, uint16_t v2, uint16_t v3, const uint32_t *vertices,
                                                      size_t vertices_len) {
    bounds_float_box b = bounds_triangle_float_box(v1, v2, v3, (const float *)(const void *)vertices, vertices_len);
    bounds_polygon_box words;
    if (!b.told) return bounds_triangle_word_box(v1, v2, v3, vertices, vertices_len);
    memcpy(&words.min, &b.min, sizeof words.min);
    memcpy(&words.max, &b.max, sizeof words.max);
    return words;
}

bounds_polygon_box bounds_sphere_bbox(uint16_t index, float radius, const uint32_t *vertices, size_t vertices_len);
bounds_polygon_box bounds_capsule_bbox(uint16_t i1, uint16_t i2, float radius, const uint32_t *vertices, size_t vertices_len);
bounds_polygon_box bounds_box_bbox(uint16_t i1, uint16_t i2, uint16_t i3, uint16_t i4, const uint32_t *vertices,
                                   size_t vertices_len);

/* The boxes of n records over vertices of three words each, as entries of seven words: 1, min, max, as bounds_item has
 * them. Refusals 1 (over 32,767), 2 (under 16 bytes or seven words a polygon), 6 (a record's kind is above 4), in this order. */
uint32_t bounds_polygon_items(const uint8_t *polygons, size_t polygons_len, size_t polygon_count, const uint32_t *vertices,
                              size_t vertices_len, uint32_t *items, size_t items_len);

/* Words that linking n polygons works in, all parts together: 3n for each of the five. */
uint64_t bounds_edges_work_len(uint32_t polygons);

/* Stores the links of the triangles among n records. Refusals 1 (over 32,767), 2 (under 16 bytes a polygon, or a part
 * under 3n words), 6 (a record's kind is above 4), in this order. */
uint32_t bounds_update_edge_indices(uint8_t *polygons, size_t polygons_len, size_t polygon_count,
                                    uint32_t *corners, size_t corners_len, uint32_t *keys, size_t keys_len,
                                    uint32_t *sides, size_t sides_len, uint32_t *spare, size_t spare_len,
                                    uint32_t *links, size_t links_len);

/* bounds_update_edge_indices in one work buffer, of which bounds_edges_work_len(n) words are needed. */
static inline uint32_t bounds_update_edge_indices_in(uint8_t *polygons, size_t polygons_len, size_t polygon_count,
                                                     uint32_t *work, size_t work_len) {
    size_t part = 3 * (polygon_count < 32767 ? polygon_count : 32767), left = work_len;
    size_t corners = bounds_part(part, &left), keys = bounds_part(part, &left);
    size_t sides = bounds_part(part, &left), spare = bounds_part(part, &left);
    uint32_t *keys_at = work + corners, *sides_at = keys_at + keys, *spare_at = sides_at + sides;
    return bounds_update_edge_indices(polygons, polygons_len, polygon_count, work, corners, keys_at, keys,
                                      sides_at, sides, spare_at, spare, spare_at + spare, left);
}

/* Lists the materials that n polygons use, each once, eight bytes each, and each polygon's index among them. `numbers` has
 * the number of each polygon's material, `mats` the materials, two words each; one that is not given is (0, 0). Refusals
 * 1 (over 32,767 polygons or 256 materials), 2 (fewer numbers or indices than polygons, fewer words than two a material,
 * a list under 2,048 bytes), in this order. */
bounds_materials_answer bounds_build_materials(size_t polygon_count, const uint8_t *numbers, size_t numbers_len,
                                               size_t material_count, const uint32_t *mats, size_t mats_len,
                                               uint8_t *list, size_t list_len, uint8_t *indices, size_t indices_len);

/* A geometry's quantum, half its box in 32,767 parts; a vertex in units of it; and the point that such a vertex is. */
bounds_vec3 bounds_quantum(bounds_aabb b);
bounds_vertex bounds_stored_vertex(bounds_vec3 v, bounds_vec3 quantum);
bounds_vec3 bounds_read_back(bounds_vertex v, bounds_vec3 quantum);

/* ---- shrinking ----
 *
 * Where the vertices of a geometry stand when they are moved inwards by its margin. Refusals 6 unknown kind, 7 infinite
 * margin; the others as above.
 *
 * The starting margin is the least of the margin and of half the box on each axis; a NaN among them is skipped. Each vertex
 * is moved against the normals of the triangles around it, and on its way back it must cross no triangle that is not its
 * own, neither of the given nor of the moved vertices. If one does, the margin is halved, as long as it is above 1e-6. What
 * passes is clamped to the box, from which the margin is taken off, 0.025 at least. If none passes, each vertex is moved by
 * the given margin against the sum of its triangles' normals, which are those of the vertices plus `center`, through
 * `transform`, and nothing is clamped.
 */

/* What shrinking reads of a geometry: 26 floats. */
typedef struct {
    bounds_vec3 min, max;   /* its box */
    bounds_vec3 center;     /* added to the vertices where they meet the box and the transform */
    float margin;
    bounds_mat4 transform;
} bounds_geometry;

typedef struct {
    uint32_t refusal;
    uint32_t by;   /* 0 nothing was shrunk (refused, or no vertices), 1 by a margin, 2 by normals */
    float margin;  /* that passed, where `by` is 1; else 0 */
} bounds_shrink_answer;

/* Words of all the parts that are worked in together, for so many polygons and vertices: 36 and 1 each. */
uint64_t bounds_shrink_work_len(uint32_t polygons, uint32_t vertices);

/* Shrinks v vertices, of three words each, of p polygons, of 16 bytes each, into `points`, of which 3v words are needed;
 * those behind stay as they were. A triangle may have corners that are no vertices. The links in the records do not matter:
 * they are made here. Refusals 1 (over 32,767 polygons or 32,768 vertices), 2, 6 (a record's kind is above 4), 7 (the
 * starting margin is infinite, and there are vertices), in this order. Without vertices nothing is written. What these hold
 * does not matter, nor what they hold afterwards:
 *   corners  3p are needed
 *   tri      3p
 *   firsts   3p + v
 *   spare    3p
 *   links    3p
 *   normals  3p
 *   olds     9p
 *   news     9p
 * The time is bounded but can be long: docs/API.md says by what. */
bounds_shrink_answer bounds_calculate_verts_shrunk(bounds_geometry geometry, size_t polygon_count,
                                                   const uint8_t *polygons, size_t polygons_len, size_t vertex_count,
                                                   const uint32_t *vertices, size_t vertices_len,
                                                   uint32_t *points, size_t points_len,
                                                   uint32_t *corners, size_t corners_len, uint32_t *tri, size_t tri_len,
                                                   uint32_t *firsts, size_t firsts_len, uint32_t *spare, size_t spare_len,
                                                   uint32_t *links, size_t links_len, float *normals, size_t normals_len,
                                                   float *olds, size_t olds_len, float *news, size_t news_len);

/* bounds_calculate_verts_shrunk in one work buffer, of which bounds_shrink_work_len(p, v) words are needed. */
static inline bounds_shrink_answer bounds_calculate_verts_shrunk_in(bounds_geometry geometry, size_t polygon_count,
                                                                    const uint8_t *polygons, size_t polygons_len,
                                                                    size_t vertex_count,
                                                                    const uint32_t *vertices, size_t vertices_len,
                                                                    uint32_t *points, size_t points_len,
                                                                    uint32_t *work, size_t work_len) {
    size_t p = polygon_count < 32767 ? polygon_count : 32767, v = vertex_count < 32768 ? vertex_count : 32768;
    size_t at[9] = {0}, left = work_len;
    const size_t least[7] = {3 * p, 3 * p, 3 * p + v, 3 * p, 3 * p, 3 * p, 9 * p};
    for (int i = 0; i < 7; i++)
        at[i + 1] = at[i] + bounds_part(least[i], &left);
    at[8] = work_len;
    return bounds_calculate_verts_shrunk(geometry, polygon_count, polygons, polygons_len,
                                         vertex_count, vertices, vertices_len, points, points_len,
                                         work, at[1], work + at[1], at[2] - at[1], work + at[2], at[3] - at[2],
                                         work + at[3], at[4] - at[3], work + at[4], at[5] - at[4],
                                         (float *)(work + at[5]), at[6] - at[5], (float *)(work + at[6]), at[7] - at[6],
                                         (float *)(work + at[7]), at[8] - at[7]);
}

/* ---- octants ----
 *
 * Of eight directions (bits 0, 1 and 2 of its number turn x, y and z around) the vertices that no other one shadows.
 * Vertex b shadows a where on each axis b - a, times -1 if the axis is turned, is at least 0; of vertices that shadow
 * one another the first is listed. A NaN shadows nothing and is not shadowed, and two equal infinities do not shadow
 * one another.
 */

typedef struct {
    uint32_t refusal;
    uint32_t c0, c1, c2, c3, c4, c5, c6, c7;  /* indices in each list; 0 where refused */
} bounds_octants_answer;

/* Words of keys, rows, order, temp and marks together for so many vertices: 10 each. */
uint64_t bounds_octants_work_len(uint32_t vertices);

/* Lists the octants' vertices, of three words each. Refusals 1 (over 32,768 vertices), 2, in this order. Of n vertices
 * list k, rising, begins at word k * n of `lists`, of which 8n are needed; the other words stay as they were. What these
 * hold does not matter, nor what they hold afterwards:
 *   keys   3n are needed
 *   rows   4n
 *   order  n
 *   temp   n
 *   marks  n */
bounds_octants_answer bounds_calculate_octants(size_t vertex_count, const uint32_t *vertices, size_t vertices_len,
                                               uint32_t *lists, size_t lists_len, uint32_t *keys, size_t keys_len,
                                               uint32_t *rows, size_t rows_len, uint32_t *order, size_t order_len,
                                               uint32_t *temp, size_t temp_len, uint32_t *marks, size_t marks_len);

/* bounds_calculate_octants in one work buffer, of which bounds_octants_work_len(n) words are needed. */
static inline bounds_octants_answer bounds_calculate_octants_in(size_t vertex_count,
                                                                const uint32_t *vertices, size_t vertices_len,
                                                                uint32_t *lists, size_t lists_len,
                                                                uint32_t *work, size_t work_len) {
    size_t n = vertex_count < 32768 ? vertex_count : 32768, left = work_len;
    size_t keys = bounds_part(3 * n, &left), rows = bounds_part(4 * n, &left);
    size_t order = bounds_part(n, &left), temp = bounds_part(n, &left);
    uint32_t *rows_at = work + keys, *order_at = rows_at + rows, *temp_at = order_at + order;
    return bounds_calculate_octants(vertex_count, vertices, vertices_len, lists, lists_len, work, keys, rows_at, rows,
                                    order_at, order, temp_at, temp, temp_at + temp, left);
}

/* Writes eight lists of indices as the bytes of a block at this address: eight counts of four bytes; eight pointers of
 * eight, of list k the address + 96 + 4 * (indices in the lists before k), also where it is empty; the lists, four bytes
 * an index; 32 zeros. These are 128 + 4 * (all indices), and what lies behind stays as it was. Refusals 1 (a list over
 * 32,768 indices), 2 (fewer bytes), 12 (address + 96 + 4 * (all indices) over 2^64 - 1), in this order. */
uint32_t bounds_write_octants(uint64_t address, const uint32_t *l0, size_t l0_len, const uint32_t *l1, size_t l1_len,
                              const uint32_t *l2, size_t l2_len, const uint32_t *l3, size_t l3_len,
                              const uint32_t *l4, size_t l4_len, const uint32_t *l5, size_t l5_len,
                              const uint32_t *l6, size_t l6_len, const uint32_t *l7, size_t l7_len,
                              uint8_t *out, size_t out_len);

/* ---- composites ----
 *
 * A child is 24 words: a mark, 0 for absent; the box's min x, y, z and max x, y, z; the margin; the transform, row after
 * row.
 */

typedef struct {
    uint32_t present;      /* 1, or 0 and a box of zeros */
    bounds_vec3 min, max;
} bounds_child_box;

/* Writes 32 bytes a child: min x, y, z, the word 1; max x, y, z, the margin; 32 zeros where it is absent. Words are
 * copied. What lies behind stays as it was. Refusals 1 (over 32,767 children), 2 (under 24 words or 32 bytes a child), in
 * this order. */
uint32_t bounds_child_boxes(size_t child_count, const uint32_t *children, size_t children_len,
                            uint8_t *out, size_t out_len);

/* The box of child k through its transform, if it is present and has all its 24 words. */
bounds_child_box bounds_computed_box(const uint32_t *children, size_t children_len, size_t k);

/* The tree over the children's boxes through their transforms, as bounds_build_bvh makes it at threshold 1, with its
 * buffers. Of at most 5 children, absent ones included, there is none: refusal and all values are 0 (a tree has a node),
 * and no buffer is looked at. Refusals 1 (over 32,767 children), 2 (under 24 words a child, or a buffer too short), 4
 * (over 32,767 nodes), in this order. */
bounds_build_answer bounds_composite_tree(size_t child_count, const uint32_t *children, size_t children_len,
                                          uint8_t *node_bytes, size_t node_bytes_len,
                                          uint8_t *tree_bytes, size_t tree_bytes_len, uint16_t *order, size_t order_len,
                                          uint32_t *entries, size_t entries_len, uint32_t *places, size_t places_len,
                                          uint32_t *temp, size_t temp_len, uint32_t *stack, size_t stack_len,
                                          uint32_t *rows, size_t rows_len, float *centres, size_t centres_len);

/* bounds_composite_tree in one work buffer, of which bounds_work_len(n) words are needed. */
static inline bounds_build_answer bounds_composite_tree_in(size_t child_count,
                                                           const uint32_t *children, size_t children_len,
                                                           uint8_t *node_bytes, size_t node_bytes_len,
                                                           uint8_t *tree_bytes, size_t tree_bytes_len,
                                                           uint16_t *order, size_t order_len,
                                                           uint32_t *work, size_t work_len) {
    size_t at[7];
    bounds_build_parts(child_count, work_len, at);
    return bounds_composite_tree(child_count, children, children_len, node_bytes, node_bytes_len,
                                 tree_bytes, tree_bytes_len, order, order_len, work, at[1],
                                 work + at[1], at[2] - at[1], work + at[2], at[3] - at[2], work + at[3], at[4] - at[3],
                                 work + at[4], at[5] - at[4], (float *)(work + at[5]), at[6] - at[5]);
}

/* ---- prepare ----
 *
 * All that is derived of a geometry before it is written: kind 4 shrinks its vertices and lists octants; kind 8 builds a tree
 * over its polygons and takes them in the order of its leaves. Both list the materials that polygons use, link their
 * triangles, and store the vertices.
 */

typedef struct {
    bounds_words3 box_min, box_max, box_center, sphere_center;
    uint32_t sphere_radius;
} bounds_frame;  /* words */

typedef struct {
    uint32_t kind;  /* 4 or 8 */
    bounds_frame frame;
    float margin;
    bounds_vec3 center;     /* added to the vertices where they meet the box and the transform */
    bounds_mat4 transform;
} bounds_bound;

typedef struct { size_t polygons, vertices, materials; } bounds_counts;

/* How long the buffers are that only the other kind writes to. */
typedef struct { size_t node_bytes, tree_bytes, order, sorted; } bounds_bvh_lengths;
typedef struct { size_t shrunk, shrunk_floats, octants, olds, news; } bounds_geometry_lengths;

typedef struct {
    uint32_t refusal;
    bounds_frame frame;             /* kind 8 with polygons: the tree's box, centre and radius; else as it was given */
    bounds_vec3 quantum;            /* of the box in `frame` */
    size_t materials;               /* before they are filled up to four */
    bounds_octants_answer octants;  /* kind 4: indices in each list */
    bounds_build_answer tree;       /* kind 8 with polygons; else `nodes` and all values are 0 */
} bounds_prepare_answer;

/* Words of all the parts that are worked in together: 55 a polygon, 13 a vertex, and 8. */
uint64_t bounds_prepare_work_len(uint32_t polygons, uint32_t vertices);

/* bounds_prepare below, of kind 4 and of kind 8; of any other kind each refuses with 6. In what they work they are lent in
 * parts, of p polygons and v vertices:
 *   entries  7p + 4v are needed
 *   places   3p + 3v
 *   temp     3p + v
 *   stack    3p + v
 *   rows     16p + 8 + v
 *   points   3v
 *   sorted   p
 *   centres  4p
 *   olds     9p
 *   news     9p
 * The sizes that are needed are the same for both kinds: of what a kind does not write to, the length is given. */
bounds_prepare_answer bounds_prepare_geometry(
    bounds_bound bound, bounds_counts counts, bounds_bvh_lengths other, const uint8_t *polygons, size_t polygons_len,
    const uint8_t *numbers, size_t numbers_len, const uint32_t *mats, size_t mats_len,
    const uint32_t *vertices, size_t vertices_len, uint8_t *list, size_t list_len, uint8_t *indices, size_t indices_len,
    uint8_t *polygons_out, size_t polygons_out_len, uint8_t *stored, size_t stored_len, uint32_t *floats, size_t floats_len,
    uint8_t *shrunk, size_t shrunk_len, uint32_t *shrunk_floats, size_t shrunk_floats_len,
    uint32_t *octants, size_t octants_len, uint32_t *entries, size_t entries_len, uint32_t *places, size_t places_len,
    uint32_t *temp, size_t temp_len, uint32_t *stack, size_t stack_len, uint32_t *rows, size_t rows_len,
    uint32_t *points, size_t points_len, float *centres, size_t centres_len, float *olds, size_t olds_len,
    float *news, size_t news_len);
bounds_prepare_answer bounds_prepare_bvh(
    bounds_bound bound, bounds_counts counts, bounds_geometry_lengths other, const uint8_t *polygons, size_t polygons_len,
    const uint8_t *numbers, size_t numbers_len, const uint32_t *mats, size_t mats_len,
    const uint32_t *vertices, size_t vertices_len, uint8_t *list, size_t list_len, uint8_t *indices, size_t indices_len,
    uint8_t *polygons_out, size_t polygons_out_len, uint8_t *stored, size_t stored_len, uint32_t *floats, size_t floats_len,
    uint8_t *node_bytes, size_t node_bytes_len, uint8_t *tree_bytes, size_t tree_bytes_len, uint16_t *order, size_t order_len,
    uint32_t *entries, size_t entries_len, uint32_t *places, size_t places_len, uint32_t *temp, size_t temp_len,
    uint32_t *stack, size_t stack_len, uint32_t *rows, size_t rows_len, uint32_t *points, size_t points_len,
    uint8_t *sorted, size_t sorted_len, float *centres, size_t centres_len);

/* What is prepared: p polygons, v vertices and m materials. */
typedef struct {
    bounds_bound bound;
    bounds_counts counts;
    const uint8_t *polygons;    /* 16 bytes a polygon; links in them do not matter */
    const uint8_t *numbers;     /* a polygon's material by its number; one that is not given is (0, 0) */
    const uint32_t *materials;  /* two words each */
    const uint32_t *vertices;   /* three words each */
    size_t polygons_len, numbers_len, materials_len, vertices_len;
} bounds_mesh;

/* Where it is written to, and a buffer to work in. The sizes are needed whatever the kind is. */
typedef struct {
    uint8_t *materials;       /* 2,048 bytes: 8 each, filled up to four with (0, 0) */
    uint8_t *indices;         /* 1 a polygon: its place among the materials */
    uint8_t *polygons;        /* 16 a polygon: kind 8 in the order of the leaves; triangles linked */
    uint8_t *vertices;        /* 6 a vertex: three i16, in units of the quantum */
    uint32_t *floats;         /* 3 words a vertex: the point that these stand for */
    uint8_t *shrunk;          /* as `vertices`, of the shrunk ones; kind 4 */
    uint32_t *shrunk_floats;  /* as `floats`; kind 4 */
    uint32_t *octants;        /* 8 words a vertex: list k begins at word k * v; kind 4 */
    uint8_t *node_bytes;      /* 16 * (2p + 1); kind 8, as bounds_build_bvh's at threshold 4 */
    uint8_t *tree_bytes;      /* 16 * (2p + 1); kind 8 */
    uint16_t *order;          /* 1 a polygon: which of the given ones it was; kind 8 */
    uint32_t *work;           /* bounds_prepare_work_len(p, v) words */
    size_t materials_len, indices_len, polygons_len, vertices_len, floats_len, shrunk_len, shrunk_floats_len, octants_len,
        node_bytes_len, tree_bytes_len, order_len, work_len;
} bounds_buffers;

/* The least lengths of all buffers for so many polygons and vertices, without pointers; of more than are taken, for the
 * most that are. */
static inline bounds_buffers bounds_prepare_lengths(size_t polygon_count, size_t vertex_count) {
    size_t p = polygon_count < 32767 ? polygon_count : 32767, v = vertex_count < 32768 ? vertex_count : 32768;
    const size_t records = 16 * (2 * p + 1), work = (size_t)bounds_prepare_work_len((uint32_t)p, (uint32_t)v);
    const bounds_buffers b = {NULL, NULL, NULL, NULL, NULL, NULL, NULL, NULL, NULL, NULL, NULL, NULL,
                              2048, p, 16 * p, 6 * v, 3 * v, 6 * v, 3 * v, 8 * v, records, records, p, work};
    return b;
}

/* Prepares a mesh. Refusals 6 (a kind that is not 4 or 8), 1 (over 32,767 polygons, 32,768 vertices or 256 materials), 2 (a
 * buffer too short, inputs too), 6 (a polygon's kind is above 4), 8 (the polygons use 256 materials or more), 7 (kind 4 with
 * vertices, and the starting margin is infinite), 4 (kind 8, and the tree has over 32,767 nodes), in this order. A refusal
 * changes nothing but the work buffer, and its other values are 0. What a kind does not write to stays as it was, and so
 * does what lies behind the written bytes. */
static inline bounds_prepare_answer bounds_prepare(const bounds_mesh *mesh, const bounds_buffers *to) {
    size_t p = mesh->counts.polygons < 32767 ? mesh->counts.polygons : 32767;
    size_t v = mesh->counts.vertices < 32768 ? mesh->counts.vertices : 32768;
    const size_t least[9] = {7 * p + 4 * v, 3 * p + 3 * v, 3 * p + v, 3 * p + v, 16 * p + 8 + v, 3 * v, p, 4 * p, 9 * p};
    size_t len[10], left = to->work_len;
    uint32_t *at[10] = {to->work};
    for (int i = 0; i < 9; i++) {
        len[i] = bounds_part(least[i], &left);
        at[i + 1] = at[i] + len[i];
    }
    len[9] = left;
    if (mesh->bound.kind == 8) {
        const bounds_geometry_lengths other = {to->shrunk_len, to->shrunk_floats_len, to->octants_len, len[8], len[9]};
        return bounds_prepare_bvh(mesh->bound, mesh->counts, other, mesh->polygons, mesh->polygons_len,
                                  mesh->numbers, mesh->numbers_len, mesh->materials, mesh->materials_len,
                                  mesh->vertices, mesh->vertices_len, to->materials, to->materials_len,
                                  to->indices, to->indices_len, to->polygons, to->polygons_len,
                                  to->vertices, to->vertices_len, to->floats, to->floats_len,
                                  to->node_bytes, to->node_bytes_len, to->tree_bytes, to->tree_bytes_len,
                                  to->order, to->order_len, at[0], len[0], at[1], len[1], at[2], len[2], at[3], len[3],
                                  at[4], len[4], at[5], len[5], (uint8_t *)at[6], 4 * len[6], (float *)at[7], len[7]);
    }
    const bounds_bvh_lengths other = {to->node_bytes_len, to->tree_bytes_len, to->order_len, 4 * len[6]};
    return bounds_prepare_geometry(mesh->bound, mesh->counts, other, mesh->polygons, mesh->polygons_len,
                                   mesh->numbers, mesh->numbers_len, mesh->materials, mesh->materials_len,
                                   mesh->vertices, mesh->vertices_len, to->materials, to->materials_len,
                                   to->indices, to->indices_len, to->polygons, to->polygons_len,
                                   to->vertices, to->vertices_len, to->floats, to->floats_len, to->shrunk, to->shrunk_len,
                                   to->shrunk_floats, to->shrunk_floats_len, to->octants, to->octants_len,
                                   at[0], len[0], at[1], len[1], at[2], len[2], at[3], len[3], at[4], len[4], at[5], len[5],
                                   (float *)at[7], len[7], (float *)at[8], len[8], (float *)at[9], len[9]);
}

#ifdef __cplusplus
}
#endif

#endif
