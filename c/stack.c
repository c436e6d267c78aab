/* Measures the stack that each call uses. A call runs on a thread whose stack is painted; the lowest place that has lost its
 * paint says how far the call went, with the arguments that its caller puts there. Prints the most that was seen over trees
 * that go deep or wide in several ways, 512 bytes where it was less, and ends with an error if a call went further than the
 * table in the header says. c/test compiles and runs it. */
#define _GNU_SOURCE
#include "../include/lohandema.h"

#include <pthread.h>
#include <stdio.h>
#include <stdlib.h>

enum { KIB = 1024, STACK = 512 * KIB, POINTS = 20000, NODES = 1 << 17, KEYS = 1 << 22 };

/* ---- what the calls are given */

static const double centre[3] = {32.0, 32.0, 32.0};
static size_t axes;
static double sources[3 * POINTS], targets[3 * POINTS];
static uint64_t work[3 * POINTS], key[NODES], u_keys[KEYS], v_keys[KEYS], output[POINTS], cells[NODES];
static size_t order[POINTS], own[NODES], begin[NODES], total[NODES], u_starts[NODES + 1], v_starts[NODES + 1];
static size_t starts[NODES + 1], read_starts[NODES + 1], indices[POINTS], nodes;
static size_t new_own[KEYS], new_begin[KEYS], new_total[KEYS];
static uint64_t twice[2 * NODES];
static size_t twice_own[2 * NODES], twice_begin[2 * NODES];
static size_t points, limit;
static int64_t readings[POINTS];
static lohandema_ended last;

#define BOX centre, 32.0, axes
#define COLUMNS key, nodes, own, nodes, begin, nodes, total, nodes
#define LISTS u_starts, nodes + 1, u_keys, u_starts[nodes], v_starts, nodes + 1, v_keys, v_starts[nodes]

static void nothing(void)
{
}

static void build_tree(void)
{
    uint64_t depth;
    last = lohandema_build_tree(BOX, sources, axes * points, targets, axes * points, limit, 1, true, true, work, 3 * POINTS,
                                order, points, key, NODES, own, NODES, begin, NODES, total, NODES, &nodes, &depth);
}

/* A grid of 1,000 to 900,000 points, so close together that cells split on its account down to level 16. */
static const double origin[3] = {20.0, 20.0, 20.0}, spacing[3] = {1e-5, 1e-5, 1e-5};
static const size_t shape[3] = {1000, 30, 30};
#define GRID origin, spacing, shape

static void build_tree_on_grid(void)
{
    uint64_t depth;
    last = lohandema_build_tree_on_grid(BOX, sources, axes * points, GRID, limit, 1, true, true, work, 2 * POINTS, order,
                                        points, key, NODES, own, NODES, begin, NODES, total, NODES, &nodes, &depth);
}

static void count_nodes(void)
{
    size_t count;
    last = lohandema_count_nodes(BOX, sources, axes * points, targets, axes * points, limit, 1, true, true, work, 3 * POINTS,
                                 order, points, &count);
}

static void count_nodes_on_grid(void)
{
    size_t count;
    last = lohandema_count_nodes_on_grid(BOX, sources, axes * points, GRID, limit, 1, true, true, work, 2 * POINTS, order,
                                         points, &count);
}

static void is_well_formed(void)
{
    last.number = lohandema_is_well_formed(axes, COLUMNS) ? 0 : 99;
}

static void depth_of(void)
{
    lohandema_depth_of(key, nodes);
}

static void find_node(void)
{
    size_t node;
    last.number = lohandema_find_node(axes, key, nodes, key[nodes / 2], &node) && node == nodes / 2 ? 0 : 99;
}

static void is_leaf(void)
{
    last.number = lohandema_is_leaf(key, nodes, nodes - 1) ? 0 : 99;
}

static void next_of_level(void)
{
    last.number = lohandema_next_of_level(key, nodes, 16 + 1, 0) == nodes ? 0 : 99;
}

static void leaf_sources(void)
{
    size_t start;
    lohandema_leaf_sources(own, nodes, begin, nodes, order, points, nodes - 1, &start);
}

static void cell_sources(void)
{
    size_t start;
    lohandema_cell_sources(total, nodes, begin, nodes, order, points, 0, &start);
}

static void points_to_keys(void)
{
    size_t steps;
    last = lohandema_points_to_keys(BOX, COLUMNS, sources, axes * points, output, points, &steps);
}

static void point_to_leaf(void)
{
    uint64_t leaf, steps;
    last = lohandema_point_to_leaf(BOX, COLUMNS, sources, &leaf, &steps);
}

static void get_points_to_leaves_map(void)
{
    last = lohandema_get_points_to_leaves_map(axes, COLUMNS, output, points, starts, NODES + 1, indices, points);
}

static void get_sourced_cells(void)
{
    size_t count;
    last = lohandema_get_sourced_cells(axes, COLUMNS, cells, NODES, &count);
}

static void get_list_sizes(void)
{
    size_t u, v;
    last = lohandema_get_list_sizes(axes, COLUMNS, v_starts, NODES, u_keys, NODES, &u, &v);
}

static void get_interaction_lists(void)
{
    size_t u, v;
    last = lohandema_get_interaction_lists(axes, COLUMNS, u_starts, NODES + 1, u_keys, KEYS, v_starts, NODES + 1, v_keys,
                                           KEYS, &u, &v);
}

static void get_near_work(void)
{
    uint64_t sum;
    last = lohandema_get_near_work(BOX, COLUMNS, targets, axes * points, starts, NODES, &sum);
}

/* With the lists as the list call has just written them; the last node is a leaf. */
static void lists_right(void)
{
    bool right;
    last = lohandema_lists_right(axes, COLUMNS, LISTS, &right);
    if (last.number == 0 && !right)
        last.number = 99;
}

static void sum_check(void)
{
    int64_t near, far;
    size_t additions;
    last = lohandema_sum_check(axes, COLUMNS, order, points, readings, points, LISTS, nodes - 1, &near, &far, &additions);
}

static void check_sums(void)
{
    size_t leaves, additions;
    last = lohandema_check_sums(axes, COLUMNS, order, points, readings, points, LISTS, work, points + 1, &leaves, &additions);
}

/* Eight bytes a key, four each other number, and the trailer. */
static void write_tree(void)
{
    size_t bytes = 8 * (nodes + u_starts[nodes] + v_starts[nodes]) + 4 * (5 * nodes + points + 2) + 116, written;
    uint8_t *file = malloc(bytes);
    last = lohandema_write_tree(axes, COLUMNS, order, points, LISTS, file, bytes, &written);
    if (last.number == 0 && written != bytes)
        last.number = 99;
    free(file);
}

/* Of every row twice, so that half of them are dropped, and the whole order column; the lists are written over, so that calls
 * that read them come before. */
static void salvage(void)
{
    size_t count, entries, changes;
    for (size_t i = 0; i < nodes; i++) {
        twice[i] = twice[nodes + i] = key[i];
        twice_own[i] = twice_own[nodes + i] = own[i];
        twice_begin[i] = twice_begin[nodes + i] = begin[i];
    }
    last = lohandema_salvage(axes, twice, 2 * nodes, twice_own, 2 * nodes, twice_begin, 2 * nodes, order, points, indices, points,
                             u_keys, KEYS, new_own, KEYS, new_begin, KEYS, new_total, KEYS, v_keys, KEYS, cells, NODES, &count,
                             &entries, &changes);
    if (last.number == 0 && (count != nodes || entries != points || changes != nodes))
        last.number = 99;
}

/* Of the children of the corner cells down to level 16, the deepest first and each cell's from the last on, without counts. */
static void salvage_reversed(void)
{
    size_t children = (size_t)1 << axes, rows = 0, count, entries, changes;
    for (uint64_t level = 16; level > 0; level--)
        for (size_t child = children; child > 0; child--) {
            twice[rows] = 32768 * (uint64_t)(child - 1) + level;
            twice_own[rows] = twice_begin[rows] = 0;
            rows++;
        }
    last = lohandema_salvage(axes, twice, rows, twice_own, rows, twice_begin, rows, order, points, indices, points, u_keys, KEYS,
                             new_own, KEYS, new_begin, KEYS, new_total, KEYS, v_keys, KEYS, cells, NODES, &count, &entries,
                             &changes);
    if (last.number == 0 && (count != rows + 1 || entries != 0 || changes != 1))
        last.number = 99;
}

/* The same file read again; the slices of the tree itself stay as they are. */
static void read_tree(void)
{
    size_t bytes = 8 * (nodes + u_starts[nodes] + v_starts[nodes]) + 4 * (5 * nodes + points + 2) + 116;
    size_t found_axes, found, sources_found, u, v;
    uint8_t *file = malloc(bytes);
    uint64_t *near = malloc(8 * KEYS), *far = malloc(8 * KEYS);
    lohandema_write_tree(axes, COLUMNS, order, points, LISTS, file, bytes, &found);
    last = lohandema_read_tree(file, bytes, indices, points, cells, NODES, new_own, NODES, new_begin, NODES, new_total, NODES,
                               starts, NODES + 1, near, KEYS, read_starts, NODES + 1, far, KEYS, &found_axes, &found,
                               &sources_found, &u, &v);
    if (last.number == 0 && (found != nodes || sources_found != points || u != u_starts[nodes] || v != v_starts[nodes]))
        last.number = 99;
    free(file);
    free(near);
    free(far);
}

static void is_arrangement(void)
{
    last.number = lohandema_is_arrangement(order, points, points) ? 0 : 99;
}

/* With empty cells, which the tree has that build_tree has just built; u_starts to v_keys are free by now. */
static void balance_tree(void)
{
    size_t count;
    uint64_t depth;
    last = lohandema_balance_tree(BOX, sources, axes * points, COLUMNS, order, points, work, 2 * POINTS, indices, points,
                                  u_keys, KEYS, new_own, KEYS, new_begin, KEYS, new_total, KEYS, &count, &depth);
}

/* The tree that one more source goes into is built without targets. */
static void build_without_targets(void)
{
    uint64_t depth;
    last = lohandema_build_tree(BOX, sources, axes * points, NULL, 0, limit, 1, true, false, work, 2 * POINTS, order, points,
                                key, NODES, own, NODES, begin, NODES, total, NODES, &nodes, &depth);
}

/* The first source once more. */
static void add_source(void)
{
    size_t count;
    uint64_t depth;
    last = lohandema_add_source(BOX, sources, axes * points, sources, limit, true, COLUMNS, order, points, work, 3 * POINTS,
                                u_starts, points + 1, u_keys, KEYS, new_own, KEYS, new_begin, KEYS, new_total, KEYS, &count,
                                &depth);
}

static void keys_of_one(lohandema_ended (*call)(size_t, uint64_t, uint64_t *, size_t *), uint64_t of)
{
    uint64_t keys[LOHANDEMA_MOST_KEYS];
    size_t len;
    last = call(axes, of, keys, &len);
}

static void get_neighbours(void)
{
    keys_of_one(lohandema_get_neighbours, key[nodes - 1]);
}

static void get_children(void)
{
    keys_of_one(lohandema_get_children, key[1]);
}

static void get_siblings(void)
{
    keys_of_one(lohandema_get_siblings, key[nodes - 1]);
}

static void get_ancestors(void)
{
    keys_of_one(lohandema_get_ancestors, key[nodes - 1]);
}

static void number_of_a_key(void)
{
    uint64_t number;
    last = lohandema_get_level(axes, key[nodes - 1], &number);
    last = lohandema_get_parent(axes, key[nodes - 1], &number);
    last = lohandema_get_child_index(axes, key[nodes - 1], &number);
}

static void encode_morton_point(void)
{
    const uint64_t anchor[3] = {65535, 65535, 65535};
    uint64_t number;
    last = lohandema_encode_morton_point(axes, anchor, 16, &number);
}

static void decode_key(void)
{
    uint64_t anchor[3], level;
    last = lohandema_decode_key(axes, key[nodes - 1], anchor, &level);
}

static void touching(void)
{
    bool truth;
    last = lohandema_touching(axes, key[nodes - 1], key[nodes - 2], &truth);
}

static void box_outcome(void)
{
    last = lohandema_box_outcome(BOX);
}

static void point_to_anchor(void)
{
    uint64_t anchor[3];
    last = lohandema_point_to_anchor(BOX, sources, 16, anchor);
}

static void point_to_key(void)
{
    uint64_t number;
    last = lohandema_point_to_key(BOX, sources, 16, &number);
}

static void get_side_length(void)
{
    double side;
    last = lohandema_get_side_length(BOX, 16, &side);
}

static void get_center_length(void)
{
    double middle[3], length;
    last = lohandema_get_center_length(BOX, key[nodes - 1], middle, &length);
}

static void are_adjacent(void)
{
    bool truth;
    last = lohandema_are_adjacent(BOX, key[nodes - 1], key[1], &truth);
}

static void calculate_tree_center_and_radius(void)
{
    const double extents[6] = {0.5, 7.5, 8.5, 9.5, 10.5, 11.5};
    double middle[3], radius;
    size_t found;
    last = lohandema_calculate_tree_center_and_radius(extents, 2 * axes, middle, &radius, &found);
}

static void reference_depth(void)
{
    uint64_t depth;
    last = lohandema_reference_depth(axes, SIZE_MAX, &depth);
}

/* ---- the calls in an order in which each has what it needs, and what the header says of each */

static struct {
    const char *name;
    void (*run)(void);
    size_t said, seen;
} calls[] = {
    {"(nothing, for comparison)", nothing, 8 * KIB, 0},
    {"count_nodes_on_grid", count_nodes_on_grid, 48 * KIB, 0},
    {"count_nodes", count_nodes, 48 * KIB, 0},
    {"build_tree_on_grid", build_tree_on_grid, 48 * KIB, 0},
    {"build_tree", build_tree, 48 * KIB, 0},
    {"is_well_formed", is_well_formed, 8 * KIB, 0},
    {"depth_of", depth_of, 8 * KIB, 0},
    {"find_node", find_node, 8 * KIB, 0},
    {"is_leaf", is_leaf, 8 * KIB, 0},
    {"next_of_level", next_of_level, 8 * KIB, 0},
    {"leaf_sources", leaf_sources, 8 * KIB, 0},
    {"cell_sources", cell_sources, 8 * KIB, 0},
    {"points_to_keys", points_to_keys, LOHANDEMA_STACK_POINTS_TO_KEYS, 0},
    {"point_to_leaf", point_to_leaf, 8 * KIB, 0},
    {"get_points_to_leaves_map", get_points_to_leaves_map, 8 * KIB, 0},
    {"get_sourced_cells", get_sourced_cells, 32 * KIB, 0},
    {"get_list_sizes", get_list_sizes, LOHANDEMA_STACK, 0},
    {"get_interaction_lists", get_interaction_lists, LOHANDEMA_STACK, 0},
    {"get_near_work", get_near_work, LOHANDEMA_STACK, 0},
    {"lists_right", lists_right, 96 * KIB, 0},
    {"sum_check", sum_check, 96 * KIB, 0},
    {"check_sums", check_sums, LOHANDEMA_STACK, 0},
    {"write_tree", write_tree, 96 * KIB, 0},
    {"read_tree", read_tree, 96 * KIB, 0},
    {"salvage", salvage, 8 * KIB, 0},
    {"salvage of reversed rows", salvage_reversed, 8 * KIB, 0},
    {"is_arrangement", is_arrangement, 32 * KIB, 0},
    {"balance_tree", balance_tree, LOHANDEMA_STACK, 0},
    {"build_tree without targets", build_without_targets, 48 * KIB, 0},
    {"add_source", add_source, 48 * KIB, 0},
    {"get_neighbours", get_neighbours, 8 * KIB, 0},
    {"get_children", get_children, 8 * KIB, 0},
    {"get_siblings", get_siblings, 8 * KIB, 0},
    {"get_ancestors", get_ancestors, 8 * KIB, 0},
    {"get_level, get_parent, get_child_index", number_of_a_key, 8 * KIB, 0},
    {"encode_morton_point", encode_morton_point, 8 * KIB, 0},
    {"decode_key", decode_key, 8 * KIB, 0},
    {"touching", touching, 8 * KIB, 0},
    {"box_outcome", box_outcome, 8 * KIB, 0},
    {"point_to_anchor", point_to_anchor, 8 * KIB, 0},
    {"point_to_key", point_to_key, 8 * KIB, 0},
    {"get_side_length", get_side_length, 8 * KIB, 0},
    {"get_center_length", get_center_length, 8 * KIB, 0},
    {"are_adjacent", are_adjacent, 8 * KIB, 0},
    {"calculate_tree_center_and_radius", calculate_tree_center_and_radius, 8 * KIB, 0},
    {"reference_depth", reference_depth, 8 * KIB, 0},
};
enum { CALLS = sizeof calls / sizeof calls[0] };

/* ---- points: ways to go deep */

static uint64_t random_state = 88172645463325252u;

static double random_unit(void)
{
    random_state ^= random_state << 13;
    random_state ^= random_state >> 7;
    random_state ^= random_state << 17;
    return (double)(random_state >> 11) / 9007199254740992.0;
}

enum { SCATTERED, IN_PAIRS, TO_THE_LOW_CORNER, TO_THE_HIGH_CORNER, IN_THE_HIGH_CORNER, WAYS };

/* Half the points about one place; pairs that part only at the last levels; ever nearer to a corner, so that the cells go down
 * to it, and no halving of the range of their codes parts them evenly; all in the last cell of the box. */
static double coordinate(int way, size_t point)
{
    if (way == SCATTERED)
        return point % 2 == 0 ? 64.0 * random_unit() : 20.0 + random_unit();
    if (way == IN_PAIRS)
        return (double)(point / 2 % 60) + (point % 2 == 0 ? 0.0001 : 0.0011) + random_unit() / 4096.0;
    if (way == IN_THE_HIGH_CORNER)
        return 63.9999;
    double x = 63.0 * random_unit();
    for (size_t i = 0; i < point % 17; i++)
        x /= 2.0;
    return way == TO_THE_LOW_CORNER ? x : 63.9999 - x;
}

static void make_points(int way)
{
    for (size_t i = 0; i < axes * points; i++) {
        sources[i] = coordinate(way, i / axes);
        targets[i] = coordinate(way == SCATTERED ? TO_THE_LOW_CORNER : SCATTERED, i / axes);
    }
}

/* Few points with a small limit, for deep trees, or many with a larger one, for wide ones. */
static void choose_number(int wide)
{
    points = wide ? POINTS : 200;
    limit = wide ? 512 : 2;
}

/* ---- the measuring */

static const uint64_t paint = 0xA5A5A5A5A5A5A5A5u;
static uint64_t *stack;
static size_t used;

static void __attribute__((noinline)) paint_below(volatile uint64_t *end)
{
    for (volatile uint64_t *word = stack; word < end; word++)
        *word = paint;
}

/* Runs a call with nothing but paint below it, and sees how far the paint is gone. */
static void *on_thread(void *run)
{
    uint64_t *here = (uint64_t *)__builtin_frame_address(0), *lowest = stack;
    paint_below(here - 64);
    (*(void (**)(void))run)();
    while (*lowest == paint)
        lowest++;
    used = (size_t)(here - lowest) * sizeof *here;
    return NULL;
}

static void fail(const char *why)
{
    fprintf(stderr, "stack: %s\n", why);
    exit(2);
}

static void measure(size_t call)
{
    pthread_attr_t attributes;
    pthread_t thread;
    last.number = 0;
    if (pthread_attr_init(&attributes) != 0 || pthread_attr_setstack(&attributes, stack, STACK) != 0 ||
        pthread_create(&thread, &attributes, on_thread, &calls[call].run) != 0 || pthread_join(thread, NULL) != 0)
        fail("no thread with a stack of its own can be made");
    pthread_attr_destroy(&attributes);
    if (last.number != 0) {
        fprintf(stderr, "stack: %s: refused %s %zu\n", calls[call].name, lohandema_refusal_name(last.number), last.value);
        exit(2);
    }
    if (used > calls[call].seen)
        calls[call].seen = used;
}

int main(void)
{
    int status = 0;
    stack = (uint64_t *)aligned_alloc(65536, STACK);
    if (stack == NULL)
        fail("no memory");
    for (axes = 1; axes <= 3; axes++)
        for (int way = 0; way < 2 * WAYS; way++) {
            choose_number(way % 2);
            make_points(way / 2);
            for (size_t call = 0; call < CALLS; call++)
                measure(call);
        }
    for (size_t call = 0; call < CALLS; call++) {
        printf("%-40s %7zu bytes, at most %zu said\n", calls[call].name, calls[call].seen, calls[call].said);
        if (calls[call].seen > calls[call].said)
            status = 1;
    }
    if (status != 0)
        fprintf(stderr, "stack: a call needs more than the header says: raise the figure there\n");
    free(stack);
    return status;
}
