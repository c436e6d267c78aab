/* The order of nodes: depth first. The sources in a cell of any level are one part of the order column, and the depth is the
 * greatest level. For every call that takes a tree, columns in which nodes stand level by level are none. */
#include "checks.h"

static const double centre[3] = {4.0, 0.0, 0.0};

/* ---- the sources of a cell */

/* The sources 1.5, 6.5, 0.5, 7.5 about 4, with limit 1. */
static const double sources[4] = {1.5, 6.5, 0.5, 7.5};
static const size_t order[4] = {2, 0, 1, 3};
static const tree example = {9,
                             9,
                             {0, 1, 2, 3, 32771, 32769, 98306, 196611, 229379},
                             {0, 0, 0, 1, 1, 0, 0, 1, 1},
                             {0, 0, 0, 0, 1, 2, 2, 2, 3},
                             {4, 2, 2, 1, 1, 2, 2, 1, 1}};

/* How many sources a call finds in a node's cell, and where they start in an order column of so many entries. */
static size_t cell(size_t node, size_t order_len, size_t *start)
{
    *start = 77;
    return lohandema_cell_sources(example.total, 9, example.begin, 9, order, order_len, node, start);
}

/* What is built is the example, and its order column. */
static void built_example(void)
{
    uint64_t words[8], keys[9], depth;
    size_t indices[4], owns[9], begins[9], totals[9], nodes;
    ENDED(lohandema_build_tree(centre, 4.0, 1, sources, 4, NULL, 0, 1, 1, false, false, words, 8, indices, 4, keys, 9, owns, 9,
                               begins, 9, totals, 9, &nodes, &depth),
          0, 0);
    EXPECT(nodes == 9 && depth == 3 && STARTS_WITH(indices, order));
    EXPECT(memcmp(keys, example.key, sizeof keys) == 0 && memcmp(owns, example.own, sizeof owns) == 0);
    EXPECT(memcmp(begins, example.begin, sizeof begins) == 0 && memcmp(totals, example.total, sizeof totals) == 0);
}

/* Each node: as many sources as its total, from its begin on, each of them in the cell. */
static void cells_of_the_example(void)
{
    for (size_t node = 0; node < 9; node++) {
        size_t start, found = cell(node, 4, &start);
        EXPECT(found == example.total[node] && start == example.begin[node]);
        for (size_t i = start; i < start + found && i < 4; i++) {
            const double source[3] = {sources[order[i]], 0.0, 0.0};
            uint64_t holder;
            ENDED(lohandema_point_to_key(centre, 4.0, 1, source, example.key[node] % 32768, &holder), 0, 0);
            EXPECT(holder == example.key[node]);
        }
    }
}

/* Numbers past the columns, and parts that pass the end of the order column. */
static void empty_cells(void)
{
    const size_t past[4] = {9, 10, (size_t)1 << 63, SIZE_MAX}, most[2] = {SIZE_MAX, 1}, two[2] = {2, 2};
    size_t start;
    for (size_t i = 0; i < 4; i++)
        EXPECT(cell(past[i], 4, &start) == 0 && start == 0);
    EXPECT(cell(0, 3, &start) == 0 && start == 0);
    EXPECT(cell(5, 3, &start) == 0 && start == 0);
    EXPECT(cell(7, 3, &start) == 1 && start == 2);
    EXPECT(cell(8, 3, &start) == 0 && start == 0);
    start = 77;
    EXPECT(lohandema_cell_sources(most, 2, two, 2, order, 4, 0, &start) == 0 && start == 0);
    start = 77;
    EXPECT(lohandema_cell_sources(two, 2, most, 2, order, 4, 0, &start) == 0 && start == 0);
    EXPECT(lohandema_cell_sources(two, 2, most, 2, order, 4, 1, &start) == 2 && start == 1);
    start = 77;
    EXPECT(lohandema_cell_sources(two, 1, most, 2, order, 4, 1, &start) == 0 && start == 0);
    start = 77;
    EXPECT(lohandema_cell_sources(two, 2, most, 1, order, 4, 1, &start) == 0 && start == 0);
}

/* ---- the depth */

static void depths(void)
{
    const uint64_t last_is_coarse[6] = {0, 1, 2, 3, 32771, 32769}, any[3] = {5, 32767, 17};
    EXPECT(lohandema_depth_of(last_is_coarse, 6) == 3);
    EXPECT(lohandema_depth_of(any, 1) == 5 && lohandema_depth_of(any, 3) == 32767);
}

/* ---- nodes in another order */

/* The example level by level, as version 0.2 had it; and a cell's children before it or falling. */
static void other_orders(void)
{
    const tree right = {4, 4, {0, 1, 2, 32769}, {0, 0, 1, 1}, {0, 0, 0, 1}, {2, 1, 1, 1}};
    const tree by_level = {4, 4, {0, 1, 32769, 2}, {0, 0, 1, 1}, {0, 0, 0, 1}, {2, 1, 1, 1}};
    const tree falling = {4, 4, {0, 32769, 1, 2}, {0, 1, 0, 1}, {0, 0, 1, 1}, {2, 1, 1, 1}};
    const tree child_first = {4, 4, {0, 2, 1, 32769}, {0, 1, 0, 1}, {0, 0, 1, 1}, {2, 1, 1, 1}};
    const tree all_by_level = {9,
                               9,
                               {0, 1, 32769, 2, 98306, 3, 32771, 196611, 229379},
                               {0, 0, 0, 0, 0, 1, 1, 1, 1},
                               {0, 0, 0, 0, 0, 0, 1, 2, 3},
                               {4, 2, 2, 2, 2, 1, 1, 1, 1}};
    EXPECT(lohandema_is_well_formed(1, TREE_COLUMNS(right)) && lohandema_is_well_formed(1, TREE_COLUMNS(example)));
    no_tree(by_level);
    no_tree(falling);
    no_tree(child_first);
    no_tree(all_by_level);
}

/* A root with its children, and a chain to level 16 that parts there, are the same by level. */
static void same_orders(void)
{
    const tree children = {3, 3, {0, 1, 32769}, {0, 1, 2}, {0, 0, 1}, {3, 1, 2}};
    const double point[3] = {0.5, 0.0, 0.0};
    uint64_t u_keys[4], v_keys[4], leaf;
    size_t u_starts[19], v_starts[19], steps, u, v;
    tree chain = {18, 18, {0}, {0}, {0}, {0}};
    for (size_t i = 0; i < 17; i++) {
        chain.key[i] = i;
        chain.total[i] = 1;
    }
    chain.key[17] = 32768 + 16;
    chain.own[16] = chain.begin[17] = 1;
    EXPECT(lohandema_is_well_formed(1, TREE_COLUMNS(children)) && lohandema_is_well_formed(1, TREE_COLUMNS(chain)));
    ENDED(lohandema_get_interaction_lists(1, TREE_COLUMNS(chain), u_starts, 19, u_keys, 4, v_starts, 19, v_keys, 4, &u, &v), 0,
          0);
    EXPECT(u == 2 && v == 0 && lohandema_depth_of(chain.key, 18) == 16);
    ENDED(lohandema_points_to_keys(centre, 4.0, 1, TREE_COLUMNS(children), point, 1, &leaf, 1, &steps), 0, 0);
    EXPECT(leaf == 1 && steps == 0);
}

void test_order(void)
{
    built_example();
    cells_of_the_example();
    empty_cells();
    depths();
    other_orders();
    same_orders();
}
