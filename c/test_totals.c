/* The column of totals: for every call that takes a tree, columns with a wrong total are none, also where a sum of totals
 * passes 2^64. */
#include "checks.h"

/* The tree of 0.5, 1.5, 6.5, 7.5 about 4, with limit 1. */
static tree example(void)
{
    tree t = {9,
              9,
              {0, 1, 2, 3, 32771, 32769, 98306, 196611, 229379},
              {0, 0, 0, 1, 1, 0, 0, 1, 1},
              {0, 0, 0, 0, 1, 2, 2, 2, 3},
              {4, 2, 2, 1, 1, 2, 2, 1, 1}};
    return t;
}

/* A leaf at level 1 that stands before cells with children. */
static tree uneven(void)
{
    tree t = {5, 5, {0, 1, 32769, 98306, 229379}, {0, 2, 0, 0, 1}, {0, 0, 2, 2, 2}, {3, 2, 1, 1, 1}};
    return t;
}

/* ---- what is wrong */

/* Each entry for itself: the root, nodes with children, leaves, the last. */
static void one_entry(tree right)
{
    EXPECT(lohandema_is_well_formed(1, TREE_COLUMNS(right)));
    for (size_t node = 0; node < right.nodes; node++) {
        tree t = right;
        t.total[node]++;
        no_tree(t);
        t.total[node] -= 2;
        no_tree(t);
        t.total[node] = SIZE_MAX;
        no_tree(t);
    }
}

static void other_lengths(void)
{
    tree t = example();
    t.totals = 8;
    no_tree(t);
    t.totals = 10;
    no_tree(t);
    t.totals = 0;
    no_tree(t);
}

/* The smallest trees. */
static void few_nodes(void)
{
    const tree right = {2, 2, {0, 1}, {0, 1}, {0, 0}, {1, 1}}, root = {2, 2, {0, 1}, {0, 1}, {0, 0}, {0, 1}};
    const tree only_leaf = {2, 2, {0, 1}, {0, 1}, {0, 0}, {1, 0}}, alone = {1, 1, {0}, {0}, {0}, {1}};
    EXPECT(lohandema_is_well_formed(1, TREE_COLUMNS(right)));
    no_tree(root);
    no_tree(only_leaf);
    no_tree(alone);
}

/* 2^64 - 1 and 2 come to 1 where a sum wraps: as the totals of leaves that own one source between them, of leaves that own as
 * many, and of nodes above such leaves. */
static void sums_past_the_end(void)
{
    const size_t most = SIZE_MAX;
    const tree one = {3, 3, {0, 1, 32769}, {0, 1, 0}, {0, 0, 1}, {1, most, 2}};
    const tree owned = {3, 3, {0, 1, 32769}, {0, most, 2}, {0, 0, most}, {1, most, 2}};
    const tree above = {5, 5, {0, 1, 2, 32769, 65538}, {0, 0, 1, 0, 0}, {0, 0, 0, 1, 1}, {1, most, 1, 2, 0}};
    no_tree(one);
    no_tree(owned);
    no_tree(above);
}

void test_totals(void)
{
    one_entry(example());
    one_entry(uneven());
    other_lengths();
    few_nodes();
    sums_past_the_end();
}
