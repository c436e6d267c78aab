/* The nodes of a key column: found by key, leaves, and those of a level one after the other; in columns that are no tree too. */
#include "checks.h"

#include <stdlib.h>

/* The tree of 0.5, 1.5, 6.5, 7.5 on one axis about 4, with limit 1. */
enum { NODES = 9 };
static const uint64_t key[NODES] = {0, 1, 2, 3, 32771, 32769, 98306, 196611, 229379};

static void found_in_the_example(void)
{
    const bool leaves[NODES] = {false, false, false, true, true, false, false, true, true};
    size_t node;
    for (size_t i = 0; i < NODES; i++) {
        node = 77;
        EXPECT(lohandema_find_node(1, key, NODES, key[i], &node) && node == i);
        EXPECT(lohandema_is_leaf(key, NODES, i) == leaves[i]);
    }
    EXPECT(!lohandema_is_leaf(key, NODES, NODES) && !lohandema_is_leaf(key, NODES, SIZE_MAX));
    /* the last row is a leaf, whatever stands behind it */
    EXPECT(lohandema_is_leaf(key, 3, 2) && !lohandema_is_leaf(key, 1, 0));
}

static void found_nowhere(void)
{
    const uint64_t others[5] = {32770, 4, 65538, 17, UINT64_MAX};
    size_t node;
    for (size_t i = 0; i < 5; i++) {
        node = 77;
        EXPECT(!lohandema_find_node(1, key, NODES, others[i], &node) && node == 0);
    }
    node = 77;
    EXPECT(!lohandema_find_node(0, key, NODES, 1, &node) && node == 0);
    node = 77;
    EXPECT(!lohandema_find_node(4, key, NODES, 1, &node) && node == 0);
    node = 77;
    EXPECT(!lohandema_find_node(1, NULL, 0, 0, &node) && node == 0);
    EXPECT(!lohandema_is_leaf(NULL, 0, 0) && !lohandema_is_leaf(NULL, 0, 1));
    EXPECT(lohandema_next_of_level(NULL, 0, 0, 0) == 0 && lohandema_next_of_level(NULL, 0, 0, 9) == 0);
}

static void by_level(void)
{
    const size_t first[4] = {0, 1, 2, 3}, after[4] = {NODES, 5, 6, 4};
    for (uint64_t level = 0; level < 4; level++) {
        EXPECT(lohandema_next_of_level(key, NODES, level, 0) == first[level]);
        EXPECT(lohandema_next_of_level(key, NODES, level, first[level] + 1) == after[level]);
    }
    EXPECT(lohandema_next_of_level(key, NODES, 4, 0) == NODES && lohandema_next_of_level(key, NODES, UINT64_MAX, 0) == NODES);
    EXPECT(lohandema_next_of_level(key, NODES, 3, NODES) == NODES && lohandema_next_of_level(key, NODES, 3, SIZE_MAX) == NODES);
}

/* Columns of random keys, in any order: what is found has the key; what is a leaf, and of a level, is as the rows say. */
static void in_any_column(void)
{
    uint64_t any[24];
    size_t node;
    srand(28);
    for (int round = 0; round < 400; round++) {
        size_t count = (size_t)(rand() % 24);
        for (size_t i = 0; i < count; i++)
            any[i] = (uint64_t)(rand() % 5) * 32768 + (uint64_t)(rand() % 4);
        for (size_t i = 0; i <= count; i++) {
            uint64_t wanted = (uint64_t)(rand() % 5) * 32768 + (uint64_t)(rand() % 4);
            size_t next = i;
            if (lohandema_find_node(1 + (size_t)round % 3, any, count, wanted, &node))
                EXPECT(node < count && any[node] == wanted);
            else
                EXPECT(node == 0);
            EXPECT(lohandema_is_leaf(any, count, i) ==
                   (i > 0 && i < count && (i + 1 == count || any[i + 1] % 32768 <= any[i] % 32768)));
            while (next < count && any[next] % 32768 != wanted % 32768)
                next++;
            EXPECT(lohandema_next_of_level(any, count, wanted % 32768, i) == next);
        }
    }
}

void test_nodes(void)
{
    found_in_the_example();
    found_nowhere();
    by_level();
    in_any_column();
}
