/* The sizes of the lists: those that the list call then writes in just so much room, and each refusal with zeros after it. And the
 * number of nodes: the build then has just so much room. */
#include "checks.h"

#include <stdlib.h>

/* The tree of 0.5, 1.5, 6.5, 7.5 on one axis about 4, with limit 1. */
enum { NODES = 9, ROOM = 12, SOURCES = 200, MOST = 4000, MANY = 20000 };
static const uint64_t key[NODES] = {0, 1, 2, 3, 32771, 32769, 98306, 196611, 229379};
static const size_t own[NODES] = {0, 0, 0, 1, 1, 0, 0, 1, 1}, begin[NODES] = {0, 0, 0, 0, 1, 2, 2, 2, 3};
static const size_t total[NODES] = {4, 2, 2, 1, 1, 2, 2, 1, 1}, lying[NODES] = {4, 2, 2, 1, 1, 2, 2, 1, 2};

#define COLUMNS(totals) key, NODES, own, NODES, begin, NODES, (totals), NODES

static size_t work[ROOM], u, v;
static uint64_t row[ROOM];

static lohandema_ended sizes(size_t axes, const size_t *totals, size_t work_len, size_t row_len)
{
    fill_with_junk(work, sizeof work);
    fill_with_junk(row, sizeof row);
    u = v = 77;
    return lohandema_get_list_sizes(axes, COLUMNS(totals), work, work_len, row, row_len, &u, &v);
}

static void of_the_example(void)
{
    ENDED(sizes(1, total, NODES, NODES), 0, 0);
    EXPECT(u == 8 && v == 2 && ZEROED(work, NODES) && ZEROED(row, NODES));
    ENDED(sizes(1, total, ROOM, ROOM - 1), 0, 0);
    EXPECT(u == 8 && v == 2 && ZEROED(work, ROOM) && ZEROED(row, ROOM - 1));
}

static void refused(void)
{
    ENDED(sizes(0, total, ROOM, ROOM), LOHANDEMA_DIMS, 0);
    EXPECT(u == 0 && v == 0 && ZEROED(work, ROOM) && ZEROED(row, ROOM));
    ENDED(sizes(1, lying, 1, 1), LOHANDEMA_TREE, 0);
    EXPECT(u == 0 && v == 0 && ZEROED(work, 1) && ZEROED(row, 1));
    ENDED(sizes(1, total, NODES - 1, NODES), LOHANDEMA_ROOM, LOHANDEMA_ROOM_WORK);
    EXPECT(u == 0 && v == 0 && ZEROED(work, NODES - 1) && ZEROED(row, NODES));
    ENDED(sizes(1, total, NODES, NODES - 1), LOHANDEMA_ROOM, LOHANDEMA_ROOM_WORK);
    EXPECT(u == 0 && v == 0 && ZEROED(work, NODES) && ZEROED(row, NODES - 1));
    ENDED(lohandema_get_list_sizes(1, COLUMNS(total), NULL, 0, NULL, 0, &u, &v), LOHANDEMA_ROOM, LOHANDEMA_ROOM_WORK);
    ENDED(lohandema_get_list_sizes(1, NULL, 0, NULL, 0, NULL, 0, NULL, 0, NULL, 0, NULL, 0, &u, &v), LOHANDEMA_TREE, 0);
}

/* Trees of random sources: the list call with just so many keys is not refused, and with one fewer of either it is. */
static void just_enough(size_t axes, size_t count, size_t limit, bool keep_empty)
{
    static uint64_t keys[MOST], room[2 * SOURCES], one_row[MOST];
    static size_t owns[MOST], begins[MOST], totals[MOST], order[SOURCES], links[MOST], u_starts[MOST + 1], v_starts[MOST + 1];
    const double centre[3] = {4.0, 4.0, 4.0};
    double sources[3 * SOURCES];
    size_t nodes, counted, near, far;
    uint64_t depth, *u_keys, *v_keys;
    for (size_t i = 0; i < axes * count; i++)
        sources[i] = 8.0 * (rand() % 1000) / 1000.0 / (1 + rand() % 3);
    ENDED(lohandema_build_tree(centre, 4.0, axes, sources, axes * count, NULL, 0, limit, 1, keep_empty, false, room, 2 * SOURCES,
                               order, SOURCES, keys, MOST, owns, MOST, begins, MOST, totals, MOST, &nodes, &depth),
          0, 0);
#define BUILD(room_for)                                                                                                      \
    lohandema_build_tree(centre, 4.0, axes, sources, axes * count, NULL, 0, limit, 1, keep_empty, false, room, 2 * SOURCES,    \
                         order, SOURCES, keys, (room_for), owns, (room_for), begins, (room_for), totals, (room_for), &nodes,   \
                         &depth)
    ENDED(lohandema_count_nodes(centre, 4.0, axes, sources, axes * count, NULL, 0, limit, 1, keep_empty, false, room,
                                2 * SOURCES, order, SOURCES, &counted),
          0, 0);
    EXPECT(counted == nodes && all_zero(room, sizeof room) && all_zero(order, sizeof order));
    ENDED(BUILD(counted - 1), LOHANDEMA_ROOM, LOHANDEMA_ROOM_NODES);
    ENDED(BUILD(counted), 0, 0);
#define BUILT keys, nodes, owns, nodes, begins, nodes, totals, nodes
    ENDED(lohandema_get_list_sizes(axes, BUILT, links, nodes, one_row, nodes, &u, &v), 0, 0);
    u_keys = (uint64_t *)calloc(u + 1, sizeof *u_keys);
    v_keys = (uint64_t *)calloc(v + 1, sizeof *v_keys);
    if (u_keys == NULL || v_keys == NULL)
        exit(2);
    ENDED(lohandema_get_interaction_lists(axes, BUILT, u_starts, nodes + 1, u_keys, u, v_starts, nodes + 1, v_keys, v, &near,
                                          &far),
          0, 0);
    EXPECT(near == u && far == v);
    if (u > 0)
        ENDED(lohandema_get_interaction_lists(axes, BUILT, u_starts, nodes + 1, u_keys, u - 1, v_starts, nodes + 1, v_keys, v,
                                              &near, &far),
              LOHANDEMA_ROOM, LOHANDEMA_ROOM_U_KEYS);
    if (v > 0)
        ENDED(lohandema_get_interaction_lists(axes, BUILT, u_starts, nodes + 1, u_keys, u, v_starts, nodes + 1, v_keys, v - 1,
                                              &near, &far),
              LOHANDEMA_ROOM, LOHANDEMA_ROOM_V_KEYS);
    free(u_keys);
    free(v_keys);
}

/* More nodes than any build has room for. */
static void too_many_nodes(void)
{
    static double sources[3 * MANY];
    static uint64_t room[2 * MANY];
    static size_t order[MANY];
    const double centre[3] = {4.0, 4.0, 4.0};
    size_t nodes = 77;
    for (size_t i = 0; i < 3 * MANY; i++)
        sources[i] = 8.0 * (rand() % 10000) / 10000.0;
    fill_with_junk(room, sizeof room);
    fill_with_junk(order, sizeof order);
    ENDED(lohandema_count_nodes(centre, 4.0, 3, sources, 3 * MANY, NULL, 0, 0, 1, true, false, room, 2 * MANY, order, MANY,
                                &nodes),
          LOHANDEMA_ROOM, LOHANDEMA_ROOM_NODES);
    EXPECT(nodes == 0 && ZEROED(room, 2 * MANY) && ZEROED(order, MANY));
}

void test_sizes(void)
{
    of_the_example();
    refused();
    srand(28);
    for (size_t axes = 1; axes <= 3; axes++)
        for (size_t count = 0; count <= SOURCES; count += 20)
            for (size_t limit = 2; limit < 9; limit += 3) {
                just_enough(axes, count, limit, false);
                just_enough(axes, count, limit, true);
            }
    too_many_nodes();
}
