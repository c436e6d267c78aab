/* The calls on a tree: known answers on the example, each refusal, and zeros in what was lent after a refusal. */
#include "checks.h"

#include <math.h>
#include <stdlib.h>

/* The tree of 0.5, 1.5, 6.5, 7.5 on one axis about 4, with limit 1. */
enum { NODES = 9, ROOM = 24 };
static const double centre[3] = {4.0, 0.0, 0.0};
static const uint64_t key[NODES] = {0, 1, 2, 3, 32771, 32769, 98306, 196611, 229379};
static const size_t own[NODES] = {0, 0, 0, 1, 1, 0, 0, 1, 1}, begin[NODES] = {0, 0, 0, 0, 1, 2, 2, 2, 3};
static const size_t total[NODES] = {4, 2, 2, 1, 1, 2, 2, 1, 1};

/* Columns that are no tree: the root's child owns a source. */
static const size_t lying[NODES] = {0, 1, 0, 1, 1, 0, 0, 1, 1};

#define COLUMNS(owns) key, NODES, (owns), NODES, begin, NODES, total, NODES

static void known_columns(void)
{
    const size_t order[4] = {0, 1, 2, 3};
    size_t start = 77;
    EXPECT(lohandema_is_well_formed(1, COLUMNS(own)) && !lohandema_is_well_formed(1, COLUMNS(lying)));
    EXPECT(!lohandema_is_well_formed(1, key, NODES, own, NODES, begin, NODES - 1, total, NODES));
    EXPECT(!lohandema_is_well_formed(0, COLUMNS(own)) && !lohandema_is_well_formed(4, COLUMNS(own)));
    EXPECT(lohandema_depth_of(key, NODES) == 3 && lohandema_depth_of(key, 1) == 1);
    EXPECT(lohandema_leaf_sources(own, NODES, begin, NODES, order, 4, 4, &start) == 1 && start == 1);
    EXPECT(lohandema_leaf_sources(own, NODES, begin, NODES, order, 4, 1, &start) == 0 && start == 0);
    start = 77;
    EXPECT(lohandema_leaf_sources(own, NODES, begin, NODES, order, 4, 9, &start) == 0 && start == 0);
    start = 77;
    EXPECT(lohandema_leaf_sources(own, NODES, begin, NODES, order, 3, 8, &start) == 0 && start == 0);
    start = 77;
    EXPECT(lohandema_leaf_sources(own, NODES, begin, NODES, order, 4, SIZE_MAX, &start) == 0 && start == 0);
}

/* ---- lookup */

static uint64_t output[ROOM];
static size_t steps;

static lohandema_ended look_up(double radius, size_t axes, const size_t *owns, const double *points, size_t len, size_t room)
{
    fill_with_junk(output, sizeof output);
    steps = 77;
    return lohandema_points_to_keys(centre, radius, axes, COLUMNS(owns), points, len, output, room, &steps);
}

#define LOOKUP_REFUSED(call, room, number, value)                                                                            \
    do {                                                                                                                     \
        ENDED((call), (number), (value));                                                                                    \
        EXPECT(steps == 0 && ZEROED(output, (room)));                                                                        \
    } while (0)

static void lookup(void)
{
    const double points[2] = {7.9, 0.0}, bad[3] = {0.5, 3.0, 8.5}, worse[3] = {0.5, NAN, 3.0};
    const uint64_t leaves[2] = {229379, 3};
    ENDED(look_up(4.0, 1, own, points, 2, 5), 0, 0);
    EXPECT(steps == 0 && STARTS_WITH(output, leaves) && REST_ZEROED(output, 2, 5));
    LOOKUP_REFUSED(look_up(0.1, 0, own, points, 2, 5), 5, LOHANDEMA_DIMS, 0);
    LOOKUP_REFUSED(look_up(0.1, 2, own, points, 1, 5), 5, LOHANDEMA_BOX, 0);
    LOOKUP_REFUSED(look_up(4.0, 2, lying, points, 1, 5), 5, LOHANDEMA_SHAPE, 0);
    LOOKUP_REFUSED(look_up(4.0, 1, lying, bad, 3, 2), 2, LOHANDEMA_TREE, 0);
    LOOKUP_REFUSED(look_up(4.0, 1, own, bad, 3, 2), 2, LOHANDEMA_ROOM, LOHANDEMA_ROOM_POINTS);
    LOOKUP_REFUSED(look_up(4.0, 1, own, bad, 3, 3), 3, LOHANDEMA_UNSTORED, 1);
    LOOKUP_REFUSED(look_up(4.0, 1, own, worse, 3, 4), 4, LOHANDEMA_POINT, 1);
    EXPECT(BEHIND(look_up(4.0, 1, own, worse, 3, 4), 1, 0, LOHANDEMA_NOT_FINITE));
    EXPECT(BEHIND(look_up(4.0, 1, own, bad + 2, 1, 4), 0, 0, LOHANDEMA_ABOVE));
}

static lohandema_ended look_up_one(size_t axes, double radius, const size_t *owns, double x, uint64_t *leaf,
                                   uint64_t *climbed)
{
    const double point[3] = {x, NAN, NAN};
    *leaf = *climbed = 77;
    return lohandema_point_to_leaf(centre, radius, axes, COLUMNS(owns), point, leaf, climbed);
}

static void lookup_of_one(void)
{
    const struct {
        size_t axes;
        double radius;
        const size_t *owns;
        double x;
        uint64_t number;
    } refused[5] = {{4, 0.1, lying, NAN, LOHANDEMA_DIMS},
                    {1, 0.1, lying, NAN, LOHANDEMA_BOX},
                    {1, 4.0, lying, NAN, LOHANDEMA_TREE},
                    {1, 4.0, own, NAN, LOHANDEMA_POINT},
                    {1, 4.0, own, 3.0, LOHANDEMA_UNSTORED}};
    const uint64_t small[3] = {0, 1, 32769};
    const size_t none[3] = {0, 0, 0};
    const double point[3] = {6.9, 0.0, 0.0};
    uint64_t leaf, climbed;
    ENDED(look_up_one(1, 4.0, own, 6.9, &leaf, &climbed), 0, 0);
    EXPECT(leaf == 196611 && climbed == 0);
    ENDED(lohandema_point_to_leaf(centre, 4.0, 1, small, 3, none, 3, none, 3, none, 3, point, &leaf, &climbed), 0, 0);
    EXPECT(leaf == 32769 && climbed == 0);
    for (size_t i = 0; i < 5; i++) {
        ENDED(look_up_one(refused[i].axes, refused[i].radius, refused[i].owns, refused[i].x, &leaf, &climbed),
              refused[i].number, 0);
        EXPECT(leaf == 0 && climbed == 0);
    }
}

/* A leaf at level 1 beside ones at level 3: two steps. */
static void lookup_with_steps(void)
{
    const uint64_t uneven[5] = {0, 1, 32769, 98306, 229379};
    const size_t owns[5] = {0, 2, 0, 0, 1}, begins[5] = {0, 0, 2, 2, 2}, totals[5] = {3, 2, 1, 1, 1};
    const double points[2] = {0.0, 7.5}, point[3] = {3.0, 0.0, 0.0};
    const uint64_t leaves[2] = {1, 229379};
    uint64_t leaf, climbed;
    fill_with_junk(output, sizeof output);
    ENDED(lohandema_points_to_keys(centre, 4.0, 1, uneven, 5, owns, 5, begins, 5, totals, 5, points, 2, output, 2, &steps), 0,
          0);
    EXPECT(steps == 2 && STARTS_WITH(output, leaves) && REST_ZEROED(output, 2, 2));
    ENDED(lohandema_point_to_leaf(centre, 4.0, 1, uneven, 5, owns, 5, begins, 5, totals, 5, point, &leaf, &climbed), 0, 0);
    EXPECT(leaf == 1 && climbed == 2);
}

/* ---- grouping and sourced cells */

static size_t starts[ROOM], indices[ROOM];

static lohandema_ended group(size_t axes, const size_t *owns, const uint64_t *points, size_t len, size_t starts_len,
                             size_t indices_len)
{
    fill_with_junk(starts, sizeof starts);
    fill_with_junk(indices, sizeof indices);
    return lohandema_get_points_to_leaves_map(axes, COLUMNS(owns), points, len, starts, starts_len, indices, indices_len);
}

#define GROUP_REFUSED(axes, owns, points, len, starts_len, indices_len, number, value)                                       \
    do {                                                                                                                     \
        ENDED(group(axes, owns, points, len, starts_len, indices_len), (number), (value));                                   \
        EXPECT(ZEROED(starts, (starts_len)) && ZEROED(indices, (indices_len)));                                              \
    } while (0)

static void grouping(void)
{
    const uint64_t points[3] = {229379, 3, 229379}, bad[3] = {3, 1, 17};
    const size_t first[NODES + 1] = {0, 0, 0, 0, 1, 1, 1, 1, 1, 3}, grouped[3] = {1, 0, 2};
    ENDED(group(1, own, points, 3, 12, 5), 0, 0);
    EXPECT(STARTS_WITH(starts, first) && REST_ZEROED(starts, NODES + 1, 12));
    EXPECT(STARTS_WITH(indices, grouped) && REST_ZEROED(indices, 3, 5));
    GROUP_REFUSED(0, lying, bad, 3, 9, 2, LOHANDEMA_DIMS, 0);
    GROUP_REFUSED(1, lying, bad, 3, 9, 2, LOHANDEMA_TREE, 0);
    GROUP_REFUSED(1, own, bad, 3, 9, 3, LOHANDEMA_ROOM, LOHANDEMA_ROOM_POINTS);
    GROUP_REFUSED(1, own, bad, 3, 10, 2, LOHANDEMA_ROOM, LOHANDEMA_ROOM_POINTS);
    GROUP_REFUSED(1, own, bad, 3, 10, 3, LOHANDEMA_NOTLEAF, 1);
}

static void refused_by_count(void)
{
    const size_t many = LOHANDEMA_MOST_POINTS + 1;
    uint64_t *leaves = (uint64_t *)calloc(many, sizeof *leaves);
    double *points = (double *)calloc(many, sizeof *points);
    if (leaves == NULL || points == NULL)
        abort();
    GROUP_REFUSED(1, lying, leaves, many, 10, 3, LOHANDEMA_COUNT, 0);
    LOOKUP_REFUSED(look_up(4.0, 1, lying, points, many, 4), 4, LOHANDEMA_COUNT, 0);
    free(leaves);
    free(points);
}

static void sourced_cells(void)
{
    const uint64_t ascending[NODES] = {0, 1, 2, 3, 32769, 32771, 98306, 196611, 229379};
    uint64_t cells[ROOM];
    size_t count = 77;
    fill_with_junk(cells, sizeof cells);
    ENDED(lohandema_get_sourced_cells(1, COLUMNS(own), cells, 11, &count), 0, 0);
    EXPECT(count == NODES && STARTS_WITH(cells, ascending) && REST_ZEROED(cells, NODES, 11));
    fill_with_junk(cells, sizeof cells);
    count = 77;
    ENDED(lohandema_get_sourced_cells(1, COLUMNS(own), cells, 8, &count), LOHANDEMA_ROOM, LOHANDEMA_ROOM_CELLS);
    EXPECT(count == 0 && ZEROED(cells, 8));
    fill_with_junk(cells, sizeof cells);
    count = 77;
    ENDED(lohandema_get_sourced_cells(1, COLUMNS(lying), cells, 8, &count), LOHANDEMA_TREE, 0);
    EXPECT(count == 0 && ZEROED(cells, 8));
    ENDED(lohandema_get_sourced_cells(9, COLUMNS(lying), cells, 8, &count), LOHANDEMA_DIMS, 0);
}

/* ---- lists */

static size_t u_starts[ROOM], v_starts[ROOM], u, v;
static uint64_t u_keys[ROOM], v_keys[ROOM];

static lohandema_ended list(size_t axes, const size_t *owns, size_t us, size_t uk, size_t vs, size_t vk)
{
    fill_with_junk(u_starts, sizeof u_starts);
    fill_with_junk(v_starts, sizeof v_starts);
    fill_with_junk(u_keys, sizeof u_keys);
    fill_with_junk(v_keys, sizeof v_keys);
    u = v = 77;
    return lohandema_get_interaction_lists(axes, COLUMNS(owns), u_starts, us, u_keys, uk, v_starts, vs, v_keys, vk, &u, &v);
}

#define LISTS_REFUSED(axes, owns, us, uk, vs, vk, number, value)                                                             \
    do {                                                                                                                     \
        ENDED(list(axes, owns, us, uk, vs, vk), (number), (value));                                                          \
        EXPECT(u == 0 && v == 0 && ZEROED(u_starts, (us)) && ZEROED(u_keys, (uk)));                                          \
        EXPECT(ZEROED(v_starts, (vs)) && ZEROED(v_keys, (vk)));                                                              \
    } while (0)

static const size_t first_near[NODES + 1] = {0, 0, 0, 0, 2, 4, 4, 4, 6, 8};
static const uint64_t near_keys[8] = {3, 32771, 3, 32771, 196611, 229379, 196611, 229379};

static void lists(void)
{
    const size_t first_far[NODES + 1] = {0, 0, 0, 1, 1, 1, 1, 2, 2, 2};
    const uint64_t far_keys[2] = {98306, 2};
    ENDED(list(1, own, 12, 13, 14, 15), 0, 0);
    EXPECT(u == 8 && v == 2);
    EXPECT(STARTS_WITH(u_starts, first_near) && REST_ZEROED(u_starts, NODES + 1, 12));
    EXPECT(STARTS_WITH(u_keys, near_keys) && REST_ZEROED(u_keys, 8, 13));
    EXPECT(STARTS_WITH(v_starts, first_far) && REST_ZEROED(v_starts, NODES + 1, 14));
    EXPECT(STARTS_WITH(v_keys, far_keys) && REST_ZEROED(v_keys, 2, 15));
    ENDED(list(1, own, 10, 8, 10, 2), 0, 0);
    LISTS_REFUSED(0, lying, 9, 7, 9, 1, LOHANDEMA_DIMS, 0);
    LISTS_REFUSED(1, lying, 9, 7, 9, 1, LOHANDEMA_TREE, 0);
    LISTS_REFUSED(1, own, 9, 7, 9, 1, LOHANDEMA_ROOM, LOHANDEMA_ROOM_U_STARTS);
    LISTS_REFUSED(1, own, 10, 7, 9, 1, LOHANDEMA_ROOM, LOHANDEMA_ROOM_V_STARTS);
    LISTS_REFUSED(1, own, 10, 7, 10, 1, LOHANDEMA_ROOM, LOHANDEMA_ROOM_U_KEYS);
    LISTS_REFUSED(1, own, 10, 8, 10, 1, LOHANDEMA_ROOM, LOHANDEMA_ROOM_V_KEYS);
}

void test_trees(void)
{
    known_columns();
    lookup();
    lookup_of_one();
    lookup_with_steps();
    grouping();
    refused_by_count();
    sourced_cells();
    lists();
}
