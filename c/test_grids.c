/* The build on a grid: the trees of the listed points, each refusal of its chain, and zeros in what was lent after one. Each is
 * counted too. */
#include "checks.h"

#include <math.h>
#include <stdlib.h>

static const double centre[3] = {4.0, 4.0, 4.0};
static const double four[4] = {0.5, 1.5, 6.5, 7.5};

/* What a build on a grid is asked, and what is lent to it. */
enum { ROOM = 300 };
typedef struct {
    double radius;
    size_t axes;
    const double *sources;
    size_t sources_len;
    double origin[3], spacing[3];
    size_t shape[3], limit, order;
    bool keep_empty, refine;
    size_t work_len, indices_len, key_len, own_len, begin_len, total_len;
} asked;

static uint64_t work[ROOM], key[ROOM], depth;
static size_t indices[ROOM], own[ROOM], begin[ROOM], total[ROOM], nodes;

/* Four sources on one axis, limit 4, and 33 points of a grid in [3, 3.52). Past the axis there is nothing that a grid may have:
 * it is not looked at. */
static asked example(void)
{
    asked a = {4.0, 1,    four, 4,  {3.0, NAN, NAN}, {1.0 / 64.0, 0.0, -1.0}, {33, 0, 0}, 4,
               1,   true, true, 20, 21,              100,                     101,        102, 103};
    return a;
}

static void fill_all(void)
{
    fill_with_junk(work, sizeof work);
    fill_with_junk(key, sizeof key);
    fill_with_junk(indices, sizeof indices);
    fill_with_junk(own, sizeof own);
    fill_with_junk(begin, sizeof begin);
    fill_with_junk(total, sizeof total);
    nodes = 77;
    depth = 77;
}

/* The nodes of the same are counted: refused as the build is, but for node columns that are short. */
static void count_too(asked a, lohandema_ended built)
{
    static uint64_t room[ROOM];
    static size_t order[ROOM];
    size_t count = 77;
    lohandema_ended ended;
    fill_with_junk(room, sizeof room);
    fill_with_junk(order, sizeof order);
    ended = lohandema_count_nodes_on_grid(centre, a.radius, a.axes, a.sources, a.sources_len, a.origin, a.spacing, a.shape,
                                          a.limit, a.order, a.keep_empty, a.refine, room, a.work_len, order, a.indices_len,
                                          &count);
    EXPECT(ZEROED(room, a.work_len) && ZEROED(order, a.indices_len));
    if (built.number == LOHANDEMA_ROOM && built.value == LOHANDEMA_ROOM_NODES) {
        ENDED(ended, 0, 0);
        EXPECT(count > a.key_len || count > a.own_len || count > a.begin_len || count > a.total_len);
    } else {
        ENDED(ended, built.number, built.value);
        EXPECT(ended.axis == built.axis && ended.reason == built.reason && count == nodes);
    }
}

static lohandema_ended build(asked a)
{
    lohandema_ended ended;
    fill_all();
    ended = lohandema_build_tree_on_grid(centre, a.radius, a.axes, a.sources, a.sources_len, a.origin, a.spacing, a.shape,
                                         a.limit, a.order, a.keep_empty, a.refine, work, a.work_len, indices, a.indices_len,
                                         key, a.key_len, own, a.own_len, begin, a.begin_len, total, a.total_len, &nodes,
                                         &depth);
    count_too(a, ended);
    return ended;
}

#define GRID_REFUSED(a, number, value)                                                                                       \
    do {                                                                                                                     \
        ENDED(build(a), (number), (value));                                                                                  \
        EXPECT(nodes == 0 && depth == 0 && ZEROED(work, (a).work_len) && ZEROED(indices, (a).indices_len));                  \
        EXPECT(ZEROED(key, (a).key_len) && ZEROED(own, (a).own_len));                                                        \
        EXPECT(ZEROED(begin, (a).begin_len) && ZEROED(total, (a).total_len));                                                \
    } while (0)

/* With no source about, a cell with more than 32 points splits; they take no work. */
static void known_tree(void)
{
    asked a = example();
    a.sources_len = 0;
    a.limit = 1;
    a.work_len = a.indices_len = 0;
    a.key_len = a.own_len = a.begin_len = a.total_len = 9;
    ENDED(build(a), 0, 0);
    EXPECT(nodes == 9 && depth == 4 && key[0] == 0 && key[1] == 1 && total[0] == 0);
    EXPECT(all_junk(work, sizeof work) && all_junk(indices, sizeof indices));
    a.shape[0] = 32;
    ENDED(build(a), 0, 0);
    EXPECT(nodes == 3 && depth == 1 && REST_ZEROED(key, 3, a.key_len));
}

/* The tree of the listed points, of two axes with the last one fastest, entry by entry. */
static void same_as_listed(void)
{
    enum { ROWS = 7, COLUMNS = 19 };
    static double targets[2 * ROWS * COLUMNS];
    static uint64_t keys[ROOM], room[ROWS * COLUMNS + 20], deep;
    static size_t numbers[ROOM], owns[ROOM], begins[ROOM], totals[ROOM], count;
    asked a = example();
    a.axes = 2;
    a.order = 2;
    a.origin[0] = 1.0;
    a.origin[1] = 0.1;
    a.spacing[0] = 0.125;
    a.spacing[1] = 0.3;
    a.shape[0] = ROWS;
    a.shape[1] = COLUMNS;
    a.key_len = a.own_len = a.begin_len = a.total_len = ROOM;
    for (size_t row = 0; row < ROWS * COLUMNS; row++) {
        targets[2 * row] = 1.0 + (double)(row / COLUMNS) * 0.125;
        targets[2 * row + 1] = 0.1 + (double)(row % COLUMNS) * 0.3;
    }
    ENDED(lohandema_build_tree(centre, 4.0, 2, four, 4, targets, 2 * ROWS * COLUMNS, a.limit, a.order, true, true, room,
                               ROWS * COLUMNS + 20, numbers, 20, keys, ROOM, owns, ROOM, begins, ROOM, totals, ROOM, &count,
                               &deep),
          0, 0);
    ENDED(build(a), 0, 0);
    EXPECT(count == nodes && deep == depth && nodes > 20 && STARTS_WITH(key, keys) && STARTS_WITH(own, owns));
    EXPECT(STARTS_WITH(begin, begins) && STARTS_WITH(total, totals) && indices[0] == numbers[0]);
    EXPECT(indices[1] == numbers[1] && REST_ZEROED(indices, 2, a.indices_len) && REST_ZEROED(work, 0, a.work_len));
}

/* Without both flags a grid is not looked at, whatever it holds, nor is the order. */
static void not_looked_at(void)
{
    asked a = example();
    a.origin[0] = NAN;
    a.spacing[0] = -INFINITY;
    a.shape[0] = 0;
    a.order = 99;
    a.refine = false;
    ENDED(build(a), 0, 0);
    EXPECT(nodes == 3 && depth == 1);
    a.keep_empty = false;
    ENDED(build(a), 0, 0);
    a.refine = true;
    ENDED(build(a), 0, 0);
    EXPECT(nodes == 3 && depth == 1 && total[0] == 4);
}

static void refused_by_figures(void)
{
    const double origins[3] = {NAN, INFINITY, -INFINITY};
    const double spacings[6] = {0.0, -0.0, -1.0, NAN, INFINITY, -5e-324};
    asked a;
    for (size_t i = 0; i < 3; i++) {
        a = example();
        a.origin[0] = origins[i];
        GRID_REFUSED(a, LOHANDEMA_GRID, 0);
    }
    for (size_t i = 0; i < 6; i++) {
        a = example();
        a.shape[0] = 1;
        a.spacing[0] = spacings[i];
        GRID_REFUSED(a, LOHANDEMA_GRID, 0);
    }
    a = example();
    a.shape[0] = 0;
    GRID_REFUSED(a, LOHANDEMA_GRID, 0);
    /* each of these would be refused by what follows, and is not */
    a = example();
    a.axes = 2;
    a.sources_len = 3;
    GRID_REFUSED(a, LOHANDEMA_GRID, 0);
}

static void refused_by_count(void)
{
    const size_t many = LOHANDEMA_MOST_POINTS + 1;
    double *points = (double *)calloc(many, sizeof *points);
    if (points == NULL)
        abort();
    asked a = example();
    a.sources = points;
    a.sources_len = many;
    a.order = 65;
    GRID_REFUSED(a, LOHANDEMA_COUNT, 0);
    free(points);
    a = example();
    a.shape[0] = many;
    a.order = 65;
    GRID_REFUSED(a, LOHANDEMA_COUNT, 0);
    /* 2^64 points, and three axes whose product passes 2^64 */
    a.axes = 2;
    a.spacing[1] = 1.0;
    a.origin[1] = 0.0;
    a.shape[0] = a.shape[1] = (size_t)1 << 32;
    GRID_REFUSED(a, LOHANDEMA_COUNT, 0);
    a.axes = 3;
    a.sources_len = 3;
    a.origin[2] = 0.0;
    a.spacing[2] = 1.0;
    a.shape[2] = SIZE_MAX;
    GRID_REFUSED(a, LOHANDEMA_COUNT, 0);
}

static void refused_by_points(void)
{
    const double bad[4] = {0.5, NAN, 9.0, 1.0};
    asked a = example();
    a.axes = 4;
    a.radius = 0.0;
    GRID_REFUSED(a, LOHANDEMA_DIMS, 0);
    a.axes = 1;
    a.shape[0] = 0;
    GRID_REFUSED(a, LOHANDEMA_BOX, 0);
    a = example();
    a.axes = 2;
    a.sources_len = 3;
    a.origin[1] = 1.0;
    a.spacing[1] = 1.0;
    a.shape[1] = LOHANDEMA_MOST_POINTS;
    GRID_REFUSED(a, LOHANDEMA_SHAPE, 0);
    a = example();
    a.sources = bad;
    a.order = 0;
    GRID_REFUSED(a, LOHANDEMA_ORDER, 0);
    a.order = 65;
    GRID_REFUSED(a, LOHANDEMA_ORDER, 0);
    a.order = 64;
    a.origin[0] = 8.0;
    GRID_REFUSED(a, LOHANDEMA_SOURCE, 1);
    a.sources = four;
    a.work_len = 7;
    GRID_REFUSED(a, LOHANDEMA_POINT, 0);
}

/* The row, axis and reason of the first point that is outside. */
static void refused_by_walls(void)
{
    asked a = example();
    a.origin[0] = 8.0;
    EXPECT(BEHIND(build(a), 0, 0, LOHANDEMA_ABOVE));
    a.origin[0] = -5e-324;
    EXPECT(BEHIND(build(a), 0, 0, LOHANDEMA_BELOW));
    a.origin[0] = 0.0;
    a.spacing[0] = 1.0;
    a.shape[0] = 8;
    ENDED(build(a), 0, 0);
    a.shape[0] = 9;
    EXPECT(BEHIND(build(a), 8, 0, LOHANDEMA_ABOVE));
    GRID_REFUSED(a, LOHANDEMA_POINT, 8);
    /* a product that is infinite is above too, and comes after the first that is outside */
    a.spacing[0] = 1.7e308;
    EXPECT(BEHIND(build(a), 1, 0, LOHANDEMA_ABOVE));
    /* of two axes the last leaves the box first */
    a.axes = 2;
    a.origin[1] = 0.0;
    a.spacing[0] = a.spacing[1] = 1.0;
    a.shape[0] = a.shape[1] = 9;
    EXPECT(BEHIND(build(a), 8, 1, LOHANDEMA_ABOVE));
    a.shape[1] = 8;
    EXPECT(BEHIND(build(a), 64, 0, LOHANDEMA_ABOVE));
    a.shape[0] = 1;
    a.spacing[0] = 1.7e308;
    ENDED(build(a), 0, 0);
}

static void refused_by_room(void)
{
    asked a = example();
    ENDED(build(a), 0, 0);
    const size_t needed = nodes;
    a.work_len = 7;
    a.indices_len = 3;
    a.key_len = needed - 1;
    GRID_REFUSED(a, LOHANDEMA_ROOM, LOHANDEMA_ROOM_WORK);
    a.work_len = 8;
    GRID_REFUSED(a, LOHANDEMA_ROOM, LOHANDEMA_ROOM_ORDER);
    a.indices_len = 4;
    GRID_REFUSED(a, LOHANDEMA_ROOM, LOHANDEMA_ROOM_NODES);
    a.key_len = needed;
    ENDED(build(a), 0, 0);
    a.own_len = needed - 1;
    GRID_REFUSED(a, LOHANDEMA_ROOM, LOHANDEMA_ROOM_NODES);
    a.own_len = needed;
    a.begin_len = needed - 1;
    GRID_REFUSED(a, LOHANDEMA_ROOM, LOHANDEMA_ROOM_NODES);
    a.begin_len = needed;
    a.total_len = 0;
    GRID_REFUSED(a, LOHANDEMA_ROOM, LOHANDEMA_ROOM_NODES);
}

void test_grids(void)
{
    known_tree();
    same_as_listed();
    not_looked_at();
    refused_by_figures();
    refused_by_count();
    refused_by_points();
    refused_by_walls();
    refused_by_room();
}
