/* The build: a known tree, each refusal, and zeros in what was lent after a refusal. Each is counted too. */
#include "checks.h"

#include <math.h>
#include <stdlib.h>

static const double centre[3] = {4.0, 4.0, 4.0};
static const double four[4] = {0.5, 1.5, 6.5, 7.5};

/* What a build is asked, and what is lent to it. */
enum { ROOM = 40 };
typedef struct {
    double radius;
    size_t axes;
    const double *sources, *targets;
    size_t sources_len, targets_len, limit, order;
    bool keep_empty, refine;
    size_t work_len, indices_len, key_len, own_len, begin_len, total_len;
} asked;

static uint64_t work[ROOM], key[ROOM], depth;
static size_t indices[ROOM], own[ROOM], begin[ROOM], total[ROOM], nodes;

/* The example: four sources on one axis, limit 1, and more room than it needs. */
static asked example(void)
{
    asked a = {4.0, 1, four, NULL, 4, 0, 1, 1, false, true, 20, 21, 22, 23, 24, 25};
    return a;
}

/* The nodes of the same are counted: refused as the build is, but for node columns that are short. */
static void count_too(asked a, lohandema_ended built)
{
    static uint64_t room[ROOM];
    static size_t order[ROOM];
    size_t count = 77;
    lohandema_ended ended;
    fill_with_junk(room, sizeof room);
    fill_with_junk(order, sizeof order);
    ended = lohandema_count_nodes(centre, a.radius, a.axes, a.sources, a.sources_len, a.targets, a.targets_len, a.limit,
                                  a.order, a.keep_empty, a.refine, room, a.work_len, order, a.indices_len, &count);
    EXPECT(ZEROED(room, a.work_len) && ZEROED(order, a.indices_len));
    if (built.number == LOHANDEMA_ROOM && built.value == LOHANDEMA_ROOM_NODES) {
        ENDED(ended, 0, 0);
        EXPECT(count > a.key_len || count > a.own_len || count > a.begin_len || count > a.total_len);
    } else {
        ENDED(ended, built.number, built.value);
        EXPECT(ended.axis == built.axis && ended.reason == built.reason && count == nodes);
    }
}

static lohandema_ended build(asked a)
{
    lohandema_ended ended;
    fill_with_junk(work, sizeof work);
    fill_with_junk(key, sizeof key);
    fill_with_junk(indices, sizeof indices);
    fill_with_junk(own, sizeof own);
    fill_with_junk(begin, sizeof begin);
    fill_with_junk(total, sizeof total);
    nodes = 77;
    depth = 77;
    ended = lohandema_build_tree(centre, a.radius, a.axes, a.sources, a.sources_len, a.targets, a.targets_len, a.limit,
                                 a.order, a.keep_empty, a.refine, work, a.work_len, indices, a.indices_len, key, a.key_len,
                                 own, a.own_len, begin, a.begin_len, total, a.total_len, &nodes, &depth);
    count_too(a, ended);
    return ended;
}

#define BUILD_REFUSED(a, number, value)                                                                                      \
    do {                                                                                                                     \
        ENDED(build(a), (number), (value));                                                                                  \
        EXPECT(nodes == 0 && depth == 0 && ZEROED(work, (a).work_len) && ZEROED(indices, (a).indices_len));                  \
        EXPECT(ZEROED(key, (a).key_len) && ZEROED(own, (a).own_len));                                                        \
        EXPECT(ZEROED(begin, (a).begin_len) && ZEROED(total, (a).total_len));                                                \
    } while (0)

static void known_tree(void)
{
    const uint64_t keys[9] = {0, 1, 2, 3, 32771, 32769, 98306, 196611, 229379};
    const size_t owns[9] = {0, 0, 0, 1, 1, 0, 0, 1, 1}, begins[9] = {0, 0, 0, 0, 1, 2, 2, 2, 3};
    const size_t totals[9] = {4, 2, 2, 1, 1, 2, 2, 1, 1}, order[4] = {0, 1, 2, 3};
    asked a = example();
    ENDED(build(a), 0, 0);
    EXPECT(nodes == 9 && depth == 3 && REST_ZEROED(work, 0, a.work_len));
    EXPECT(STARTS_WITH(indices, order) && REST_ZEROED(indices, 4, a.indices_len));
    EXPECT(STARTS_WITH(key, keys) && REST_ZEROED(key, 9, a.key_len));
    EXPECT(STARTS_WITH(own, owns) && REST_ZEROED(own, 9, a.own_len));
    EXPECT(STARTS_WITH(begin, begins) && REST_ZEROED(begin, 9, a.begin_len));
    EXPECT(STARTS_WITH(total, totals) && REST_ZEROED(total, 9, a.total_len));
    a.work_len = 8;
    a.indices_len = 4;
    a.key_len = a.own_len = a.begin_len = a.total_len = 9;
    ENDED(build(a), 0, 0);
    EXPECT(nodes == 9 && STARTS_WITH(key, keys) && STARTS_WITH(total, totals));
}

static void known_flags(void)
{
    asked a = example();
    a.keep_empty = true;
    ENDED(build(a), 0, 0);
    EXPECT(nodes == 11 && depth == 3 && total[0] == 4);
    a.keep_empty = false;
    a.limit = SIZE_MAX;
    ENDED(build(a), 0, 0);
    EXPECT(nodes == 3 && depth == 1);
    a.sources_len = 0;
    ENDED(build(a), 0, 0);
    EXPECT(nodes == 1 && depth == 1 && key[0] == 0 && own[0] == 0 && total[0] == 0);
}

/* With no source about, a cell with more than 32 targets splits; without both flags targets are not looked at. */
static void known_targets(void)
{
    double targets[33];
    for (size_t i = 0; i < 33; i++)
        targets[i] = 3.0 + (double)i / 64.0;
    asked a = example();
    a.sources_len = 0;
    a.targets = targets;
    a.targets_len = 33;
    a.keep_empty = true;
    a.work_len = 33;
    ENDED(build(a), 0, 0);
    EXPECT(nodes == 9 && depth == 4 && REST_ZEROED(work, 0, 33));
    a.work_len = 32;
    BUILD_REFUSED(a, LOHANDEMA_ROOM, LOHANDEMA_ROOM_WORK);
    a.refine = false;
    a.order = 99;
    targets[0] = NAN;
    ENDED(build(a), 0, 0);
    EXPECT(nodes == 3 && depth == 1);
    a.refine = true;
    a.keep_empty = false;
    ENDED(build(a), 0, 0);
    EXPECT(nodes == 1 && depth == 1);
}

static void refused_by_points(void)
{
    const double bad[4] = {0.5, NAN, 9.0, 1.0}, outside[2] = {0.5, 8.0};
    asked a = example();
    a.axes = 4;
    BUILD_REFUSED(a, LOHANDEMA_DIMS, 0);
    a = example();
    a.radius = 0.0;
    BUILD_REFUSED(a, LOHANDEMA_BOX, 0);
    a = example();
    a.axes = 3;
    BUILD_REFUSED(a, LOHANDEMA_SHAPE, 0);
    a = example();
    a.axes = 2;
    a.keep_empty = true;
    a.targets = four;
    a.targets_len = 3;
    BUILD_REFUSED(a, LOHANDEMA_SHAPE, 0);
    a.targets_len = 4;
    a.order = 0;
    BUILD_REFUSED(a, LOHANDEMA_ORDER, 0);
    a.order = 65;
    BUILD_REFUSED(a, LOHANDEMA_ORDER, 0);
    a = example();
    a.sources = bad;
    BUILD_REFUSED(a, LOHANDEMA_SOURCE, 1);
    a = example();
    a.keep_empty = true;
    a.targets = outside;
    a.targets_len = 2;
    BUILD_REFUSED(a, LOHANDEMA_POINT, 1);
}

/* The wall of the lowest source, or used target, that is outside: the first axis, and the reason there. */
static void refused_by_walls(void)
{
    const double sources[6] = {1.0, 2.0, 9.0, NAN, NAN, -1.0}, targets[4] = {4.0, 4.0, 4.0, -5e-324};
    asked a = example();
    a.axes = 2;
    a.sources = sources;
    a.sources_len = 6;
    EXPECT(BEHIND(build(a), 1, 0, LOHANDEMA_ABOVE));
    a.sources = sources + 2;
    a.sources_len = 4;
    EXPECT(BEHIND(build(a), 0, 0, LOHANDEMA_ABOVE));
    a.sources = sources + 4;
    a.sources_len = 2;
    EXPECT(BEHIND(build(a), 0, 0, LOHANDEMA_NOT_FINITE));
    a.sources_len = 0;
    a.keep_empty = true;
    a.targets = targets;
    a.targets_len = 4;
    EXPECT(BEHIND(build(a), 1, 1, LOHANDEMA_BELOW));
}

static void refused_by_room(void)
{
    asked a = example();
    a.work_len = 7;
    a.indices_len = 3;
    a.key_len = 8;
    BUILD_REFUSED(a, LOHANDEMA_ROOM, LOHANDEMA_ROOM_WORK);
    a.work_len = 8;
    BUILD_REFUSED(a, LOHANDEMA_ROOM, LOHANDEMA_ROOM_ORDER);
    a.indices_len = 4;
    BUILD_REFUSED(a, LOHANDEMA_ROOM, LOHANDEMA_ROOM_NODES);
    a = example();
    a.own_len = 8;
    BUILD_REFUSED(a, LOHANDEMA_ROOM, LOHANDEMA_ROOM_NODES);
    a = example();
    a.begin_len = 8;
    BUILD_REFUSED(a, LOHANDEMA_ROOM, LOHANDEMA_ROOM_NODES);
    a = example();
    a.total_len = 8;
    BUILD_REFUSED(a, LOHANDEMA_ROOM, LOHANDEMA_ROOM_NODES);
    a.sources_len = 0;
    a.total_len = 0;
    BUILD_REFUSED(a, LOHANDEMA_ROOM, LOHANDEMA_ROOM_NODES);
}

static void refused_by_count(void)
{
    const size_t many = LOHANDEMA_MOST_POINTS + 1;
    double *points = (double *)calloc(many, sizeof *points);
    if (points == NULL)
        abort();
    asked a = example();
    a.sources = points;
    a.sources_len = many;
    BUILD_REFUSED(a, LOHANDEMA_COUNT, 0);
    a = example();
    a.keep_empty = true;
    a.targets = points;
    a.targets_len = many;
    a.order = 65;
    BUILD_REFUSED(a, LOHANDEMA_COUNT, 0);
    free(points);
}

/* Some 1,160,000 nodes, with limit 0 and empty cells kept: more than a build may have, though the columns are longer. */
static void refused_by_most_nodes(void)
{
    enum { POINTS = 13000 };
    const size_t room = 1300000, bytes = room * 8;
    double *points = (double *)calloc(3 * POINTS, 8);
    uint64_t *codes = (uint64_t *)calloc(2 * POINTS, 8), *keys = (uint64_t *)malloc(bytes), state = 88172645463325252u;
    size_t *numbers = (size_t *)calloc(POINTS, 8), *owns = (size_t *)malloc(bytes), *begins = (size_t *)malloc(bytes);
    size_t *totals = (size_t *)malloc(bytes);
    void *slices[7] = {points, codes, keys, numbers, owns, begins, totals};
    for (size_t i = 0; i < 7; i++)
        if (slices[i] == NULL)
            abort();
    for (size_t i = 0; i < 3 * POINTS; i++) {
        state = state * 6364136223846793005u + 1442695040888963407u;
        points[i] = (double)(state >> 11) / 9007199254740992.0 * 7.99;
    }
    fill_with_junk(keys, bytes);
    fill_with_junk(owns, bytes);
    fill_with_junk(begins, bytes);
    fill_with_junk(totals, bytes);
    ENDED(lohandema_build_tree(centre, 4.0, 3, points, 3 * POINTS, NULL, 0, 0, 1, true, false, codes, 2 * POINTS, numbers,
                               POINTS, keys, room, owns, room, begins, room, totals, room, &nodes, &depth),
          LOHANDEMA_ROOM, LOHANDEMA_ROOM_NODES);
    EXPECT(nodes == 0 && depth == 0 && all_zero(keys, bytes) && all_zero(owns, bytes));
    EXPECT(all_zero(begins, bytes) && all_zero(totals, bytes));
    EXPECT(all_zero(codes, 2 * POINTS * 8) && all_zero(numbers, POINTS * 8));
    for (size_t i = 0; i < 7; i++)
        free(slices[i]);
}

void test_build(void)
{
    known_tree();
    known_flags();
    known_targets();
    refused_by_points();
    refused_by_walls();
    refused_by_room();
    refused_by_count();
    refused_by_most_nodes();
}
