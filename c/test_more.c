/* One source more: known trees, each refusal in its order, and zeros in what was lent after a refusal. */
#include "checks.h"

#include <math.h>
#include <stdlib.h>

/* One axis about 4, radius 4, limit 1: document 01's example, and with 3.0 the half of a cell that was not stored. */
enum { POINTS = 4, OLD = 9, NEW = 10, ROOM = 40 };
static const double centre[3] = {4.0, 4.0, 4.0}, four[POINTS] = {0.5, 1.5, 6.5, 7.5}, three_on[3] = {3.0, 77.0, 77.0};
static const uint64_t key[OLD] = {0, 1, 2, 3, 32771, 32769, 98306, 196611, 229379};
static const size_t own[OLD] = {0, 0, 0, 1, 1, 0, 0, 1, 1}, begin[OLD] = {0, 0, 0, 0, 1, 2, 2, 2, 3};
static const size_t total[OLD] = {4, 2, 2, 1, 1, 2, 2, 1, 1}, order[POINTS] = {0, 1, 2, 3};

static const uint64_t keys[NEW] = {0, 1, 2, 3, 32771, 32770, 32769, 98306, 196611, 229379};
static const size_t owns[NEW] = {0, 0, 0, 1, 1, 1, 0, 0, 1, 1}, begins[NEW] = {0, 0, 0, 0, 1, 2, 3, 3, 3, 4};
static const size_t totals[NEW] = {5, 3, 2, 1, 1, 1, 2, 2, 1, 1}, orders[POINTS + 1] = {0, 1, 4, 2, 3};

/* What the call is given, and how much is lent to it. */
typedef struct {
    double radius;
    size_t axes;
    const double *sources;
    size_t sources_len;
    const double *point;
    size_t limit;
    bool keep_empty;
    size_t nodes;
    const uint64_t *key;
    const size_t *own, *begin, *total, *order;
    size_t order_len, work_len, new_order_len, new_key_len, new_own_len, new_begin_len, new_total_len;
} asked;

static uint64_t work[ROOM], new_key[ROOM], depth;
static size_t new_order[ROOM], new_own[ROOM], new_begin[ROOM], new_total[ROOM], nodes;

/* The tree above, and more room than it needs. */
static asked example(void)
{
    asked a = {4.0, 1, four, POINTS, three_on, 1, false, OLD, key, own, begin, total, order, POINTS, 20, 21, 22, 23, 24, 25};
    return a;
}

static lohandema_ended add(asked a)
{
    fill_with_junk(work, sizeof work);
    fill_with_junk(new_order, sizeof new_order);
    fill_with_junk(new_key, sizeof new_key);
    fill_with_junk(new_own, sizeof new_own);
    fill_with_junk(new_begin, sizeof new_begin);
    fill_with_junk(new_total, sizeof new_total);
    nodes = 77;
    depth = 77;
    return lohandema_add_source(centre, a.radius, a.axes, a.sources, a.sources_len, a.point, a.limit, a.keep_empty, a.key,
                                a.nodes, a.own, a.nodes, a.begin, a.nodes, a.total, a.nodes, a.order, a.order_len, work,
                                a.work_len, new_order, a.new_order_len, new_key, a.new_key_len, new_own, a.new_own_len,
                                new_begin, a.new_begin_len, new_total, a.new_total_len, &nodes, &depth);
}

#define ADD_REFUSED(a, number, value)                                                                                        \
    do {                                                                                                                     \
        ENDED(add(a), (number), (value));                                                                                    \
        EXPECT(nodes == 0 && depth == 0 && ZEROED(work, (a).work_len) && ZEROED(new_order, (a).new_order_len));              \
        EXPECT(ZEROED(new_key, (a).new_key_len) && ZEROED(new_own, (a).new_own_len));                                        \
        EXPECT(ZEROED(new_begin, (a).new_begin_len) && ZEROED(new_total, (a).new_total_len));                                \
    } while (0)

static void expect_added(asked a)
{
    ENDED(add(a), 0, 0);
    EXPECT(nodes == NEW && depth == 3 && REST_ZEROED(work, 0, a.work_len));
    EXPECT(STARTS_WITH(new_order, orders) && REST_ZEROED(new_order, POINTS + 1, a.new_order_len));
    EXPECT(STARTS_WITH(new_key, keys) && REST_ZEROED(new_key, NEW, a.new_key_len));
    EXPECT(STARTS_WITH(new_own, owns) && REST_ZEROED(new_own, NEW, a.new_own_len));
    EXPECT(STARTS_WITH(new_begin, begins) && REST_ZEROED(new_begin, NEW, a.new_begin_len));
    EXPECT(STARTS_WITH(new_total, totals) && REST_ZEROED(new_total, NEW, a.new_total_len));
}

static void known_tree(void)
{
    asked a = example();
    expect_added(a);
    a.work_len = 2 * (POINTS + 1);
    a.new_order_len = POINTS + 1;
    a.new_key_len = a.new_own_len = a.new_begin_len = a.new_total_len = NEW;
    expect_added(a);
    EXPECT(lohandema_is_well_formed(1, new_key, NEW, new_own, NEW, new_begin, NEW, new_total, NEW));
}

/* A station that is repeated: its leaf has the limit, and two sources at one place part at no level. */
static void known_repeat(void)
{
    const double again[3] = {1.5, 0.0, 0.0};
    asked a = example();
    a.point = again;
    ENDED(add(a), 0, 0);
    EXPECT(nodes == OLD + 13 && depth == 16 && new_own[4] == 0 && new_total[4] == 2 && new_own[17] == 2);
    EXPECT(new_key[17] == 12288 * 32768 + 16 && new_key[18] == 32769 && new_total[0] == 5 && STARTS_WITH(new_order, orders));
    /* with limit 2 the same points are two leaves, and a third point in one of them parts it */
    const uint64_t halves[3] = {0, 1, 32769};
    const size_t halves_own[3] = {0, 2, 2}, halves_begin[3] = {0, 0, 2}, halves_total[3] = {4, 2, 2};
    a.limit = 2;
    a.nodes = 3;
    a.key = halves;
    a.own = halves_own;
    a.begin = halves_begin;
    a.total = halves_total;
    ENDED(add(a), 0, 0);
    EXPECT(nodes == 6 && new_own[3] == 1 && new_own[4] == 2 && new_own[5] == 2 && STARTS_WITH(new_order, orders));
    /* the limit that is given is the build's: with 1 this is not their tree, with 3 it is */
    a.limit = 1;
    ADD_REFUSED(a, LOHANDEMA_NOTBUILT, 0);
    a.limit = 3;
    ENDED(add(a), 0, 0);
    EXPECT(nodes == 3 && new_own[1] == 3 && new_begin[2] == 3);
}

/* The first source of all: the root alone, which only a build without empty cells has. */
static void known_first(void)
{
    const size_t none[3] = {0};
    const uint64_t both[3] = {0, 1, 32769};
    const double half[3] = {0.5, 0.0, 0.0};
    asked a = example();
    a.sources_len = a.order_len = 0;
    a.nodes = 1;
    a.own = a.begin = a.total = none;
    a.point = half;
    ENDED(add(a), 0, 0);
    EXPECT(nodes == 2 && depth == 1 && new_key[1] == 1 && new_own[1] == 1 && new_total[0] == 1 && new_order[0] == 0);
    a.limit = 0;
    ENDED(add(a), 0, 0);
    EXPECT(nodes == 17 && depth == 16 && new_key[16] == 4096 * 32768 + 16 && new_own[16] == 1);
    a.keep_empty = true;
    ADD_REFUSED(a, LOHANDEMA_NOTBUILT, 0);
    a.nodes = 3;
    a.key = both;
    a.limit = 1;
    ENDED(add(a), 0, 0);
    EXPECT(nodes == 3 && depth == 1 && new_own[1] == 1 && new_begin[2] == 1 && new_total[0] == 1);
    a.work_len = 1;
    ADD_REFUSED(a, LOHANDEMA_ROOM, LOHANDEMA_ROOM_WORK);
    a.keep_empty = false;
    ADD_REFUSED(a, LOHANDEMA_NOTBUILT, 0);
}

/* Each refusal before all that come after it: every fault that is made stays. */
static void refused_in_order(void)
{
    const size_t many = 2 * (size_t)LOHANDEMA_MOST_POINTS + 1;
    const double outside[3] = {-0.5, 0.0, 0.0};
    const size_t wrong[POINTS] = {1, 0, 2, 3};
    double *sources = (double *)calloc(many, sizeof *sources);
    if (sources == NULL)
        abort();
    asked a = example();
    a.new_total_len = NEW - 1;
    ADD_REFUSED(a, LOHANDEMA_ROOM, LOHANDEMA_ROOM_NODES);
    a.new_order_len = POINTS;
    ADD_REFUSED(a, LOHANDEMA_ROOM, LOHANDEMA_ROOM_ORDER);
    a.work_len = 2 * POINTS + 1;
    ADD_REFUSED(a, LOHANDEMA_ROOM, LOHANDEMA_ROOM_WORK);
    a.point = outside;
    ADD_REFUSED(a, LOHANDEMA_SOURCE, POINTS);
    EXPECT(BEHIND(add(a), POINTS, 0, LOHANDEMA_BELOW));
    a.order = wrong;
    ADD_REFUSED(a, LOHANDEMA_NOTBUILT, 0);
    a.total = own;
    ADD_REFUSED(a, LOHANDEMA_TREE, 0);
    a.sources = sources;
    a.sources_len = LOHANDEMA_MOST_POINTS;
    ADD_REFUSED(a, LOHANDEMA_COUNT, 0);
    a.axes = 2;
    a.sources_len = many;
    ADD_REFUSED(a, LOHANDEMA_SHAPE, 0);
    a.radius = 0.0;
    ADD_REFUSED(a, LOHANDEMA_BOX, 0);
    a.axes = 0;
    ADD_REFUSED(a, LOHANDEMA_DIMS, 0);
    /* one source fewer than the most is no 4, and the broken tree decides */
    a = example();
    a.total = own;
    a.sources = sources;
    a.sources_len = LOHANDEMA_MOST_POINTS - 1;
    ADD_REFUSED(a, LOHANDEMA_TREE, 0);
    free(sources);
}

/* A tree that is well formed, and not the build of the former sources. */
static void refused_as_not_built(void)
{
    const size_t exchanged[POINTS] = {1, 0, 2, 3}, twice[POINTS] = {0, 0, 2, 3}, past[POINTS] = {0, 1, 2, 4};
    const size_t longer[POINTS + 1] = {0, 1, 2, 3, 4};
    const double moved[POINTS] = {0.5, 2.5, 6.5, 7.5}, nan_one[POINTS] = {0.5, 1.5, NAN, 7.5};
    const double outside[POINTS] = {0.5, 1.5, 6.5, 8.0}, nan_three[3] = {NAN, 0.0, 0.0};
    const size_t *const wrong[3] = {exchanged, twice, past};
    const double *const others[3] = {moved, nan_one, outside};
    asked a = example();
    for (size_t i = 0; i < 3; i++) {
        a.order = wrong[i];
        ADD_REFUSED(a, LOHANDEMA_NOTBUILT, 0);
    }
    a.order = longer;
    a.order_len = POINTS + 1;
    ADD_REFUSED(a, LOHANDEMA_NOTBUILT, 0);
    a.order_len = POINTS - 1;
    ADD_REFUSED(a, LOHANDEMA_NOTBUILT, 0);
    a = example();
    for (size_t i = 0; i < 3; i++) {
        a.sources = others[i];
        ADD_REFUSED(a, LOHANDEMA_NOTBUILT, 0);
    }
    /* a former source that is no number is 18, also where the new one is none */
    a.point = nan_three;
    ADD_REFUSED(a, LOHANDEMA_NOTBUILT, 0);
    a = example();
    a.point = nan_three;
    ADD_REFUSED(a, LOHANDEMA_SOURCE, POINTS);
    EXPECT(BEHIND(add(a), POINTS, 0, LOHANDEMA_NOT_FINITE));
    a = example();
    a.sources_len = POINTS - 1;
    ADD_REFUSED(a, LOHANDEMA_NOTBUILT, 0);
    a = example();
    a.radius = 8.0;
    ADD_REFUSED(a, LOHANDEMA_NOTBUILT, 0);
    a = example();
    a.keep_empty = true;
    ADD_REFUSED(a, LOHANDEMA_NOTBUILT, 0);
    a = example();
    a.limit = 0;
    ADD_REFUSED(a, LOHANDEMA_NOTBUILT, 0);
}

static void refused_by_room(void)
{
    asked a = example();
    a.new_key_len = NEW - 1;
    ADD_REFUSED(a, LOHANDEMA_ROOM, LOHANDEMA_ROOM_NODES);
    a = example();
    a.new_own_len = NEW - 1;
    ADD_REFUSED(a, LOHANDEMA_ROOM, LOHANDEMA_ROOM_NODES);
    a = example();
    a.new_begin_len = 0;
    ADD_REFUSED(a, LOHANDEMA_ROOM, LOHANDEMA_ROOM_NODES);
    a = example();
    a.new_total_len = NEW - 1;
    ADD_REFUSED(a, LOHANDEMA_ROOM, LOHANDEMA_ROOM_NODES);
    a = example();
    a.new_order_len = a.new_key_len = 0;
    ADD_REFUSED(a, LOHANDEMA_ROOM, LOHANDEMA_ROOM_ORDER);
    a.work_len = 0;
    ADD_REFUSED(a, LOHANDEMA_ROOM, LOHANDEMA_ROOM_WORK);
}

void test_more(void)
{
    known_tree();
    known_repeat();
    known_first();
    refused_in_order();
    refused_as_not_built();
    refused_by_room();
}
