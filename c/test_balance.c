/* The balancing: a known tree, each refusal in its order, and zeros in what was lent after a refusal. */
#include "checks.h"

#include <stdlib.h>

/* One axis about 4, radius 4: a leaf of level 1 with two sources beside a leaf of level 4. */
enum { POINTS = 4, OLD = 9, NEW = 13, ROOM = 40 };
static const double centre[3] = {4.0, 4.0, 4.0}, four[POINTS] = {6.5, 3.8, 3.3, 4.5};
static const uint64_t key[OLD] = {0, 1, 2, 32770, 65539, 98307, 196612, 229380, 32769};
static const size_t own[OLD] = {0, 0, 0, 0, 0, 0, 1, 1, 2}, begin[OLD] = {0, 0, 0, 0, 0, 0, 0, 1, 2};
static const size_t total[OLD] = {4, 2, 0, 2, 0, 2, 1, 1, 2}, order[POINTS] = {2, 1, 0, 3};

/* And balanced: the leaf of level 1 is parted down to level 3, and its sources lie apart. */
static const uint64_t keys[NEW] = {0, 1, 2, 32770, 65539, 98307, 196612, 229380, 32769, 65538, 131075, 163843, 98306};
static const size_t owns[NEW] = {0, 0, 0, 0, 0, 0, 1, 1, 0, 0, 1, 0, 1};
static const size_t begins[NEW] = {0, 0, 0, 0, 0, 0, 0, 1, 2, 2, 2, 3, 3};
static const size_t totals[NEW] = {4, 2, 0, 2, 0, 2, 1, 1, 2, 1, 1, 0, 1}, orders[POINTS] = {2, 1, 3, 0};

/* What the call is given, and how much is lent to it. */
typedef struct {
    double radius;
    size_t axes;
    const double *points;
    size_t points_len, nodes;
    const uint64_t *key;
    const size_t *own, *begin, *total, *order;
    size_t order_len, work_len, new_order_len, new_key_len, new_own_len, new_begin_len, new_total_len;
} asked;

static uint64_t work[ROOM], new_key[ROOM], depth;
static size_t new_order[ROOM], new_own[ROOM], new_begin[ROOM], new_total[ROOM], nodes;

/* The tree above, and more room than it needs. */
static asked example(void)
{
    asked a = {4.0, 1, four, POINTS, OLD, key, own, begin, total, order, POINTS, 20, 21, 22, 23, 24, 25};
    return a;
}

static lohandema_ended balance(asked a)
{
    fill_with_junk(work, sizeof work);
    fill_with_junk(new_order, sizeof new_order);
    fill_with_junk(new_key, sizeof new_key);
    fill_with_junk(new_own, sizeof new_own);
    fill_with_junk(new_begin, sizeof new_begin);
    fill_with_junk(new_total, sizeof new_total);
    nodes = 77;
    depth = 77;
    return lohandema_balance_tree(centre, a.radius, a.axes, a.points, a.points_len, a.key, a.nodes, a.own, a.nodes, a.begin,
                                  a.nodes, a.total, a.nodes, a.order, a.order_len, work, a.work_len, new_order,
                                  a.new_order_len, new_key, a.new_key_len, new_own, a.new_own_len, new_begin,
                                  a.new_begin_len, new_total, a.new_total_len, &nodes, &depth);
}

#define BALANCE_REFUSED(a, number, value)                                                                                    \
    do {                                                                                                                     \
        ENDED(balance(a), (number), (value));                                                                                \
        EXPECT(nodes == 0 && depth == 0 && ZEROED(work, (a).work_len) && ZEROED(new_order, (a).new_order_len));              \
        EXPECT(ZEROED(new_key, (a).new_key_len) && ZEROED(new_own, (a).new_own_len));                                        \
        EXPECT(ZEROED(new_begin, (a).new_begin_len) && ZEROED(new_total, (a).new_total_len));                                \
    } while (0)

static void expect_balanced(asked a)
{
    ENDED(balance(a), 0, 0);
    EXPECT(nodes == NEW && depth == 4 && REST_ZEROED(work, 0, a.work_len));
    EXPECT(STARTS_WITH(new_order, orders) && REST_ZEROED(new_order, POINTS, a.new_order_len));
    EXPECT(STARTS_WITH(new_key, keys) && REST_ZEROED(new_key, NEW, a.new_key_len));
    EXPECT(STARTS_WITH(new_own, owns) && REST_ZEROED(new_own, NEW, a.new_own_len));
    EXPECT(STARTS_WITH(new_begin, begins) && REST_ZEROED(new_begin, NEW, a.new_begin_len));
    EXPECT(STARTS_WITH(new_total, totals) && REST_ZEROED(new_total, NEW, a.new_total_len));
}

static void known_tree(void)
{
    asked a = example();
    expect_balanced(a);
    a.work_len = 2 * POINTS;
    a.new_order_len = POINTS;
    a.new_key_len = a.new_own_len = a.new_begin_len = a.new_total_len = NEW;
    expect_balanced(a);
    /* a balanced tree comes back the same */
    a.nodes = NEW;
    a.key = keys;
    a.own = owns;
    a.begin = begins;
    a.total = totals;
    a.order = orders;
    expect_balanced(a);
    EXPECT(lohandema_is_well_formed(1, new_key, NEW, new_own, NEW, new_begin, NEW, new_total, NEW));
}

/* A corner is enough: in two axes, the leaf of level 1 that touches one of level 3 at the middle of the box alone is parted. */
static void known_corner(void)
{
    enum { CELLS = 13, MORE = 25 };
    const uint64_t cells[CELLS] = {0, 1, 2, 32770, 65538, 98306, 393219, 425987, 458755, 491523, 32769, 65537, 98305};
    const size_t none[CELLS] = {0};
    asked a = example();
    a.axes = 2;
    a.points_len = a.order_len = 0;
    a.nodes = CELLS;
    a.key = cells;
    a.own = a.begin = a.total = none;
    a.new_key_len = a.new_own_len = a.new_begin_len = a.new_total_len = MORE;
    ENDED(balance(a), 0, 0);
    EXPECT(nodes == MORE && depth == 3 && new_key[MORE - 5] == 98305 && new_key[MORE - 4] == 393218);
    a.new_own_len = MORE - 1;
    BALANCE_REFUSED(a, LOHANDEMA_ROOM, LOHANDEMA_ROOM_NODES);
}

/* The root alone is no leaf: without a point it comes back, and a point that is inside is in no leaf. */
static void known_root(void)
{
    const size_t none[1] = {0};
    const double outside[1] = {8.0};
    asked a = example();
    a.nodes = 1;
    a.own = a.begin = a.total = none;
    a.points_len = a.order_len = 0;
    ENDED(balance(a), 0, 0);
    EXPECT(nodes == 1 && depth == 1 && REST_ZEROED(new_key, 0, a.new_key_len) && REST_ZEROED(new_own, 0, a.new_own_len));
    a.points_len = 1;
    BALANCE_REFUSED(a, LOHANDEMA_NOTBUILT, 0);
    a.points = outside;
    BALANCE_REFUSED(a, LOHANDEMA_SOURCE, 0);
}

/* Each refusal before all that come after it. */
static void refused_in_order(void)
{
    const double outside[POINTS] = {6.5, 3.8, -0.5, 9.0};
    const uint64_t lacking[OLD - 1] = {0, 1, 32770, 65539, 98307, 196612, 229380, 32769};
    const size_t lacking_own[OLD - 1] = {0, 0, 0, 0, 0, 1, 1, 2}, lacking_begin[OLD - 1] = {0, 0, 0, 0, 0, 0, 1, 2};
    const size_t lacking_total[OLD - 1] = {4, 2, 2, 0, 2, 1, 1, 2}, wrong[POINTS] = {2, 1, 3, 0};
    asked a = example();
    a.order = wrong;
    a.work_len = a.new_order_len = a.new_key_len = 0;
    BALANCE_REFUSED(a, LOHANDEMA_NOTBUILT, 0);
    a.points = outside;
    BALANCE_REFUSED(a, LOHANDEMA_SOURCE, 2);
    EXPECT(BEHIND(balance(a), 2, 0, LOHANDEMA_BELOW));
    a.nodes = OLD - 1;
    a.key = lacking;
    a.own = lacking_own;
    a.begin = lacking_begin;
    a.total = lacking_total;
    BALANCE_REFUSED(a, LOHANDEMA_PARTIAL, 0);
    a.total = lacking_own;
    BALANCE_REFUSED(a, LOHANDEMA_TREE, 0);
    a.axes = 3;
    BALANCE_REFUSED(a, LOHANDEMA_SHAPE, 0);
    a.radius = 0.0;
    BALANCE_REFUSED(a, LOHANDEMA_BOX, 0);
    a.axes = 0;
    BALANCE_REFUSED(a, LOHANDEMA_DIMS, 0);
}

static void refused_by_count(void)
{
    const size_t many = LOHANDEMA_MOST_POINTS + 1;
    double *points = (double *)calloc(many, sizeof *points);
    if (points == NULL)
        abort();
    asked a = example();
    a.points = points;
    a.points_len = many;
    a.total = begin;
    BALANCE_REFUSED(a, LOHANDEMA_COUNT, 0);
    a.points_len = many - 1;
    BALANCE_REFUSED(a, LOHANDEMA_TREE, 0);
    free(points);
}

/* Own, order or points that are not those of the others. */
static void refused_as_not_given(void)
{
    const size_t turned[POINTS] = {2, 1, 3, 0}, exchanged[POINTS] = {1, 2, 0, 3}, twice[POINTS] = {2, 1, 0, 0};
    const size_t longer[POINTS + 1] = {2, 1, 0, 3, 4}, past[POINTS] = {2, 1, 0, 4};
    const double moved[POINTS] = {6.5, 3.8, 2.3, 4.5};
    const size_t *const wrong[4] = {turned, exchanged, twice, past};
    asked a = example();
    for (size_t i = 0; i < 4; i++) {
        a.order = wrong[i];
        BALANCE_REFUSED(a, LOHANDEMA_NOTBUILT, 0);
    }
    a.order = longer;
    a.order_len = POINTS + 1;
    BALANCE_REFUSED(a, LOHANDEMA_NOTBUILT, 0);
    a.order_len = POINTS - 1;
    BALANCE_REFUSED(a, LOHANDEMA_NOTBUILT, 0);
    a = example();
    a.points = moved;
    BALANCE_REFUSED(a, LOHANDEMA_NOTBUILT, 0);
    a = example();
    a.points_len = POINTS - 1;
    BALANCE_REFUSED(a, LOHANDEMA_NOTBUILT, 0);
}

static void refused_by_room(void)
{
    asked a = example();
    a.work_len = 2 * POINTS - 1;
    a.new_order_len = POINTS - 1;
    a.new_key_len = NEW - 1;
    BALANCE_REFUSED(a, LOHANDEMA_ROOM, LOHANDEMA_ROOM_WORK);
    a.work_len = 2 * POINTS;
    BALANCE_REFUSED(a, LOHANDEMA_ROOM, LOHANDEMA_ROOM_ORDER);
    a.new_order_len = POINTS;
    BALANCE_REFUSED(a, LOHANDEMA_ROOM, LOHANDEMA_ROOM_NODES);
    a = example();
    a.new_own_len = NEW - 1;
    BALANCE_REFUSED(a, LOHANDEMA_ROOM, LOHANDEMA_ROOM_NODES);
    a = example();
    a.new_begin_len = NEW - 1;
    BALANCE_REFUSED(a, LOHANDEMA_ROOM, LOHANDEMA_ROOM_NODES);
    a = example();
    a.new_total_len = 0;
    BALANCE_REFUSED(a, LOHANDEMA_ROOM, LOHANDEMA_ROOM_NODES);
}

void test_balance(void)
{
    known_tree();
    known_corner();
    known_root();
    refused_in_order();
    refused_by_count();
    refused_as_not_given();
    refused_by_room();
}
