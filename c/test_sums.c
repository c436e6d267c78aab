/* The sum checks of a leaf and of a survey, the check of lists and the test of an order column: document 01's example with readings. */
#include "checks.h"

enum { NODES = 9, SOURCES = 4, U_KEYS = 8, V_KEYS = 2 };

static const uint64_t key[NODES] = {0, 1, 2, 3, 32771, 32769, 98306, 196611, 229379};
static const size_t own[NODES] = {0, 0, 0, 1, 1, 0, 0, 1, 1};
static const size_t begin[NODES] = {0, 0, 0, 0, 1, 2, 2, 2, 3};
static const size_t total[NODES] = {4, 2, 2, 1, 1, 2, 2, 1, 1};
static const size_t order[SOURCES] = {0, 1, 2, 3};
static const int64_t readings[SOURCES] = {1, 2, 3, 4};
static const size_t u_starts[NODES + 1] = {0, 0, 0, 0, 2, 4, 4, 4, 6, 8};
static const size_t v_starts[NODES + 1] = {0, 0, 0, 1, 1, 1, 1, 2, 2, 2};
static const uint64_t u_keys[U_KEYS] = {3, 32771, 3, 32771, 196611, 229379, 196611, 229379};
static const uint64_t v_keys[V_KEYS] = {98306, 2};

#define TREE key, NODES, own, NODES, begin, NODES, total, NODES
#define LISTS u_starts, NODES + 1, u_keys, U_KEYS, v_starts, NODES + 1, v_keys, V_KEYS

static int64_t near, far;
static size_t additions;

/* What a call has told; and that it told nothing. */
static bool told(int64_t n, int64_t f, size_t count)
{
    bool so = near == n && far == f && additions == count;
    near = far = 77;
    additions = 77;
    return so;
}

static lohandema_ended check(size_t axes, const size_t *indices, size_t entries, const int64_t *of, size_t numbers, size_t node)
{
    return lohandema_sum_check(axes, TREE, indices, entries, of, numbers, LISTS, node, &near, &far, &additions);
}

static void sums_of_leaves(void)
{
    ENDED(check(1, order, SOURCES, readings, SOURCES, 3), 0, 0);
    EXPECT(told(3, 7, 3));
    ENDED(check(1, order, SOURCES, readings, SOURCES, 8), 0, 0);
    EXPECT(told(7, 3, 3));
    /* readings stand by index, not by place */
    const size_t turned[SOURCES] = {2, 0, 3, 1};
    ENDED(check(1, turned, SOURCES, readings, SOURCES, 4), 0, 0);
    EXPECT(told(4, 6, 3));
    const int64_t widest[SOURCES] = {1099511627776, -1099511627776, 1099511627776, 1099511627776};
    ENDED(check(1, order, SOURCES, widest, SOURCES, 7), 0, 0);
    EXPECT(told(2199023255552, 0, 3));
}

static void sums_refused(void)
{
    const int64_t large[SOURCES] = {0, 1099511627777, INT64_MIN, 0};
    const size_t twice[SOURCES] = {0, 1, 1, 3};
    ENDED(check(0, order, SOURCES, readings, SOURCES, 3), LOHANDEMA_DIMS, 0);
    EXPECT(told(0, 0, 0));
    ENDED(check(2, order, SOURCES, large, 1, 0), LOHANDEMA_TREE, 0);
    EXPECT(told(0, 0, 0));
    ENDED(check(1, order, SOURCES, large, 3, 0), LOHANDEMA_SHAPE, 0);
    EXPECT(told(0, 0, 0));
    ENDED(check(1, twice, SOURCES, large, SOURCES, 0), LOHANDEMA_READING, 1);
    EXPECT(told(0, 0, 0));
    ENDED(check(1, twice, SOURCES, readings, SOURCES, 2), LOHANDEMA_NOTLEAF, 2);
    EXPECT(told(0, 0, 0));
    ENDED(check(1, order, SOURCES, readings, SOURCES, SIZE_MAX), LOHANDEMA_NOTLEAF, SIZE_MAX);
    EXPECT(told(0, 0, 0));
    ENDED(check(1, twice, SOURCES, readings, SOURCES, 3), LOHANDEMA_NOTBUILT, 0);
    EXPECT(told(0, 0, 0));
    ENDED(check(1, order, 3, readings, SOURCES, 3), LOHANDEMA_NOTBUILT, 0);
    EXPECT(told(0, 0, 0));
}

static uint64_t sums[SOURCES + 2];
static size_t leaves;

static lohandema_ended check_all(size_t axes, const size_t *indices, const int64_t *of, size_t numbers, const uint64_t *vk, size_t room)
{
    for (size_t i = 0; i < SOURCES + 2; i++)
        sums[i] = 77;
    leaves = additions = 77;
    return lohandema_check_sums(axes, TREE, indices, SOURCES, of, numbers, u_starts, NODES + 1, u_keys, U_KEYS, v_starts,
                                NODES + 1, vk, V_KEYS, sums, room, &leaves, &additions);
}

/* What the call has told, and zeros in the first so many sums, with the rest as it was. */
static bool all_told(size_t agree, size_t count, size_t room)
{
    bool so = leaves == agree && additions == count;
    for (size_t i = 0; i < SOURCES + 2; i++)
        so = so && sums[i] == (i < room ? 0u : 77u);
    return so;
}

static void sums_of_the_survey(void)
{
    const size_t turned[SOURCES] = {2, 0, 3, 1}, twice[SOURCES] = {0, 1, 1, 3};
    const int64_t widest[SOURCES] = {1099511627776, -1099511627776, 1099511627776, 1099511627776};
    const int64_t large[SOURCES] = {0, 1099511627777, INT64_MIN, 0};
    const uint64_t other[V_KEYS] = {98306, 1};
    ENDED(check_all(1, order, readings, SOURCES, v_keys, SOURCES + 1), 0, 0);
    EXPECT(all_told(4, 12, SOURCES + 1));
    ENDED(check_all(1, turned, widest, SOURCES, v_keys, SOURCES + 2), 0, 0);
    EXPECT(all_told(4, 12, SOURCES + 2));
    ENDED(check_all(0, order, readings, SOURCES, v_keys, SOURCES + 1), LOHANDEMA_DIMS, 0);
    EXPECT(all_told(0, 0, SOURCES + 1));
    ENDED(check_all(2, order, large, 1, v_keys, 0), LOHANDEMA_TREE, 0);
    EXPECT(all_told(0, 0, 0));
    ENDED(check_all(1, twice, large, 3, other, 0), LOHANDEMA_SHAPE, 0);
    ENDED(check_all(1, twice, large, SOURCES, other, 0), LOHANDEMA_READING, 1);
    ENDED(check_all(1, twice, readings, SOURCES, v_keys, 0), LOHANDEMA_NOTBUILT, 0);
    ENDED(check_all(1, order, readings, SOURCES, other, SOURCES), LOHANDEMA_NOTBUILT, 0);
    EXPECT(all_told(0, 0, SOURCES));
    ENDED(check_all(1, order, readings, SOURCES, v_keys, SOURCES), LOHANDEMA_ROOM, LOHANDEMA_ROOM_WORK);
    EXPECT(all_told(0, 0, SOURCES));
}

static bool lists_are(const size_t *us, size_t us_len, const uint64_t *uk, size_t uk_len, const uint64_t *vk, size_t vk_len)
{
    bool right = true;
    ENDED(lohandema_lists_right(1, TREE, us, us_len, uk, uk_len, v_starts, NODES + 1, vk, vk_len, &right), 0, 0);
    return right;
}

static void lists_judged(void)
{
    const uint64_t longer[V_KEYS + 1] = {98306, 2, 0}, other[V_KEYS] = {98306, 1}, fallen[U_KEYS] = {32771, 3, 3, 32771, 196611, 229379, 196611, 229379};
    const size_t inner[NODES + 1] = {0, 0, 0, 1, 2, 4, 4, 4, 6, 8};
    bool right = true;
    EXPECT(lists_are(u_starts, NODES + 1, u_keys, U_KEYS, v_keys, V_KEYS));
    EXPECT(!lists_are(u_starts, NODES + 1, u_keys, U_KEYS, longer, V_KEYS + 1));
    EXPECT(!lists_are(u_starts, NODES + 1, u_keys, U_KEYS, v_keys, 1));
    EXPECT(!lists_are(u_starts, NODES + 1, u_keys, U_KEYS, other, V_KEYS));
    EXPECT(!lists_are(u_starts, NODES + 1, fallen, U_KEYS, v_keys, V_KEYS));
    EXPECT(!lists_are(u_starts, NODES, u_keys, U_KEYS, v_keys, V_KEYS));
    EXPECT(!lists_are(inner, NODES + 1, u_keys, U_KEYS, v_keys, V_KEYS));
    ENDED(lohandema_lists_right(4, TREE, LISTS, &right), LOHANDEMA_DIMS, 0);
    EXPECT(!right);
    right = true;
    ENDED(lohandema_lists_right(3, TREE, LISTS, &right), LOHANDEMA_TREE, 0);
    EXPECT(!right);
}

static void orders_judged(void)
{
    const size_t turned[SOURCES] = {2, 0, 3, 1}, past[SOURCES] = {0, 1, 2, 4};
    EXPECT(lohandema_is_arrangement(order, SOURCES, SOURCES) && lohandema_is_arrangement(turned, SOURCES, SOURCES));
    EXPECT(!lohandema_is_arrangement(past, SOURCES, SOURCES) && !lohandema_is_arrangement(order, SOURCES, 3));
    EXPECT(!lohandema_is_arrangement(order, SOURCES, SIZE_MAX) && lohandema_is_arrangement(NULL, 0, 0));
}

void test_sums(void)
{
    sums_of_leaves();
    sums_refused();
    sums_of_the_survey();
    lists_judged();
    orders_judged();
}
