/* The salvage of columns: known damage of every kind, each refusal in its order, and zeros in what was lent after a refusal. */
#include "checks.h"

#include <stdlib.h>

/* One axis: cell 1 and the root are gone, cell 3 stands twice, 17 is no key, 98306 runs past the order column's end. */
enum { ROWS = 6, ENTRIES = 5, NODES = 7, SOURCES = 3, CHANGES = 10, ROOM = 40 };
static const uint64_t key[ROWS] = {3, 17, 3, 98306, 65538, 2};
static const size_t own[ROWS] = {2, 1, 1, 2, 1, 1}, begin[ROWS] = {0, 0, 0, 4, 4, 3}, indices[ENTRIES] = {7, 9, 9, 0, 4};

/* What can be had: a leaf of two sources at level 3 and one of one at level 2. */
static const uint64_t keys[NODES] = {0, 1, 2, 3, 32769, 65538, 98306};
static const size_t owns[NODES] = {0, 0, 0, 2, 0, 1, 0}, begins[NODES] = {0, 0, 0, 0, 2, 2, 3};
static const size_t totals[NODES] = {3, 2, 2, 2, 1, 1, 0}, orders[SOURCES] = {7, 9, 4};
static const uint64_t said[CHANGES] = {1, 2, 3, 3, 3, 4, 4, 5, 5, 5};
static const uint64_t of[CHANGES] = {17, 3, 0, 1, 32769, 98306, 2, 98306, 65538, 2};

/* What the call is given, and how much is lent to it. */
typedef struct {
    size_t axes;
    const uint64_t *key;
    size_t key_len;
    const size_t *own;
    size_t own_len;
    const size_t *begin;
    size_t begin_len;
    const size_t *indices;
    size_t indices_len, new_indices_len, new_key_len, new_own_len, new_begin_len, new_total_len, codes_len, changed_len;
} asked;

static uint64_t new_key[ROOM], codes[ROOM], changed[ROOM];
static size_t new_indices[ROOM], new_own[ROOM], new_begin[ROOM], new_total[ROOM], nodes, sources, changes;

/* The columns above, and more room than they need. */
static asked example(void)
{
    asked a = {1, key, ROWS, own, ROWS, begin, ROWS, indices, ENTRIES, 20, 21, 22, 23, 24, 25, 26};
    return a;
}

static lohandema_ended salvage(asked a)
{
    fill_with_junk(new_indices, sizeof new_indices);
    fill_with_junk(new_key, sizeof new_key);
    fill_with_junk(new_own, sizeof new_own);
    fill_with_junk(new_begin, sizeof new_begin);
    fill_with_junk(new_total, sizeof new_total);
    fill_with_junk(codes, sizeof codes);
    fill_with_junk(changed, sizeof changed);
    nodes = sources = changes = 77;
    return lohandema_salvage(a.axes, a.key, a.key_len, a.own, a.own_len, a.begin, a.begin_len, a.indices, a.indices_len,
                             new_indices, a.new_indices_len, new_key, a.new_key_len, new_own, a.new_own_len, new_begin,
                             a.new_begin_len, new_total, a.new_total_len, codes, a.codes_len, changed, a.changed_len, &nodes,
                             &sources, &changes);
}

#define SALVAGE_REFUSED(a, number, value)                                                                                    \
    do {                                                                                                                     \
        ENDED(salvage(a), (number), (value));                                                                                \
        EXPECT(nodes == 0 && sources == 0 && changes == 0 && ZEROED(new_indices, (a).new_indices_len));                      \
        EXPECT(ZEROED(new_key, (a).new_key_len) && ZEROED(new_own, (a).new_own_len));                                        \
        EXPECT(ZEROED(new_begin, (a).new_begin_len) && ZEROED(new_total, (a).new_total_len));                                \
        EXPECT(ZEROED(codes, (a).codes_len) && ZEROED(changed, (a).changed_len));                                            \
    } while (0)

/* Whether the tree of the example is there, with so many changes. */
static void expect_tree(asked a, size_t count)
{
    ENDED(salvage(a), 0, 0);
    EXPECT(nodes == NODES && sources == SOURCES && changes == count);
    EXPECT(STARTS_WITH(new_indices, orders) && REST_ZEROED(new_indices, SOURCES, a.new_indices_len));
    EXPECT(STARTS_WITH(new_key, keys) && REST_ZEROED(new_key, NODES, a.new_key_len));
    EXPECT(STARTS_WITH(new_own, owns) && REST_ZEROED(new_own, NODES, a.new_own_len));
    EXPECT(STARTS_WITH(new_begin, begins) && REST_ZEROED(new_begin, NODES, a.new_begin_len));
    EXPECT(STARTS_WITH(new_total, totals) && REST_ZEROED(new_total, NODES, a.new_total_len));
    EXPECT(REST_ZEROED(codes, count, a.codes_len) && REST_ZEROED(changed, count, a.changed_len));
    EXPECT(lohandema_is_well_formed(1, new_key, nodes, new_own, nodes, new_begin, nodes, new_total, nodes));
}

static void known_damage(void)
{
    asked a = example();
    expect_tree(a, CHANGES);
    EXPECT(STARTS_WITH(codes, said) && STARTS_WITH(changed, of));
    a.new_indices_len = SOURCES;
    a.new_key_len = a.new_own_len = a.new_begin_len = a.new_total_len = NODES;
    a.codes_len = a.changed_len = CHANGES;
    expect_tree(a, CHANGES);
    EXPECT(STARTS_WITH(codes, said) && STARTS_WITH(changed, of));
    /* what is well formed comes back the same, and needs no room for changes */
    a.key = keys;
    a.own = owns;
    a.begin = begins;
    a.indices = orders;
    a.key_len = a.own_len = a.begin_len = NODES;
    a.indices_len = SOURCES;
    a.codes_len = a.changed_len = 0;
    expect_tree(a, 0);
}

/* No row at all: the root is added. */
static void known_nothing(void)
{
    asked a = example();
    a.key_len = a.own_len = a.begin_len = a.indices_len = 0;
    ENDED(salvage(a), 0, 0);
    EXPECT(nodes == 1 && sources == 0 && changes == 1 && codes[0] == LOHANDEMA_CHANGE_ADDED && changed[0] == 0);
    EXPECT(REST_ZEROED(new_key, 0, a.new_key_len) && REST_ZEROED(codes, 1, a.codes_len));
}

/* Cells that were added by their key and not by their node; and a run that passes the end by the largest numbers there are. */
static void known_orders(void)
{
    const uint64_t deep[2] = {65539, 131075}, added[5] = {0, 1, 32769, 32770, 65538}, one[1] = {1};
    const size_t none[2] = {0, 0}, single[1] = {1}, last[1] = {SIZE_MAX};
    asked a = example();
    a.key = deep;
    a.own = a.begin = none;
    a.key_len = a.own_len = a.begin_len = 2;
    ENDED(salvage(a), 0, 0);
    EXPECT(nodes == 7 && changes == 5 && STARTS_WITH(changed, added) && new_key[2] == 32770 && new_key[4] == 32769);
    a.key = one;
    a.own = single;
    a.begin = last;
    a.key_len = a.own_len = a.begin_len = 1;
    ENDED(salvage(a), 0, 0);
    EXPECT(changes == 3 && codes[1] == LOHANDEMA_CHANGE_CLEARED && codes[2] == LOHANDEMA_CHANGE_MOVED && changed[2] == 1);
}

/* Two leaves over one run: 1,048,576 sources are taken, and one more is refused, whatever is lent. */
static void refused_by_total(void)
{
    enum { HALF = LOHANDEMA_MOST_POINTS / 2 };
    const uint64_t halves[2] = {1, 32769};
    size_t counts[2] = {HALF, HALF + 1}, from[2] = {0, 0}, *run = (size_t *)calloc(HALF + 1, sizeof *run);
    size_t *room = (size_t *)malloc(2 * HALF * sizeof *room);
    if (run == NULL || room == NULL)
        abort();
    asked a = example();
    a.key = halves;
    a.own = counts;
    a.begin = from;
    a.indices = run;
    a.key_len = a.own_len = a.begin_len = 2;
    a.indices_len = HALF + 1;
    SALVAGE_REFUSED(a, LOHANDEMA_TREE, 0);
    a.new_indices_len = a.new_key_len = a.codes_len = 0;
    SALVAGE_REFUSED(a, LOHANDEMA_TREE, 0);
    counts[1] = HALF;
    SALVAGE_REFUSED(a, LOHANDEMA_ROOM, LOHANDEMA_ROOM_ORDER);
    run[HALF - 1] = 5;
    ENDED(lohandema_salvage(1, halves, 2, counts, 2, from, 2, run, HALF + 1, room, 2 * HALF, new_key, 3, new_own, 3, new_begin, 3,
                            new_total, 3, codes, 2, changed, 2, &nodes, &sources, &changes),
          0, 0);
    EXPECT(nodes == 3 && sources == 2 * HALF && changes == 2 && new_total[0] == 2 * HALF && new_begin[2] == HALF);
    EXPECT(room[HALF - 1] == 5 && room[2 * HALF - 1] == 5 && room[HALF] == 0);
    free(run);
    free(room);
}

/* Each refusal before all that come after it. */
static void refused_in_order(void)
{
    asked a = example();
    a.new_indices_len = SOURCES - 1;
    a.new_total_len = NODES - 1;
    a.changed_len = CHANGES - 1;
    SALVAGE_REFUSED(a, LOHANDEMA_ROOM, LOHANDEMA_ROOM_ORDER);
    a.own_len = ROWS - 1;
    SALVAGE_REFUSED(a, LOHANDEMA_SHAPE, 0);
    a.own_len = ROWS;
    a.begin_len = ROWS - 1;
    SALVAGE_REFUSED(a, LOHANDEMA_SHAPE, 0);
    a.key_len = a.own_len = ROWS - 2;
    SALVAGE_REFUSED(a, LOHANDEMA_SHAPE, 0);
    a.axes = 0;
    SALVAGE_REFUSED(a, LOHANDEMA_DIMS, 0);
    a.axes = 4;
    SALVAGE_REFUSED(a, LOHANDEMA_DIMS, 0);
}

static void refused_by_room(void)
{
    asked a = example();
    a.new_indices_len = SOURCES;
    a.new_key_len = NODES - 1;
    a.codes_len = CHANGES - 1;
    SALVAGE_REFUSED(a, LOHANDEMA_ROOM, LOHANDEMA_ROOM_NODES);
    a.new_key_len = NODES;
    SALVAGE_REFUSED(a, LOHANDEMA_ROOM, LOHANDEMA_ROOM_CHANGES);
    a.codes_len = CHANGES;
    a.changed_len = CHANGES - 1;
    SALVAGE_REFUSED(a, LOHANDEMA_ROOM, LOHANDEMA_ROOM_CHANGES);
    a = example();
    a.new_own_len = NODES - 1;
    SALVAGE_REFUSED(a, LOHANDEMA_ROOM, LOHANDEMA_ROOM_NODES);
    a = example();
    a.new_begin_len = 0;
    SALVAGE_REFUSED(a, LOHANDEMA_ROOM, LOHANDEMA_ROOM_NODES);
    a = example();
    a.new_total_len = NODES - 1;
    SALVAGE_REFUSED(a, LOHANDEMA_ROOM, LOHANDEMA_ROOM_NODES);
}

static void words(void)
{
    for (uint64_t code = 0; code < 7; code++)
        EXPECT(strlen(lohandema_change_sentence(code)) > 15);
    EXPECT(strstr(lohandema_change_sentence(LOHANDEMA_CHANGE_NOT_VALID), "no valid key") != NULL);
    EXPECT(strstr(lohandema_change_sentence(LOHANDEMA_CHANGE_REPEATED), "an earlier one") != NULL);
    EXPECT(strstr(lohandema_change_sentence(LOHANDEMA_CHANGE_ADDED), "was added") != NULL);
    EXPECT(strstr(lohandema_change_sentence(LOHANDEMA_CHANGE_CLEARED), "count was cleared") != NULL);
    EXPECT(strstr(lohandema_change_sentence(LOHANDEMA_CHANGE_MOVED), "begin was changed") != NULL);
    EXPECT(strstr(lohandema_change_sentence(UINT64_MAX), "does not know") != NULL);
}

void test_salvage(void)
{
    known_damage();
    known_nothing();
    known_orders();
    refused_by_total();
    refused_in_order();
    refused_by_room();
    words();
}
