/* What the tests share: counted checks, and lent places that are full of junk before a call. */
#ifndef LOHANDEMA_CHECKS_H
#define LOHANDEMA_CHECKS_H

#include "../include/lohandema.h"

#include <string.h>

/* Count a check, and say where it failed. */
void expect(bool holds, const char *what, const char *file, int line);
void expect_ended(lohandema_ended ended, uint64_t number, size_t value, const char *what, const char *file, int line);

#define EXPECT(truth) expect((truth), #truth, __FILE__, __LINE__)
#define ENDED(call, number, value) expect_ended((call), (number), (value), #call, __FILE__, __LINE__)

/* Whether a refusal names this wall of this point. */
#define BEHIND(ended, point, on_axis, why) ((ended).value == (point) && (ended).axis == (on_axis) && (ended).reason == (why))

/* Sets bytes to junk, which is neither 0 nor an answer. */
void fill_with_junk(void *place, size_t bytes);
bool all_zero(const void *place, size_t bytes);
bool all_junk(const void *place, size_t bytes);

/* An array of 8-byte entries, of which the first `lent` were lent to a call that refused: those are 0, the others as they
 * were. */
#define ZEROED(array, lent) (all_zero((array), (lent)*8) && all_junk((array) + (lent), sizeof(array) - (lent)*8))

/* And one into which `used` entries were written: 0 from there up to `lent`, the others as they were. */
#define REST_ZEROED(array, used, lent)                                                                                       \
    (all_zero((array) + (used), ((lent) - (used)) * 8) && all_junk((array) + (lent), sizeof(array) - (lent)*8))

/* Columns of one axis about 4, radius 4: `nodes` entries each, but for the totals. */
enum { MOST_ENTRIES = 18 };
typedef struct {
    size_t nodes, totals;
    uint64_t key[MOST_ENTRIES];
    size_t own[MOST_ENTRIES], begin[MOST_ENTRIES], total[MOST_ENTRIES];
} tree;

#define TREE_COLUMNS(t) (t).key, (t).nodes, (t).own, (t).nodes, (t).begin, (t).nodes, (t).total, (t).totals

/* Checks that these columns are no tree for any call that takes one, and that each call leaves zeros. */
void no_tree(tree t);

/* Whether an array starts with these entries. */
#define STARTS_WITH(array, entries) (memcmp((array), (entries), sizeof(entries)) == 0)

/* The parts of the test. */
void test_names(void);
void test_keys(void);
void test_points(void);
void test_build(void);
void test_grids(void);
void test_trees(void);
void test_nodes(void);
void test_room(void);
void test_sizes(void);
void test_near_work(void);
void test_totals(void);
void test_order(void);
void test_salvage(void);
void test_sums(void);
void test_files(void);
void test_balance(void);
void test_more(void);
void test_null(void);

#endif
