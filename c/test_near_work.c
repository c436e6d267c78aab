/* Near work: the example with and without targets, each refusal, and zeros in what was lent after one. */
#include "checks.h"

#include <math.h>
#include <stdlib.h>

/* The tree of 0.5, 1.5, 6.5, 7.5 on one axis about 4, with limit 1; and columns that are no tree. */
enum { NODES = 9, ROOM = 24 };
static const double centre[3] = {4.0, NAN, NAN};
static const uint64_t key[NODES] = {0, 1, 2, 3, 32771, 32769, 98306, 196611, 229379};
static const size_t own[NODES] = {0, 0, 0, 1, 1, 0, 0, 1, 1}, begin[NODES] = {0, 0, 0, 0, 1, 2, 2, 2, 3};
static const size_t total[NODES] = {4, 2, 2, 1, 1, 2, 2, 1, 1}, lying[NODES] = {0, 1, 0, 1, 1, 0, 0, 1, 1};

static size_t counts[ROOM];
static uint64_t work;

static lohandema_ended near_work(double radius, size_t axes, const size_t *owns, const double *targets, size_t len,
                                 size_t room)
{
    fill_with_junk(counts, sizeof counts);
    work = 77;
    return lohandema_get_near_work(centre, radius, axes, key, NODES, owns, NODES, begin, NODES, total, NODES, targets, len,
                                   counts, room, &work);
}

#define WORK_REFUSED(call, room, number, value)                                                                              \
    do {                                                                                                                     \
        ENDED((call), (number), (value));                                                                                    \
        EXPECT(work == 0 && ZEROED(counts, (room)));                                                                         \
    } while (0)

static void answers(void)
{
    const double one[1] = {0.5}, some[5] = {7.9, 0.0, 6.5, 7.0, 7.9}, sources[4] = {0.5, 1.5, 6.5, 7.5};
    const size_t of_one[NODES] = {0, 0, 0, 1}, of_some[NODES] = {0, 0, 0, 1, 0, 0, 0, 1, 3};
    ENDED(near_work(4.0, 1, own, NULL, 0, 12), 0, 0);
    EXPECT(work == 8 && STARTS_WITH(counts, own) && REST_ZEROED(counts, NODES, 12));
    ENDED(near_work(4.0, 1, own, sources, 4, NODES), 0, 0);
    EXPECT(work == 8 && STARTS_WITH(counts, own) && REST_ZEROED(counts, NODES, NODES));
    ENDED(near_work(4.0, 1, own, one, 1, 12), 0, 0);
    EXPECT(work == 2 && STARTS_WITH(counts, of_one) && REST_ZEROED(counts, NODES, 12));
    ENDED(near_work(4.0, 1, own, some, 5, 12), 0, 0);
    EXPECT(work == 10 && STARTS_WITH(counts, of_some) && REST_ZEROED(counts, NODES, 12));
}

/* A coarse leaf without sources beside fine ones: its targets meet both of them. */
static void targets_in_an_empty_leaf(void)
{
    const uint64_t keys[7] = {0, 1, 2, 32770, 65539, 98307, 32769};
    const size_t owns[7] = {0, 0, 0, 0, 1, 1, 0}, begins[7] = {0, 0, 0, 0, 0, 1, 2}, totals[7] = {2, 2, 0, 2, 1, 1, 0};
    const double targets[3] = {4.0, 5.0, 7.0};
    const size_t right[7] = {0, 0, 0, 0, 0, 0, 3};
    fill_with_junk(counts, sizeof counts);
    ENDED(lohandema_get_near_work(centre, 4.0, 1, keys, 7, owns, 7, begins, 7, totals, 7, targets, 3, counts, 8, &work), 0, 0);
    EXPECT(work == 6 && STARTS_WITH(counts, right) && REST_ZEROED(counts, 7, 8));
}

/* In the order of the checks. */
static void refusals(void)
{
    const double none[1] = {3.0}, above[1] = {8.0}, first[2] = {3.0, 8.0}, second[2] = {8.0, 3.0}, third[3] = {0.5, 1.5, NAN};
    WORK_REFUSED(near_work(0.1, 0, lying, first, 2, 8), 8, LOHANDEMA_DIMS, 0);
    WORK_REFUSED(near_work(0.1, 4, lying, first, 2, 8), 8, LOHANDEMA_DIMS, 0);
    WORK_REFUSED(near_work(0.1, 1, lying, first, 2, 8), 8, LOHANDEMA_BOX, 0);
    WORK_REFUSED(near_work(4.0, 1, lying, first, 2, 8), 8, LOHANDEMA_TREE, 0);
    WORK_REFUSED(near_work(4.0, 1, lying, NULL, 0, 8), 8, LOHANDEMA_TREE, 0);
    WORK_REFUSED(near_work(4.0, 1, own, first, 2, 8), 8, LOHANDEMA_ROOM, LOHANDEMA_ROOM_POINTS);
    WORK_REFUSED(near_work(4.0, 1, own, NULL, 0, 8), 8, LOHANDEMA_ROOM, LOHANDEMA_ROOM_POINTS);
    WORK_REFUSED(near_work(4.0, 1, own, none, 1, 12), 12, LOHANDEMA_UNSTORED, 0);
    WORK_REFUSED(near_work(4.0, 1, own, first, 2, 12), 12, LOHANDEMA_UNSTORED, 0);
    WORK_REFUSED(near_work(4.0, 1, own, above, 1, 12), 12, LOHANDEMA_POINT, 0);
    EXPECT(BEHIND(near_work(4.0, 1, own, above, 1, 12), 0, 0, LOHANDEMA_ABOVE));
    EXPECT(BEHIND(near_work(4.0, 1, own, second, 2, 12), 0, 0, LOHANDEMA_ABOVE));
    WORK_REFUSED(near_work(4.0, 1, own, third, 3, 12), 12, LOHANDEMA_POINT, 2);
    EXPECT(BEHIND(near_work(4.0, 1, own, third, 3, 12), 2, 0, LOHANDEMA_NOT_FINITE));
}

/* Coordinates that are not whole points, before the tree is looked at. */
static void shapes(void)
{
    const double flat[6] = {4.0, 4.0, 4.0, 4.0, 4.0, 4.0}, middle[3] = {4.0, 4.0, 4.0};
    const struct {
        size_t axes, len;
        uint64_t number;
    } asked[6] = {{2, 3, LOHANDEMA_SHAPE}, {2, 4, LOHANDEMA_TREE}, {3, 1, LOHANDEMA_SHAPE},
                  {3, 5, LOHANDEMA_SHAPE}, {3, 6, LOHANDEMA_TREE}, {3, 0, LOHANDEMA_TREE}};
    for (size_t i = 0; i < 6; i++) {
        fill_with_junk(counts, sizeof counts);
        work = 77;
        ENDED(lohandema_get_near_work(middle, 4.0, asked[i].axes, key, NODES, lying, NODES, begin, NODES, total, NODES, flat,
                                      asked[i].len, counts, 8, &work),
              asked[i].number, 0);
        EXPECT(work == 0 && ZEROED(counts, 8));
    }
}

/* As many targets as are taken, all in one leaf, and one more. */
static void many(void)
{
    const size_t most = LOHANDEMA_MOST_POINTS;
    double *targets = (double *)calloc(most + 1, sizeof *targets);
    if (targets == NULL)
        abort();
    WORK_REFUSED(near_work(4.0, 1, lying, targets, most + 1, 8), 8, LOHANDEMA_COUNT, 0);
    ENDED(near_work(4.0, 1, own, targets, most, 12), 0, 0);
    EXPECT(work == 2 * most && counts[3] == most && REST_ZEROED(counts, 4, 12));
    free(targets);
}

void test_near_work(void)
{
    answers();
    targets_in_an_empty_leaf();
    refusals();
    shapes();
    many();
}
