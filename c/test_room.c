/* The most nodes that a tree can have: known figures, and builds in just so much room, which none is refused. */
#include "checks.h"

#include <stdlib.h>

/* These are those of the Python package, which reckons alike. */
static const struct {
    size_t axes, sources, targets, limit, order;
    bool keep_empty;
    size_t most;
} known[] = {{1, 4, 0, 1, 1, false, 63},
             {1, 0, 0, 1, 1, false, 1},
             {1, 0, 0, 1, 1, true, 3},
             {2, 1000, 0, 8, 1, false, 5669},
             {2, 1000, 500, 8, 3, true, 8069},
             {3, 1048576, 1048576, 64, 4, true, 1048576},
             {3, 100000, 0, 64, 1, false, 152329},
             {3, 7, 0, 0, 1, false, 113},
             {3, 100, 0, 1099511627776, 1, true, 9},
             {2, 100, 1048576, 10, 64, true, 12981},
             {3, SIZE_MAX, SIZE_MAX, SIZE_MAX, SIZE_MAX, true, 9},
             {0, 4, 0, 1, 1, false, 0},
             {4, 4, 0, 1, 1, false, 0}};

enum { SOURCES = 40, MOST = 20000 };

/* A build of pairs of sources so close that they part at level 16 only, if at all, and of targets likewise. */
static void in_the_room(size_t axes, size_t count, size_t limit, bool keep_empty)
{
    static uint64_t key[MOST], work[4 * SOURCES];
    static size_t own[MOST], begin[MOST], total[MOST], indices[SOURCES];
    const double centre[3] = {4.0, 4.0, 4.0};
    double sources[3 * SOURCES], targets[3 * SOURCES];
    size_t nodes, most = lohandema_most_nodes(axes, count, keep_empty ? count : 0, limit, 1, keep_empty);
    uint64_t depth;
    for (size_t i = 0; i < axes * count; i++) {
        double place = 0.5 + 7.0 * (rand() % 1000) / 1000.0;
        sources[i] = i % (2 * axes) < axes ? place : sources[i - axes] + 1e-4 * (rand() % 100) / 100.0;
        targets[i] = i % (2 * axes) < axes ? 7.9 - 7.0 * (rand() % 1000) / 1000.0 : targets[i - axes] - 1e-5;
    }
    EXPECT(most <= MOST);
    if (most > MOST)
        return;
    ENDED(lohandema_build_tree(centre, 4.0, axes, sources, axes * count, targets, axes * count, limit, 1, keep_empty, true, work,
                               4 * SOURCES, indices, SOURCES, key, most, own, most, begin, most, total, most, &nodes, &depth),
          0, 0);
    EXPECT(nodes <= most);
}

void test_room(void)
{
    for (size_t i = 0; i < sizeof known / sizeof known[0]; i++)
        EXPECT(lohandema_most_nodes(known[i].axes, known[i].sources, known[i].targets, known[i].limit, known[i].order,
                                    known[i].keep_empty) == known[i].most);
    srand(28);
    for (size_t axes = 1; axes <= 3; axes++)
        for (size_t count = 0; count <= SOURCES; count++)
            for (size_t limit = 0; limit < 4; limit++) {
                in_the_room(axes, count, limit, false);
                in_the_room(axes, count, limit, true);
            }
}
