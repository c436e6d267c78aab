/* Columns that are no tree: every call that takes one refuses them 13 and leaves zeros in what was lent. */
#include "checks.h"

/* More room than any of these trees needs. */
enum { ROOM = 24 };
static const double centre[3] = {4.0, 0.0, 0.0}, point[3] = {0.5, 0.0, 0.0};
static uint64_t output[ROOM], u_keys[ROOM], v_keys[ROOM], leaf, climbed, work;
static size_t u_starts[ROOM], v_starts[ROOM], steps, count, u, v;

static void prepare(void)
{
    void *const slices[5] = {output, u_keys, v_keys, u_starts, v_starts};
    for (size_t i = 0; i < 5; i++)
        fill_with_junk(slices[i], ROOM * 8);
    leaf = climbed = work = 77;
    steps = count = u = v = 77;
}

static void lookup_refused(tree t)
{
    prepare();
    ENDED(lohandema_points_to_keys(centre, 4.0, 1, TREE_COLUMNS(t), point, 1, output, ROOM, &steps), LOHANDEMA_TREE, 0);
    EXPECT(steps == 0 && ZEROED(output, ROOM));
    ENDED(lohandema_point_to_leaf(centre, 4.0, 1, TREE_COLUMNS(t), point, &leaf, &climbed), LOHANDEMA_TREE, 0);
    EXPECT(leaf == 0 && climbed == 0);
}

static void grouping_and_cells_refused(tree t)
{
    prepare();
    ENDED(lohandema_get_points_to_leaves_map(1, TREE_COLUMNS(t), NULL, 0, u_starts, ROOM, v_starts, ROOM), LOHANDEMA_TREE, 0);
    EXPECT(ZEROED(u_starts, ROOM) && ZEROED(v_starts, ROOM));
    ENDED(lohandema_get_sourced_cells(1, TREE_COLUMNS(t), output, ROOM, &count), LOHANDEMA_TREE, 0);
    EXPECT(count == 0 && ZEROED(output, ROOM));
}

static void lists_refused(tree t)
{
    prepare();
    ENDED(lohandema_get_interaction_lists(1, TREE_COLUMNS(t), u_starts, ROOM, u_keys, ROOM, v_starts, ROOM, v_keys, ROOM, &u, &v),
          LOHANDEMA_TREE, 0);
    EXPECT(u == 0 && v == 0 && ZEROED(u_starts, ROOM) && ZEROED(u_keys, ROOM) && ZEROED(v_starts, ROOM));
    EXPECT(ZEROED(v_keys, ROOM));
}

/* With a target and without. */
static void near_work_refused(tree t)
{
    for (size_t len = 0; len < 2; len++) {
        prepare();
        ENDED(lohandema_get_near_work(centre, 4.0, 1, TREE_COLUMNS(t), point, len, u_starts, ROOM, &work), LOHANDEMA_TREE, 0);
        EXPECT(work == 0 && ZEROED(u_starts, ROOM));
    }
}

void no_tree(tree t)
{
    EXPECT(!lohandema_is_well_formed(1, TREE_COLUMNS(t)));
    lookup_refused(t);
    grouping_and_cells_refused(t);
    lists_refused(t);
    near_work_refused(t);
}
