/* NULL for a slice without entries: every slice of every call, read and lent, each with its answer or refusal. */
#include "checks.h"

/* The smallest tree: a root and nothing else. And the tree of one axis with a source in each half. */
static const double centre[3] = {4.0, 4.0, 4.0}, point[3] = {1.0, 1.0, 1.0}, halves[2] = {1.0, 7.0};
static const uint64_t root[1] = {0}, key[3] = {0, 1, 32769};
static const size_t none[1] = {0}, own[3] = {0, 1, 1}, begin[3] = {0, 0, 1}, total[3] = {2, 1, 1};

#define ROOT root, 1, none, 1, none, 1, none, 1
#define COLUMNS key, 3, own, 3, begin, 3, total, 3
#define NO_COLUMNS NULL, 0, NULL, 0, NULL, 0, NULL, 0

static void builds(void)
{
    uint64_t work[4] = {0}, keys[4] = {0}, depth = 7;
    size_t indices[4] = {0}, owns[4] = {0}, begins[4] = {0}, totals[4] = {0}, nodes = 7;
    ENDED(lohandema_build_tree(centre, 4.0, 1, NULL, 0, NULL, 0, 1, 1, true, true, NULL, 0, NULL, 0, keys, 3, owns, 3, begins,
                               3, totals, 3, &nodes, &depth),
          0, 0);
    EXPECT(nodes == 3 && depth == 1);
    ENDED(lohandema_build_tree(centre, 4.0, 3, NULL, 0, NULL, 0, 1, 1, false, false, NULL, 0, NULL, 0, NO_COLUMNS, &nodes,
                               &depth),
          LOHANDEMA_ROOM, LOHANDEMA_ROOM_NODES);
    EXPECT(nodes == 0 && depth == 0);
    ENDED(lohandema_build_tree(centre, 4.0, 1, halves, 2, NULL, 0, 1, 1, false, false, NULL, 0, indices, 2, keys, 3, owns, 3,
                               begins, 3, totals, 3, &nodes, &depth),
          LOHANDEMA_ROOM, LOHANDEMA_ROOM_WORK);
    ENDED(lohandema_build_tree(centre, 4.0, 1, halves, 2, NULL, 0, 1, 1, false, false, work, 4, NULL, 0, keys, 3, owns, 3,
                               begins, 3, totals, 3, &nodes, &depth),
          LOHANDEMA_ROOM, LOHANDEMA_ROOM_ORDER);
    ENDED(lohandema_build_tree(centre, 4.0, 1, halves, 2, NULL, 0, 1, 1, false, false, work, 4, indices, 2, NULL, 0, owns, 3,
                               begins, 3, totals, 3, &nodes, &depth),
          LOHANDEMA_ROOM, LOHANDEMA_ROOM_NODES);
    ENDED(lohandema_build_tree(centre, 4.0, 1, halves, 2, NULL, 0, 1, 1, false, false, work, 4, indices, 2, keys, 3, NULL, 0,
                               begins, 3, totals, 3, &nodes, &depth),
          LOHANDEMA_ROOM, LOHANDEMA_ROOM_NODES);
    ENDED(lohandema_build_tree(centre, 4.0, 1, halves, 2, NULL, 0, 1, 1, false, false, work, 4, indices, 2, keys, 3, owns, 3,
                               NULL, 0, totals, 3, &nodes, &depth),
          LOHANDEMA_ROOM, LOHANDEMA_ROOM_NODES);
    ENDED(lohandema_build_tree(centre, 4.0, 1, halves, 2, NULL, 0, 1, 1, false, false, work, 4, indices, 2, keys, 3, owns, 3,
                               begins, 3, NULL, 0, &nodes, &depth),
          LOHANDEMA_ROOM, LOHANDEMA_ROOM_NODES);
    ENDED(lohandema_build_tree(centre, 0.0, 1, NULL, 0, NULL, 0, 1, 1, true, true, NULL, 0, NULL, 0, NO_COLUMNS, &nodes,
                               &depth),
          LOHANDEMA_BOX, 0);
}

/* One point of a grid, which is in the lower half of the box. */
#define ONE_POINT point, point, ones
static const size_t ones[3] = {1, 1, 1};

static void builds_on_grid(void)
{
    uint64_t work[4] = {0}, keys[4] = {0}, depth = 7;
    size_t indices[4] = {0}, owns[4] = {0}, begins[4] = {0}, totals[4] = {0}, nodes = 7;
    ENDED(lohandema_build_tree_on_grid(centre, 4.0, 1, NULL, 0, ONE_POINT, 1, 1, true, true, NULL, 0, NULL, 0, keys, 3, owns,
                                       3, begins, 3, totals, 3, &nodes, &depth),
          0, 0);
    EXPECT(nodes == 3 && depth == 1);
    ENDED(lohandema_build_tree_on_grid(centre, 4.0, 3, NULL, 0, ONE_POINT, 1, 1, true, true, NULL, 0, NULL, 0, NO_COLUMNS,
                                       &nodes, &depth),
          LOHANDEMA_ROOM, LOHANDEMA_ROOM_NODES);
    EXPECT(nodes == 0 && depth == 0);
    ENDED(lohandema_build_tree_on_grid(centre, 4.0, 1, halves, 2, ONE_POINT, 1, 1, true, true, NULL, 0, indices, 2, keys, 3,
                                       owns, 3, begins, 3, totals, 3, &nodes, &depth),
          LOHANDEMA_ROOM, LOHANDEMA_ROOM_WORK);
    ENDED(lohandema_build_tree_on_grid(centre, 4.0, 1, halves, 2, ONE_POINT, 1, 1, true, true, work, 4, NULL, 0, keys, 3,
                                       owns, 3, begins, 3, totals, 3, &nodes, &depth),
          LOHANDEMA_ROOM, LOHANDEMA_ROOM_ORDER);
    ENDED(lohandema_build_tree_on_grid(centre, 4.0, 1, halves, 2, ONE_POINT, 1, 1, true, true, work, 4, indices, 2, NULL, 0,
                                       owns, 3, begins, 3, totals, 3, &nodes, &depth),
          LOHANDEMA_ROOM, LOHANDEMA_ROOM_NODES);
    ENDED(lohandema_build_tree_on_grid(centre, 4.0, 1, halves, 2, ONE_POINT, 1, 1, true, true, work, 4, indices, 2, keys, 3,
                                       NULL, 0, begins, 3, totals, 3, &nodes, &depth),
          LOHANDEMA_ROOM, LOHANDEMA_ROOM_NODES);
    ENDED(lohandema_build_tree_on_grid(centre, 4.0, 1, halves, 2, ONE_POINT, 1, 1, true, true, work, 4, indices, 2, keys, 3,
                                       owns, 3, NULL, 0, totals, 3, &nodes, &depth),
          LOHANDEMA_ROOM, LOHANDEMA_ROOM_NODES);
    ENDED(lohandema_build_tree_on_grid(centre, 4.0, 1, halves, 2, ONE_POINT, 1, 1, true, true, work, 4, indices, 2, keys, 3,
                                       owns, 3, begins, 3, NULL, 0, &nodes, &depth),
          LOHANDEMA_ROOM, LOHANDEMA_ROOM_NODES);
}

static void counts(void)
{
    uint64_t work[4] = {7, 7, 7, 7};
    size_t indices[4] = {7, 7, 7, 7}, nodes = 7;
    ENDED(lohandema_count_nodes(centre, 4.0, 1, NULL, 0, NULL, 0, 1, 1, true, true, NULL, 0, NULL, 0, &nodes), 0, 0);
    EXPECT(nodes == 3);
    ENDED(lohandema_count_nodes(centre, 4.0, 1, halves, 2, NULL, 0, 1, 1, true, true, NULL, 0, indices, 4, &nodes),
          LOHANDEMA_ROOM, LOHANDEMA_ROOM_WORK);
    EXPECT(nodes == 0 && all_zero(indices, sizeof indices));
    ENDED(lohandema_count_nodes(centre, 4.0, 1, halves, 2, NULL, 0, 1, 1, true, true, work, 4, NULL, 0, &nodes),
          LOHANDEMA_ROOM, LOHANDEMA_ROOM_ORDER);
    EXPECT(all_zero(work, sizeof work));
    ENDED(lohandema_count_nodes_on_grid(centre, 4.0, 1, NULL, 0, ONE_POINT, 1, 1, true, true, NULL, 0, NULL, 0, &nodes), 0, 0);
    EXPECT(nodes == 3);
    ENDED(lohandema_count_nodes_on_grid(centre, 4.0, 1, halves, 2, ONE_POINT, 1, 1, true, true, NULL, 0, NULL, 0, &nodes),
          LOHANDEMA_ROOM, LOHANDEMA_ROOM_WORK);
    EXPECT(nodes == 0);
}

static void columns(void)
{
    size_t start = 7;
    EXPECT(lohandema_is_well_formed(1, COLUMNS) && !lohandema_is_well_formed(1, NO_COLUMNS));
    EXPECT(!lohandema_is_well_formed(1, NULL, 0, own, 3, begin, 3, total, 3));
    EXPECT(!lohandema_is_well_formed(1, key, 3, NULL, 0, begin, 3, total, 3));
    EXPECT(!lohandema_is_well_formed(1, key, 3, own, 3, NULL, 0, total, 3));
    EXPECT(!lohandema_is_well_formed(1, key, 3, own, 3, begin, 3, NULL, 0));
    EXPECT(lohandema_depth_of(NULL, 0) == 1);
    EXPECT(!lohandema_find_node(1, NULL, 0, 0, &start) && start == 0);
    EXPECT(!lohandema_is_leaf(NULL, 0, 0) && !lohandema_is_leaf(NULL, 0, 1) && !lohandema_is_leaf(NULL, 0, SIZE_MAX));
    EXPECT(lohandema_next_of_level(NULL, 0, 0, 0) == 0 && lohandema_next_of_level(NULL, 0, 1, SIZE_MAX) == 0);
    EXPECT(lohandema_is_arrangement(NULL, 0, 0) && !lohandema_is_arrangement(NULL, 0, 1));
    start = 7;
    EXPECT(lohandema_leaf_sources(NULL, 0, NULL, 0, NULL, 0, 0, &start) == 0 && start == 0);
    EXPECT(lohandema_leaf_sources(own, 3, begin, 3, NULL, 0, 1, &start) == 0 && start == 0);
    EXPECT(lohandema_leaf_sources(own, 3, NULL, 0, begin, 3, 1, &start) == 0 && start == 0);
    EXPECT(lohandema_leaf_sources(NULL, 0, begin, 3, begin, 3, 1, &start) == 0 && start == 0);
    start = 7;
    EXPECT(lohandema_cell_sources(NULL, 0, NULL, 0, NULL, 0, 0, &start) == 0 && start == 0);
    start = 7;
    EXPECT(lohandema_cell_sources(total, 3, begin, 3, NULL, 0, 1, &start) == 0 && start == 0);
    start = 7;
    EXPECT(lohandema_cell_sources(total, 3, NULL, 0, begin, 3, 1, &start) == 0 && start == 0);
    start = 7;
    EXPECT(lohandema_cell_sources(NULL, 0, begin, 3, begin, 3, 1, &start) == 0 && start == 0);
    start = 7;
    EXPECT(lohandema_cell_sources(none, 1, none, 1, NULL, 0, 0, &start) == 0 && start == 0);
}

static void lookups(void)
{
    uint64_t output[2] = {7, 7}, leaf = 7, climbed = 7;
    size_t steps = 7;
    ENDED(lohandema_points_to_keys(centre, 4.0, 1, NO_COLUMNS, NULL, 0, NULL, 0, &steps), LOHANDEMA_TREE, 0);
    ENDED(lohandema_points_to_keys(centre, 4.0, 1, COLUMNS, NULL, 0, NULL, 0, &steps), 0, 0);
    EXPECT(steps == 0);
    ENDED(lohandema_points_to_keys(centre, 4.0, 1, COLUMNS, NULL, 0, output, 2, &steps), 0, 0);
    EXPECT(all_zero(output, sizeof output));
    ENDED(lohandema_points_to_keys(centre, 4.0, 1, COLUMNS, halves, 2, NULL, 0, &steps), LOHANDEMA_ROOM,
          LOHANDEMA_ROOM_POINTS);
    ENDED(lohandema_points_to_keys(centre, 4.0, 1, key, 3, NULL, 0, begin, 3, total, 3, halves, 2, NULL, 0, &steps),
          LOHANDEMA_TREE, 0);
    ENDED(lohandema_points_to_keys(centre, 4.0, 1, key, 3, own, 3, NULL, 0, total, 3, halves, 2, NULL, 0, &steps),
          LOHANDEMA_TREE, 0);
    ENDED(lohandema_points_to_keys(centre, 4.0, 1, key, 3, own, 3, begin, 3, NULL, 0, halves, 2, NULL, 0, &steps),
          LOHANDEMA_TREE, 0);
    ENDED(lohandema_point_to_leaf(centre, 4.0, 1, NO_COLUMNS, point, &leaf, &climbed), LOHANDEMA_TREE, 0);
    EXPECT(leaf == 0 && climbed == 0);
}

static void groups_and_cells(void)
{
    const uint64_t leaves[1] = {1};
    uint64_t cells[2] = {7, 7};
    size_t starts[4] = {7, 7, 7, 7}, count = 7;
    ENDED(lohandema_get_points_to_leaves_map(1, COLUMNS, NULL, 0, starts, 4, NULL, 0), 0, 0);
    EXPECT(all_zero(starts, sizeof starts));
    ENDED(lohandema_get_points_to_leaves_map(1, COLUMNS, NULL, 0, NULL, 0, NULL, 0), LOHANDEMA_ROOM, LOHANDEMA_ROOM_POINTS);
    ENDED(lohandema_get_points_to_leaves_map(1, COLUMNS, leaves, 1, starts, 4, NULL, 0), LOHANDEMA_ROOM,
          LOHANDEMA_ROOM_POINTS);
    ENDED(lohandema_get_points_to_leaves_map(1, NO_COLUMNS, NULL, 0, NULL, 0, NULL, 0), LOHANDEMA_TREE, 0);
    ENDED(lohandema_get_sourced_cells(1, NO_COLUMNS, NULL, 0, &count), LOHANDEMA_TREE, 0);
    ENDED(lohandema_get_sourced_cells(1, COLUMNS, NULL, 0, &count), LOHANDEMA_ROOM, LOHANDEMA_ROOM_CELLS);
    ENDED(lohandema_get_sourced_cells(1, ROOT, NULL, 0, &count), 0, 0);
    EXPECT(count == 0);
    ENDED(lohandema_get_sourced_cells(1, ROOT, cells, 2, &count), 0, 0);
    EXPECT(all_zero(cells, sizeof cells));
}

static void lists(void)
{
    uint64_t u_keys[4] = {0}, v_keys[4] = {0};
    size_t u_starts[4] = {0}, v_starts[4] = {0}, u = 7, v = 7;
    ENDED(lohandema_get_interaction_lists(1, NO_COLUMNS, NULL, 0, NULL, 0, NULL, 0, NULL, 0, &u, &v), LOHANDEMA_TREE, 0);
    ENDED(lohandema_get_interaction_lists(1, COLUMNS, NULL, 0, u_keys, 4, v_starts, 4, v_keys, 4, &u, &v),
          LOHANDEMA_ROOM, LOHANDEMA_ROOM_U_STARTS);
    ENDED(lohandema_get_interaction_lists(1, COLUMNS, u_starts, 4, u_keys, 4, NULL, 0, v_keys, 4, &u, &v),
          LOHANDEMA_ROOM, LOHANDEMA_ROOM_V_STARTS);
    ENDED(lohandema_get_interaction_lists(1, COLUMNS, u_starts, 4, NULL, 0, v_starts, 4, v_keys, 4, &u, &v),
          LOHANDEMA_ROOM, LOHANDEMA_ROOM_U_KEYS);
    ENDED(lohandema_get_interaction_lists(1, COLUMNS, u_starts, 4, u_keys, 4, v_starts, 4, NULL, 0, &u, &v), 0, 0);
    EXPECT(u == 4 && v == 0);
    ENDED(lohandema_get_interaction_lists(1, ROOT, u_starts, 2, NULL, 0, v_starts, 2, NULL, 0, &u, &v), 0, 0);
    EXPECT(u == 0 && v == 0);
}

static void list_sizes(void)
{
    uint64_t row[4] = {7, 7, 7, 7};
    size_t work[4] = {7, 7, 7, 7}, u = 7, v = 7;
    ENDED(lohandema_get_list_sizes(1, NO_COLUMNS, NULL, 0, NULL, 0, &u, &v), LOHANDEMA_TREE, 0);
    EXPECT(u == 0 && v == 0);
    ENDED(lohandema_get_list_sizes(1, NULL, 0, own, 3, begin, 3, total, 3, work, 4, row, 4, &u, &v), LOHANDEMA_TREE, 0);
    EXPECT(all_zero(work, sizeof work) && all_zero(row, sizeof row));
    ENDED(lohandema_get_list_sizes(1, key, 3, NULL, 0, begin, 3, total, 3, work, 4, row, 4, &u, &v), LOHANDEMA_TREE, 0);
    ENDED(lohandema_get_list_sizes(1, key, 3, own, 3, NULL, 0, total, 3, work, 4, row, 4, &u, &v), LOHANDEMA_TREE, 0);
    ENDED(lohandema_get_list_sizes(1, key, 3, own, 3, begin, 3, NULL, 0, work, 4, row, 4, &u, &v), LOHANDEMA_TREE, 0);
    row[0] = work[0] = 7;
    ENDED(lohandema_get_list_sizes(1, COLUMNS, NULL, 0, row, 4, &u, &v), LOHANDEMA_ROOM, LOHANDEMA_ROOM_WORK);
    ENDED(lohandema_get_list_sizes(1, COLUMNS, work, 4, NULL, 0, &u, &v), LOHANDEMA_ROOM, LOHANDEMA_ROOM_WORK);
    EXPECT(all_zero(work, sizeof work) && all_zero(row, sizeof row) && u == 0 && v == 0);
    ENDED(lohandema_get_list_sizes(1, COLUMNS, work, 4, row, 4, &u, &v), 0, 0);
    EXPECT(u == 4 && v == 0);
}

static void near_work(void)
{
    uint64_t work = 7;
    size_t counts[4] = {7, 7, 7, 7};
    ENDED(lohandema_get_near_work(centre, 4.0, 1, NO_COLUMNS, NULL, 0, NULL, 0, &work), LOHANDEMA_TREE, 0);
    EXPECT(work == 0);
    ENDED(lohandema_get_near_work(centre, 4.0, 1, NO_COLUMNS, halves, 2, counts, 4, &work), LOHANDEMA_TREE, 0);
    EXPECT(all_zero(counts, sizeof counts));
    ENDED(lohandema_get_near_work(centre, 4.0, 1, key, 3, NULL, 0, begin, 3, total, 3, NULL, 0, NULL, 0, &work),
          LOHANDEMA_TREE, 0);
    ENDED(lohandema_get_near_work(centre, 4.0, 1, key, 3, own, 3, NULL, 0, total, 3, NULL, 0, NULL, 0, &work),
          LOHANDEMA_TREE, 0);
    ENDED(lohandema_get_near_work(centre, 4.0, 1, key, 3, own, 3, begin, 3, NULL, 0, NULL, 0, NULL, 0, &work),
          LOHANDEMA_TREE, 0);
    ENDED(lohandema_get_near_work(centre, 4.0, 1, COLUMNS, NULL, 0, NULL, 0, &work), LOHANDEMA_ROOM, LOHANDEMA_ROOM_POINTS);
    ENDED(lohandema_get_near_work(centre, 4.0, 1, COLUMNS, halves, 2, NULL, 0, &work), LOHANDEMA_ROOM, LOHANDEMA_ROOM_POINTS);
    ENDED(lohandema_get_near_work(centre, 4.0, 1, ROOT, NULL, 0, NULL, 0, &work), LOHANDEMA_ROOM, LOHANDEMA_ROOM_POINTS);
    counts[0] = 7;
    ENDED(lohandema_get_near_work(centre, 4.0, 1, ROOT, NULL, 0, counts, 4, &work), 0, 0);
    EXPECT(work == 0 && all_zero(counts, sizeof counts));
    ENDED(lohandema_get_near_work(centre, 4.0, 1, COLUMNS, NULL, 0, counts, 4, &work), 0, 0);
    EXPECT(work == 4 && counts[0] == 0 && counts[1] == 1 && counts[2] == 1 && counts[3] == 0);
}

/* The root alone, whose file has eight bytes of keys, three numbers for it, two starts for each list, and the trailer; then the
 * halves with each slice in turn left out. */
static void files(void)
{
    const uint64_t near_keys[4] = {1, 32769, 1, 32769};
    const size_t starts[2] = {0, 0}, u_starts[4] = {0, 0, 2, 4}, v_starts[4] = {0, 0, 0, 0}, order[2] = {0, 1};
    uint8_t file[256];
    size_t written = 7;
    memset(file, 7, sizeof file);
    ENDED(lohandema_write_tree(1, NO_COLUMNS, NULL, 0, NULL, 0, NULL, 0, NULL, 0, NULL, 0, NULL, 0, &written), LOHANDEMA_TREE, 0);
    EXPECT(written == 0);
    ENDED(lohandema_write_tree(1, ROOT, NULL, 0, starts, 2, NULL, 0, starts, 2, NULL, 0, NULL, 0, &written), LOHANDEMA_ROOM,
          LOHANDEMA_ROOM_FILE);
    EXPECT(written == 0);
    ENDED(lohandema_write_tree(1, ROOT, NULL, 0, starts, 2, NULL, 0, starts, 2, NULL, 0, file, sizeof file, &written), 0, 0);
    EXPECT(written == 8 + 4 * (3 + 2 + 2) + 116 && all_zero(file + written, sizeof file - written));
    ENDED(lohandema_write_tree(1, COLUMNS, order, 2, u_starts, 4, near_keys, 4, v_starts, 4, NULL, 0, file, sizeof file, &written),
          0, 0);
    EXPECT(written == 8 * (3 + 4) + 4 * (9 + 2 + 8) + 116);
    ENDED(lohandema_write_tree(1, COLUMNS, NULL, 0, u_starts, 4, near_keys, 4, v_starts, 4, NULL, 0, file, sizeof file, &written),
          LOHANDEMA_SECTION, 0);
    EXPECT(written == 0 && all_zero(file, sizeof file));
    ENDED(lohandema_write_tree(1, COLUMNS, order, 2, NULL, 0, near_keys, 4, v_starts, 4, NULL, 0, file, sizeof file, &written),
          LOHANDEMA_SECTION, 0);
    ENDED(lohandema_write_tree(1, COLUMNS, order, 2, u_starts, 4, NULL, 0, v_starts, 4, NULL, 0, file, sizeof file, &written),
          LOHANDEMA_SECTION, 0);
    ENDED(lohandema_write_tree(1, COLUMNS, order, 2, u_starts, 4, near_keys, 4, NULL, 0, NULL, 0, file, sizeof file, &written),
          LOHANDEMA_SECTION, 0);
    ENDED(lohandema_write_tree(1, key, 3, NULL, 0, begin, 3, total, 3, order, 2, u_starts, 4, near_keys, 4, v_starts, 4, NULL, 0,
                               file, sizeof file, &written),
          LOHANDEMA_TREE, 0);
    ENDED(lohandema_write_tree(1, key, 3, own, 3, NULL, 0, total, 3, order, 2, u_starts, 4, near_keys, 4, v_starts, 4, NULL, 0,
                               file, sizeof file, &written),
          LOHANDEMA_TREE, 0);
    ENDED(lohandema_write_tree(1, key, 3, own, 3, begin, 3, NULL, 0, order, 2, u_starts, 4, near_keys, 4, v_starts, 4, NULL, 0,
                               file, sizeof file, &written),
          LOHANDEMA_TREE, 0);
}

static size_t read_counts[5];

/* Reads the file of the root alone into slices of just its room; those that are NULL have no entries. */
static lohandema_ended read_root(uint64_t *keys, size_t *owns, size_t *begins, size_t *totals, size_t *us, size_t *vs)
{
    const size_t starts[2] = {0, 0};
    uint8_t file[152];
    size_t written;
    ENDED(lohandema_write_tree(1, ROOT, NULL, 0, starts, 2, NULL, 0, starts, 2, NULL, 0, file, sizeof file, &written), 0, 0);
    return lohandema_read_tree(file, sizeof file, NULL, 0, keys, keys ? 1 : 0, owns, owns ? 1 : 0, begins, begins ? 1 : 0, totals,
                               totals ? 1 : 0, us, us ? 2 : 0, NULL, 0, vs, vs ? 2 : 0, NULL, 0, &read_counts[0],
                               &read_counts[1], &read_counts[2], &read_counts[3], &read_counts[4]);
}

/* No order and no list keys are lent; then each other slice in turn is left out, and then the file. */
static void files_read(void)
{
    uint64_t keys[1] = {7};
    size_t owns[1] = {7}, begins[1] = {7}, totals[1] = {7}, us[2] = {7, 7}, vs[2] = {7, 7};
    const size_t counts[5] = {1, 1, 0, 0, 0};
    ENDED(read_root(keys, owns, begins, totals, us, vs), 0, 0);
    EXPECT(STARTS_WITH(read_counts, counts) && keys[0] == 0 && owns[0] == 0 && begins[0] == 0 && totals[0] == 0);
    EXPECT(all_zero(us, sizeof us) && all_zero(vs, sizeof vs));
    ENDED(read_root(NULL, owns, begins, totals, us, vs), LOHANDEMA_ROOM, LOHANDEMA_ROOM_NODES);
    EXPECT(all_zero(read_counts, sizeof read_counts));
    ENDED(read_root(keys, NULL, begins, totals, us, vs), LOHANDEMA_ROOM, LOHANDEMA_ROOM_NODES);
    ENDED(read_root(keys, owns, NULL, totals, us, vs), LOHANDEMA_ROOM, LOHANDEMA_ROOM_NODES);
    ENDED(read_root(keys, owns, begins, NULL, us, vs), LOHANDEMA_ROOM, LOHANDEMA_ROOM_NODES);
    ENDED(read_root(keys, owns, begins, totals, NULL, vs), LOHANDEMA_ROOM, LOHANDEMA_ROOM_U_STARTS);
    ENDED(read_root(keys, owns, begins, totals, us, NULL), LOHANDEMA_ROOM, LOHANDEMA_ROOM_V_STARTS);
    ENDED(lohandema_read_tree(NULL, 0, NULL, 0, NULL, 0, NULL, 0, NULL, 0, NULL, 0, NULL, 0, NULL, 0, NULL, 0, NULL, 0,
                              &read_counts[0], &read_counts[1], &read_counts[2], &read_counts[3], &read_counts[4]),
          LOHANDEMA_SECTION, 0);
}

/* The extents of lohandema_calculate_tree_center_and_radius are tried with the points. */
static void sums(void)
{
    const size_t starts[2] = {0, 0};
    const int64_t readings[2] = {1, 2};
    int64_t near = 7, far = 7;
    size_t leaves = 7, additions = 7;
    uint64_t work[1] = {7};
    bool right = false;
    ENDED(lohandema_lists_right(1, ROOT, starts, 2, NULL, 0, starts, 2, NULL, 0, &right), 0, 0);
    EXPECT(right);
    ENDED(lohandema_lists_right(1, ROOT, NULL, 0, NULL, 0, NULL, 0, NULL, 0, &right), 0, 0);
    EXPECT(!right);
    right = true;
    ENDED(lohandema_lists_right(1, NO_COLUMNS, NULL, 0, NULL, 0, NULL, 0, NULL, 0, &right), LOHANDEMA_TREE, 0);
    EXPECT(!right);
    ENDED(lohandema_sum_check(1, NO_COLUMNS, NULL, 0, NULL, 0, NULL, 0, NULL, 0, NULL, 0, NULL, 0, 0, &near, &far, &additions),
          LOHANDEMA_TREE, 0);
    ENDED(lohandema_sum_check(1, COLUMNS, NULL, 0, NULL, 0, NULL, 0, NULL, 0, NULL, 0, NULL, 0, 1, &near, &far, &additions),
          LOHANDEMA_SHAPE, 0);
    ENDED(lohandema_sum_check(1, COLUMNS, NULL, 0, readings, 2, NULL, 0, NULL, 0, NULL, 0, NULL, 0, 1, &near, &far, &additions),
          LOHANDEMA_NOTBUILT, 0);
    ENDED(lohandema_sum_check(1, ROOT, NULL, 0, NULL, 0, starts, 2, NULL, 0, starts, 2, NULL, 0, 0, &near, &far, &additions),
          LOHANDEMA_NOTLEAF, 0);
    EXPECT(near == 0 && far == 0 && additions == 0);
    ENDED(lohandema_check_sums(1, ROOT, NULL, 0, NULL, 0, starts, 2, NULL, 0, starts, 2, NULL, 0, work, 1, &leaves, &additions),
          0, 0);
    EXPECT(leaves == 0 && additions == 0 && work[0] == 0);
    ENDED(lohandema_check_sums(1, ROOT, NULL, 0, NULL, 0, starts, 2, NULL, 0, starts, 2, NULL, 0, NULL, 0, &leaves, &additions),
          LOHANDEMA_ROOM, LOHANDEMA_ROOM_WORK);
    ENDED(lohandema_check_sums(1, ROOT, NULL, 0, NULL, 0, NULL, 0, NULL, 0, NULL, 0, NULL, 0, NULL, 0, &leaves, &additions),
          LOHANDEMA_NOTBUILT, 0);
    ENDED(lohandema_check_sums(1, NO_COLUMNS, NULL, 0, NULL, 0, NULL, 0, NULL, 0, NULL, 0, NULL, 0, NULL, 0, &leaves, &additions),
          LOHANDEMA_TREE, 0);
    EXPECT(leaves == 0 && additions == 0);
}

/* With every slice lent, and without each in turn; and with nothing to be read, which the root is had of. */
static void salvages(void)
{
    const size_t order[2] = {0, 1};
    uint64_t keys[3] = {0}, codes[1] = {0}, changed[1] = {0};
    size_t indices[2] = {0}, owns[3] = {0}, begins[3] = {0}, totals[3] = {0}, nodes = 7, sources = 7, changes = 7;
    ENDED(lohandema_salvage(1, NULL, 0, NULL, 0, NULL, 0, NULL, 0, NULL, 0, NO_COLUMNS, NULL, 0, NULL, 0, &nodes, &sources,
                            &changes),
          LOHANDEMA_ROOM, LOHANDEMA_ROOM_NODES);
    EXPECT(nodes == 0 && sources == 0 && changes == 0);
    ENDED(lohandema_salvage(1, NULL, 0, NULL, 0, NULL, 0, NULL, 0, NULL, 0, keys, 1, owns, 1, begins, 1, totals, 1, NULL, 0, NULL,
                            0, &nodes, &sources, &changes),
          LOHANDEMA_ROOM, LOHANDEMA_ROOM_CHANGES);
    ENDED(lohandema_salvage(1, NULL, 0, NULL, 0, NULL, 0, NULL, 0, NULL, 0, keys, 1, owns, 1, begins, 1, totals, 1, codes, 1,
                            NULL, 0, &nodes, &sources, &changes),
          LOHANDEMA_ROOM, LOHANDEMA_ROOM_CHANGES);
    ENDED(lohandema_salvage(1, NULL, 0, NULL, 0, NULL, 0, NULL, 0, NULL, 0, keys, 1, owns, 1, begins, 1, totals, 1, codes, 1,
                            changed, 1, &nodes, &sources, &changes),
          0, 0);
    EXPECT(nodes == 1 && sources == 0 && changes == 1 && codes[0] == 3);
    ENDED(lohandema_salvage(1, key, 3, NULL, 0, begin, 3, order, 2, indices, 2, keys, 3, owns, 3, begins, 3, totals, 3, NULL, 0,
                            NULL, 0, &nodes, &sources, &changes),
          LOHANDEMA_SHAPE, 0);
    ENDED(lohandema_salvage(1, key, 3, own, 3, NULL, 0, order, 2, indices, 2, keys, 3, owns, 3, begins, 3, totals, 3, NULL, 0,
                            NULL, 0, &nodes, &sources, &changes),
          LOHANDEMA_SHAPE, 0);
    ENDED(lohandema_salvage(1, NULL, 0, own, 3, begin, 3, order, 2, indices, 2, keys, 3, owns, 3, begins, 3, totals, 3, NULL, 0,
                            NULL, 0, &nodes, &sources, &changes),
          LOHANDEMA_SHAPE, 0);
    ENDED(lohandema_salvage(1, key, 3, own, 3, begin, 3, order, 2, NULL, 0, keys, 3, owns, 3, begins, 3, totals, 3, NULL, 0, NULL,
                            0, &nodes, &sources, &changes),
          LOHANDEMA_ROOM, LOHANDEMA_ROOM_ORDER);
    ENDED(lohandema_salvage(1, key, 3, own, 3, begin, 3, order, 2, indices, 2, NULL, 0, owns, 3, begins, 3, totals, 3, NULL, 0,
                            NULL, 0, &nodes, &sources, &changes),
          LOHANDEMA_ROOM, LOHANDEMA_ROOM_NODES);
    ENDED(lohandema_salvage(1, key, 3, own, 3, begin, 3, order, 2, indices, 2, keys, 3, NULL, 0, begins, 3, totals, 3, NULL, 0,
                            NULL, 0, &nodes, &sources, &changes),
          LOHANDEMA_ROOM, LOHANDEMA_ROOM_NODES);
    ENDED(lohandema_salvage(1, key, 3, own, 3, begin, 3, order, 2, indices, 2, keys, 3, owns, 3, NULL, 0, totals, 3, NULL, 0,
                            NULL, 0, &nodes, &sources, &changes),
          LOHANDEMA_ROOM, LOHANDEMA_ROOM_NODES);
    ENDED(lohandema_salvage(1, key, 3, own, 3, begin, 3, order, 2, indices, 2, keys, 3, owns, 3, begins, 3, NULL, 0, NULL, 0, NULL,
                            0, &nodes, &sources, &changes),
          LOHANDEMA_ROOM, LOHANDEMA_ROOM_NODES);
    /* a tree has no changes, and its runs without an order column pass its end */
    ENDED(lohandema_salvage(1, key, 3, own, 3, begin, 3, order, 2, indices, 2, keys, 3, owns, 3, begins, 3, totals, 3, NULL, 0,
                            NULL, 0, &nodes, &sources, &changes),
          0, 0);
    EXPECT(nodes == 3 && sources == 2 && changes == 0 && STARTS_WITH(keys, key) && STARTS_WITH(indices, order));
    ENDED(lohandema_salvage(1, key, 3, own, 3, begin, 3, NULL, 0, NULL, 0, keys, 3, owns, 3, begins, 3, totals, 3, NULL, 0, NULL,
                            0, &nodes, &sources, &changes),
          LOHANDEMA_ROOM, LOHANDEMA_ROOM_CHANGES);
}

/* With every slice lent, and without each in turn. */
static void balancing(void)
{
    const size_t order[2] = {0, 1};
    uint64_t work[4] = {0}, keys[3] = {0}, depth = 7;
    size_t indices[2] = {0}, owns[3] = {0}, begins[3] = {0}, totals[3] = {0}, nodes = 7;
    ENDED(lohandema_balance_tree(centre, 4.0, 1, NULL, 0, ROOT, NULL, 0, NULL, 0, NULL, 0, keys, 3, owns, 3, begins, 3,
                                 totals, 3, &nodes, &depth),
          0, 0);
    EXPECT(nodes == 1 && depth == 1);
    ENDED(lohandema_balance_tree(centre, 4.0, 1, NULL, 0, NO_COLUMNS, NULL, 0, NULL, 0, NULL, 0, NO_COLUMNS, &nodes, &depth),
          LOHANDEMA_TREE, 0);
    EXPECT(nodes == 0 && depth == 0);
    ENDED(lohandema_balance_tree(centre, 4.0, 1, NULL, 0, ROOT, NULL, 0, NULL, 0, NULL, 0, NO_COLUMNS, &nodes, &depth),
          LOHANDEMA_ROOM, LOHANDEMA_ROOM_NODES);
    ENDED(lohandema_balance_tree(centre, 4.0, 1, NULL, 0, COLUMNS, order, 2, work, 4, indices, 2, keys, 3, owns, 3, begins, 3,
                                 totals, 3, &nodes, &depth),
          LOHANDEMA_NOTBUILT, 0);
    ENDED(lohandema_balance_tree(centre, 4.0, 1, halves, 2, COLUMNS, NULL, 0, work, 4, indices, 2, keys, 3, owns, 3, begins,
                                 3, totals, 3, &nodes, &depth),
          LOHANDEMA_NOTBUILT, 0);
    ENDED(lohandema_balance_tree(centre, 4.0, 1, halves, 2, COLUMNS, order, 2, NULL, 0, indices, 2, keys, 3, owns, 3, begins,
                                 3, totals, 3, &nodes, &depth),
          LOHANDEMA_ROOM, LOHANDEMA_ROOM_WORK);
    ENDED(lohandema_balance_tree(centre, 4.0, 1, halves, 2, COLUMNS, order, 2, work, 4, NULL, 0, keys, 3, owns, 3, begins, 3,
                                 totals, 3, &nodes, &depth),
          LOHANDEMA_ROOM, LOHANDEMA_ROOM_ORDER);
    ENDED(lohandema_balance_tree(centre, 4.0, 1, halves, 2, COLUMNS, order, 2, work, 4, indices, 2, NULL, 0, owns, 3, begins,
                                 3, totals, 3, &nodes, &depth),
          LOHANDEMA_ROOM, LOHANDEMA_ROOM_NODES);
    ENDED(lohandema_balance_tree(centre, 4.0, 1, halves, 2, COLUMNS, order, 2, work, 4, indices, 2, keys, 3, NULL, 0, begins,
                                 3, totals, 3, &nodes, &depth),
          LOHANDEMA_ROOM, LOHANDEMA_ROOM_NODES);
    ENDED(lohandema_balance_tree(centre, 4.0, 1, halves, 2, COLUMNS, order, 2, work, 4, indices, 2, keys, 3, owns, 3, NULL, 0,
                                 totals, 3, &nodes, &depth),
          LOHANDEMA_ROOM, LOHANDEMA_ROOM_NODES);
    ENDED(lohandema_balance_tree(centre, 4.0, 1, halves, 2, COLUMNS, order, 2, work, 4, indices, 2, keys, 3, owns, 3, begins,
                                 3, NULL, 0, &nodes, &depth),
          LOHANDEMA_ROOM, LOHANDEMA_ROOM_NODES);
    ENDED(lohandema_balance_tree(centre, 4.0, 1, halves, 2, COLUMNS, order, 2, work, 4, indices, 2, keys, 3, owns, 3, begins,
                                 3, totals, 3, &nodes, &depth),
          0, 0);
    EXPECT(nodes == 3 && depth == 1 && STARTS_WITH(keys, key));
}

/* One source more: with none before, and with every slice lent and without each in turn. */
static void adding(void)
{
    const size_t order[2] = {0, 1};
    uint64_t work[6] = {0}, keys[4] = {0}, depth = 7;
    size_t indices[3] = {0}, owns[4] = {0}, begins[4] = {0}, totals[4] = {0}, nodes = 7;
#define ADDS centre, 4.0, 1, halves, 2, point, 2, false, COLUMNS
    ENDED(lohandema_add_source(centre, 4.0, 1, NULL, 0, point, 1, false, ROOT, NULL, 0, work, 6, indices, 3, keys, 4, owns, 4,
                               begins, 4, totals, 4, &nodes, &depth),
          0, 0);
    EXPECT(nodes == 2 && depth == 1 && keys[1] == 1);
    ENDED(lohandema_add_source(centre, 4.0, 1, NULL, 0, point, 1, false, NO_COLUMNS, NULL, 0, NULL, 0, NULL, 0, NO_COLUMNS,
                               &nodes, &depth),
          LOHANDEMA_TREE, 0);
    EXPECT(nodes == 0 && depth == 0);
    ENDED(lohandema_add_source(centre, 4.0, 1, NULL, 0, point, 1, false, ROOT, NULL, 0, NULL, 0, NULL, 0, NO_COLUMNS, &nodes,
                               &depth),
          LOHANDEMA_ROOM, LOHANDEMA_ROOM_WORK);
    ENDED(lohandema_add_source(centre, 4.0, 1, NULL, 0, point, 1, false, COLUMNS, order, 2, NULL, 0, NULL, 0, NO_COLUMNS,
                               &nodes, &depth),
          LOHANDEMA_NOTBUILT, 0);
    ENDED(lohandema_add_source(ADDS, NULL, 0, work, 6, indices, 3, keys, 4, owns, 4, begins, 4, totals, 4, &nodes, &depth),
          LOHANDEMA_NOTBUILT, 0);
    ENDED(lohandema_add_source(ADDS, order, 2, NULL, 0, indices, 3, keys, 4, owns, 4, begins, 4, totals, 4, &nodes, &depth),
          LOHANDEMA_ROOM, LOHANDEMA_ROOM_WORK);
    ENDED(lohandema_add_source(ADDS, order, 2, work, 6, NULL, 0, keys, 4, owns, 4, begins, 4, totals, 4, &nodes, &depth),
          LOHANDEMA_ROOM, LOHANDEMA_ROOM_ORDER);
    ENDED(lohandema_add_source(ADDS, order, 2, work, 6, indices, 3, NULL, 0, owns, 4, begins, 4, totals, 4, &nodes, &depth),
          LOHANDEMA_ROOM, LOHANDEMA_ROOM_NODES);
    ENDED(lohandema_add_source(ADDS, order, 2, work, 6, indices, 3, keys, 4, NULL, 0, begins, 4, totals, 4, &nodes, &depth),
          LOHANDEMA_ROOM, LOHANDEMA_ROOM_NODES);
    ENDED(lohandema_add_source(ADDS, order, 2, work, 6, indices, 3, keys, 4, owns, 4, NULL, 0, totals, 4, &nodes, &depth),
          LOHANDEMA_ROOM, LOHANDEMA_ROOM_NODES);
    ENDED(lohandema_add_source(ADDS, order, 2, work, 6, indices, 3, keys, 4, owns, 4, begins, 4, NULL, 0, &nodes, &depth),
          LOHANDEMA_ROOM, LOHANDEMA_ROOM_NODES);
    ENDED(lohandema_add_source(ADDS, order, 2, work, 6, indices, 3, keys, 4, owns, 4, begins, 4, totals, 4, &nodes, &depth),
          0, 0);
    EXPECT(nodes == 3 && depth == 1 && STARTS_WITH(keys, key) && owns[1] == 2 && indices[1] == 2);
#undef ADDS
}

void test_null(void)
{
    builds();
    builds_on_grid();
    counts();
    columns();
    lookups();
    groups_and_cells();
    lists();
    list_sizes();
    near_work();
    salvages();
    files();
    files_read();
    sums();
    balancing();
    adding();
}
