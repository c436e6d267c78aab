/* Lohandema for C and C++: Morton keys, boxes and points, trees, and the near (U) and far (V) lists.
 * Link target/native/liblohandema.a (rust/archive makes it). docs/RULES.md says the rules, docs/REFUSALS.md the refusals
 * with their cures; c/example.c is a whole use.
 *
 * Every call
 * - takes every argument value. Where it cannot answer it refuses: it returns a number, a value and, of a point outside the
 *   box, which wall it is behind; each number that it would have answered is 0 (false), and each slice and array that was lent to it for writing is 0 throughout.
 * - leaves 0 in the unused rest of a lent slice after success, and in all of `work`.
 * - checks in a fixed order, and the first check that fails refuses. A call's comment lists its refusals in that order.
 *
 * Pointers
 * - A slice is a pointer and the number of its entries. Where that number is 0 the pointer may be NULL: nothing is read or
 *   written through it. Else it points to so many entries, aligned as C aligns them.
 * - A pointer to one value or to an array of fixed length is never NULL.
 * - What is lent for writing overlaps nothing else that the call is passed. Slices that are only read may overlap.
 *
 * Threads: no call keeps a state, allocates memory, or writes anything but what is lent to it. Any number of threads may call
 * at the same time, as long as nothing that is lent to one call is passed to another one that runs beside it.
 *
 * Numbers: double is IEEE 754 binary64, in the environment with which C starts: rounded to nearest, subnormal numbers kept.
 * (-ffast-math at the link may set subnormal numbers to 0 in the whole program; do not use it.) size_t has 64 bits.
 *
 * Stack that a call uses, beside what the caller needs itself. A thread with less dies at its guard page. These are figures
 * of the compiled code, measured on x86-64 and on Arm (c/stack.c; docs/BENCHMARKS.md, "Stack") and rounded up well; they are
 * not promises. pthread_attr_setstacksize takes no less than PTHREAD_STACK_MIN, which is 131,072 bytes on some
 * systems, and fails below it: pass the larger of the two.
 *   points_to_keys, get_interaction_lists, get_list_sizes, get_near_work, check_sums,
 *   balance_tree                                                                            128 KiB
 *   sum_check, lists_right, write_tree, read_tree                                            96 KiB
 *   build_tree, build_tree_on_grid, count_nodes, count_nodes_on_grid, add_source             48 KiB
 *   get_sourced_cells, is_arrangement                                                        32 KiB
 *   every other call                                                                          8 KiB
 */
#ifndef LOHANDEMA_H
#define LOHANDEMA_H

#include <float.h>
#include <stdbool.h>
#include <stddef.h>
#include <stdint.h>

#if SIZE_MAX != UINT64_MAX
#error "Lohandema needs a 64-bit processor: size_t has to have 64 bits. Compile for one."
#endif
#if FLT_RADIX != 2 || DBL_MANT_DIG != 53 || DBL_MAX_EXP != 1024
#error "Lohandema needs IEEE 754 binary64 as double."
#endif

#ifdef __cplusplus
extern "C" {
#endif

/* The version of this header and of the archive that was made with it. */
#define LOHANDEMA_VERSION "0.6.0"
#define LOHANDEMA_VERSION_MAJOR 0
#define LOHANDEMA_VERSION_MINOR 5
#define LOHANDEMA_VERSION_PATCH 1

/* Limits. */
#define LOHANDEMA_MOST_AXES 3               /* 1 to 3 axes, else refused 1 */
#define LOHANDEMA_LEVELS 16                 /* the deepest level; the root is at level 0 */
#define LOHANDEMA_MOST_KEYS 26              /* places in the array of a call that answers keys */
#define LOHANDEMA_MOST_POINTS 1048576       /* sources, targets, points to look up, keys to group; more is refused 4 */
#define LOHANDEMA_MOST_NODES 1048576        /* nodes of a build: no more entries of a node column count */
#define LOHANDEMA_MOST_LIST_KEYS 16777216   /* keys of a U or V list: no more entries of a key slice count */
#define LOHANDEMA_MOST_V_ROW 189            /* keys of one V row: 3, 27, 189 for 1, 2, 3 axes */
#define LOHANDEMA_MOST_ORDER 64             /* the order is 1 to 64 where targets are used */
#define LOHANDEMA_MOST_STEPS 15             /* steps of the lookup of one point */
#define LOHANDEMA_LEAST_RADIUS 0.25         /* of a box */
#define LOHANDEMA_MOST_RADIUS 1048576.0
#define LOHANDEMA_MOST_CENTRE 16777216.0    /* size of a centre coordinate */

/* Bytes of stack for lohandema_points_to_keys, and for any other call. A thread may need PTHREAD_STACK_MIN instead (above). */
#define LOHANDEMA_STACK_POINTS_TO_KEYS 131072
#define LOHANDEMA_STACK 131072

/* How a call ended: 0 throughout, or the number and values of a refusal.
 * The value of 6, 7, 12, 14 and 20 is the lowest index that fails (0 where the call takes a single point), counted in points
 * and not in coordinates, but of 14 in lohandema_sum_check the number of the node that was given; that of 8 says which lent
 * slice is short (enum below); that of every other number is 0.
 * The axis and the reason are those of 6 and 7: the first axis, from 0, on which that point is outside the box, and why (enum
 * below). With every other number both are 0. */
typedef struct {
    uint32_t number;
    uint16_t axis;
    uint16_t reason;
    size_t value;
} lohandema_ended;

/* The numbers. No call of this header refuses 15, which is for the listing program, as it reads survey files. */
enum {
    LOHANDEMA_DONE = 0,
    LOHANDEMA_DIMS = 1,
    LOHANDEMA_BOX = 2,
    LOHANDEMA_SHAPE = 3,
    LOHANDEMA_COUNT = 4,
    LOHANDEMA_ORDER = 5,
    LOHANDEMA_SOURCE = 6,
    LOHANDEMA_POINT = 7,
    LOHANDEMA_ROOM = 8,
    LOHANDEMA_KEY = 9,
    LOHANDEMA_ROOT = 10,
    LOHANDEMA_DEEP = 11,
    LOHANDEMA_UNSTORED = 12,
    LOHANDEMA_TREE = 13,
    LOHANDEMA_NOTLEAF = 14,
    LOHANDEMA_FILE = 15,
    LOHANDEMA_GRID = 16,
    LOHANDEMA_SECTION = 17,
    LOHANDEMA_NOTBUILT = 18,
    LOHANDEMA_PARTIAL = 19,
    LOHANDEMA_READING = 20
};

/* The reasons of 6 and 7, asked in this order on each axis. The first is of the coordinate itself, NaN or infinite. */
enum {
    LOHANDEMA_NOT_FINITE = 1,
    LOHANDEMA_BELOW = 2,
    LOHANDEMA_ABOVE = 3
};

/* The values of 8 ROOM; the lowest that is short is told. 1 is the work of a build or of a count of its nodes, of
 * lohandema_balance_tree and of lohandema_add_source, the work or row of lohandema_get_list_sizes, and the sums of
 * lohandema_check_sums. */
enum {
    LOHANDEMA_ROOM_WORK = 1,
    LOHANDEMA_ROOM_ORDER = 2,
    LOHANDEMA_ROOM_NODES = 3,
    LOHANDEMA_ROOM_U_STARTS = 4,
    LOHANDEMA_ROOM_V_STARTS = 5,
    LOHANDEMA_ROOM_U_KEYS = 6,
    LOHANDEMA_ROOM_V_KEYS = 7,
    LOHANDEMA_ROOM_POINTS = 8,
    LOHANDEMA_ROOM_CELLS = 9,
    LOHANDEMA_ROOM_CHANGES = 10,
    LOHANDEMA_ROOM_FILE = 11
};

/* The name of a number: "DONE" for 0, "DIMS" and so on for 1 to 20, "UNKNOWN" for any other. Never NULL. */
static inline const char *lohandema_refusal_name(uint64_t number)
{
    static const char *const names[21] = {"DONE",    "DIMS", "BOX",  "SHAPE",   "COUNT",    "ORDER",    "SOURCE",
                                          "POINT",   "ROOM", "KEY",  "ROOT",    "DEEP",     "UNSTORED", "TREE",
                                          "NOTLEAF", "FILE", "GRID", "SECTION", "NOTBUILT", "PARTIAL",  "READING"};
    return number < 21 ? names[number] : "UNKNOWN";
}

/* What a number says, and its cure, in a sentence for people. Never NULL. */
static inline const char *lohandema_refusal_sentence(uint64_t number)
{
    static const char *const sentences[21] = {
        "the call was not refused",
        "the number of axes is not 1, 2 or 3 (or the extents are not 2, 4 or 6 numbers): pass 1 to 3 axes",
        "the box is outside its domain: give a radius from 0.25 to 1048576 and centre coordinates of at most 16777216 in size",
        "the coordinates are not whole points, or the readings are not as many as the tree has sources, or the columns to "
        "salvage differ in length: pass as many coordinates for each point as there are axes, one reading for each source, and "
        "key, own and begin of one length",
        "there are more than 1048576 points (a source that is added counts) or keys, or more than a tree file holds (1048576 "
        "nodes, 16777216 keys of a list, 4294967295 bytes of sections): pass fewer",
        "the order is not from 1 to 64: pass such an order, or no targets",
        "a source lies outside the box or is not a finite number, and value, axis and reason say which, where and why: "
        "enlarge the box and build anew, or mend or remove the source",
        "a target or looked-up point lies outside the box or is not a finite number, and value, axis and reason say which, "
        "where and why: enlarge the box, or mend or remove the point",
        "a lent slice is short, and the value says which: lend a longer one, or, where the most was lent, raise the limit and "
        "build anew",
        "a key or level is not valid, or an anchor lies off its level: pass a level of at most 16 and what belongs to it",
        "the root has no parent and no siblings: ask of a key of level 1 or more",
        "a cell of level 16 has no children: ask of a key of a level below 16",
        "no leaf holds a point that is inside, and the value is its index: build with keep_empty, or take the point out",
        "the columns are not a well-formed tree, or those to salvage have more than 1048576 sources: pass all four (key, own, "
        "begin and total) as the build of this version wrote them, each cut to its number of nodes, or to the salvage "
        "fewer rows",
        "a key to group, or the node to check, is not a leaf's, and the value is the key's index or the node's number: pass "
        "keys that the lookup in this tree answered, or the number of a leaf",
        "the survey file breaks its rules: write it anew as docs/RULES.md says",
        "the grid has a shape of 0, an origin or a spacing that is not finite, or a spacing that is not above 0: pass for each "
        "axis a shape of 1 or more, a finite origin and a finite spacing above 0",
        "the tree file breaks its rules, or it holds, or is to hold, an order or lists that are not its tree's: write it anew "
        "from what the build and the list call wrote",
        "the tree, its order or its lists are not those that the points give: pass them as the build and the list call wrote "
        "them, with the points and the box of that build, and each source that was added since; where limit and flag are asked "
        "for, those of the build, and a tree that targets or a grid refined, or that was balanced, is to be built anew without",
        "a cell that is split lacks a child: build with keep_empty",
        "a reading is over 1099511627776 in size, and the value is its index: mend it, or pass all readings in a larger unit"};
    return number < 21 ? sentences[number] : "this version knows no refusal with this number";
}

/* What the reason of 6 and 7 says of a point; empty for other numbers. Never NULL. */
static inline const char *lohandema_reason_name(uint64_t reason)
{
    static const char *const reasons[4] = {"", "is not a finite number", "lies below the box", "lies above the box"};
    return reason < 4 ? reasons[reason] : "";
}

/* The cure of 6 and 7 by their reason; empty for other numbers. Never NULL. A tree that is there already is built anew in the
 * larger box: with another box it is not that tree. */
static inline const char *lohandema_reason_cure(uint64_t reason)
{
    static const char *const cures[4] = {"", "mend or remove it", "enlarge the box, or mend or remove it",
                                         "enlarge the box, or mend or remove it"};
    return reason < 4 ? cures[reason] : "";
}

/* Which slice the value of 8 ROOM names; "unknown" for other values. Never NULL. */
static inline const char *lohandema_room_name(size_t value)
{
    static const char *const slices[12] = {"unknown",  "work",   "order column",  "node columns", "U starts",
                                           "V starts", "U keys", "V keys",        "points",       "sourced cells",
                                           "changes",  "file"};
    return value < 12 ? slices[value] : "unknown";
}

/* What a salvage of columns changed. */
enum {
    LOHANDEMA_CHANGE_NOT_VALID = 1,
    LOHANDEMA_CHANGE_REPEATED = 2,
    LOHANDEMA_CHANGE_ADDED = 3,
    LOHANDEMA_CHANGE_CLEARED = 4,
    LOHANDEMA_CHANGE_MOVED = 5
};

/* What such a code says of its key, in a sentence for people. Never NULL. */
static inline const char *lohandema_change_sentence(uint64_t code)
{
    static const char *const sentences[6] = {
        "nothing was changed",
        "a row was dropped, as this is no valid key",
        "a row was dropped, as an earlier one has this key",
        "this cell was added, as it is the root or holds another",
        "its count was cleared, as it is the root, has children, or its run passes the order column's end",
        "its begin was changed to the sum of the counts before it"};
    return code < 6 ? sentences[code] : "it was changed in a way that this version does not know";
}

/* ---- Keys
 * A key is code * 32768 + level. It is valid where the level is at most 16 and the code below 2^(axes * level); the root is 0.
 * An anchor array has three places, and all three must be there; the values past the axes do not matter, and are 0 in an
 * answer. */

/* level: the level of a key. Refused 1, 9. */
lohandema_ended lohandema_get_level(size_t axes, uint64_t key, uint64_t *level);

/* parent: the key of the cell one level up that holds this one. Refused 1, 9, 10 (the root). */
lohandema_ended lohandema_get_parent(size_t axes, uint64_t key, uint64_t *parent);

/* index: which child of its parent the cell is, 0 to 2^axes - 1; 0 for the root. Refused 1, 9. */
lohandema_ended lohandema_get_child_index(size_t axes, uint64_t key, uint64_t *index);

/* key: the key of the cell with these anchors at a level. Refused 1, 9 (the level is over 16, or an anchor is not below
 * 2^level). */
lohandema_ended lohandema_encode_morton_point(size_t axes, const uint64_t anchor[3], uint64_t level, uint64_t *key);

/* anchor and level: what lohandema_encode_morton_point made the key of. Refused 1, 9. */
lohandema_ended lohandema_decode_key(size_t axes, uint64_t key, uint64_t anchor[3], uint64_t *level);

/* touches: whether two cells of one level have anchors that differ by at most 1 on every axis. A cell touches itself; cells of
 * two levels do not touch. Refused 1, 9 (either key). */
lohandema_ended lohandema_touching(size_t axes, uint64_t a, uint64_t b, bool *touches);

/* The four below answer len keys in the first places of keys; the other places are 0. */

/* The 2, 4 or 8 children, in ascending code. Refused 1, 9, 11 (a cell of level 16). */
lohandema_ended lohandema_get_children(size_t axes, uint64_t key, uint64_t keys[LOHANDEMA_MOST_KEYS], size_t *len);

/* The children of the cell's parent, the cell among them. Refused 1, 9, 10 (the root). */
lohandema_ended lohandema_get_siblings(size_t axes, uint64_t key, uint64_t keys[LOHANDEMA_MOST_KEYS], size_t *len);

/* The cell itself, its parent, and so on up to the root: level + 1 keys. Refused 1, 9. */
lohandema_ended lohandema_get_ancestors(size_t axes, uint64_t key, uint64_t keys[LOHANDEMA_MOST_KEYS], size_t *len);

/* The cells of the same level that touch it, itself left out: at most 2, 8 or 26, in the order that docs/RULES.md gives.
 * Refused 1, 9. */
lohandema_ended lohandema_get_neighbours(size_t axes, uint64_t key, uint64_t keys[LOHANDEMA_MOST_KEYS], size_t *len);

/* ---- Boxes and points
 * A box is its centre, its radius and its number of axes. A centre and a single point are arrays of three places, and all
 * three must be there; the values past the axes do not matter. */

/* Whether a box may be used. Refused 1, 2. */
lohandema_ended lohandema_box_outcome(const double centre[3], double radius, size_t axes);

/* anchor: the anchors at a level of the cell that holds a point. Refused 1, 2, 9 (the level is over 16), 7. */
lohandema_ended lohandema_point_to_anchor(const double centre[3], double radius, size_t axes, const double point[3],
                                          uint64_t level, uint64_t anchor[3]);

/* key: the key of that cell. Refused 1, 2, 9, 7. */
lohandema_ended lohandema_point_to_key(const double centre[3], double radius, size_t axes, const double point[3],
                                       uint64_t level, uint64_t *key);

/* side: the side of a cell at a level, 2 * radius / 2^level. Refused 1, 2, 9. */
lohandema_ended lohandema_get_side_length(const double centre[3], double radius, size_t axes, uint64_t level, double *side);

/* middle and length: a cell's centre (0 past the axes) and its side. Refused 1, 2, 9. */
lohandema_ended lohandema_get_center_length(const double centre[3], double radius, size_t axes, uint64_t key,
                                            double middle[3], double *length);

/* adjacent: whether the centres of two cells, of any two levels, are on every axis at most 1e-6 more than half the sum of their
 * sides apart: cells that touch or overlap. For two cells of one level this is proved to be the answer of lohandema_touching
 * wherever neither call refuses; of two levels that is always no, and this need not be. Refused 1, 2, 9 (either key). */
lohandema_ended lohandema_are_adjacent(const double centre[3], double radius, size_t axes, uint64_t first, uint64_t second,
                                       bool *adjacent);

/* centre, radius and axes: the box around extents, which are the lows of all axes and then the highs: 2, 4 or 6 numbers.
 * Refused 1 (another length), 2 (a number is not finite, or the box is outside its domain, as one without size is). */
lohandema_ended lohandema_calculate_tree_center_and_radius(const double *extents, size_t extents_len, double centre[3],
                                                           double *radius, size_t *axes);

/* depth: the least level from 1 to 16 with at least as many cells as there are sources; 16 where there is none. Refused 1. */
lohandema_ended lohandema_reference_depth(size_t axes, size_t sources, uint64_t *depth);

/* ---- Trees
 * A tree of N nodes is four columns of N entries: key; own, the sources in a leaf, 0 for other nodes; begin, the sum of own
 * before the node; total, the number of sources in the cell and all below it. Nodes are numbered depth first: a cell, then its
 * children in ascending code, each followed by its own. So node 0 is the root, the first child of a node stands right behind
 * it, and all that lies in a cell stands together. (Another way to say it: nodes ascend by code * 2^(axes * (16 - level)), the
 * first code of level 16 in the cell, and where that is equal by level.) The order column has the indices of the sources, leaf
 * by leaf in this numbering, ascending within a leaf: order[begin[n] + i] is the i-th source of leaf n.
 * Pass the columns cut to N entries: zeros behind the nodes are no tree. A wrong total is refused 13, as any other column that
 * is wrong; so are nodes in another order, as those by level that version 0.2 wrote: build such a tree anew. */

/* Room for nodes that is enough for a build: the most nodes that a tree of so many points can have, so that one call will do;
 * more than LOHANDEMA_MOST_NODES never count. targets: those that are used, 0 without. Worked out and not proved; c/test tries it.
 * A cell that splits, the root apart, has more sources than the limit or more targets than the near limit, so that a level has
 * only so many of them. Each has at most 2^axes children, and without empty cells each child has a source. */
static inline size_t lohandema_most_nodes(size_t axes, size_t sources, size_t targets, size_t limit, size_t order,
                                          bool keep_empty)
{
    size_t near_limit = order, split = 1, children;
    if (axes < 1 || axes > LOHANDEMA_MOST_AXES)
        return 0;
    if (sources > LOHANDEMA_MOST_POINTS)
        sources = LOHANDEMA_MOST_POINTS;
    if (targets > LOHANDEMA_MOST_POINTS)
        targets = LOHANDEMA_MOST_POINTS;
    if (limit > LOHANDEMA_MOST_POINTS)
        limit = LOHANDEMA_MOST_POINTS;
    if (near_limit > LOHANDEMA_MOST_ORDER)
        near_limit = LOHANDEMA_MOST_ORDER;
    for (size_t axis = 1; axis < axes; axis++)
        near_limit *= order > LOHANDEMA_MOST_ORDER ? LOHANDEMA_MOST_ORDER : order;
    if (near_limit < limit)
        near_limit = limit;
    for (size_t level = 1; level < LOHANDEMA_LEVELS; level++) {
        size_t splitting = sources / (limit + 1) + targets / (near_limit + 1), cells = (size_t)1 << axes * level;
        split += splitting < cells ? splitting : cells;
    }
    children = split << axes;
    if (!keep_empty && children > LOHANDEMA_LEVELS * sources)
        children = LOHANDEMA_LEVELS * sources;
    return children < LOHANDEMA_MOST_NODES ? 1 + children : LOHANDEMA_MOST_NODES;
}

/* Builds the tree of the sources into key, own, begin and total, and its order column into indices; answers nodes, N, and
 * depth, the greatest level of a node, at least 1.
 *   sources, targets  coordinates, point after point; the lengths count coordinates
 *   limit             a cell with more sources than this splits (any value)
 *   order             of the interpolation; it matters, and has to be 1 to 64, only where targets are used
 *   keep_empty        whether all children of a cell that splits are stored, or only those with sources
 *   refine            whether targets split cells too; targets are used with both flags, else not looked at
 *   work              two entries a source and one a used target
 *   indices           one entry a source
 *   key, own, begin,  one entry a node each. The shortest of the four counts, at most 1,048,576 of its entries. N is not known
 *   total             before: lend lohandema_most_nodes (above), or as many as lohandema_count_nodes (below) counts, or on 8 with
 *                     value 3 lend longer ones and call again.
 * Refused 1, 2, 3 (sources, then targets), 4 (likewise), 5, 6, 7, 8 (1 work, 2 indices, 3 key, own, begin or total). */
lohandema_ended lohandema_build_tree(const double centre[3], double radius, size_t axes, const double *sources,
                                     size_t sources_len, const double *targets, size_t targets_len, size_t limit,
                                     size_t order, bool keep_empty, bool refine, uint64_t *work, size_t work_len,
                                     size_t *indices, size_t indices_len, uint64_t *key, size_t key_len, size_t *own,
                                     size_t own_len, size_t *begin, size_t begin_len, size_t *total, size_t total_len,
                                     size_t *nodes, uint64_t *depth);

/* Builds the same tree as lohandema_build_tree on the listed points of a regular grid, which are nowhere listed and need no
 * work: those of a cell are counted by index ranges. On axis a the coordinate of index i is origin[a] + i * spacing[a], one
 * product and one sum, for i from 0 to shape[a] - 1; the last axis is the fastest. All three places of each array must be
 * there; the values past the axes do not matter. The grid is used with both flags, else not looked at.
 *   work              two entries a source
 * All else is as above. Refused 1, 2, 16 (a shape of 0, an origin or spacing that is not finite, a spacing not above 0), 3,
 * 4 (sources, then more than 1,048,576 points), 5, 6, 7 (with the row of the point), 8 (1 work, 2 indices, 3 columns). */
lohandema_ended lohandema_build_tree_on_grid(const double centre[3], double radius, size_t axes, const double *sources,
                                             size_t sources_len, const double origin[3], const double spacing[3],
                                             const size_t shape[3], size_t limit, size_t order, bool keep_empty, bool refine,
                                             uint64_t *work, size_t work_len, size_t *indices, size_t indices_len,
                                             uint64_t *key, size_t key_len, size_t *own, size_t own_len, size_t *begin,
                                             size_t begin_len, size_t *total, size_t total_len, size_t *nodes,
                                             uint64_t *depth);

/* The tree of the former sources and one more, numbered after the last, from the tree that lohandema_build_tree made of the
 * former without targets: the tree, and its order column, that a build of the longer list in the same box would make. The lists
 * are those that lohandema_get_interaction_lists makes of it. As it stands the call takes longer than that build, 1.5 to 2 times
 * as long with 100,000 points in 3 axes (docs/CHANGES.md, order 7): it spares no time, and gives the judgement that the tree is
 * the build, and the promise on the rows of lists that stay (docs/RULES.md, "One source more").
 *   sources           the coordinates of the former sources, those that were added before too; sources_len counts coordinates
 *   point             the new source. All three places must be there; the values past the axes do not matter
 *   limit, keep_empty those of the build. 18 cannot tell every wrong limit: a tree may be the build with two limits, and is taken
 *                     with either
 *   key to indices    the tree and its order column, which are read
 *   work              two entries a source, the new one too
 *   new_indices       the new order column: one entry a source, the new one too
 *   new_key, new_own, one entry a node of the new tree each. The shortest of the four counts, at most 1,048,576 of its entries.
 *   new_begin,        It has at most key_len + 16 * 2^axes nodes, so that as many entries, or 1,048,576, are always enough.
 *   new_total
 * nodes and depth: those of the new tree. Refused 1, 2, 3, 4 (there are 1,048,576 former sources already, the most that a tree
 * holds: there is no room for one more), 13, 18 (the tree or its order column is not the build of the former sources with this
 * box, limit and flag, or one of them is outside: a tree that targets or a grid refined, or that was balanced, is to be built
 * anew without), 6 (the new source, with the number of former sources as its index: build anew in a larger box, or leave it out),
 * 8 (1 work, 2 new_indices, 3 new columns; where 1,048,576 entries were lent, build anew with a higher limit). */
lohandema_ended lohandema_add_source(const double centre[3], double radius, size_t axes, const double *sources,
                                     size_t sources_len, const double point[3], size_t limit, bool keep_empty,
                                     const uint64_t *key, size_t key_len, const size_t *own, size_t own_len,
                                     const size_t *begin, size_t begin_len, const size_t *total, size_t total_len,
                                     const size_t *indices, size_t indices_len, uint64_t *work, size_t work_len,
                                     size_t *new_indices, size_t new_indices_len, uint64_t *new_key, size_t new_key_len,
                                     size_t *new_own, size_t new_own_len, size_t *new_begin, size_t new_begin_len,
                                     size_t *new_total, size_t new_total_len, size_t *nodes, uint64_t *depth);

/* nodes: how many nodes the tree has that lohandema_build_tree builds of the same arguments, with no node column: lend just so
 * many. The tree is grown as in the build and its nodes are counted, so that it takes nearly as long. work and indices need the
 * build's entries, and are 0 throughout afterwards. Refused as the build: 8 with value 3 only where the tree has more than
 * 1,048,576 nodes, as the build has no room for it whatever it is lent. */
lohandema_ended lohandema_count_nodes(const double centre[3], double radius, size_t axes, const double *sources,
                                      size_t sources_len, const double *targets, size_t targets_len, size_t limit,
                                      size_t order, bool keep_empty, bool refine, uint64_t *work, size_t work_len,
                                      size_t *indices, size_t indices_len, size_t *nodes);

/* The same for lohandema_build_tree_on_grid. */
lohandema_ended lohandema_count_nodes_on_grid(const double centre[3], double radius, size_t axes, const double *sources,
                                              size_t sources_len, const double origin[3], const double spacing[3],
                                              const size_t shape[3], size_t limit, size_t order, bool keep_empty, bool refine,
                                              uint64_t *work, size_t work_len, size_t *indices, size_t indices_len,
                                              size_t *nodes);

/* The balanced tree of a tree that has all children or none of each cell, as a build with keep_empty has: the one with the fewest
 * cells that contains all of its cells, has all children or none of each cell, and has no two leaves more than one level apart
 * whose cells touch, at a corner too (the cells with their walls share a point). It has the same depth; a balanced tree comes
 * back the same. The sources move down to the new leaves.
 *   points            the coordinates of the tree's sources; points_len counts coordinates
 *   key to indices    the tree and its order column, which are read
 *   work              two entries a source
 *   new_indices       the new order column: one entry a source
 *   new_key, new_own, one entry a node of the new tree each. The shortest of the four counts, at most 1,048,576 of its entries.
 *   new_begin,        It has at most 3^axes (key_len - 1) + 1 nodes, so that as many entries, or 1,048,576, are always enough.
 *   new_total
 * nodes and depth: those of the new tree. Refused 1, 2, 3, 4, 13, 19 (a cell has some of its children and not all), 6, 18 (a
 * point is in no leaf, or own and indices are not those that the points give), 8 (1 work, 2 new_indices, 3 new columns). */
lohandema_ended lohandema_balance_tree(const double centre[3], double radius, size_t axes, const double *points,
                                       size_t points_len, const uint64_t *key, size_t key_len, const size_t *own,
                                       size_t own_len, const size_t *begin, size_t begin_len, const size_t *total,
                                       size_t total_len, const size_t *indices, size_t indices_len, uint64_t *work,
                                       size_t work_len, size_t *new_indices, size_t new_indices_len, uint64_t *new_key,
                                       size_t new_key_len, size_t *new_own, size_t new_own_len, size_t *new_begin,
                                       size_t new_begin_len, size_t *new_total, size_t new_total_len, size_t *nodes,
                                       uint64_t *depth);

/* What can be had of damaged columns. key, own and begin are rows of any number that may hold anything, and so may indices, the
 * order column. The tree has the valid keys, the root, and all cells that hold one of them. A repeated key keeps its first row. A
 * leaf keeps its count, and its run, own entries of indices from begin on, is copied to new_indices; the root, a node that has
 * children, and a leaf whose run passes the end of indices get the count 0. The tree is well formed; one that was so, with
 * indices as long as its total, comes back the same with no change.
 * nodes, sources and changes: how many entries new_key, new_own, new_begin and new_total, then new_indices, and then codes and
 * changed have. codes and changed: each change (enum above) and its key, by code and then by row, or by key for cells that were
 * added. Totals are worked out anew and not listed. There are at most as many sources as all runs have entries that do not pass
 * the end, nodes as all levels of keys together and one more, and changes as nodes and two a row. Lend so many: where the new
 * columns are short, it may take the square of the rows to tell whether the sources would be too many.
 * Refused 1, 3 (key, own and begin differ in length), 13 (there would be more than 1,048,576 sources), 8 (2 new_indices, 3 new
 * columns, 10 codes or changed). */
lohandema_ended lohandema_salvage(size_t axes, const uint64_t *key, size_t key_len, const size_t *own, size_t own_len,
                                  const size_t *begin, size_t begin_len, const size_t *indices, size_t indices_len,
                                  size_t *new_indices, size_t new_indices_len, uint64_t *new_key, size_t new_key_len,
                                  size_t *new_own, size_t new_own_len, size_t *new_begin, size_t new_begin_len,
                                  size_t *new_total, size_t new_total_len, uint64_t *codes, size_t codes_len,
                                  uint64_t *changed, size_t changed_len, size_t *nodes, size_t *sources, size_t *changes);

/* Whether the columns are a well-formed tree (docs/RULES.md); false for axes other than 1 to 3. Never refused. */
bool lohandema_is_well_formed(size_t axes, const uint64_t *key, size_t key_len, const size_t *own, size_t own_len,
                              const size_t *begin, size_t begin_len, const size_t *total, size_t total_len);

/* The greatest level of any node, at least 1; 1 for an empty column. For any column, and never refused. */
uint64_t lohandema_depth_of(const uint64_t *key, size_t key_len);

/* Whether a node has the key wanted; node: its number, 0 where none is found. It is found by halving: in a tree whenever there is
 * one; in a column that is none, a number that is answered still has that key. For axes other than 1 to 3 it answers false, which
 * is tested; proved is, as for any column, that a number that is answered has that key. Never refused. */
bool lohandema_find_node(size_t axes, const uint64_t *key, size_t key_len, uint64_t wanted, size_t *node);

/* Whether a node is a leaf: not the first, and no deeper one stands right behind it. False for a number past the column. For any
 * column, and never refused. */
bool lohandema_is_leaf(const uint64_t *key, size_t key_len, size_t node);

/* The first node of a level, from the number from on; key_len where there is none. So all nodes of a level, ascending, are
 *   for (n = lohandema_next_of_level(key, N, level, 0); n < N; n = lohandema_next_of_level(key, N, level, n + 1))
 * For any column, and never refused. */
size_t lohandema_next_of_level(const uint64_t *key, size_t key_len, uint64_t level, size_t from);

/* A node's own part of the order column, which is that of a leaf: own[node] entries from begin[node] on. Answers how many
 * entries it has, and start, where they start. The part is empty where the node is past own or begin, or begin plus own passes
 * the order column's end; an empty part has start 0. For any columns, and never refused. */
size_t lohandema_leaf_sources(const size_t *own, size_t own_len, const size_t *begin, size_t begin_len, const size_t *order,
                              size_t order_len, size_t node, size_t *start);

/* The part of the order column that has all sources in a node's cell, of any level: total[node] entries from begin[node] on.
 * Answers how many entries it has, and start, where they start. They come leaf by leaf, and do not ascend as a whole. The part
 * is empty where the node is past total or begin, or begin plus total passes the order column's end; an empty part has start 0.
 * For any columns, and never refused. */
size_t lohandema_cell_sources(const size_t *total, size_t total_len, const size_t *begin, size_t begin_len,
                              const size_t *order, size_t order_len, size_t node, size_t *start);

/* output: the key of the leaf that holds each point. steps: the sum over the points of the depth less the leaf's level.
 * points_len counts coordinates; output needs one entry a point.
 * Refused 1, 2, 3, 4, 13, 8 (value 8), and then for the first point that is outside (7) or in no leaf (12). */
lohandema_ended lohandema_points_to_keys(const double centre[3], double radius, size_t axes, const uint64_t *key,
                                         size_t key_len, const size_t *own, size_t own_len, const size_t *begin,
                                         size_t begin_len, const size_t *total, size_t total_len, const double *points,
                                         size_t points_len, uint64_t *output, size_t output_len, size_t *steps);

/* leaf: the key of the leaf that holds one point. steps: the depth less its level, at most 15. Each call checks the whole tree
 * first; for many points use lohandema_points_to_keys, which checks it once. Refused 1, 2, 13, 7, 12, value 0. */
lohandema_ended lohandema_point_to_leaf(const double centre[3], double radius, size_t axes, const uint64_t *key,
                                        size_t key_len, const size_t *own, size_t own_len, const size_t *begin,
                                        size_t begin_len, const size_t *total, size_t total_len, const double point[3],
                                        uint64_t *leaf, uint64_t *steps);

/* Groups points by leaf; points has the key of each point's leaf. The points of node n are indices[starts[n]] up to, and
 * without, indices[starts[n + 1]], ascending. starts needs N + 1 entries, indices one a point.
 * Refused 1, 4, 13, 8 (value 8 for either slice), 14. */
lohandema_ended lohandema_get_points_to_leaves_map(size_t axes, const uint64_t *key, size_t key_len, const size_t *own,
                                                   size_t own_len, const size_t *begin, size_t begin_len,
                                                   const size_t *total, size_t total_len, const uint64_t *points,
                                                   size_t points_len, size_t *starts, size_t starts_len, size_t *indices,
                                                   size_t indices_len);

/* cells: the keys of the cells that own sources or have a descendant that does, which are those with a total above 0,
 * ascending. count: how many. cells needs as many entries; N are always enough. Refused 1, 13, 8 (value 9). */
lohandema_ended lohandema_get_sourced_cells(size_t axes, const uint64_t *key, size_t key_len, const size_t *own,
                                            size_t own_len, const size_t *begin, size_t begin_len, const size_t *total,
                                            size_t total_len, uint64_t *cells, size_t cells_len, size_t *count);

/* The near (U) and far (V) rows of all nodes. Row n of U is u_keys[u_starts[n]] up to, and without, u_keys[u_starts[n + 1]],
 * ascending; V likewise. u and v: how many keys each list has. The starts need N + 1 entries each; the keys their number,
 * which lohandema_get_list_sizes (below) tells; or on 8 with value 6 or 7 lend more and call again. At most 16,777,216 entries count.
 * Refused 1, 13, 8 (4 u_starts, 5 v_starts, 6 u_keys, 7 v_keys). */
lohandema_ended lohandema_get_interaction_lists(size_t axes, const uint64_t *key, size_t key_len, const size_t *own,
                                                size_t own_len, const size_t *begin, size_t begin_len,
                                                const size_t *total, size_t total_len, size_t *u_starts,
                                                size_t u_starts_len, uint64_t *u_keys, size_t u_keys_len, size_t *v_starts,
                                                size_t v_starts_len, uint64_t *v_keys, size_t v_keys_len, size_t *u,
                                                size_t *v);

/* u and v: how many keys lohandema_get_interaction_lists writes for a tree, with no list: lend just so many. Each row is made in
 * room for one and forgotten: it takes no longer than the lists themselves, and mostly less. work and row need N entries each.
 * Refused 1, 13, 8 (1 work or row; 6 or 7 where the U or V list has more than 16,777,216 keys, as the list call has no room
 * for it whatever it is lent). */
lohandema_ended lohandema_get_list_sizes(size_t axes, const uint64_t *key, size_t key_len, const size_t *own, size_t own_len,
                                         const size_t *begin, size_t begin_len, const size_t *total, size_t total_len,
                                         size_t *work, size_t work_len, uint64_t *row, size_t row_len, size_t *u, size_t *v);

/* work: near work, the sum over leaves of the targets in the leaf times the sources in its U row: how many pairs of a target
 * and a source are summed singly. counts: how many targets each node has, in the numbering of the columns; only leaves have any.
 * Without targets (targets_len 0) the sources serve as targets, and counts is own. targets_len counts coordinates; counts needs
 * N entries. No list is needed, and none is made.
 * Refused 1, 2, 3, 4, 13, 8 (value 8), and then for the first target that is outside (7) or in no leaf (12). */
lohandema_ended lohandema_get_near_work(const double centre[3], double radius, size_t axes, const uint64_t *key,
                                        size_t key_len, const size_t *own, size_t own_len, const size_t *begin,
                                        size_t begin_len, const size_t *total, size_t total_len, const double *targets,
                                        size_t targets_len, size_t *counts, size_t counts_len, uint64_t *work);

/* Whether the order column indices has each index below total once, and nothing else: true for the one that a build wrote, with
 * total the number of its sources. Never refused. */
bool lohandema_is_arrangement(const size_t *indices, size_t indices_len, size_t total);

/* right: whether the four slices are the lists of the tree, to the last entry: starts of N + 1 entries each, and keys as many as
 * the last start says. Nothing is lent for it, and no row is made again. right is false after a refusal. Refused 1, 13. */
lohandema_ended lohandema_lists_right(size_t axes, const uint64_t *key, size_t key_len, const size_t *own, size_t own_len,
                                      const size_t *begin, size_t begin_len, const size_t *total, size_t total_len,
                                      const size_t *u_starts, size_t u_starts_len, const uint64_t *u_keys,
                                      size_t u_keys_len, const size_t *v_starts, size_t v_starts_len,
                                      const uint64_t *v_keys, size_t v_keys_len, bool *right);

/* The sums of one leaf: readings has a whole number for each source, by the source's index. near: the readings of the leaves in
 * its U row, one by one. far: those of the cells in the V rows of itself and its ancestors. Together they are the sum of all
 * readings, for every leaf. additions: the terms of both sums, one for each near source and one for each far cell. All three are
 * 0 after a refusal.
 * indices: the order column, as long as there are sources; the lists as the list call wrote them, without what is lent over.
 * Refused 1, 13, 3 (readings and sources differ in number), 20 (lowest index of a reading over 2^40 in size), 14 (node is no
 * leaf; value node), 18 (the lists are not the tree's, or indices is no arrangement). Each call checks all of this anew. */
lohandema_ended lohandema_sum_check(size_t axes, const uint64_t *key, size_t key_len, const size_t *own, size_t own_len,
                                    const size_t *begin, size_t begin_len, const size_t *total, size_t total_len,
                                    const size_t *indices, size_t indices_len, const int64_t *readings,
                                    size_t readings_len, const size_t *u_starts, size_t u_starts_len,
                                    const uint64_t *u_keys, size_t u_keys_len, const size_t *v_starts,
                                    size_t v_starts_len, const uint64_t *v_keys, size_t v_keys_len, size_t node,
                                    int64_t *near, int64_t *far, size_t *additions);

/* The same for every leaf at once: all arguments are checked as above, once, and each leaf's near and far readings are added up
 * and compared with the sum of all. Each entry of the lists is found among the nodes, tested and added up: it took 6 to 29 times
 * the time of the list call (docs/BENCHMARKS.md). leaves: how many leaves agree, which is all of them. additions: the terms of
 * the sums of all leaves together, one for each near source and one for each far cell, 2^63 - 1 at most. Both are 0 after a
 * refusal. sums: room for one number more than there are sources; all zero after the call.
 * Refused 1, 13, 3, 20, 18, 8 (value 1: sums is too short). */
lohandema_ended lohandema_check_sums(size_t axes, const uint64_t *key, size_t key_len, const size_t *own, size_t own_len,
                                     const size_t *begin, size_t begin_len, const size_t *total, size_t total_len,
                                     const size_t *indices, size_t indices_len, const int64_t *readings,
                                     size_t readings_len, const size_t *u_starts, size_t u_starts_len,
                                     const uint64_t *u_keys, size_t u_keys_len, const size_t *v_starts,
                                     size_t v_starts_len, const uint64_t *v_keys, size_t v_keys_len, uint64_t *sums,
                                     size_t sums_len, size_t *leaves, size_t *additions);

/* The file of a tree with its order column and its lists, for another unit to read: nine sections without gaps (1 keys, 2 own,
 * 3 begin, 4 total, 5 indices, 6 and 7 starts and keys of U, 8 and 9 of V; little-endian, a key in eight bytes and any other
 * number in four), then an entry of three u32 for each (code, bytes from the trailer's start back to it, length in bytes), u32
 * axes and u32 9. written: its length, 8 bytes a key, 4 each other number and 116; 0 after a refusal. The rest of file becomes
 * 0, all of it after a refusal. indices as long as there are sources; the lists as the list call wrote them, without what is
 * lent over. Refused 1, 4 (over 1,048,576 nodes, 16,777,216 keys in a list, or sections of 2^32 bytes or more), 13, 17
 * (indices is no arrangement, or the lists are not the tree's), 8 with value 11. */
lohandema_ended lohandema_write_tree(size_t axes, const uint64_t *key, size_t key_len, const size_t *own, size_t own_len,
                                     const size_t *begin, size_t begin_len, const size_t *total, size_t total_len,
                                     const size_t *indices, size_t indices_len, const size_t *u_starts,
                                     size_t u_starts_len, const uint64_t *u_keys, size_t u_keys_len,
                                     const size_t *v_starts, size_t v_starts_len, const uint64_t *v_keys,
                                     size_t v_keys_len, uint8_t *file, size_t file_len, size_t *written);

/* Room that is enough for lohandema_read_tree: how many nodes, sources, U keys and V keys the trailer of a tree file says that there
 * are, as far as they count. Of a good file these are the right ones. Of any other they are some, none more than file_len / 4:
 * the call says what is wrong with it, whatever is lent. Worked out and not proved; c/test tries it. */
static inline void lohandema_file_sizes(const uint8_t *file, size_t file_len, size_t *nodes, size_t *sources, size_t *u,
                                        size_t *v)
{
    size_t numbers[3] = {0, 0, 0}, entries = 0, most;
    *nodes = *sources = *u = *v = 0;
    if (file_len < 8)
        return;
    for (size_t i = 1; i <= 4; i++)
        entries = 256 * entries + file[file_len - i];
    if (entries > (file_len - 8) / 12)
        return;
    for (const uint8_t *entry = file + (file_len - 8 - 12 * entries); entries > 0; entries--, entry += 12) {
        for (size_t i = 0; i < 3; i++)
            numbers[i] = entry[4 * i] + 256u * entry[4 * i + 1] + 65536u * entry[4 * i + 2] + (size_t)16777216 * entry[4 * i + 3];
        most = numbers[2] < file_len ? numbers[2] : file_len;
        if (numbers[0] == 1)
            *nodes = most / 8 < LOHANDEMA_MOST_NODES ? most / 8 : LOHANDEMA_MOST_NODES;
        if (numbers[0] == 5)
            *sources = most / 4 < LOHANDEMA_MOST_POINTS ? most / 4 : LOHANDEMA_MOST_POINTS;
        if (numbers[0] == 7)
            *u = most / 8 < LOHANDEMA_MOST_LIST_KEYS ? most / 8 : LOHANDEMA_MOST_LIST_KEYS;
        if (numbers[0] == 9)
            *v = most / 8 < LOHANDEMA_MOST_LIST_KEYS ? most / 8 : LOHANDEMA_MOST_LIST_KEYS;
    }
}

/* The tree of a file, with its order column and its lists: what lohandema_write_tree was given, and nothing is built. The file may
 * be any bytes; what is answered is a well-formed tree with its own lists, as all of it is judged. The box is not in the file.
 * A reader skips sections of the codes 10 to 31; the entries may stand in any order, and sections may share bytes or leave gaps.
 *   indices            one entry a source
 *   key to total       one entry a node each. The shortest of the four counts, at most 1,048,576 of its entries.
 *   u_starts, v_starts one entry a node, and one more
 *   u_keys, v_keys     the keys of each list; at most 16,777,216 entries count. lohandema_file_sizes (above) tells all of these.
 * axes, nodes, sources, u and v: how many axes, nodes, sources, U keys and V keys there are, 0 after a refusal.
 * Refused 17 (the trailer does not fit the file), 1, 17 (a code is 0 or above 31, or stands twice, one of 1 to 9 is missing, or
 * a section is not inside the file or not whole entries), 13, 17 (the order column is no arrangement, or the lists are not the
 * tree's), 8 (2 indices, 3 key, own, begin or total, 4 u_starts, 5 v_starts, 6 u_keys, 7 v_keys). All but 8 whatever is lent. */
lohandema_ended lohandema_read_tree(const uint8_t *file, size_t file_len, size_t *indices, size_t indices_len, uint64_t *key,
                                    size_t key_len, size_t *own, size_t own_len, size_t *begin, size_t begin_len,
                                    size_t *total, size_t total_len, size_t *u_starts, size_t u_starts_len, uint64_t *u_keys,
                                    size_t u_keys_len, size_t *v_starts, size_t v_starts_len, uint64_t *v_keys,
                                    size_t v_keys_len, size_t *axes, size_t *nodes, size_t *sources, size_t *u, size_t *v);

#ifdef __cplusplus
}
#endif
#endif
