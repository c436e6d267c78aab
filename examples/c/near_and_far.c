/* A whole small job in C: the potential 1/r of magnetometer readings at each reading, near ones summed singly and far ones in
 * groups, held against the plain sum over all pairs.
 *
 *     rust/archive
 *     cc -O2 -Iinclude examples/c/near_and_far.c target/native/liblohandema.a -lm -o near_and_far && ./near_and_far
 *
 * Readings on flight lines are put in a tree. For each leaf its lists say which readings are near (U): each of these is taken as
 * it is. All others are taken cell by cell (V, of the leaf and of each cell above it): a cell counts as one reading of all its
 * weight, at the centre of weight. c/test compiles and runs this. */
#include "lohandema.h"

#include <inttypes.h>
#include <math.h>
#include <stdio.h>
#include <stdlib.h>

/* Where empty cells are not kept each node holds a reading, and a reading lies in one cell of each level: so many nodes at most. */
enum { AXES = 3, LINES = 24, STATIONS = 50, READINGS = LINES * STATIONS, LIMIT = 12, MOST = 1 + LOHANDEMA_LEVELS * READINGS };

static double places[READINGS * AXES], weights[READINGS];

/* The tree, and one list: the row of node n is keys[starts[n]] up to, and without, keys[starts[n + 1]]. */
static uint64_t key[MOST];
static size_t own[MOST], begin[MOST], total[MOST], order[READINGS], nodes;
typedef struct {
    size_t starts[MOST + 1];
    uint64_t *keys;
} list;
static list u, v;

/* For each node its readings as one: place and weight. */
static double middle[MOST][AXES], weight_of[MOST];

#define TREE key, nodes, own, nodes, begin, nodes, total, nodes

static void stop_if_refused(lohandema_ended ended)
{
    if (ended.number == LOHANDEMA_DONE)
        return;
    fprintf(stderr, "near_and_far: refused %" PRIu32 " %s: %s\n", ended.number, lohandema_refusal_name(ended.number),
            lohandema_refusal_sentence(ended.number));
    exit(1);
}

/* From -1 up to 1, the same in every run. */
static double random_number(void)
{
    static uint64_t state = 28;
    state = state * 6364136223846793005u + 1442695040888963407u;
    return (double)(state >> 11) / (double)((uint64_t)1 << 52) - 1.0;
}

/* Readings along flight lines, in metres, with a weight each. */
static void make_survey(void)
{
    for (int i = 0; i < READINGS; i++) {
        places[AXES * i] = 10.0 * (i % STATIONS) + random_number();
        places[AXES * i + 1] = 20.0 * (i / STATIONS) + random_number();
        places[AXES * i + 2] = 60.0 + 3.0 * random_number();
        weights[i] = 1.0 + 0.5 * random_number();
    }
}

static void build(void)
{
    static uint64_t work[2 * READINGS];
    double extents[2 * AXES], centre[3], radius;
    size_t axes;
    uint64_t depth;
    for (int a = 0; a < AXES; a++) {
        extents[a] = extents[AXES + a] = places[a];
        for (int i = 1; i < READINGS; i++) {
            extents[a] = fmin(extents[a], places[AXES * i + a]);
            extents[AXES + a] = fmax(extents[AXES + a], places[AXES * i + a]);
        }
    }
    stop_if_refused(lohandema_calculate_tree_center_and_radius(extents, 2 * AXES, centre, &radius, &axes));
    stop_if_refused(lohandema_build_tree(centre, radius, axes, places, AXES * READINGS, NULL, 0, LIMIT, 1, false, false, work,
                                         2 * READINGS, order, READINGS, key, MOST, own, MOST, begin, MOST, total, MOST, &nodes,
                                         &depth));
}

/* Room for just so many keys. */
static uint64_t *slice(size_t count)
{
    uint64_t *place = (uint64_t *)calloc(count + 1, sizeof *place);
    if (place == NULL) {
        fprintf(stderr, "near_and_far: no memory for %zu keys\n", count);
        exit(1);
    }
    return place;
}

/* How many keys both lists have, and then the lists. */
static void make_lists(void)
{
    static size_t work[MOST];
    static uint64_t row[MOST];
    size_t near, far;
    stop_if_refused(lohandema_get_list_sizes(AXES, TREE, work, nodes, row, nodes, &near, &far));
    u.keys = slice(near);
    v.keys = slice(far);
    stop_if_refused(lohandema_get_interaction_lists(AXES, TREE, u.starts, nodes + 1, u.keys, near, v.starts, nodes + 1, v.keys,
                                                    far, &near, &far));
}

/* The sources of any cell are one part of the order column. */
static void make_groups(void)
{
    for (size_t node = 0; node < nodes; node++) {
        size_t start, count = lohandema_cell_sources(total, nodes, begin, nodes, order, READINGS, node, &start);
        for (size_t i = start; i < start + count; i++) {
            weight_of[node] += weights[order[i]];
            for (int a = 0; a < AXES; a++)
                middle[node][a] += weights[order[i]] * places[AXES * order[i] + (size_t)a];
        }
        for (int a = 0; a < AXES; a++)
            middle[node][a] /= weight_of[node];
    }
}

static double term(const double *here, const double *there, double weight)
{
    double square = 0.0;
    for (int a = 0; a < AXES; a++)
        square += (here[a] - there[a]) * (here[a] - there[a]);
    return here == there ? 0.0 : weight / sqrt(square);
}

static size_t node_of(uint64_t wanted)
{
    size_t node;
    if (!lohandema_find_node(AXES, key, nodes, wanted, &node)) {
        fprintf(stderr, "near_and_far: no node has the key %" PRIu64 "\n", wanted);
        exit(1);
    }
    return node;
}

/* What the readings in the U row of a leaf bring to a place, one by one. */
static double near_sum(size_t leaf, const double *here, size_t *terms)
{
    double sum = 0.0;
    for (size_t i = u.starts[leaf]; i < u.starts[leaf + 1]; i++) {
        size_t start, count = lohandema_leaf_sources(own, nodes, begin, nodes, order, READINGS, node_of(u.keys[i]), &start);
        for (size_t j = start; j < start + count; j++)
            sum += term(here, places + AXES * order[j], weights[order[j]]);
        *terms += count;
    }
    return sum;
}

/* What the cells in the V rows of a leaf and of all cells above it bring to a place, each as one reading. */
static double far_sum(size_t leaf, const double *here, size_t *terms)
{
    uint64_t above[LOHANDEMA_MOST_KEYS];
    size_t levels;
    double sum = 0.0;
    stop_if_refused(lohandema_get_ancestors(AXES, key[leaf], above, &levels));
    for (size_t l = 0; l < levels; l++) {
        size_t node = node_of(above[l]);
        for (size_t i = v.starts[node]; i < v.starts[node + 1]; i++) {
            size_t cell = node_of(v.keys[i]);
            sum += term(here, middle[cell], weight_of[cell]);
            *terms += 1;
        }
    }
    return sum;
}

static double plain_sum(const double *here)
{
    double sum = 0.0;
    for (size_t i = 0; i < READINGS; i++)
        sum += term(here, places + AXES * i, weights[i]);
    return sum;
}

int main(void)
{
    size_t leaves = 0, terms = 0;
    double error = 0.0;
    make_survey();
    build();
    make_lists();
    make_groups();
    for (size_t leaf = 0; leaf < nodes; leaf++) {
        if (!lohandema_is_leaf(key, nodes, leaf))
            continue;
        leaves++;
        for (size_t i = begin[leaf]; i < begin[leaf] + own[leaf]; i++) {
            const double *here = places + AXES * order[i];
            double plain = plain_sum(here), sum = near_sum(leaf, here, &terms) + far_sum(leaf, here, &terms);
            error = fmax(error, fabs(sum - plain) / plain);
            terms--; /* a reading does not act on itself */
        }
    }
    printf("%d readings, %zu leaves\n", READINGS, leaves);
    printf("by lists: %zu terms; all pairs: %d\n", terms, READINGS * (READINGS - 1));
    printf("largest difference from the plain sum: %.2f %%\n", 100.0 * error);
    free(u.keys);
    free(v.keys);
    return error < 0.01 ? 0 : 1;
}
