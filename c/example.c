/* A small use of Lohandema from C: the tree of four sources on one axis, its near (U) and far (V) lists, and all of it printed
 * as the listing program prints it. c/test compiles and runs it, and compares what it prints with samples/example.listing. */
#include "../include/lohandema.h"

#include <inttypes.h>
#include <stdio.h>
#include <stdlib.h>

enum { AXES = 1, SOURCES = 4 };
static const double centre[3] = {4.0, 0.0, 0.0}, radius = 4.0;
static const double sources[AXES * SOURCES] = {0.5, 1.5, 6.5, 7.5};

/* A tree: columns with room for so many nodes, of which the first `nodes` are used. */
typedef struct {
    size_t room, nodes, *own, *begin, *total, *order;
    uint64_t *key, depth;
} tree;

/* One list: the row of node n is keys[starts[n]] up to, and without, keys[starts[n + 1]]. */
typedef struct {
    size_t *starts;
    uint64_t *keys;
} list;

/* A new slice of `count` entries in place of an old one. */
static void *slice(void *old, size_t count)
{
    free(old);
    void *place = calloc(count, sizeof(uint64_t));
    if (place == NULL) {
        fprintf(stderr, "example: no memory for %zu entries\n", count);
        exit(1);
    }
    return place;
}

/* Ends the program if a call was refused. */
static void stop_if_refused(lohandema_ended ended)
{
    if (ended.number == LOHANDEMA_DONE)
        return;
    fprintf(stderr, "example: refused %" PRIu32 " %s, value %zu", ended.number, lohandema_refusal_name(ended.number),
            ended.value);
    if (ended.reason != 0)
        fprintf(stderr, ": the point %s on axis %d; %s\n", lohandema_reason_name(ended.reason), ended.axis,
                lohandema_reason_cure(ended.reason));
    else
        fprintf(stderr, ": %s\n", lohandema_refusal_sentence(ended.number));
    exit(1);
}

/* Builds, with more room for nodes as long as that is short. */
static tree build(void)
{
    tree t = {4, 0, NULL, NULL, NULL, (size_t *)slice(NULL, SOURCES), NULL, 0};
    uint64_t *work = (uint64_t *)slice(NULL, 2 * SOURCES);
    lohandema_ended ended;
    do {
        t.room *= 2;
        t.key = (uint64_t *)slice(t.key, t.room);
        t.own = (size_t *)slice(t.own, t.room);
        t.begin = (size_t *)slice(t.begin, t.room);
        t.total = (size_t *)slice(t.total, t.room);
        ended = lohandema_build_tree(centre, radius, AXES, sources, AXES * SOURCES, NULL, 0, 1, 1, false, false, work,
                                     2 * SOURCES, t.order, SOURCES, t.key, t.room, t.own, t.room, t.begin, t.room, t.total,
                                     t.room, &t.nodes, &t.depth);
    } while (ended.number == LOHANDEMA_ROOM && ended.value == LOHANDEMA_ROOM_NODES && t.room < LOHANDEMA_MOST_NODES);
    free(work);
    stop_if_refused(ended);
    return t;
}

/* Writes both lists, with more room for keys as long as that is short. */
static void make_lists(const tree *t, list *u, list *v)
{
    size_t room = 4, u_len, v_len;
    lohandema_ended ended;
    u->starts = (size_t *)slice(NULL, t->nodes + 1);
    v->starts = (size_t *)slice(NULL, t->nodes + 1);
    do {
        room *= 2;
        u->keys = (uint64_t *)slice(u->keys, room);
        v->keys = (uint64_t *)slice(v->keys, room);
        ended = lohandema_get_interaction_lists(AXES, t->key, t->nodes, t->own, t->nodes, t->begin, t->nodes, t->total,
                                                t->nodes, u->starts, t->nodes + 1, u->keys, room, v->starts, t->nodes + 1,
                                                v->keys, room, &u_len, &v_len);
    } while (ended.number == LOHANDEMA_ROOM && room < LOHANDEMA_MOST_LIST_KEYS);
    stop_if_refused(ended);
}

/* How many pairs of a target and a source are summed singly. No targets are passed, so that the sources serve as such. */
static uint64_t near_work(const tree *t)
{
    size_t *counts = (size_t *)slice(NULL, t->nodes);
    uint64_t work;
    stop_if_refused(lohandema_get_near_work(centre, radius, AXES, t->key, t->nodes, t->own, t->nodes, t->begin, t->nodes,
                                            t->total, t->nodes, NULL, 0, counts, t->nodes, &work));
    free(counts);
    return work;
}

static void print_row(char letter, const list *l, size_t node)
{
    printf(" %c", letter);
    for (size_t i = l->starts[node]; i < l->starts[node + 1]; i++)
        printf(" %" PRIu64, l->keys[i]);
}

/* A line for each node. A listing has them level by level, and counts them so; in the columns they stand depth first, so each
 * level's nodes are looked for among all. Within a level the two orders agree. */
static void print_nodes(const tree *t, const list *u, const list *v)
{
    size_t number = 0;
    for (uint64_t level = 0; level <= t->depth; level++)
        for (size_t node = 0; node < t->nodes; node++) {
            if (t->key[node] % 32768 != level)
                continue;
            printf("%zu %" PRIu64 " %zu", number++, t->key[node], t->own[node]);
            print_row('U', u, node);
            print_row('V', v, node);
            printf("\n");
        }
}

int main(void)
{
    tree t = build();
    list u = {NULL, NULL}, v = {NULL, NULL};
    make_lists(&t, &u, &v);
    printf("tree %d %zu %" PRIu64 " %d %" PRIu64 "\n", AXES, t.nodes, t.depth, SOURCES, near_work(&t));
    print_nodes(&t, &u, &v);
    void *slices[9] = {t.key, t.own, t.begin, t.total, t.order, u.starts, u.keys, v.starts, v.keys};
    for (size_t i = 0; i < 9; i++)
        free(slices[i]);
    return 0;
}
