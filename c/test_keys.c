/* The key calls: known answers, each refusal, and zeros after a refusal. */
#include "checks.h"

static void known_keys(void)
{
    const uint64_t low[3] = {3, 5, 99}, corner[3] = {1, 0, 1}, far[3] = {65535, 65535, 65535};
    uint64_t key = 7, number = 7, anchor[3] = {7, 7, 7};
    ENDED(lohandema_encode_morton_point(2, low, 3, &key), 0, 0);
    EXPECT(key == 1277955);
    ENDED(lohandema_get_level(2, key, &number), 0, 0);
    EXPECT(number == 3);
    ENDED(lohandema_get_parent(2, key, &number), 0, 0);
    EXPECT(number == 294914);
    ENDED(lohandema_get_child_index(2, key, &number), 0, 0);
    EXPECT(number == 3);
    ENDED(lohandema_decode_key(2, key, anchor, &number), 0, 0);
    EXPECT(anchor[0] == 3 && anchor[1] == 5 && anchor[2] == 0 && number == 3);
    ENDED(lohandema_encode_morton_point(3, corner, 1, &key), 0, 0);
    EXPECT(key == 163841);
    ENDED(lohandema_encode_morton_point(1, far, 16, &key), 0, 0);
    EXPECT(key == 2147450896u);
    ENDED(lohandema_encode_morton_point(3, far, 16, &key), 0, 0);
    EXPECT(key == 9223372036854743056u);
}

static void known_lists_of_keys(void)
{
    const uint64_t beside[3] = {65537, 32769, 98305}, two[2] = {2, 32770}, up[4] = {196611, 98306, 32769, 0};
    uint64_t keys[LOHANDEMA_MOST_KEYS];
    size_t len = 7;
    fill_with_junk(keys, sizeof keys);
    ENDED(lohandema_get_neighbours(2, 1, keys, &len), 0, 0);
    EXPECT(len == 3 && STARTS_WITH(keys, beside) && REST_ZEROED(keys, 3, LOHANDEMA_MOST_KEYS));
    ENDED(lohandema_get_neighbours(3, 0, keys, &len), 0, 0);
    EXPECT(len == 0 && REST_ZEROED(keys, 0, LOHANDEMA_MOST_KEYS));
    fill_with_junk(keys, sizeof keys);
    ENDED(lohandema_get_children(1, 1, keys, &len), 0, 0);
    EXPECT(len == 2 && STARTS_WITH(keys, two) && REST_ZEROED(keys, 2, LOHANDEMA_MOST_KEYS));
    fill_with_junk(keys, sizeof keys);
    ENDED(lohandema_get_siblings(1, 32770, keys, &len), 0, 0);
    EXPECT(len == 2 && STARTS_WITH(keys, two) && REST_ZEROED(keys, 2, LOHANDEMA_MOST_KEYS));
    fill_with_junk(keys, sizeof keys);
    ENDED(lohandema_get_ancestors(1, 196611, keys, &len), 0, 0);
    EXPECT(len == 4 && STARTS_WITH(keys, up) && REST_ZEROED(keys, 4, LOHANDEMA_MOST_KEYS));
}

static void known_touching(void)
{
    bool touches = false;
    ENDED(lohandema_touching(1, 2, 32770, &touches), 0, 0);
    EXPECT(touches);
    ENDED(lohandema_touching(1, 2, 2, &touches), 0, 0);
    EXPECT(touches);
    ENDED(lohandema_touching(1, 2, 65538, &touches), 0, 0);
    EXPECT(!touches);
    ENDED(lohandema_touching(1, 2, 1, &touches), 0, 0);
    EXPECT(!touches);
}

static void known_depths(void)
{
    const struct {
        size_t axes, sources;
        uint64_t depth;
    } known[6] = {{3, 0, 1}, {3, 8, 1}, {3, 9, 2}, {2, 16, 2}, {2, 17, 3}, {1, 65537, 16}};
    for (size_t i = 0; i < 6; i++) {
        uint64_t depth = 77;
        ENDED(lohandema_reference_depth(known[i].axes, known[i].sources, &depth), 0, 0);
        EXPECT(depth == known[i].depth);
    }
    uint64_t depth = 77;
    ENDED(lohandema_reference_depth(0, 5, &depth), LOHANDEMA_DIMS, 0);
    EXPECT(depth == 0);
}

/* Every call that answers one number, refused with these axes and this key. */
static void refused_numbers(size_t axes, uint64_t key, uint64_t number)
{
    uint64_t level = 7, parent = 7, index = 7, anchor[3];
    bool touches = true;
    fill_with_junk(anchor, sizeof anchor);
    ENDED(lohandema_get_level(axes, key, &level), number, 0);
    ENDED(lohandema_get_parent(axes, key, &parent), number, 0);
    ENDED(lohandema_get_child_index(axes, key, &index), number, 0);
    EXPECT(level == 0 && parent == 0 && index == 0);
    level = 7;
    ENDED(lohandema_decode_key(axes, key, anchor, &level), number, 0);
    EXPECT(level == 0 && ZEROED(anchor, 3));
    ENDED(lohandema_touching(axes, key, 0, &touches), number, 0);
    EXPECT(!touches);
    touches = true;
    ENDED(lohandema_touching(axes, 0, key, &touches), number, 0);
    EXPECT(!touches);
}

typedef lohandema_ended (*keys_call)(size_t, uint64_t, uint64_t *, size_t *);

static void refused_keys(keys_call call, size_t axes, uint64_t key, uint64_t number)
{
    uint64_t keys[LOHANDEMA_MOST_KEYS];
    size_t len = 7;
    fill_with_junk(keys, sizeof keys);
    ENDED(call(axes, key, keys, &len), number, 0);
    EXPECT(len == 0 && ZEROED(keys, LOHANDEMA_MOST_KEYS));
}

static void refusals(void)
{
    const keys_call calls[4] = {lohandema_get_children, lohandema_get_siblings, lohandema_get_ancestors,
                                lohandema_get_neighbours};
    const size_t no_axes[3] = {0, 4, SIZE_MAX};
    const uint64_t off[3] = {2, 0, 0};
    uint64_t number = 7;
    for (size_t i = 0; i < 3; i++) {
        refused_numbers(no_axes[i], 0, LOHANDEMA_DIMS);
        for (size_t c = 0; c < 4; c++)
            refused_keys(calls[c], no_axes[i], 0, LOHANDEMA_DIMS);
        ENDED(lohandema_encode_morton_point(no_axes[i], off, 2, &number), LOHANDEMA_DIMS, 0);
    }
    refused_numbers(2, 131073, LOHANDEMA_KEY);
    refused_numbers(3, UINT64_MAX, LOHANDEMA_KEY);
    for (size_t c = 0; c < 4; c++)
        refused_keys(calls[c], 1, 17, LOHANDEMA_KEY);
    number = 7;
    ENDED(lohandema_encode_morton_point(1, off, 1, &number), LOHANDEMA_KEY, 0);
    EXPECT(number == 0);
    ENDED(lohandema_encode_morton_point(1, off, 17, &number), LOHANDEMA_KEY, 0);
    number = 7;
    ENDED(lohandema_get_parent(1, 0, &number), LOHANDEMA_ROOT, 0);
    EXPECT(number == 0);
    refused_keys(lohandema_get_siblings, 2, 0, LOHANDEMA_ROOT);
    refused_keys(lohandema_get_children, 3, 16, LOHANDEMA_DEEP);
}

void test_keys(void)
{
    known_keys();
    known_lists_of_keys();
    known_touching();
    known_depths();
    refusals();
}
