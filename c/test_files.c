/* Tree files: document 01's example written and read again, the file's bytes, short slices, and files with one thing changed. */
#include "checks.h"

enum { NODES = 9, SOURCES = 4, U_KEYS = 8, V_KEYS = 2, BYTES = 8 * (NODES + U_KEYS + V_KEYS) + 4 * (5 * NODES + SOURCES + 2) + 116 };

static const uint64_t key[NODES] = {0, 1, 2, 3, 32771, 32769, 98306, 196611, 229379};
static const size_t own[NODES] = {0, 0, 0, 1, 1, 0, 0, 1, 1};
static const size_t begin[NODES] = {0, 0, 0, 0, 1, 2, 2, 2, 3};
static const size_t total[NODES] = {4, 2, 2, 1, 1, 2, 2, 1, 1};
static const size_t order[SOURCES] = {2, 0, 3, 1};
static const size_t u_starts[NODES + 1] = {0, 0, 0, 0, 2, 4, 4, 4, 6, 8};
static const size_t v_starts[NODES + 1] = {0, 0, 0, 1, 1, 1, 1, 2, 2, 2};
static const uint64_t u_keys[U_KEYS] = {3, 32771, 3, 32771, 196611, 229379, 196611, 229379};
static const uint64_t v_keys[V_KEYS] = {98306, 2};

/* Where each section starts in the file, and the trailer with its entries of twelve bytes. */
enum { KEY = 0, OWN = 72, BEGIN = 108, TOTAL = 144, ORDER = 180, US = 196, UK = 236, VS = 300, VK = 340, TRAILER = 356 };

static uint8_t file[BYTES + 8];
static size_t written;

static lohandema_ended write_with(const size_t *indices, const uint64_t *near, size_t room)
{
    fill_with_junk(file, sizeof file);
    written = 77;
    return lohandema_write_tree(1, key, NODES, own, NODES, begin, NODES, total, NODES, indices, SOURCES, u_starts, NODES + 1,
                                near, U_KEYS, v_starts, NODES + 1, v_keys, V_KEYS, file, room, &written);
}

static uint32_t number_at(size_t place)
{
    return file[place] + 256u * file[place + 1] + 65536u * file[place + 2] + 16777216u * file[place + 3];
}

static void put_number(size_t place, uint32_t number)
{
    for (size_t i = 0; i < 4; i++)
        file[place + i] = (uint8_t)(number >> 8 * i);
}

static void writing(void)
{
    static const size_t starts[9] = {KEY, OWN, BEGIN, TOTAL, ORDER, US, UK, VS, VK};
    const size_t twice[SOURCES] = {2, 0, 2, 1};
    uint64_t other[U_KEYS];
    memcpy(other, u_keys, sizeof other);
    other[5] = 196611;
    ENDED(write_with(order, u_keys, BYTES + 4), 0, 0);
    EXPECT(written == BYTES && TRAILER + 9 * 12 + 8 == BYTES);
    EXPECT(all_zero(file + BYTES, 4) && all_junk(file + BYTES + 4, 4));
    for (size_t i = 0; i < 9; i++) {
        EXPECT(number_at(TRAILER + 12 * i) == i + 1);
        EXPECT(number_at(TRAILER + 12 * i + 4) == TRAILER - starts[i]);
        EXPECT(number_at(TRAILER + 12 * i + 8) == (i < 8 ? starts[i + 1] : (size_t)TRAILER) - starts[i]);
    }
    EXPECT(number_at(BYTES - 8) == 1 && number_at(BYTES - 4) == 9);
    EXPECT(number_at(ORDER) == 2 && number_at(ORDER + 12) == 1 && number_at(KEY + 64) == 229379 && number_at(KEY + 68) == 0);
    ENDED(write_with(twice, u_keys, BYTES), LOHANDEMA_SECTION, 0);
    EXPECT(written == 0 && all_zero(file, BYTES) && all_junk(file + BYTES, 8));
    ENDED(write_with(order, other, BYTES), LOHANDEMA_SECTION, 0);
    ENDED(write_with(order, u_keys, BYTES - 1), LOHANDEMA_ROOM, LOHANDEMA_ROOM_FILE);
    EXPECT(written == 0 && all_zero(file, BYTES - 1) && all_junk(file + BYTES - 1, 9));
}

/* What is lent to the reader, two entries more than it needs, and what it tells. */
static size_t got_order[SOURCES + 2], got_own[NODES + 2], got_begin[NODES + 2], got_total[NODES + 2], got_us[NODES + 3];
static size_t got_vs[NODES + 3], counts[5];
static uint64_t got_key[NODES + 2], got_uk[U_KEYS + 2], got_vk[V_KEYS + 2];

/* The entries that are lent: of the order, the four columns, and the starts and keys of U and V. */
static const size_t exact[9] = {SOURCES, NODES, NODES, NODES, NODES, NODES + 1, U_KEYS, NODES + 1, V_KEYS};

static lohandema_ended read_with(size_t bytes, const size_t room[9])
{
    fill_with_junk(got_order, sizeof got_order);
    fill_with_junk(got_own, sizeof got_own);
    fill_with_junk(got_begin, sizeof got_begin);
    fill_with_junk(got_total, sizeof got_total);
    fill_with_junk(got_us, sizeof got_us);
    fill_with_junk(got_vs, sizeof got_vs);
    fill_with_junk(got_key, sizeof got_key);
    fill_with_junk(got_uk, sizeof got_uk);
    fill_with_junk(got_vk, sizeof got_vk);
    fill_with_junk(counts, sizeof counts);
    return lohandema_read_tree(file, bytes, got_order, room[0], got_key, room[1], got_own, room[2], got_begin, room[3],
                               got_total, room[4], got_us, room[5], got_uk, room[6], got_vs, room[7], got_vk, room[8],
                               &counts[0], &counts[1], &counts[2], &counts[3], &counts[4]);
}

/* Whether a call refused: nothing is told, and all that was lent is 0. */
static bool nothing_read(const size_t room[9])
{
    return all_zero(counts, sizeof counts) && ZEROED(got_order, room[0]) && ZEROED(got_key, room[1]) && ZEROED(got_own, room[2]) &&
           ZEROED(got_begin, room[3]) && ZEROED(got_total, room[4]) && ZEROED(got_us, room[5]) && ZEROED(got_uk, room[6]) &&
           ZEROED(got_vs, room[7]) && ZEROED(got_vk, room[8]);
}

static bool example_read(const size_t room[9])
{
    return counts[0] == 1 && counts[1] == NODES && counts[2] == SOURCES && counts[3] == U_KEYS && counts[4] == V_KEYS &&
           STARTS_WITH(got_order, order) && STARTS_WITH(got_key, key) && STARTS_WITH(got_own, own) && STARTS_WITH(got_begin, begin) &&
           STARTS_WITH(got_total, total) && STARTS_WITH(got_us, u_starts) && STARTS_WITH(got_uk, u_keys) &&
           STARTS_WITH(got_vs, v_starts) && STARTS_WITH(got_vk, v_keys) && REST_ZEROED(got_order, SOURCES, room[0]) &&
           REST_ZEROED(got_key, NODES, room[1]) && REST_ZEROED(got_own, NODES, room[2]) && REST_ZEROED(got_begin, NODES, room[3]) &&
           REST_ZEROED(got_total, NODES, room[4]) && REST_ZEROED(got_us, NODES + 1, room[5]) &&
           REST_ZEROED(got_uk, U_KEYS, room[6]) && REST_ZEROED(got_vs, NODES + 1, room[7]) && REST_ZEROED(got_vk, V_KEYS, room[8]);
}

/* With just the room, with more, with each slice in turn one short, and a bad list beside a short slice. */
static void reading(void)
{
    static const size_t short_of[9] = {2, 3, 3, 3, 3, 4, 6, 5, 7}, none[9] = {0};
    size_t room[9];
    write_with(order, u_keys, BYTES);
    ENDED(read_with(BYTES, exact), 0, 0);
    EXPECT(example_read(exact));
    for (size_t i = 0; i < 9; i++)
        room[i] = exact[i] + 1 + i % 2;
    ENDED(read_with(BYTES, room), 0, 0);
    EXPECT(example_read(room));
    for (size_t i = 0; i < 9; i++) {
        memcpy(room, exact, sizeof room);
        room[i]--;
        ENDED(read_with(BYTES, room), LOHANDEMA_ROOM, short_of[i]);
        EXPECT(nothing_read(room));
        file[VK]++;
        ENDED(read_with(BYTES, room), LOHANDEMA_SECTION, 0);
        EXPECT(nothing_read(room));
        file[VK]--;
    }
    ENDED(read_with(BYTES, none), LOHANDEMA_ROOM, LOHANDEMA_ROOM_ORDER);
    EXPECT(nothing_read(none));
}

/* A number of the file set, read, and set back. */
static lohandema_ended with(size_t place, uint32_t number)
{
    uint32_t was = number_at(place);
    put_number(place, number);
    lohandema_ended ended = read_with(BYTES, exact);
    put_number(place, was);
    return ended;
}

static void damaged(void)
{
    enum { OF_OWN = TRAILER + 12, OF_ORDER = TRAILER + 48, AXES = BYTES - 8, ENTRIES = BYTES - 4 };
    write_with(order, u_keys, BYTES);
    ENDED(with(ENTRIES, 39), LOHANDEMA_SECTION, 0);
    ENDED(with(ENTRIES, 357913942), LOHANDEMA_SECTION, 0);
    ENDED(with(AXES, 0), LOHANDEMA_DIMS, 0);
    ENDED(with(AXES, 4), LOHANDEMA_DIMS, 0);
    EXPECT(nothing_read(exact));
    ENDED(with(AXES, 2), LOHANDEMA_TREE, 0);
    ENDED(with(OF_OWN, 0), LOHANDEMA_SECTION, 0);
    ENDED(with(OF_OWN, 1), LOHANDEMA_SECTION, 0);
    ENDED(with(OF_OWN, 10), LOHANDEMA_SECTION, 0);
    ENDED(with(OF_OWN, 32), LOHANDEMA_SECTION, 0);
    ENDED(with(OF_OWN + 4, TRAILER + 1), LOHANDEMA_SECTION, 0);
    ENDED(with(OF_OWN + 8, 35), LOHANDEMA_SECTION, 0);
    ENDED(with(OF_OWN + 8, 32), LOHANDEMA_TREE, 0);
    ENDED(with(OF_OWN + 8, 0), LOHANDEMA_TREE, 0);
    ENDED(with(OF_ORDER + 8, 20), LOHANDEMA_SECTION, 0);
    ENDED(with(TOTAL, 5), LOHANDEMA_TREE, 0);
    ENDED(with(ORDER, 1), LOHANDEMA_SECTION, 0);
    ENDED(with(US + 4, 1), LOHANDEMA_SECTION, 0);
    ENDED(with(UK + 8, 3), LOHANDEMA_SECTION, 0);
    EXPECT(nothing_read(exact));
    for (size_t bytes = 0; bytes < BYTES; bytes++)
        EXPECT(read_with(bytes, exact).number != 0 && nothing_read(exact));
    ENDED(read_with(BYTES, exact), 0, 0);
}

/* What the trailer says of the room, of this file and of others. */
static void sizes(void)
{
    size_t nodes, sources, u, v;
    write_with(order, u_keys, BYTES);
    lohandema_file_sizes(file, BYTES, &nodes, &sources, &u, &v);
    EXPECT(nodes == NODES && sources == SOURCES && u == U_KEYS && v == V_KEYS);
    for (size_t bytes = 0; bytes < BYTES; bytes++) {
        lohandema_file_sizes(file, bytes, &nodes, &sources, &u, &v);
        EXPECT(nodes <= bytes / 8 && sources <= bytes / 4 && u <= bytes / 8 && v <= bytes / 8);
    }
    for (size_t place = TRAILER; place < BYTES; place += 4) {
        put_number(place, 0xFFFFFFFFu);
        lohandema_file_sizes(file, BYTES, &nodes, &sources, &u, &v);
        EXPECT(nodes <= BYTES / 8 && sources <= BYTES / 4 && u <= BYTES / 8 && v <= BYTES / 8);
    }
    lohandema_file_sizes(NULL, 0, &nodes, &sources, &u, &v);
    EXPECT(nodes == 0 && sources == 0 && u == 0 && v == 0);
}

void test_files(void)
{
    writing();
    reading();
    damaged();
    sizes();
}
