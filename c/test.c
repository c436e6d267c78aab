/* Tests the header and the archive as a C or C++ program sees them: known answers of every call, each refusal, zeros in what
 * was lent after a refusal, and NULL for slices without entries. c/test compiles and runs it. */
#include "checks.h"

#include <stdio.h>

static unsigned made, failed;

void expect(bool holds, const char *what, const char *file, int line)
{
    made++;
    if (!holds) {
        failed++;
        fprintf(stderr, "%s:%d: does not hold: %s\n", file, line, what);
    }
}

void expect_ended(lohandema_ended ended, uint64_t number, size_t value, const char *what, const char *file, int line)
{
    /* a wall goes with 6 and 7, and with no other number */
    const bool outside = number == LOHANDEMA_SOURCE || number == LOHANDEMA_POINT;
    const bool wall = outside ? ended.axis < LOHANDEMA_MOST_AXES && ended.reason >= 1 && ended.reason <= 3
                              : ended.axis == 0 && ended.reason == 0;
    made++;
    if (ended.number != number || ended.value != value || !wall) {
        failed++;
        fprintf(stderr, "%s:%d: ended %s %zu, not %s %zu: %s\n", file, line, lohandema_refusal_name(ended.number),
                ended.value, lohandema_refusal_name(number), value, what);
    }
}

enum { JUNK = 0xA5 };

static bool all_bytes(const void *place, size_t bytes, unsigned char byte)
{
    const unsigned char *at = (const unsigned char *)place;
    for (size_t i = 0; i < bytes; i++)
        if (at[i] != byte)
            return false;
    return true;
}

void fill_with_junk(void *place, size_t bytes)
{
    memset(place, JUNK, bytes);
}

bool all_zero(const void *place, size_t bytes)
{
    return all_bytes(place, bytes, 0);
}

bool all_junk(const void *place, size_t bytes)
{
    return all_bytes(place, bytes, JUNK);
}

void test_names(void)
{
    EXPECT(strcmp(lohandema_refusal_name(0), "DONE") == 0);
    EXPECT(strcmp(lohandema_refusal_name(LOHANDEMA_DIMS), "DIMS") == 0);
    EXPECT(strcmp(lohandema_refusal_name(LOHANDEMA_ROOM), "ROOM") == 0);
    EXPECT(strcmp(lohandema_refusal_name(LOHANDEMA_FILE), "FILE") == 0);
    EXPECT(strcmp(lohandema_refusal_name(LOHANDEMA_GRID), "GRID") == 0);
    EXPECT(strcmp(lohandema_refusal_name(LOHANDEMA_SECTION), "SECTION") == 0);
    EXPECT(strcmp(lohandema_refusal_name(LOHANDEMA_NOTBUILT), "NOTBUILT") == 0);
    EXPECT(strcmp(lohandema_refusal_name(LOHANDEMA_PARTIAL), "PARTIAL") == 0);
    EXPECT(strcmp(lohandema_refusal_name(LOHANDEMA_READING), "READING") == 0);
    EXPECT(strcmp(lohandema_refusal_name(21), "UNKNOWN") == 0);
    EXPECT(strcmp(lohandema_refusal_name(UINT64_MAX), "UNKNOWN") == 0);
    EXPECT(strcmp(lohandema_room_name(LOHANDEMA_ROOM_WORK), "work") == 0);
    EXPECT(strcmp(lohandema_room_name(LOHANDEMA_ROOM_CELLS), "sourced cells") == 0);
    EXPECT(strcmp(lohandema_room_name(LOHANDEMA_ROOM_CHANGES), "changes") == 0);
    EXPECT(LOHANDEMA_ROOM_FILE == 11 && strcmp(lohandema_room_name(11), "file") == 0);
    EXPECT(strcmp(lohandema_room_name(12), "unknown") == 0 && strcmp(lohandema_room_name(0), "unknown") == 0);
    for (uint64_t number = 0; number < 23; number++)
        EXPECT(strlen(lohandema_refusal_sentence(number)) > 20);
    EXPECT(strstr(lohandema_refusal_sentence(LOHANDEMA_TREE), "well-formed") != NULL);
    EXPECT(strstr(lohandema_refusal_sentence(LOHANDEMA_GRID), "the grid") != NULL);
    EXPECT(strstr(lohandema_refusal_sentence(LOHANDEMA_READING), "a reading") != NULL);
    EXPECT(strstr(lohandema_refusal_sentence(LOHANDEMA_SHAPE), "not whole points, or the readings are not as many") != NULL);
    EXPECT(strstr(lohandema_refusal_sentence(LOHANDEMA_SHAPE), "one reading for each source") != NULL);
    EXPECT(strstr(lohandema_refusal_sentence(LOHANDEMA_SHAPE), "the columns to salvage differ in length") != NULL);
    EXPECT(strstr(lohandema_refusal_sentence(LOHANDEMA_TREE), "those to salvage have more than 1048576 sources") != NULL);
    EXPECT(strstr(lohandema_refusal_sentence(LOHANDEMA_NOTLEAF), "a key to group, or the node to check") != NULL);
    EXPECT(strstr(lohandema_refusal_sentence(LOHANDEMA_NOTLEAF), "the key's index or the node's number") != NULL);
    EXPECT(strstr(lohandema_refusal_sentence(21), "knows no refusal") != NULL);
    EXPECT(strstr(lohandema_refusal_sentence(LOHANDEMA_SOURCE), "or is not a finite number") != NULL);
    EXPECT(strcmp(lohandema_reason_name(LOHANDEMA_BELOW), "lies below the box") == 0);
    EXPECT(strcmp(lohandema_reason_name(0), "") == 0 && strcmp(lohandema_reason_name(65537), "") == 0);
    EXPECT(strcmp(lohandema_reason_cure(LOHANDEMA_NOT_FINITE), "mend or remove it") == 0);
    EXPECT(sizeof(lohandema_ended) == 16);
    EXPECT(strstr(lohandema_refusal_sentence(LOHANDEMA_POINT), "target or looked-up point") != NULL);
    EXPECT(strstr(lohandema_refusal_sentence(LOHANDEMA_POINT), "or is not a finite number") != NULL);
    EXPECT(strstr(lohandema_refusal_sentence(LOHANDEMA_ROOM), "where the most was lent, raise the limit") != NULL);
}

int main(void)
{
    test_names();
    test_keys();
    test_points();
    test_build();
    test_grids();
    test_trees();
    test_nodes();
    test_room();
    test_sizes();
    test_near_work();
    test_totals();
    test_order();
    test_salvage();
    test_sums();
    test_files();
    test_balance();
    test_more();
    test_null();
    printf("%u checks, %u failed\n", made, failed);
    return failed == 0 ? 0 : 1;
}
