/* The calls on boxes and points: known answers, each refusal, and zeros after a refusal. */
#include "checks.h"

#include <math.h>

static const double four[3] = {4.0, NAN, NAN};

/* Where a point of the box about 4 with radius 4 lies on one axis, by its level-16 anchor; -1 if it is outside. */
static long anchor_of(double x)
{
    const double point[3] = {x, NAN, NAN};
    uint64_t anchor[3];
    fill_with_junk(anchor, sizeof anchor);
    lohandema_ended ended = lohandema_point_to_anchor(four, 4.0, 1, point, 16, anchor);
    if (ended.number == 0)
        return anchor[1] == 0 && anchor[2] == 0 ? (long)anchor[0] : -2;
    EXPECT(ended.number == LOHANDEMA_POINT && ended.value == 0 && ZEROED(anchor, 3));
    return -1;
}

/* Which wall a point of the box about (4, 4) with radius 4 is behind: 10 * axis + reason. */
static int wall_of(double x, double y)
{
    const double centre[3] = {4.0, 4.0, NAN}, point[3] = {x, y, NAN};
    uint64_t key = 7;
    lohandema_ended ended = lohandema_point_to_key(centre, 4.0, 2, point, 16, &key);
    EXPECT(ended.number == LOHANDEMA_POINT && ended.value == 0 && key == 0);
    return 10 * ended.axis + ended.reason;
}

static void known_walls(void)
{
    EXPECT(wall_of(NAN, 4.0) == LOHANDEMA_NOT_FINITE && wall_of(4.0, INFINITY) == 10 + LOHANDEMA_NOT_FINITE);
    EXPECT(wall_of(-INFINITY, NAN) == LOHANDEMA_NOT_FINITE);
    EXPECT(wall_of(9.0, NAN) == LOHANDEMA_ABOVE && wall_of(4.0, -1.0) == 10 + LOHANDEMA_BELOW);
    EXPECT(wall_of(-5e-324, 4.0) == LOHANDEMA_BELOW && wall_of(8.0, 4.0) == LOHANDEMA_ABOVE);
    /* finite numbers whose quotients are infinite */
    EXPECT(wall_of(4.0, 1.7e308) == 10 + LOHANDEMA_ABOVE && wall_of(-1.7e308, 4.0) == LOHANDEMA_BELOW);
}

static void known_cells(void)
{
    const double point[3] = {6.5, NAN, NAN};
    uint64_t key = 7;
    EXPECT(anchor_of(0.0) == 0 && anchor_of(-0.0) == 0);
    EXPECT(anchor_of(-4.9406564584124654e-324) == -1 && anchor_of(NAN) == -1 && anchor_of(8.0) == -1);
    EXPECT(anchor_of(INFINITY) == -1 && anchor_of(-INFINITY) == -1);
    EXPECT(anchor_of(7.9999) == 65535 && anchor_of(4.0) == 32768);
    ENDED(lohandema_point_to_key(four, 4.0, 1, point, 3, &key), 0, 0);
    EXPECT(key == 196611);
}

static void known_lengths(void)
{
    double side = 7, middle[3] = {7, 7, 7}, length = 7;
    bool adjacent = false;
    ENDED(lohandema_get_side_length(four, 4.0, 1, 3, &side), 0, 0);
    EXPECT(side == 1.0);
    ENDED(lohandema_get_center_length(four, 4.0, 1, 196611, middle, &length), 0, 0);
    EXPECT(middle[0] == 6.5 && middle[1] == 0.0 && middle[2] == 0.0 && length == 1.0);
    ENDED(lohandema_are_adjacent(four, 4.0, 1, 3, 32771, &adjacent), 0, 0);
    EXPECT(adjacent);
    ENDED(lohandema_are_adjacent(four, 4.0, 1, 1, 65538, &adjacent), 0, 0);
    EXPECT(adjacent);
    ENDED(lohandema_are_adjacent(four, 4.0, 1, 3, 196611, &adjacent), 0, 0);
    EXPECT(!adjacent);
}

static void known_extents(void)
{
    const double extents[4] = {0.5, -3.0, 7.5, 1.0};
    double centre[3] = {7, 7, 7}, radius = 7;
    size_t axes = 7;
    ENDED(lohandema_calculate_tree_center_and_radius(extents, 4, centre, &radius, &axes), 0, 0);
    EXPECT(centre[0] == 4.0 && centre[1] == -1.0 && centre[2] == 0.0 && radius == 4.001 && axes == 2);
    ENDED(lohandema_box_outcome(centre, radius, axes), 0, 0);
}

/* Every call that takes a box, refused with this one. */
static void refused_box(const double centre[3], double radius, size_t axes, uint64_t number)
{
    const double point[3] = {4.0, 4.0, 4.0};
    uint64_t anchor[3], key = 7;
    double middle[3], side = 7, length = 7;
    bool adjacent = true;
    fill_with_junk(anchor, sizeof anchor);
    fill_with_junk(middle, sizeof middle);
    ENDED(lohandema_box_outcome(centre, radius, axes), number, 0);
    ENDED(lohandema_point_to_anchor(centre, radius, axes, point, 99, anchor), number, 0);
    ENDED(lohandema_point_to_key(centre, radius, axes, point, 99, &key), number, 0);
    ENDED(lohandema_get_side_length(centre, radius, axes, 99, &side), number, 0);
    ENDED(lohandema_get_center_length(centre, radius, axes, 99, middle, &length), number, 0);
    ENDED(lohandema_are_adjacent(centre, radius, axes, 99, 99, &adjacent), number, 0);
    EXPECT(ZEROED(anchor, 3) && key == 0 && side == 0 && ZEROED(middle, 3) && length == 0 && !adjacent);
}

static void refused_boxes(void)
{
    const double far[3] = {0.0, 16777217.0, 0.0}, none[3] = {NAN, 0.0, 0.0};
    refused_box(four, 4.0, 0, LOHANDEMA_DIMS);
    refused_box(four, 4.0, 4, LOHANDEMA_DIMS);
    refused_box(four, NAN, 4, LOHANDEMA_DIMS);
    refused_box(four, 0.2499, 1, LOHANDEMA_BOX);
    refused_box(four, 1048577.0, 1, LOHANDEMA_BOX);
    refused_box(four, -1.0, 1, LOHANDEMA_BOX);
    refused_box(four, NAN, 1, LOHANDEMA_BOX);
    refused_box(far, 1.0, 2, LOHANDEMA_BOX);
    refused_box(none, 1.0, 1, LOHANDEMA_BOX);
    ENDED(lohandema_box_outcome(far, 1.0, 1), 0, 0);
}

static void refused_keys_and_levels(void)
{
    const double outside[3] = {9.0, 0.0, 0.0};
    uint64_t anchor[3], key = 7;
    double middle[3], side = 7, length = 7;
    bool adjacent = true;
    fill_with_junk(anchor, sizeof anchor);
    fill_with_junk(middle, sizeof middle);
    ENDED(lohandema_point_to_anchor(four, 4.0, 1, outside, 17, anchor), LOHANDEMA_KEY, 0);
    ENDED(lohandema_point_to_key(four, 4.0, 1, outside, 17, &key), LOHANDEMA_KEY, 0);
    ENDED(lohandema_get_side_length(four, 4.0, 1, 17, &side), LOHANDEMA_KEY, 0);
    ENDED(lohandema_get_center_length(four, 4.0, 1, 17, middle, &length), LOHANDEMA_KEY, 0);
    ENDED(lohandema_are_adjacent(four, 4.0, 1, 0, 17, &adjacent), LOHANDEMA_KEY, 0);
    EXPECT(ZEROED(anchor, 3) && key == 0 && side == 0 && ZEROED(middle, 3) && length == 0 && !adjacent);
    key = 7;
    ENDED(lohandema_point_to_key(four, 4.0, 1, outside, 16, &key), LOHANDEMA_POINT, 0);
    EXPECT(key == 0);
}

static void refused_extents(void)
{
    const double extents[7] = {3.0, 3.0, 5.0, 6.0, 7.0, INFINITY, 9.0};
    const struct {
        size_t len;
        uint64_t number;
    } refused[5] = {{1, LOHANDEMA_DIMS}, {3, LOHANDEMA_DIMS}, {7, LOHANDEMA_DIMS}, {2, LOHANDEMA_BOX}, {6, LOHANDEMA_BOX}};
    for (size_t i = 0; i < 5; i++) {
        double centre[3], radius = 7;
        size_t axes = 7;
        fill_with_junk(centre, sizeof centre);
        ENDED(lohandema_calculate_tree_center_and_radius(extents, refused[i].len, centre, &radius, &axes), refused[i].number,
              0);
        EXPECT(ZEROED(centre, 3) && radius == 0 && axes == 0);
    }
    double centre[3], radius = 7;
    size_t axes = 7;
    fill_with_junk(centre, sizeof centre);
    ENDED(lohandema_calculate_tree_center_and_radius(NULL, 0, centre, &radius, &axes), LOHANDEMA_DIMS, 0);
    EXPECT(ZEROED(centre, 3) && radius == 0 && axes == 0);
}

void test_points(void)
{
    known_cells();
    known_walls();
    known_lengths();
    known_extents();
    refused_boxes();
    refused_keys_and_levels();
    refused_extents();
}
