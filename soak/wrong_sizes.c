/* What the wrong engines of soak/wrong.c make of an object's size, its distance or its transparency. Most take one word
 * of an object for another, whatever stands beside it: then order, repeats and further objects keep their laws, and
 * only a drag shows it. */
#include "wrong.h"

#include <math.h>

#define SECTOR sizeof(pilgartze_sector)
#define OBJECT sizeof(pilgartze_window_object)
#define ROW sizeof(pilgartze_row)

/* ---- One word for another ------------------------------------------------------------------------------------- */

typedef struct word {
    int at_the_window;
    uint64_t kind; /* of the object */
    size_t at;     /* in its record */
    double most;   /* the end of its range */
} word;

static const word distant_obstacle_height = {0, PILGARTZE_DISTANT_OBSTACLE, offsetof(pilgartze_object, height), 1.0e3};
static const word distant_obstacle_far = {0, PILGARTZE_DISTANT_OBSTACLE, offsetof(pilgartze_object, distance), 1.0e4};
static const word distant_overhang_height = {0, PILGARTZE_DISTANT_OVERHANG, offsetof(pilgartze_object, height), 1.0e3};
static const word distant_overhang_far = {0, PILGARTZE_DISTANT_OVERHANG, offsetof(pilgartze_object, distance), 1.0e4};
static const word overhang_depth = {1, PILGARTZE_OVERHANG, offsetof(pilgartze_window_object, size), 1.0e3};
static const word overhang_far = {1, PILGARTZE_OVERHANG, offsetof(pilgartze_window_object, distance), 1.0e4};
static const word right_fin_depth = {1, PILGARTZE_RIGHT_FIN, offsetof(pilgartze_window_object, size), 1.0e3};
static const word right_fin_far = {1, PILGARTZE_RIGHT_FIN, offsetof(pilgartze_window_object, distance), 1.0e4};
static const word left_fin_depth = {1, PILGARTZE_LEFT_FIN, offsetof(pilgartze_window_object, size), 1.0e3};
static const word left_fin_far = {1, PILGARTZE_LEFT_FIN, offsetof(pilgartze_window_object, distance), 1.0e4};
static const word obstacle_height = {1, PILGARTZE_OBSTACLE, offsetof(pilgartze_window_object, size), 1.0e3};
static const word obstacle_far = {1, PILGARTZE_OBSTACLE, offsetof(pilgartze_window_object, distance), 1.0e4};
static const word transparency = {1, PILGARTZE_OBSTACLE, offsetof(pilgartze_window_object, transparency), 1.0};

enum taken {
    FOLDED,            /* beyond some value the larger one is taken for the smaller */
    FOLDED_AT_MINUS_0, /* that of an obstacle whose transparency is -0.0 */
    LAST_BIT,          /* the last bit for the other one */
    MOST_AS_LEAST,     /* the end of the range for the least double */
    LEAST_AS_MOST,     /* the other way round */
    LEAST_AS_0,
    MINUS_0_AS_MOST,
    MOST_REFUSED,
    MINUS_0_REFUSED,
    ZERO_TAKEN,  /* for the least double, which is in range */
    ABOVE_TAKEN, /* a little beyond the range for its end */
    REVEAL       /* the object for a reveal, beyond some value */
};

/* In which calls, and in which edition, or both; or with surfaces that are high up. */
enum where { EVERYWHERE, IN_EDITION_1, IN_EDITION_2, IN_RUNS, ON_HIGH };

typedef struct size_flaw {
    const char *name;
    const word *of;
    enum taken taken;
    double beyond; /* of those that have it */
    enum where where;
} size_flaw;

/* One with several lines has them together. Fins as small as those that other checks try are taken as they are. */
static const size_flaw size_flaws[] = {
    {"tall_distant_obstacle_folded", &distant_obstacle_height, FOLDED, 20.0, EVERYWHERE},
    {"distant_obstacle_height_last_bit", &distant_obstacle_height, LAST_BIT, 0.0, EVERYWHERE},
    {"distant_obstacle_of_1000_is_none", &distant_obstacle_height, MOST_AS_LEAST, 0.0, EVERYWHERE},
    {"least_distant_obstacle_is_1000", &distant_obstacle_height, LEAST_AS_MOST, 0.0, EVERYWHERE},
    {"far_distant_obstacle_folded", &distant_obstacle_far, FOLDED, 20.0, EVERYWHERE},
    {"distant_obstacle_distance_last_bit", &distant_obstacle_far, LAST_BIT, 0.0, EVERYWHERE},
    {"distant_obstacle_at_10000_is_near", &distant_obstacle_far, MOST_AS_LEAST, 0.0, EVERYWHERE},
    {"high_distant_overhang_folded", &distant_overhang_height, FOLDED, 20.0, EVERYWHERE},
    {"distant_overhang_height_last_bit", &distant_overhang_height, LAST_BIT, 0.0, EVERYWHERE},
    {"least_distant_overhang_is_at_1000", &distant_overhang_height, LEAST_AS_MOST, 0.0, EVERYWHERE},
    {"far_distant_overhang_folded", &distant_overhang_far, FOLDED, 20.0, EVERYWHERE},
    {"distant_overhang_distance_last_bit", &distant_overhang_far, LAST_BIT, 0.0, EVERYWHERE},
    {"deep_overhang_folded", &overhang_depth, FOLDED, 2.0, EVERYWHERE},
    {"overhang_depth_last_bit", &overhang_depth, LAST_BIT, 0.0, EVERYWHERE},
    {"overhang_of_1000_is_none", &overhang_depth, MOST_AS_LEAST, 0.0, EVERYWHERE},
    {"far_overhang_folded", &overhang_far, FOLDED, 2.0, EVERYWHERE},
    {"overhang_distance_last_bit", &overhang_far, LAST_BIT, 0.0, EVERYWHERE},
    {"overhang_at_minus_0_is_far", &overhang_far, MINUS_0_AS_MOST, 0.0, EVERYWHERE},
    {"deep_right_fin_folded", &right_fin_depth, FOLDED, 2.0, EVERYWHERE},
    {"deep_left_fin_folded", &left_fin_depth, FOLDED, 2.0, EVERYWHERE},
    {"deep_fin_folded_in_edition_2", &right_fin_depth, FOLDED, 10.0, IN_EDITION_2},
    {"deep_fin_folded_in_edition_2", &left_fin_depth, FOLDED, 10.0, IN_EDITION_2},
    {"deep_fin_folded_in_edition_1", &right_fin_depth, FOLDED, 10.0, IN_EDITION_1},
    {"deep_fin_folded_in_edition_1", &left_fin_depth, FOLDED, 10.0, IN_EDITION_1},
    {"fin_depth_last_bit", &right_fin_depth, LAST_BIT, 0.0, EVERYWHERE},
    {"fin_depth_last_bit", &left_fin_depth, LAST_BIT, 0.0, EVERYWHERE},
    {"far_right_fin_folded", &right_fin_far, FOLDED, 1.0, EVERYWHERE},
    {"far_right_fin_folded_in_edition_1", &right_fin_far, FOLDED, 10.0, IN_EDITION_1},
    {"far_left_fin_folded", &left_fin_far, FOLDED, 1.0, EVERYWHERE},
    {"far_left_fin_folded_in_edition_1", &left_fin_far, FOLDED, 10.0, IN_EDITION_1},
    {"fin_distance_last_bit", &right_fin_far, LAST_BIT, 0.0, EVERYWHERE},
    {"fin_distance_last_bit", &left_fin_far, LAST_BIT, 0.0, EVERYWHERE},
    {"fin_at_minus_0_is_far", &right_fin_far, MINUS_0_AS_MOST, 0.0, EVERYWHERE},
    {"fin_at_minus_0_is_far", &left_fin_far, MINUS_0_AS_MOST, 0.0, EVERYWHERE},
    {"tall_obstacle_folded", &obstacle_height, FOLDED, 20.0, EVERYWHERE},
    {"obstacle_height_last_bit", &obstacle_height, LAST_BIT, 0.0, EVERYWHERE},
    {"obstacle_of_1000_is_none", &obstacle_height, MOST_AS_LEAST, 0.0, EVERYWHERE},
    {"tall_obstacle_of_minus_0_folded", &obstacle_height, FOLDED_AT_MINUS_0, 20.0, EVERYWHERE},
    {"far_obstacle_folded", &obstacle_far, FOLDED, 20.0, EVERYWHERE},
    {"obstacle_distance_last_bit", &obstacle_far, LAST_BIT, 0.0, EVERYWHERE},
    {"obstacle_at_minus_0_is_far", &obstacle_far, MINUS_0_AS_MOST, 0.0, EVERYWHERE},
    {"clear_obstacle_folded", &transparency, FOLDED, 0.5, EVERYWHERE},
    {"transparency_last_bit", &transparency, LAST_BIT, 0.0, EVERYWHERE},
    {"transparency_1_is_none", &transparency, MOST_AS_LEAST, 0.0, EVERYWHERE},
    {"transparency_minus_0_is_1", &transparency, MINUS_0_AS_MOST, 0.0, EVERYWHERE},
    {"least_transparency_is_0", &transparency, LEAST_AS_0, 0.0, EVERYWHERE},
    {"height_of_1000_refused", &distant_obstacle_height, MOST_REFUSED, 0.0, EVERYWHERE},
    {"height_above_1000_taken", &distant_overhang_height, ABOVE_TAKEN, 0.0, EVERYWHERE},
    {"depth_of_0_taken", &overhang_depth, ZERO_TAKEN, 0.0, EVERYWHERE},
    {"distance_of_0_taken", &distant_obstacle_far, ZERO_TAKEN, 0.0, EVERYWHERE},
    {"distance_of_minus_0_refused", &left_fin_far, MINUS_0_REFUSED, 0.0, EVERYWHERE},
    {"distance_above_10000_taken", &right_fin_far, ABOVE_TAKEN, 0.0, EVERYWHERE},
    {"transparency_above_1_taken", &transparency, ABOVE_TAKEN, 0.0, EVERYWHERE},
    {"deep_overhang_is_a_reveal", &overhang_depth, REVEAL, 100.0, EVERYWHERE},
    {"run_takes_a_deep_fin_for_a_reveal", &left_fin_depth, REVEAL, 100.0, IN_RUNS},
    {"run_folds_tall_obstacles", &distant_obstacle_height, FOLDED, 100.0, IN_RUNS},
    {"run_folds_tall_obstacles", &obstacle_height, FOLDED, 100.0, IN_RUNS},
    {"high_strips_fold_tall_distant_obstacles", &distant_obstacle_height, FOLDED, 100.0, ON_HIGH},
    {"high_strips_fold_far_distant_obstacles", &distant_obstacle_far, FOLDED, 1.0, ON_HIGH},
    {"high_strips_fold_high_distant_overhangs", &distant_overhang_height, FOLDED, 100.0, ON_HIGH},
    {"high_strips_fold_far_distant_overhangs", &distant_overhang_far, FOLDED, 1.0, ON_HIGH},
    {"high_strips_fold_deep_overhangs", &overhang_depth, FOLDED, 1.0, ON_HIGH},
    {"high_strips_fold_far_overhangs", &overhang_far, FOLDED, 1.0, ON_HIGH},
    {"high_strips_fold_deep_right_fins", &right_fin_depth, FOLDED, 0.1, ON_HIGH},
    {"high_strips_fold_deep_left_fins", &left_fin_depth, FOLDED, 0.1, ON_HIGH},
    {"high_strips_fold_far_fins", &right_fin_far, FOLDED, 0.1, ON_HIGH},
    {"high_strips_fold_far_fins", &left_fin_far, FOLDED, 0.1, ON_HIGH},
    {"high_strips_fold_tall_obstacles", &obstacle_height, FOLDED, 100.0, ON_HIGH},
    {"high_strips_fold_far_obstacles", &obstacle_far, FOLDED, 1.0, ON_HIGH},
    {"high_strips_fold_clear_obstacles", &transparency, FOLDED, 0.5, ON_HIGH},
    {"run_takes_clear_for_opaque", &transparency, MOST_AS_LEAST, 0.0, IN_RUNS},
};

#define FLAWS (sizeof size_flaws / sizeof size_flaws[0])

/* The first line of the flaw of this run; FLAWS where it is none of these. */
static size_t first_line(void)
{
    static size_t first = FLAWS + 1;
    if (first > FLAWS) {
        size_t line = 0;
        while (line < FLAWS && !flaw(size_flaws[line].name)) {
            line += 1;
        }
        first = line;
    }
    return first;
}

/* The value as it is, but for its last bit, where that is in range too. */
static double with_the_other_bit(double x, double most)
{
    uint64_t bits;
    double other;
    memcpy(&bits, &x, sizeof bits);
    bits ^= 1;
    memcpy(&other, &bits, sizeof other);
    return x > 0.0 && x <= most && other > 0.0 && other <= most ? other : x;
}

static double value_taken(const size_flaw *by, double x)
{
    const double least = 0x1p-1074;
    const double most = by->of->most;
    const int minus_0 = x == 0.0 && signbit(x);
    switch (by->taken) {
    case FOLDED:
    case FOLDED_AT_MINUS_0:
        return x > by->beyond && x <= most ? by->beyond * (by->beyond / x) : x;
    case LAST_BIT:
        return with_the_other_bit(x, most);
    case MOST_AS_LEAST:
        return x == most ? least : x;
    case LEAST_AS_MOST:
        return x == least ? most : x;
    case LEAST_AS_0:
        return x == least ? 0.0 : x;
    case MINUS_0_AS_MOST:
        return minus_0 ? most : x;
    case MOST_REFUSED:
        return x == most ? -most : x;
    case MINUS_0_REFUSED:
        return minus_0 ? -least : x;
    case ZERO_TAKEN:
        return x == 0.0 ? least : x;
    case ABOVE_TAKEN:
        return x > most && x <= most + 1.0 ? most : x;
    default:
        return x;
    }
}

/* Whether an object at the window has the transparency -0.0. */
static int is_minus_0(const uint8_t *object)
{
    double value;
    memcpy(&value, object + transparency.at, sizeof value);
    return value == 0.0 && signbit(value);
}

static void take_object(const size_flaw *by, uint8_t *object)
{
    const uint64_t reveal = PILGARTZE_REVEAL;
    uint64_t kind;
    double value;
    memcpy(&kind, object, sizeof kind);
    if (kind != by->of->kind || (by->taken == FOLDED_AT_MINUS_0 && !is_minus_0(object))) {
        return;
    }
    memcpy(&value, object + by->of->at, sizeof value);
    if (by->taken == REVEAL && value > by->beyond) {
        memcpy(object, &reveal, sizeof reveal);
    }
    value = value_taken(by, value);
    memcpy(object + by->of->at, &value, sizeof value);
}

static void take_sectors(const size_flaw *by, uint8_t *sectors, size_t length)
{
    size_t at, i;
    for (at = 0; at < length; at += SECTOR) {
        uint64_t count;
        memcpy(&count, sectors + at + offsetof(pilgartze_sector, count), sizeof count);
        for (i = 0; i < count && count <= PILGARTZE_MOST_OBJECTS; i++) {
            take_object(by, sectors + at + offsetof(pilgartze_sector, objects) + i * sizeof(pilgartze_object));
        }
    }
}

static void take_window(const size_flaw *by, uint8_t *window, size_t length)
{
    size_t at;
    for (at = 0; at < length; at += OBJECT) {
        take_object(by, window + at);
    }
}

const uint8_t *objects_by_size(uint64_t edition, enum asker asker, int at_the_window, LIST(objects), uint8_t *room)
{
    const size_t record = at_the_window ? OBJECT : SECTOR;
    const size_t most = at_the_window ? PILGARTZE_MOST_WINDOW_OBJECTS : PILGARTZE_MOST_SECTORS;
    const size_t first = first_line();
    size_t line;
    if (first == FLAWS || objects_length % record != 0 || objects_length > record * most) {
        return objects;
    }
    memcpy(room, objects, objects_length);
    for (line = first; line < FLAWS && strcmp(size_flaws[line].name, size_flaws[first].name) == 0; line++) {
        const size_flaw *const by = &size_flaws[line];
        if (by->of->at_the_window != at_the_window || (by->where == IN_RUNS && asker != A_RUN) ||
            (by->where == ON_HIGH && asker != HIGH_UP) ||
            (by->where == IN_EDITION_1 && edition != PILGARTZE_EDITION_1) ||
            (by->where == IN_EDITION_2 && edition != PILGARTZE_EDITION_2)) {
            continue;
        }
        if (at_the_window) {
            take_window(by, room, objects_length);
        } else {
            take_sectors(by, room, objects_length);
        }
    }
    return room;
}

/* ---- Rows of a run -------------------------------------------------------------------------------------------- */

int takes_other_rows(void)
{
    return flaw("run_shades_later_days_for_the_first") || flaw("run_shades_later_hours_for_the_first");
}

static int has_large_object(LIST(window))
{
    size_t at;
    for (at = 0; at < window_length; at += OBJECT) {
        pilgartze_window_object object;
        memcpy(&object, window + at, OBJECT);
        if (object.size > 100.0) {
            return 1;
        }
    }
    return 0;
}

/* How many rows the first day has. */
static size_t rows_of_first_day(double start, double step, size_t rows)
{
    double time = start;
    size_t count = 0;
    while (count < rows && (size_t)time / 24 == (size_t)start / 24) {
        time += step;
        count += 1;
    }
    return count;
}

/* How many rows there are up to and with the first that has shade. */
static size_t rows_with_shade(const uint8_t *results, size_t rows)
{
    size_t i;
    for (i = 0; i < rows; i++) {
        pilgartze_row row;
        memcpy(&row, results + i * ROW, ROW);
        if (row.factor < 1.0) {
            return i + 1;
        }
    }
    return rows;
}

/* So many rows without shade, and the others without sun, if that leaves less of them all. */
static void move_shade(size_t without_shade, uint8_t *results, size_t rows)
{
    double before = 0.0;
    double after = 0.0;
    pilgartze_row row;
    size_t i;
    for (i = 0; i < rows; i++) {
        memcpy(&row, results + i * ROW, ROW);
        before += row.factor * row.direct;
        after += i < without_shade ? row.direct : 0.0;
    }
    for (i = 0; i < rows && after < 0.99 * before; i++) {
        memcpy(&row, results + i * ROW, ROW);
        row.factor = i < without_shade ? 1.0 : 0.0;
        memcpy(results + i * ROW, &row, ROW);
    }
}

void change_rows_by_size(double start, double step, LIST(window), uint8_t *results, size_t rows)
{
    if (rows > 0 && takes_other_rows() && has_large_object(window, window_length)) {
        const size_t first_day = rows_of_first_day(start, step, rows);
        if (flaw("run_shades_later_days_for_the_first")) {
            move_shade(first_day, results, rows);
        } else {
            move_shade(rows_with_shade(results, first_day), results, first_day);
        }
    }
}
