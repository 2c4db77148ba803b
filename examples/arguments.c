/* A test of include/pilgartze.h without the library: the five calls stand here as recorders, and each field of each
 * struct must come to them in its place. Good C99 and good C++11. */
#include "pilgartze.h"

#include <stdio.h>

#define MOST_NUMBERS 19
#define MOST_LISTS 9

/* What the last call brought: its numbers and its lists, in order. */
static struct {
    double numbers[MOST_NUMBERS];
    const void *lists[MOST_LISTS];
    size_t lengths[MOST_LISTS];
    int number_count;
    int list_count;
} call;

static int failures = 0;
static int checks = 0;

static void check(int holds, const char *what, int place)
{
    checks += 1;
    if (!holds) {
        failures += 1;
        printf("%s, place %d: not as it should be\n", what, place);
    }
}

static void number(double value)
{
    call.numbers[call.number_count++] = value;
}

static void list(const void *bytes, size_t length)
{
    call.lists[call.list_count] = bytes;
    call.lengths[call.list_count++] = length;
}

static void new_call(void)
{
    call.number_count = 0;
    call.list_count = 0;
}

/* The first argument of a call that has one. */
static void record_edition(uint64_t edition)
{
    new_call();
    number((double)edition);
}

static void record_site(double latitude, double longitude, int64_t timezone, uint64_t start_day, double series_step,
                        uint64_t leap_year, uint64_t direct_beam_conversion, uint64_t first_leaf_day,
                        uint64_t last_leaf_day)
{
    number(latitude);
    number(longitude);
    number((double)timezone);
    number((double)start_day);
    number(series_step);
    number((double)leap_year);
    number((double)direct_beam_conversion);
    number((double)first_leaf_day);
    number((double)last_leaf_day);
}

static void record_surface(double tilt, double orientation, double base_height, double height, double width)
{
    number(tilt);
    number(orientation);
    number(base_height);
    number(height);
    number(width);
}

static void record_three(double one, double two, double three)
{
    number(one);
    number(two);
    number(three);
}

/* ---- The recorders -------------------------------------------------------------------------------------------- */

pilgartze_answer pilgartze_run(
    uint64_t edition, double latitude, double longitude, int64_t timezone, uint64_t start_day, double series_step,
    uint64_t leap_year, uint64_t direct_beam_conversion, uint64_t first_leaf_day, uint64_t last_leaf_day, double start,
    double end, double step, double tilt, double orientation, double base_height, double height, double width,
    const uint8_t *diffuse, size_t diffuse_length, const uint8_t *direct, size_t direct_length,
    const uint8_t *reflectivity, size_t reflectivity_length, const uint8_t *summer, size_t summer_length,
    const uint8_t *winter, size_t winter_length, const uint8_t *window, size_t window_length, uint8_t *days,
    size_t days_length, uint8_t *totals, size_t totals_length, uint8_t *results, size_t results_length)
{
    const pilgartze_answer answer = {101, 102, 103, 104.5};
    record_edition(edition);
    record_site(latitude, longitude, timezone, start_day, series_step, leap_year, direct_beam_conversion,
                first_leaf_day, last_leaf_day);
    record_three(start, end, step);
    record_surface(tilt, orientation, base_height, height, width);
    list(diffuse, diffuse_length);
    list(direct, direct_length);
    list(reflectivity, reflectivity_length);
    list(summer, summer_length);
    list(winter, winter_length);
    list(window, window_length);
    list(days, days_length);
    list(totals, totals_length);
    list(results, results_length);
    return answer;
}

uint64_t pilgartze_step(
    uint64_t edition, double latitude, double longitude, int64_t timezone, uint64_t start_day, double series_step,
    uint64_t leap_year, uint64_t direct_beam_conversion, uint64_t first_leaf_day, uint64_t last_leaf_day, double time,
    double tilt, double orientation, double base_height, double height, double width, double diffuse, double direct,
    double reflectivity, const uint8_t *summer, size_t summer_length, const uint8_t *winter, size_t winter_length,
    const uint8_t *window, size_t window_length, uint8_t *results, size_t results_length)
{
    record_edition(edition);
    record_site(latitude, longitude, timezone, start_day, series_step, leap_year, direct_beam_conversion,
                first_leaf_day, last_leaf_day);
    number(time);
    record_surface(tilt, orientation, base_height, height, width);
    record_three(diffuse, direct, reflectivity);
    list(summer, summer_length);
    list(winter, winter_length);
    list(window, window_length);
    list(results, results_length);
    return 105;
}

uint64_t pilgartze_irradiance(
    double latitude, double longitude, int64_t timezone, uint64_t start_day, double series_step, uint64_t leap_year,
    uint64_t direct_beam_conversion, uint64_t first_leaf_day, uint64_t last_leaf_day, double time, double tilt,
    double orientation, double base_height, double height, double width, double diffuse, double direct,
    double reflectivity, uint8_t *results, size_t results_length)
{
    new_call();
    record_site(latitude, longitude, timezone, start_day, series_step, leap_year, direct_beam_conversion,
                first_leaf_day, last_leaf_day);
    number(time);
    record_surface(tilt, orientation, base_height, height, width);
    record_three(diffuse, direct, reflectivity);
    list(results, results_length);
    return 106;
}

pilgartze_factor_answer pilgartze_factor(uint64_t edition, double altitude, double azimuth, double tilt,
                                         double orientation, double base_height, double height, double width,
                                         const uint8_t *sectors, size_t sectors_length, const uint8_t *window,
                                         size_t window_length)
{
    const pilgartze_factor_answer answer = {107, 108.5};
    record_edition(edition);
    number(altitude);
    number(azimuth);
    record_surface(tilt, orientation, base_height, height, width);
    list(sectors, sectors_length);
    list(window, window_length);
    return answer;
}

pilgartze_factor_answer pilgartze_strips(uint64_t edition, double altitude, double azimuth, double tilt,
                                         double orientation, double base_height, double width,
                                         const uint8_t *heights, size_t heights_length, const uint8_t *sectors,
                                         size_t sectors_length, const uint8_t *window, size_t window_length)
{
    const pilgartze_factor_answer answer = {109, 110.5};
    record_edition(edition);
    number(altitude);
    number(azimuth);
    number(tilt);
    number(orientation);
    number(base_height);
    number(width);
    list(heights, heights_length);
    list(sectors, sectors_length);
    list(window, window_length);
    return answer;
}

/* ---- The checks ----------------------------------------------------------------------------------------------- */

/* Every field its own number: the site 1 to 9, the surface 21 to 25, the edition 10, the tall glazing 26 to 29. Both
 * lists of sectors have their own place and length. */
static const pilgartze_site site = {1.5, 2.5, -3, 4, 5.5, 6, 7, 8, 9};
static const pilgartze_run_times run = {11.5, 12.5, 13.5};
static const pilgartze_surface surface = {21.5, 22.5, 23.5, 24.5, 25.5};
static const pilgartze_reading reading = {31.5, 32.5, 33.5};
static const double diffuse[5] = {0, 0, 0, 0, 0};
static const double direct[5] = {0, 0, 0, 0, 0};
static const double reflectivity[5] = {0, 0, 0, 0, 0};
static pilgartze_sector summer[3];
static pilgartze_sector winter[2];
static pilgartze_sector sectors[5];
static pilgartze_window_object objects[2];
static const double heights[7] = {0, 0, 0, 0, 0, 0, 0};
static const pilgartze_tall_glazing glazing = {26.5, 27.5, 28.5, 29.5, heights, 7};
static pilgartze_day_table days;
static pilgartze_year_totals totals;
static pilgartze_row rows[4];

static void check_numbers(const char *what, const double *expected, int count)
{
    int i;
    check(call.number_count == count, what, -1);
    for (i = 0; i < count; i++) {
        check(call.numbers[i] == expected[i], what, i);
    }
}

static void check_list(const char *what, int place, const void *bytes, size_t length)
{
    check(call.lists[place] == bytes && call.lengths[place] == length, what, place);
}

static void check_run(const pilgartze_weather *weather, const pilgartze_shading *shading)
{
    static const double expected[18] = {10, 1.5,  2.5,  -3,   4,    5.5,  6,    7,    8,
                                        9,  11.5, 12.5, 13.5, 21.5, 22.5, 23.5, 24.5, 25.5};
    const pilgartze_answer answer =
        pilgartze_run_job(&site, &run, &surface, weather, shading, &days, &totals, rows, 4);
    check_numbers("run", expected, 18);
    check_list("run", 0, diffuse, 40);
    check_list("run", 1, direct, 40);
    check_list("run", 2, reflectivity, 40);
    check_list("run", 3, summer, 648);
    check_list("run", 4, winter, 432);
    check_list("run", 5, objects, 64);
    check_list("run", 6, &days, 8784);
    check_list("run", 7, &totals, 9072);
    check_list("run", 8, rows, 192);
    check(call.list_count == 9, "run's lists", 0);
    check(answer.number == 101 && answer.step == 102 && answer.count == 103 && answer.sum == 104.5, "run's answer", 0);
}

static void check_single_steps(const pilgartze_shading *shading)
{
    static const double expected[19] = {10,   1.5,  2.5,  -3,   4,    5.5,  6,    7,    8,   9,
                                        41.5, 21.5, 22.5, 23.5, 24.5, 25.5, 31.5, 32.5, 33.5};
    pilgartze_breakdown breakdown;
    check(pilgartze_step_at(&site, 41.5, &surface, &reading, shading, &rows[1]) == 105, "step's answer", 0);
    check_numbers("step", expected, 19);
    check_list("step", 0, summer, 648);
    check_list("step", 1, winter, 432);
    check_list("step", 2, objects, 64);
    check_list("step", 3, &rows[1], 48);
    check(call.list_count == 4, "step's lists", 0);
    check(pilgartze_irradiance_at(&site, 41.5, &surface, &reading, &breakdown) == 106, "irradiance's answer", 0);
    check_numbers("irradiance", expected + 1, 18);
    check_list("irradiance", 0, &breakdown, 72);
    check(call.list_count == 1, "irradiance's lists", 0);
}

/* It has one list of sectors. */
static void check_factor(void)
{
    static const double expected[8] = {10, 51.5, 52.5, 21.5, 22.5, 23.5, 24.5, 25.5};
    const pilgartze_factor_answer answer = pilgartze_factor_at(10, 51.5, 52.5, &surface, sectors, 5, objects, 2);
    check_numbers("factor", expected, 8);
    check_list("factor", 0, sectors, 1080);
    check_list("factor", 1, objects, 64);
    check(call.list_count == 2, "factor's lists", 0);
    check(answer.number == 107 && answer.factor == 108.5, "factor's answer", 0);
}

/* It has no height of its own, but a list of them, before the sectors. */
static void check_strips(void)
{
    static const double expected[7] = {10, 51.5, 52.5, 26.5, 27.5, 28.5, 29.5};
    const pilgartze_factor_answer answer = pilgartze_strips_at(10, 51.5, 52.5, &glazing, sectors, 5, objects, 2);
    check_numbers("strips", expected, 7);
    check_list("strips", 0, heights, 56);
    check_list("strips", 1, sectors, 1080);
    check_list("strips", 2, objects, 64);
    check(call.list_count == 3, "strips' lists", 0);
    check(answer.number == 109 && answer.factor == 110.5, "strips' answer", 0);
    check(PILGARTZE_MOST_STRIPS == 12, "strips, number", 0);
}

static void check_empty(const char *what, int first, int end)
{
    int i;
    for (i = first; i < end; i++) {
        check(call.lists[i] != NULL, what, i);
        check(call.lengths[i] == 0, what, i);
    }
}

/* Empty lists that are NULL: any pointer but NULL, and length 0. The table of days and the totals are never empty. */
static void check_empty_lists(void)
{
    const pilgartze_weather no_weather = {NULL, NULL, NULL, 0};
    const pilgartze_shading no_shading = {PILGARTZE_EDITION_1, NULL, 0, NULL, 0, NULL, 0};
    pilgartze_run_job(&site, &run, &surface, &no_weather, &no_shading, &days, &totals, NULL, 0);
    check_empty("empty run", 0, 6);
    check_list("empty run", 6, &days, 8784);
    check_list("empty run", 7, &totals, 9072);
    check_empty("empty run", 8, 9);
    check(call.list_count == 9, "empty run", -1);
    pilgartze_step_at(&site, 41.5, &surface, &reading, &no_shading, &rows[0]);
    check_empty("empty step", 0, 3);
    check(call.list_count == 4, "empty step", -1);
    pilgartze_factor_at(PILGARTZE_EDITION_1, 51.5, 52.5, &surface, NULL, 0, NULL, 0);
    check_empty("empty factor", 0, 2);
    check(call.list_count == 2, "empty factor", -1);
}

/* One list of the strips at a time with nothing in it, NULL as it may be, and all three. */
static void check_empty_lists_of_strips(void)
{
    const void *const lists[3] = {heights, sectors, objects};
    const size_t lengths[3] = {56, 1080, 64};
    int empty, i;
    for (empty = 0; empty <= 3; empty++) {
        const int no_heights = empty == 0 || empty == 3;
        const int no_sectors = empty == 1 || empty == 3;
        const int no_objects = empty == 2 || empty == 3;
        pilgartze_tall_glazing cut = glazing;
        cut.heights = no_heights ? NULL : heights;
        cut.strip_count = no_heights ? 0 : 7;
        pilgartze_strips_at(PILGARTZE_EDITION_1, 51.5, 52.5, &cut, no_sectors ? NULL : sectors, no_sectors ? 0 : 5,
                            no_objects ? NULL : objects, no_objects ? 0 : 2);
        for (i = 0; i < 3; i++) {
            if (empty == i || empty == 3) {
                check_empty("an empty list of strips", i, i + 1);
            } else {
                check_list("beside an empty list of strips", i, lists[i], lengths[i]);
            }
        }
        check(call.list_count == 3, "lists of strips", empty);
    }
}

/* One list with nothing in it leaves the others as they are: summer and winter from that place on, then the window. */
static void check_one_empty(const pilgartze_shading *shading, int place)
{
    const void *const lists[3] = {shading->summer, shading->winter, shading->window};
    const size_t lengths[3] = {216 * shading->summer_count, 216 * shading->winter_count, 32 * shading->window_count};
    int i;
    for (i = 0; i < 3; i++) {
        if (lists[i] == NULL) {
            check_empty("one empty list", place + i, place + i + 1);
        } else {
            check_list("beside an empty list", place + i, lists[i], lengths[i]);
        }
    }
}

static void check_one_empty_list(void)
{
    const pilgartze_weather weather = {diffuse, direct, reflectivity, 5};
    const pilgartze_shading shadings[3] = {{PILGARTZE_EDITION_1, NULL, 0, winter, 2, objects, 2},
                                           {PILGARTZE_EDITION_1, summer, 3, NULL, 0, objects, 2},
                                           {PILGARTZE_EDITION_1, summer, 3, winter, 2, NULL, 0}};
    int i;
    for (i = 0; i < 3; i++) {
        pilgartze_run_job(&site, &run, &surface, &weather, &shadings[i], &days, &totals, rows, 4);
        check_one_empty(&shadings[i], 3);
        pilgartze_step_at(&site, 41.5, &surface, &reading, &shadings[i], &rows[0]);
        check_one_empty(&shadings[i], 0);
    }
    pilgartze_factor_at(PILGARTZE_EDITION_1, 51.5, 52.5, &surface, NULL, 0, objects, 2);
    check_empty("a factor without sectors", 0, 1);
    check_list("a factor without sectors", 1, objects, 64);
    pilgartze_factor_at(PILGARTZE_EDITION_1, 51.5, 52.5, &surface, sectors, 5, NULL, 0);
    check_list("a factor with no window object", 0, sectors, 1080);
    check_empty("a factor with no window object", 1, 2);
}

/* A count of -1 wraps to no small length. */
static void check_wrong_counts(void)
{
    const size_t far = (size_t)1 << 61;
    const pilgartze_weather weather = {diffuse, direct, reflectivity, 5};
    const pilgartze_shading wrong = {PILGARTZE_EDITION_1, summer, far, winter, (size_t)-1, objects, (size_t)-1};
    int i;
    pilgartze_run_job(&site, &run, &surface, &weather, &wrong, &days, &totals, rows, 4);
    for (i = 3; i < 6; i++) {
        check(call.lengths[i] > 36 * 216, "wrong counts of a run", i);
    }
    pilgartze_step_at(&site, 41.5, &surface, &reading, &wrong, &rows[0]);
    for (i = 0; i < 3; i++) {
        check(call.lengths[i] > 36 * 216, "wrong counts of a step", i);
    }
    pilgartze_factor_at(PILGARTZE_EDITION_1, 51.5, 52.5, &surface, sectors, far, objects, (size_t)-1);
    check(call.lengths[0] > 36 * 216 && call.lengths[1] > 36 * 216, "wrong counts of a factor", 0);
}

/* So it is of strips: times eight, some of these counts come to 0, to 8 and to 96 in as many bits. */
static void check_wrong_counts_of_strips(void)
{
    const size_t far = (size_t)1 << 61;
    const size_t counts[4] = {(size_t)-1, far, far + 1, far + 12};
    int i;
    for (i = 0; i < 4; i++) {
        pilgartze_tall_glazing cut = glazing;
        cut.strip_count = counts[i];
        pilgartze_strips_at(PILGARTZE_EDITION_1, 51.5, 52.5, &cut, sectors, counts[i], objects, counts[i]);
        check(call.lists[0] == heights && call.lengths[0] > 8 * 12, "a wrong count of strips", i);
        check(call.lengths[1] > 36 * 216 && call.lengths[2] > 16 * 32, "wrong counts of lists of strips", i);
    }
}

/* Records as the library reads them: word by word. */
static void check_words(const char *what, const void *record, const double *expected, int count)
{
    int i;
    for (i = 0; i < count; i++) {
        double value;
        memcpy(&value, (const char *)record + 8 * i, 8);
        check(memcmp(&value, &expected[i], 8) == 0, what, i);
    }
}

/* A whole number's word, read as a double. */
static double word(uint64_t whole)
{
    double value;
    memcpy(&value, &whole, 8);
    return value;
}

static void check_sector(void)
{
    double expected[27] = {61.5, 62.5, 0, 0, 63.5, 64.5, 0, 65.5, 66.5};
    pilgartze_sector sector = pilgartze_free_sector(61.5, 62.5);
    int i;
    check(pilgartze_add_object(&sector, pilgartze_distant_obstacle(63.5, 64.5)), "first object", 0);
    check(pilgartze_add_object(&sector, pilgartze_distant_overhang(65.5, 66.5)), "second object", 0);
    expected[2] = word(2);
    expected[6] = word(1);
    check_words("sector", &sector, expected, 27);
    for (i = 2; i < 8; i++) {
        check(pilgartze_add_object(&sector, pilgartze_distant_obstacle(1, 1)), "further object", i);
    }
    check(!pilgartze_add_object(&sector, pilgartze_distant_obstacle(1, 1)), "ninth object", 8);
    check(sector.count == 8, "full sector", 0);
}

static void check_window_object(const char *what, pilgartze_window_object object, uint64_t kind, double third)
{
    double expected[4] = {0, 71.5, 72.5, 0};
    expected[0] = word(kind);
    expected[3] = third;
    check_words(what, &object, expected, 4);
}

static void check_objects(void)
{
    check_window_object("obstacle", pilgartze_obstacle(71.5, 72.5, 0.25), 0, 0.25);
    check_window_object("overhang", pilgartze_overhang(71.5, 72.5), 1, 0);
    check_window_object("right fin", pilgartze_right_fin(71.5, 72.5), 2, 0);
    check_window_object("left fin", pilgartze_left_fin(71.5, 72.5), 3, 0);
    check_window_object("reveal", pilgartze_reveal(71.5, 72.5), 4, 0);
}

static void check_results(void)
{
    static const double stored[9] = {1, 2, 3, 4, 5, 6, 7, 8, 9};
    pilgartze_row row;
    pilgartze_breakdown all;
    pilgartze_day_table table;
    memcpy(&row, stored, sizeof row);
    memcpy(&all, stored, sizeof all);
    memcpy((char *)&table + 24 * 365, stored, 24);
    check(row.altitude == 1 && row.azimuth == 2 && row.direct == 3, "row", 0);
    check(row.diffuse == 4 && row.total == 5 && row.factor == 6, "row", 3);
    check(all.altitude == 1 && all.azimuth == 2 && all.direct == 3, "breakdown", 0);
    check(all.diffuse == 4 && all.total == 5 && all.sky == 6, "breakdown", 3);
    check(all.circumsolar == 7 && all.horizontal == 8 && all.ground == 9, "breakdown", 6);
    check(table.days[365].declination == 1 && table.days[365].equation_of_time == 2, "day", 0);
    check(table.days[365].extra_terrestrial_radiation == 3 && PILGARTZE_DAYS == 366, "day", 2);
}

#if PILGARTZE_TOTALS_LENGTH(0) != 9048 || PILGARTZE_TOTALS_LENGTH(1) != 9072
#error "the totals have another length"
#endif

/* The macros as sizes of arrays, and beside numbers with and without a sign. */
static void check_totals_macros(void)
{
    static pilgartze_totals common[PILGARTZE_TOTALS_COUNT(0)];
    static pilgartze_totals leap[PILGARTZE_TOTALS_COUNT(1)];
    static uint8_t bytes[PILGARTZE_TOTALS_LENGTH(0)];
    uint64_t leap_year;
    check(sizeof common == sizeof bytes && sizeof leap == sizeof totals, "totals, sizes", 0);
    check(PILGARTZE_MOST_TOTALS == 378 && PILGARTZE_MONTHS == 12, "totals, numbers", 0);
    for (leap_year = 0; leap_year <= 1; leap_year++) {
        const size_t days_in_year = PILGARTZE_DAYS_IN_YEAR(leap_year);
        const int records = PILGARTZE_TOTALS_COUNT(leap_year);
        check(days_in_year == 365 + leap_year && records == (int)days_in_year + 12, "totals, count", (int)leap_year);
        check(leap_year + PILGARTZE_TOTALS_LENGTH(leap_year) == 25 * leap_year + 9048, "totals, length", records);
    }
}

/* Each day and each month of either year in its place, and none beside them. */
static void check_totals_places(uint64_t leap_year)
{
    static const uint64_t no_months[] = {0, 13, UINT64_C(1) << 63, UINT64_MAX};
    const uint64_t days_in_year = 365 + leap_year;
    uint64_t i;
    for (i = 0; i < days_in_year; i++) {
        check(pilgartze_day_totals(&totals, leap_year, i) == &totals.totals[i], "a day's totals", (int)i);
    }
    check(pilgartze_day_totals(&totals, leap_year, days_in_year) == NULL, "the day after the year", 0);
    check(pilgartze_day_totals(&totals, leap_year, UINT64_MAX) == NULL, "a day before the year", 0);
    for (i = 1; i <= 12; i++) {
        const pilgartze_totals *const expected = &totals.totals[days_in_year + i - 1];
        check(pilgartze_month_totals(&totals, leap_year, i) == expected, "a month's totals", (int)i);
    }
    for (i = 0; i < 4; i++) {
        check(pilgartze_month_totals(&totals, leap_year, no_months[i]) == NULL, "no month", (int)i);
    }
}

/* A record as the library stores it: a whole number, then two doubles. */
static void check_totals(void)
{
    double stored[3] = {0, 81.5, 82.5};
    stored[0] = word(83);
    memcpy((char *)&totals + 24 * 377, stored, 24);
    check(totals.totals[377].count == 83 && totals.totals[377].largest == 81.5, "totals", 0);
    check(totals.totals[377].sum == 82.5, "totals", 2);
    check(pilgartze_month_totals(&totals, 1, 12)->count == 83, "totals of December", 0);
    check_totals_macros();
    check_totals_places(0);
    check_totals_places(1);
}

/* ---- Seasons -------------------------------------------------------------------------------------------------- */

/* Both lists are the same memory, and all else comes to its place. */
static void check_all_year(void)
{
    const pilgartze_shading shading = pilgartze_all_year(10, sectors, 5, objects, 2);
    const pilgartze_shading nothing = pilgartze_all_year(10, NULL, 0, NULL, 0);
    check(shading.edition == 10, "all year, edition", 0);
    check(shading.summer == sectors && shading.summer_count == 5, "all year, summer", 0);
    check(shading.winter == sectors && shading.winter_count == 5, "all year, winter", 0);
    check(shading.window == objects && shading.window_count == 2, "all year, window", 0);
    check(nothing.summer_count == 0 && nothing.winter_count == 0 && nothing.window_count == 0, "all year, nothing", 0);
    pilgartze_step_at(&site, 41.5, &surface, &reading, &shading, &rows[0]);
    check_list("all year", 0, sectors, 1080);
    check_list("all year", 1, sectors, 1080);
    check_list("all year", 2, objects, 64);
}

/* Every date of a year, one day after the other, and the days 0 and one too many of each month. */
static void check_dates(uint64_t leap_year)
{
    static const uint64_t lengths[12] = {31, 28, 31, 30, 31, 30, 31, 31, 30, 31, 30, 31};
    uint64_t should = 0;
    uint64_t month, day;
    for (month = 1; month <= 12; month++) {
        const uint64_t length = lengths[month - 1] + (month == 2 ? leap_year : 0);
        for (day = 1; day <= length; day++) {
            check(pilgartze_day_of(leap_year, month, day) == should, "a date", (int)(100 * month + day));
            should += 1;
        }
        check(pilgartze_day_of(leap_year, month, 0) == PILGARTZE_NO_DAY, "day 0 of a month", (int)month);
        check(pilgartze_day_of(leap_year, month, length + 1) == PILGARTZE_NO_DAY, "a day too many", (int)month);
        check(pilgartze_day_of(leap_year, month, 32) == PILGARTZE_NO_DAY, "day 32", (int)month);
        check(pilgartze_day_of(leap_year, month, UINT64_MAX) == PILGARTZE_NO_DAY, "day -1", (int)month);
    }
    check(should == 365 + leap_year, "days of the year", (int)leap_year);
    for (day = 0; day <= 32; day++) {
        check(pilgartze_day_of(leap_year, 0, day) == PILGARTZE_NO_DAY, "month 0", (int)day);
        check(pilgartze_day_of(leap_year, 13, day) == PILGARTZE_NO_DAY, "month 13", (int)day);
        check(pilgartze_day_of(leap_year, UINT64_MAX, day) == PILGARTZE_NO_DAY, "month -1", (int)day);
    }
}

/* Dates that a street tree's owner would name; and what is no date is no leaf day either. */
static void check_named_dates(void)
{
    check(pilgartze_day_of(0, 4, 20) == 109 && pilgartze_day_of(1, 4, 20) == 110, "20 April", 0);
    check(pilgartze_day_of(0, 10, 31) == 303 && pilgartze_day_of(1, 10, 31) == 304, "31 October", 0);
    check(pilgartze_day_of(0, 2, 29) == PILGARTZE_NO_DAY && pilgartze_day_of(1, 2, 29) == 59, "29 February", 0);
    check(pilgartze_day_of(0, 4, 31) == PILGARTZE_NO_DAY, "31 April", 0);
    check(pilgartze_day_of(0, 12, 31) == 364 && pilgartze_day_of(1, 12, 31) == 365, "31 December", 0);
    check(pilgartze_day_of(2, 4, 20) == PILGARTZE_NO_DAY, "leap year 2", 0);
    check(pilgartze_day_of(2028, 4, 20) == PILGARTZE_NO_DAY, "leap year 2028", 0);
    check(pilgartze_day_of(UINT64_MAX, 4, 20) == PILGARTZE_NO_DAY, "leap year -1", 0);
    check(PILGARTZE_NO_DAY > 365, "no day", 0);
}

/* ---- Refusals and editions ------------------------------------------------------------------------------------ */

static void check_refusal_words(void)
{
    static const char *const expected[17] = {"accepted", "site",    "run",     "surface", "object",    "series",
                                             "reading",  "results", "gap",     "turned",  "no sector", "reveal",
                                             "line",     "unknown", "edition", "leaf day", "unknown"};
    uint64_t i;
    for (i = 0; i < 17; i++) {
        check(strcmp(pilgartze_refusal_word(i), expected[i]) == 0, "word", (int)i);
    }
    check(strcmp(pilgartze_refusal_word(UINT64_C(1) << 63), "unknown") == 0, "word", -1);
    check(PILGARTZE_REFUSED_SITE == 1 && PILGARTZE_REFUSED_RESULTS == 7 && PILGARTZE_REFUSED_LINE == 12, "enum", 0);
    check(PILGARTZE_REFUSED_EDITION == 14 && PILGARTZE_EDITION_1 == 1 && PILGARTZE_EDITION_2 == 2, "enum", 1);
    check(PILGARTZE_REFUSED_LEAF_DAY == 15, "enum", 2);
}

/* The edition and the leaf days go on with all their bits. */
static void check_bits(void)
{
    const uint64_t many = (UINT64_C(1) << 63) + (UINT64_C(1) << 32);
    const double as_double = 9223372041149743104.0;
    const pilgartze_shading shading = pilgartze_all_year(many, NULL, 0, NULL, 0);
    pilgartze_site far = site;
    far.first_leaf_day = many;
    far.last_leaf_day = many + (UINT64_C(1) << 33);
    pilgartze_step_at(&far, 41.5, &surface, &reading, &shading, &rows[0]);
    check(call.numbers[0] == as_double, "edition", 0);
    check(call.numbers[8] == as_double && call.numbers[9] == as_double + 8589934592.0, "leaf days", 0);
    pilgartze_factor_at(many, 51.5, 52.5, &surface, NULL, 0, NULL, 0);
    check(call.numbers[0] == as_double, "edition", 1);
    pilgartze_strips_at(many, 51.5, 52.5, &glazing, NULL, 0, NULL, 0);
    check(call.numbers[0] == as_double, "edition", 2);
}

int main(void)
{
    const pilgartze_weather weather = {diffuse, direct, reflectivity, 5};
    const pilgartze_shading shading = {10, summer, 3, winter, 2, objects, 2};
    check_run(&weather, &shading);
    check_single_steps(&shading);
    check_factor();
    check_strips();
    check_empty_lists();
    check_empty_lists_of_strips();
    check_one_empty_list();
    check_wrong_counts();
    check_wrong_counts_of_strips();
    check_sector();
    check_objects();
    check_results();
    check_totals();
    check_all_year();
    check_dates(0);
    check_dates(1);
    check_named_dates();
    check_refusal_words();
    check_bits();
    printf("arguments: %d of %d checks held\n", checks - failures, checks);
    return failures == 0 ? 0 : 1;
}
