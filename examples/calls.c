/* A test of the library through include/pilgartze.h: that it is of the header's version; that run, step, irradiance and
 * factor agree with each other, bit for bit, in both editions; some factors that are known; the table of days; the
 * totals of days and months; which list of sectors each day has; and each refusal, with what is then stored. The call
 * of the strips has a test of its own, strips.c. Good C99 and good C++11.
 *
 * With any argument it prints some results of its job in place of the test: what examples/from_python.py prints. */
#include "pilgartze.h"

#include <stdio.h>

#define HOURS 96
#define STEPS 192
#define STEPS_A_DAY 48
#define FIRST_DAY 170 /* 20 June, from 0 */
#define LEAF_DAY 172
#define UNTOUCHED 0xA5

/* A job of four days in June by half hours, each part to be spoilt by a test. The trees are in leaf from the third day
 * on. */
typedef struct job {
    uint64_t edition;
    pilgartze_site site;
    pilgartze_run_times run;
    pilgartze_surface surface;
    double diffuse[HOURS];
    double direct[HOURS];
    double reflectivity[HOURS];
    size_t hours;
    pilgartze_sector summer[2];
    pilgartze_sector winter[2];
    pilgartze_window_object window[4];
    size_t row_count;
} job;

static pilgartze_row rows[STEPS];
static pilgartze_day_table days;
static pilgartze_day_table filled; /* as the good job leaves it */
static pilgartze_year_totals totals;
static int failures = 0;
static int checks = 0;

static void check(int holds, const char *what, int place)
{
    checks += 1;
    if (!holds) {
        failures += 1;
        printf("%s, place %d: not as it should be\n", what, place);
    }
}

static job good_job(void)
{
    const pilgartze_site site = {51.06, -1.31, 0, FIRST_DAY, 1.0, 0, 0, LEAF_DAY, 300};
    const pilgartze_run_times run = {4080.0, 4176.0, 0.5};
    const pilgartze_surface surface = {90.0, 135.0, 0.9, 1.2, 1.8};
    job made;
    int i;
    made.edition = PILGARTZE_EDITION_2;
    made.site = site;
    made.run = run;
    made.surface = surface;
    for (i = 0; i < HOURS; i++) {
        made.diffuse[i] = 10.0 * (i % 24);
        made.direct[i] = 7.5 * i;
        made.reflectivity[i] = 0.2;
    }
    made.hours = HOURS;
    made.winter[0] = pilgartze_free_sector(0.0, 140.0);
    made.winter[1] = pilgartze_free_sector(140.0, 360.0);
    pilgartze_add_object(&made.winter[0], pilgartze_distant_obstacle(12.0, 20.0));
    pilgartze_add_object(&made.winter[1], pilgartze_distant_overhang(5.0, 2.0));
    made.summer[0] = made.winter[0];
    made.summer[1] = made.winter[1];
    pilgartze_add_object(&made.summer[0], pilgartze_distant_obstacle(9.0, 10.0));
    made.window[0] = pilgartze_overhang(0.6, 0.15);
    made.window[1] = pilgartze_left_fin(0.4, 0.1);
    made.window[2] = pilgartze_obstacle(1.6, 1.0, 0.25);
    made.window[3] = pilgartze_right_fin(0.6, 0.1);
    made.row_count = STEPS;
    return made;
}

static pilgartze_shading shading_of(const job *of)
{
    const pilgartze_shading shading = {of->edition, of->summer, 2, of->winter, 2, of->window, 4};
    return shading;
}

/* Whether the trees are in leaf on a day. */
static int in_leaf(const pilgartze_site *site, uint64_t day)
{
    const uint64_t first = site->first_leaf_day;
    const uint64_t last = site->last_leaf_day;
    return first <= last ? first <= day && day <= last : day >= first || day <= last;
}

static pilgartze_answer run_job(const job *of)
{
    const pilgartze_weather weather = {of->diffuse, of->direct, of->reflectivity, of->hours};
    const pilgartze_shading shading = shading_of(of);
    memset(rows, UNTOUCHED, sizeof rows);
    memset(&days, UNTOUCHED, sizeof days);
    memset(&totals, UNTOUCHED, sizeof totals);
    return pilgartze_run_job(&of->site, &of->run, &of->surface, &weather, &shading, &days, &totals, rows,
                             of->row_count);
}

/* ---- The version ---------------------------------------------------------------------------------------------- */

static void check_version(void)
{
    check(pilgartze_version() == PILGARTZE_VERSION, "the library's version and the header's", (int)pilgartze_version());
}

/* ---- The calls agree ------------------------------------------------------------------------------------------ */

static int same(const void *one, const void *other, size_t length)
{
    return memcmp(one, other, length) == 0;
}

static void check_step(const job *of, int i)
{
    const double time = of->run.start + of->run.step * i;
    const pilgartze_reading reading = {of->diffuse[i / 2], of->direct[i / 2], of->reflectivity[i / 2]};
    const pilgartze_shading shading = shading_of(of);
    const pilgartze_sector *const sectors = in_leaf(&of->site, (uint64_t)time / 24) ? of->summer : of->winter;
    pilgartze_row row;
    pilgartze_breakdown all;
    pilgartze_factor_answer answer;
    check(pilgartze_step_at(&of->site, time, &of->surface, &reading, &shading, &row) == 0, "step accepted", i);
    check(same(&row, &rows[i], sizeof row), "step and run", i);
    check(pilgartze_irradiance_at(&of->site, time, &of->surface, &reading, &all) == 0, "irradiance accepted", i);
    check(same(&all, &rows[i], 5 * sizeof(double)), "irradiance and run", i);
    answer = pilgartze_factor_at(of->edition, row.altitude, row.azimuth, &of->surface, sectors, 2, of->window, 4);
    check(answer.number == 0 && answer.factor == row.factor, "factor and run", i);
}

static double check_agreement(uint64_t edition)
{
    job made = good_job();
    pilgartze_answer answer;
    double sum = 0.0;
    int i;
    made.edition = edition;
    answer = run_job(&made);
    check(answer.number == 0 && answer.step == 0 && answer.count == STEPS, "run accepted", 0);
    for (i = 0; i < STEPS; i++) {
        check_step(&made, i);
        check(rows[i].factor >= 0.0 && rows[i].factor <= 1.0, "factor from 0 to 1", i);
        sum += rows[i].factor * rows[i].direct * made.run.step;
    }
    check(answer.sum == sum && sum > 0.0, "sum", 0);
    return sum;
}

/* In edition 2 the right fin shades once the sun has passed the way that the window faces. */
static void check_editions(void)
{
    const double first = check_agreement(PILGARTZE_EDITION_1);
    const double second = check_agreement(PILGARTZE_EDITION_2);
    check(first > second, "the sums of both editions", 0);
}

/* The sum by other steps, that of the series still an hour: each row counts for the run's step. */
static void check_sums(void)
{
    static const double steps[] = {0.7, 1.0, 24.0};
    int i;
    for (i = 0; i < 3; i++) {
        job made = good_job();
        pilgartze_answer answer;
        double sum = 0.0;
        uint64_t k;
        made.run.start += 8.0;
        made.run.step = steps[i];
        answer = run_job(&made);
        for (k = 0; k < answer.count; k++) {
            sum += rows[k].factor * rows[k].direct * steps[i];
        }
        check(answer.number == 0 && answer.sum == sum && sum > 0.0, "sum by another step", i);
    }
}

/* ---- Known factors -------------------------------------------------------------------------------------------- */

/* The sun at altitude 0, square before a surface 2 m high and 1 m wide that stands on the ground. */
static pilgartze_factor_answer level_sun(const pilgartze_sector *all_round, const pilgartze_window_object *object)
{
    const pilgartze_surface surface = {90.0, 180.0, 0.0, 2.0, 1.0};
    return pilgartze_factor_at(PILGARTZE_EDITION_2, 0.0, 0.0, &surface, all_round, all_round == NULL ? 0u : 1u, object,
                               object == NULL ? 0u : 1u);
}

/* The factor of a fin, the sun at altitude 0 and so many degrees to the left of the way that the surface faces; to the
 * right, where they are below 0. */
static double fin(uint64_t edition, pilgartze_window_object object, double aside, double orientation)
{
    const pilgartze_surface surface = {90.0, orientation, 0.0, 1.0, 1.0};
    const pilgartze_sector all_round = pilgartze_free_sector(0.0, 360.0);
    const double azimuth = 180.0 - orientation + aside;
    return pilgartze_factor_at(edition, 0.0, azimuth > 180.0 ? azimuth - 360.0 : azimuth, &surface, &all_round, 1,
                               &object, 1)
        .factor;
}

static void check_factors(void)
{
    const pilgartze_window_object near = pilgartze_obstacle(1.0, 1.0, 0.5);
    const pilgartze_window_object reveal = pilgartze_reveal(0.1, 0.0);
    const pilgartze_sector open = pilgartze_free_sector(0.0, 360.0);
    pilgartze_sector wall = open;
    pilgartze_sector bridge = open;
    pilgartze_add_object(&wall, pilgartze_distant_obstacle(1.0, 1.0));
    pilgartze_add_object(&bridge, pilgartze_distant_overhang(1.5, 1.0));
    check(level_sun(&open, NULL).factor == 1.0, "no object", 0);
    check(level_sun(&wall, NULL).factor == 0.5, "distant obstacle", 0);
    check(level_sun(&open, &near).factor == 0.75, "near obstacle", 0);
    check(level_sun(&wall, &near).factor == 0.5, "both obstacles", 0);
    check(level_sun(&bridge, NULL).factor == 0.75, "distant overhang", 0);
    check(level_sun(&bridge, &near).factor == 0.5, "overhang and obstacle", 0);
    check(level_sun(NULL, NULL).number == PILGARTZE_REFUSED_NO_SECTOR, "no sector", 0);
    check(level_sun(&open, &reveal).number == PILGARTZE_REFUSED_REVEAL, "reveal", 0);
}

/* Which fins shade in which edition; to the north, where the azimuth passes 180, too. */
static void check_fins(void)
{
    const double shaded = 0.7113248654051871;
    const pilgartze_window_object right = pilgartze_right_fin(0.5, 0.0);
    const pilgartze_window_object left = pilgartze_left_fin(0.5, 0.0);
    const uint64_t first = PILGARTZE_EDITION_1;
    const uint64_t second = PILGARTZE_EDITION_2;
    check(fin(first, right, -30.0, 180.0) == 1.0 && fin(second, right, -30.0, 180.0) == shaded, "right fin", 0);
    check(fin(first, left, 30.0, 180.0) == shaded && fin(second, left, 30.0, 180.0) == shaded, "left fin", 0);
    check(fin(second, right, 30.0, 180.0) == 1.0 && fin(second, left, -30.0, 180.0) == 1.0, "the other side", 0);
    check(fin(second, right, 0.0, 180.0) == 1.0 && fin(second, left, 0.0, 180.0) == 1.0, "neither side", 0);
    check(fin(first, left, 30.0, 0.0) == 1.0 && fin(second, left, 30.0, 0.0) == shaded, "left fin, north", 0);
    check(fin(first, right, 30.0, 0.0) < 1.0 && fin(second, right, 30.0, 0.0) == 1.0, "the other side, north", 0);
    check(fin(second, right, -30.0, 0.0) == shaded && fin(second, left, -30.0, 0.0) == 1.0, "right fin, north", 0);
}

/* ---- What is left as it was ----------------------------------------------------------------------------------- */

static int all_untouched(const void *from, size_t length)
{
    const uint8_t *const bytes = (const uint8_t *)from;
    size_t i;
    for (i = 0; i < length; i++) {
        if (bytes[i] != UNTOUCHED) {
            return 0;
        }
    }
    return 1;
}

static int untouched(size_t from)
{
    return all_untouched(rows + from, (STEPS - from) * sizeof rows[0]);
}

/* ---- The totals of rows --------------------------------------------------------------------------------------- */

static const int days_before[2][14] = {{0, 0, 31, 59, 90, 120, 151, 181, 212, 243, 273, 304, 334, 365},
                                       {0, 0, 31, 60, 91, 121, 152, 182, 213, 244, 274, 305, 335, 366}};

static pilgartze_totals no_totals(void)
{
    const uint64_t nan = UINT64_C(0x7FF8000000000000);
    pilgartze_totals made = {0, 0.0, 0.0};
    memcpy(&made.largest, &nan, sizeof nan);
    return made;
}

/* Those of the first rows of a run, as far as they start from one day up to another. */
static pilgartze_totals totals_between(const job *of, size_t count, int from, int to)
{
    pilgartze_totals made = no_totals();
    double time = of->run.start;
    size_t i;
    for (i = 0; i < count; i++) {
        if (time >= 24.0 * from && time < 24.0 * to) {
            made.largest = made.count == 0 || rows[i].total >= made.largest ? rows[i].total : made.largest;
            made.sum += rows[i].factor * rows[i].direct * of->run.step;
            made.count += 1;
        }
        time += of->run.step;
    }
    return made;
}

/* All totals of the year, with so many rows stored; in a common year the room for one more is left as it was. */
static void check_year(const job *of, size_t count, const char *what)
{
    const uint64_t leap = of->site.leap_year;
    pilgartze_totals should;
    int i;
    for (i = 0; i < PILGARTZE_DAYS_IN_YEAR(leap); i++) {
        should = totals_between(of, count, i, i + 1);
        check(same(pilgartze_day_totals(&totals, leap, (uint64_t)i), &should, sizeof should), what, i);
    }
    for (i = 1; i <= 12; i++) {
        should = totals_between(of, count, days_before[leap][i], days_before[leap][i + 1]);
        check(same(pilgartze_month_totals(&totals, leap, (uint64_t)i), &should, sizeof should), what, 1000 + i);
    }
    check(leap == 1 || all_untouched(&totals.totals[PILGARTZE_TOTALS_COUNT(0)], sizeof should), what, -1);
}

/* A refused run, with its rows, its table and its totals. */
static void check_refused(const job *spoilt, uint64_t number)
{
    const pilgartze_answer answer = run_job(spoilt);
    const int at_a_step = number >= PILGARTZE_REFUSED_GAP && number <= PILGARTZE_REFUSED_REVEAL;
    check(answer.number == number && answer.count == 0 && answer.sum == 0.0, "refusal", (int)number);
    check(at_a_step || answer.step == 0, "refused before the first step", (int)number);
    check(answer.step < STEPS && untouched((size_t)answer.step), "untouched", (int)number);
    check(at_a_step ? same(&days, &filled, sizeof days) : all_untouched(&days, sizeof days), "days of a refused run",
          (int)number);
    if (at_a_step) {
        check_year(spoilt, (size_t)answer.step, "totals of a refused run");
    } else {
        check(all_untouched(&totals, sizeof totals), "totals of a refused run", (int)number);
    }
}

/* ---- The table of days ---------------------------------------------------------------------------------------- */

/* The number of the job with lists of these lengths for the table and for the totals. */
static uint64_t run_with_lists(const job *of, uint8_t *table, size_t table_length, uint8_t *sums, size_t sums_length)
{
    const pilgartze_site *const site = &of->site;
    const pilgartze_surface *const surface = &of->surface;
    const size_t series = of->hours * sizeof(double);
    return pilgartze_run(
               of->edition, site->latitude, site->longitude, site->timezone, site->start_day, site->series_step,
               site->leap_year, site->direct_beam_conversion, site->first_leaf_day, site->last_leaf_day, of->run.start,
               of->run.end, of->run.step, surface->tilt, surface->orientation, surface->base_height, surface->height,
               surface->width, (const uint8_t *)of->diffuse, series, (const uint8_t *)of->direct, series,
               (const uint8_t *)of->reflectivity, series, (const uint8_t *)of->summer, sizeof of->summer,
               (const uint8_t *)of->winter, sizeof of->winter, (const uint8_t *)of->window, sizeof of->window, table,
               table_length, sums, sums_length, (uint8_t *)rows, sizeof rows)
        .number;
}

static uint64_t run_lent(const job *of, uint8_t *list, size_t length)
{
    return run_with_lists(of, list, length, (uint8_t *)&totals, sizeof totals);
}

static uint64_t run_with_totals(const job *of, uint8_t *list, size_t length)
{
    return run_with_lists(of, (uint8_t *)&days, sizeof days, list, length);
}

/* Midsummer, midwinter, and the earth nearest to the sun and farthest from it, by day of the year from 1. */
static void check_days(void)
{
    const job made = good_job();
    int i;
    run_job(&made);
    filled = days;
    for (i = 0; i < PILGARTZE_DAYS; i++) {
        const pilgartze_day_values *const day = &filled.days[i];
        check(day->declination >= -28.0 && day->declination <= 28.0, "declination", i);
        check(day->equation_of_time >= -16.3 && day->equation_of_time <= 16.3, "equation of time", i);
        check(day->extra_terrestrial_radiation >= 1300.0 && day->extra_terrestrial_radiation <= 1420.0, "radiation", i);
    }
    check(filled.days[173 - 1].declination > 23.3 && filled.days[173 - 1].declination < 23.5, "midsummer", 0);
    check(filled.days[356 - 1].declination > -23.5 && filled.days[356 - 1].declination < -23.3, "midwinter", 0);
    check(filled.days[3 - 1].extra_terrestrial_radiation > 1410.0, "nearest", 0);
    check(filled.days[185 - 1].extra_terrestrial_radiation < 1330.0, "farthest", 0);
}

/* The table is the same whatever was in it, in either year, with no steps, and where a run is refused at step 0. */
static void check_filled(void)
{
    job other = good_job();
    uint8_t list[PILGARTZE_DAYS_LENGTH];
    memset(list, 0x00, sizeof list);
    check(run_lent(&other, list, sizeof list) == 0 && same(list, &filled, sizeof list), "over zeros", 0);
    list[sizeof list - 1] ^= 1;
    check(run_lent(&other, list, sizeof list) == 0 && same(list, &filled, sizeof list), "over a table", 0);
    memset(list, 0xFF, sizeof list);
    check(run_lent(&other, list, sizeof list) == 0 && same(list, &filled, sizeof list), "over ones", 0);
    other.site.leap_year = 1;
    check(run_job(&other).number == 0 && same(&days, &filled, sizeof days), "days of a leap year", 0);
    other.run.end = other.run.start;
    check(run_job(&other).number == 0 && same(&days, &filled, sizeof days), "days of no steps", 0);
    check(untouched(0), "rows of no steps", 0);
    other = good_job();
    other.run.start += 10.0;
    other.window[1] = pilgartze_reveal(0.1, 0.0);
    check_refused(&other, PILGARTZE_REFUSED_REVEAL);
    check(untouched(0), "refused at step 0", 0);
}

/* Bytes behind the table stay as they were; a list one byte too short is refused, for no steps too. */
static void check_lengths(void)
{
    const size_t length = PILGARTZE_DAYS_LENGTH;
    job made = good_job();
    uint8_t list[PILGARTZE_DAYS_LENGTH + 100];
    memset(list, UNTOUCHED, sizeof list);
    check(run_lent(&made, list + 1, length + 99) == 0, "long list", 0);
    check(same(list + 1, &filled, length) && all_untouched(list + 1 + length, 99), "long list", 1);
    memset(list, UNTOUCHED, sizeof list);
    memset(rows, UNTOUCHED, sizeof rows);
    check(run_lent(&made, list, length - 1) == PILGARTZE_REFUSED_RESULTS, "short list", 0);
    check(untouched(0), "rows of a short list", 0);
    made.run.end = made.run.start;
    check(run_lent(&made, list, length - 1) == PILGARTZE_REFUSED_RESULTS, "short list, no steps", 0);
    check(all_untouched(list, sizeof list), "short list", 1);
    made.surface.width = 0.0;
    check(run_lent(&made, list, 0) == PILGARTZE_REFUSED_SURFACE, "no list, and no width", 0);
    made.edition = 0;
    check(run_lent(&made, list, 0) == PILGARTZE_REFUSED_EDITION, "no list, no width and no edition", 0);
}

/* ---- The totals of days and months ---------------------------------------------------------------------------- */

/* The sums of its days, added up. */
static double days_of_march(uint64_t leap)
{
    double sum = 0.0;
    int day;
    for (day = days_before[leap][3]; day < days_before[leap][4]; day++) {
        sum += pilgartze_day_totals(&totals, leap, (uint64_t)day)->sum;
    }
    return sum;
}

/* Four days in June; 20 days about the end of February by steps of 2.7 hours, in either year, where the sum of March is
 * not that of its days' sums, to the bit; and no steps. */
static void check_totals(void)
{
    job made = good_job();
    uint64_t leap;
    check(run_job(&made).number == 0, "totals", 0);
    check_year(&made, STEPS, "totals in June");
    check(pilgartze_month_totals(&totals, 0, 6)->count == STEPS, "steps in June", 0);
    check(pilgartze_day_totals(&totals, 0, FIRST_DAY)->count == STEPS_A_DAY, "steps on 20 June", 0);
    check(pilgartze_day_totals(&totals, 0, 365) == NULL, "no such day", 0);
    check(pilgartze_month_totals(&totals, 0, 0) == NULL && pilgartze_month_totals(&totals, 0, 13) == NULL,
          "no such month", 0);
    for (leap = 0; leap <= 1; leap++) {
        made = good_job();
        made.site.leap_year = leap;
        made.site.start_day = 50;
        made.site.series_step = 5.0;
        made.run.start = 24.0 * 50;
        made.run.end = 24.0 * 70;
        made.run.step = 2.7;
        check(run_job(&made).count == 178, "steps about the end of February", (int)leap);
        check(pilgartze_month_totals(&totals, leap, 3)->sum != days_of_march(leap), "the sum of March", (int)leap);
        check_year(&made, 178, "totals about the end of February");
    }
    made.run.end = made.run.start;
    check(run_job(&made).number == 0, "totals of no steps", 0);
    check_year(&made, 0, "totals of no steps");
}

/* Day 59 is 29 February or 1 March. A step of 24 hours from noon belongs whole to the day of that noon. */
static void check_end_of_february(void)
{
    uint64_t leap;
    for (leap = 0; leap <= 1; leap++) {
        job made = good_job();
        made.site.leap_year = leap;
        made.site.start_day = 59;
        made.run.start = 24.0 * 59 + 12.0;
        made.run.end = 24.0 * 60 + 12.0;
        made.run.step = 24.0;
        check(run_job(&made).count == 1 && rows[0].total > 0.0, "a step from noon to noon", (int)leap);
        check(pilgartze_day_totals(&totals, leap, 59)->count == 1, "the day of its start", (int)leap);
        check(pilgartze_day_totals(&totals, leap, 60)->count == 0, "the day of its end", (int)leap);
        check(pilgartze_month_totals(&totals, leap, 2)->count == leap, "February", (int)leap);
        check(pilgartze_month_totals(&totals, leap, 3)->count == 1 - leap, "March", (int)leap);
        check(pilgartze_day_totals(&totals, leap, 59)->largest == rows[0].total, "the total of its row", (int)leap);
    }
}

/* At night the sky's light on a window can come out below 0: so then is the largest total. */
static void check_night(void)
{
    job made = good_job();
    made.run.start += 22.0;
    made.run.end = made.run.start + 1.0;
    check(run_job(&made).count == 2 && rows[0].total < 0.0, "totals at night", 0);
    check_year(&made, 2, "totals at night");
}

/* How many hours each month of a whole year has. */
static void check_months(uint64_t leap)
{
    static const uint64_t hours[12] = {744, 672, 744, 720, 744, 720, 744, 744, 720, 744, 720, 744};
    static double dark[8784];
    static pilgartze_row all[8784];
    const size_t count = 24 * (size_t)PILGARTZE_DAYS_IN_YEAR(leap);
    const pilgartze_weather weather = {dark, dark, dark, count};
    const pilgartze_run_times year = {0.0, (double)count, 1.0};
    const pilgartze_site site = {51.06, -1.31, 0, 0, 1.0, leap, 0, 0, 0};
    const pilgartze_surface surface = {90.0, 135.0, 0.9, 1.2, 1.8};
    const pilgartze_sector sky = pilgartze_free_sector(0.0, 360.0);
    const pilgartze_shading shading = pilgartze_all_year(PILGARTZE_EDITION_2, &sky, 1, NULL, 0);
    uint64_t i;
    check(pilgartze_run_job(&site, &year, &surface, &weather, &shading, &days, &totals, all, count).count == count,
          "a year of hours", (int)leap);
    for (i = 1; i <= 12; i++) {
        check(pilgartze_month_totals(&totals, leap, i)->count == hours[i - 1] + (i == 2 ? 24 * leap : 0),
              "hours of a month", (int)i);
    }
    for (i = 0; i < PILGARTZE_DAYS_IN_YEAR(leap); i++) {
        check(pilgartze_day_totals(&totals, leap, i)->count == 24, "hours of a day", (int)i);
    }
}

/* Bytes behind the totals stay as they were; a list one byte too short is refused, for no steps too. */
static void check_totals_lengths(uint64_t leap)
{
    const size_t length = PILGARTZE_TOTALS_LENGTH(leap);
    job made = good_job();
    uint8_t list[PILGARTZE_TOTALS_LENGTH(1) + 100];
    made.site.leap_year = leap;
    run_job(&made);
    memset(list, UNTOUCHED, sizeof list);
    check(run_with_totals(&made, list + 1, length + 99) == 0, "long totals", (int)leap);
    check(same(list + 1, &totals, length) && all_untouched(list + 1 + length, 99), "long totals", 2 + (int)leap);
    check(run_with_totals(&made, list, length) == 0 && same(list, &totals, length), "totals of the length", (int)leap);
    memset(list, UNTOUCHED, sizeof list);
    memset(rows, UNTOUCHED, sizeof rows);
    memset(&days, UNTOUCHED, sizeof days);
    check(run_with_totals(&made, list, length - 1) == PILGARTZE_REFUSED_RESULTS, "short totals", (int)leap);
    check(untouched(0) && all_untouched(&days, sizeof days), "rows and days of short totals", (int)leap);
    made.run.end = made.run.start;
    check(run_with_totals(&made, list, length - 1) == PILGARTZE_REFUSED_RESULTS, "short totals, no steps", (int)leap);
    check(all_untouched(list, sizeof list), "short totals", 2 + (int)leap);
    made.surface.width = 0.0;
    check(run_with_totals(&made, list, 0) == PILGARTZE_REFUSED_SURFACE, "no totals, and no width", (int)leap);
}

/* ---- Seasons -------------------------------------------------------------------------------------------------- */

/* Leaf days about the four days of the job, some turned, and some that leave but one season. */
static const uint64_t leaf_days[][2] = {{172, 300}, {0, 171},   {171, 172}, {171, 171}, {173, 170}, {172, 170},
                                        {172, 171}, {300, 100}, {0, 365},   {365, 0},   {0, 0},     {170, 173}};
enum { LEAF_DAYS = sizeof leaf_days / sizeof leaf_days[0] };

static pilgartze_row summer_rows[STEPS]; /* of the job with the summer list all the year */
static pilgartze_row winter_rows[STEPS];

static void run_one_list(const job *of, const pilgartze_sector *sectors, pilgartze_row *kept)
{
    job one = *of;
    memcpy(one.summer, sectors, sizeof one.summer);
    memcpy(one.winter, sectors, sizeof one.winter);
    check(run_job(&one).count == STEPS, "one list", 0);
    memcpy(kept, rows, sizeof rows);
}

/* Each row is that of its season; so are the sum and the totals. */
static void check_seasons_of_run(const job *of, int place)
{
    const pilgartze_answer answer = run_job(of);
    double sum = 0.0;
    uint64_t i;
    for (i = 0; i < STEPS; i++) {
        const pilgartze_row *const of_its_season =
            in_leaf(&of->site, FIRST_DAY + i / STEPS_A_DAY) ? &summer_rows[i] : &winter_rows[i];
        check(same(&rows[i], of_its_season, sizeof rows[i]), "a row of its season", 1000 * place + (int)i);
        sum += of_its_season->factor * of_its_season->direct * of->run.step;
    }
    check(answer.number == 0 && answer.count == STEPS && answer.sum == sum, "the sum of both seasons", place);
    check_year(of, STEPS, "totals of both seasons");
}

/* On each day some row differs between the lists, so that each tells which list it had. */
static void check_seasons_of_runs(void)
{
    job made = good_job();
    int i;
    run_one_list(&made, made.summer, summer_rows);
    run_one_list(&made, made.winter, winter_rows);
    for (i = 0; i < STEPS; i += STEPS_A_DAY) {
        check(!same(&summer_rows[i], &winter_rows[i], STEPS_A_DAY * sizeof rows[0]), "the lists differ", i);
    }
    for (i = 0; i < LEAF_DAYS; i++) {
        made.site.first_leaf_day = leaf_days[i][0];
        made.site.last_leaf_day = leaf_days[i][1];
        check_seasons_of_run(&made, i);
    }
}

/* With one list, twice the same memory, the leaf days change nothing. */
static void check_one_list(void)
{
    job made = good_job();
    const pilgartze_weather weather = {made.diffuse, made.direct, made.reflectivity, made.hours};
    const pilgartze_shading one = pilgartze_all_year(made.edition, made.summer, 2, made.window, 4);
    pilgartze_year_totals first_totals;
    pilgartze_answer first, answer;
    int i;
    memset(&totals, UNTOUCHED, sizeof totals);
    first = pilgartze_run_job(&made.site, &made.run, &made.surface, &weather, &one, &days, &totals, rows, STEPS);
    first_totals = totals;
    for (i = 0; i < LEAF_DAYS; i++) {
        made.site.first_leaf_day = leaf_days[i][0];
        made.site.last_leaf_day = leaf_days[i][1];
        answer = pilgartze_run_job(&made.site, &made.run, &made.surface, &weather, &one, &days, &totals, rows, STEPS);
        check(same(&answer, &first, sizeof answer) && answer.count == STEPS, "the answer of one list", i);
        check(same(rows, summer_rows, sizeof rows), "the rows of one list", i);
        check(same(&totals, &first_totals, sizeof totals), "the totals of one list", i);
    }
}

/* A wall all round that shades all in summer, and nothing in winter. */
static pilgartze_shading walled_in_summer(void)
{
    static pilgartze_sector summer, winter;
    const pilgartze_shading made = {PILGARTZE_EDITION_2, &summer, 1, &winter, 1, NULL, 0};
    winter = pilgartze_free_sector(0.0, 360.0);
    summer = winter;
    pilgartze_add_object(&summer, pilgartze_distant_obstacle(1000.0, 10.0));
    return made;
}

static void check_step_of_day(const pilgartze_site *site, uint64_t day, double hour, double orientation)
{
    const pilgartze_surface surface = {90.0, orientation, 0.9, 1.2, 1.8};
    const pilgartze_reading reading = {100.0, 500.0, 0.2};
    const pilgartze_shading shading = walled_in_summer();
    const double time = 24.0 * (double)day + hour;
    pilgartze_row row;
    check(pilgartze_step_at(site, time, &surface, &reading, &shading, &row) == 0, "a step of a day", (int)day);
    check(row.factor == (in_leaf(site, day) ? 0.0 : 1.0), "the season of a step", (int)day);
}

/* The year by hours, to the north, where the sun is inside the beam in the first and in the last hour of each day: so a
 * season that changes an hour too late or too soon is seen. */
static void check_run_of_days(const pilgartze_site *site)
{
    static double dark[8784];
    static pilgartze_row all[8784];
    const size_t count = 24 * (size_t)PILGARTZE_DAYS_IN_YEAR(site->leap_year);
    const pilgartze_weather weather = {dark, dark, dark, count};
    const pilgartze_run_times year = {0.0, (double)count, 1.0};
    const pilgartze_surface surface = {90.0, 0.0, 0.9, 1.2, 1.8};
    const pilgartze_shading shading = walled_in_summer();
    size_t day;
    check(pilgartze_run_job(site, &year, &surface, &weather, &shading, &days, &totals, all, count).count == count,
          "a year of both seasons", (int)site->leap_year);
    for (day = 0; day < count / 24; day++) {
        const double should = in_leaf(site, day) ? 0.0 : 1.0;
        check(all[24 * day].factor == should, "the season of the first hour", (int)day);
        check(all[24 * day + 23].factor == should, "the season of the last hour", (int)day);
    }
}

/* Every day of the year: by a run, and by steps at noon to the south, and at its first and last moment to the north. */
static void check_every_day(uint64_t leap)
{
    static const uint64_t pairs[][2] = {{0, 0},     {0, 365},   {365, 0},   {364, 364}, {365, 365}, {109, 303},
                                        {303, 109}, {304, 303}, {58, 59},   {59, 58},   {60, 60},   {1, 364},
                                        {364, 1},   {0, 364},   {364, 365}, {365, 364}, {1, 0},     {200, 198}};
    uint64_t i, day;
    for (i = 0; i < sizeof pairs / sizeof pairs[0]; i++) {
        const pilgartze_site site = {51.06, -1.31, 0, 0, 1.0, leap, 0, pairs[i][0], pairs[i][1]};
        check_run_of_days(&site);
        for (day = 0; day < 365 + leap; day++) {
            check_step_of_day(&site, day, 12.0, 180.0);
            check_step_of_day(&site, day, 0.0, 0.0);
            check_step_of_day(&site, day, 23.999, 0.0);
        }
    }
}

/* Lists with no sectors, NULL as they may be here: outside the beam none is looked at. Inside it a step needs that of
 * its day. */
static void check_no_lists(void)
{
    const job made = good_job();
    const pilgartze_reading reading = {100.0, 500.0, 0.2};
    const pilgartze_shading neither = {PILGARTZE_EDITION_2, NULL, 0, NULL, 0, NULL, 0};
    const pilgartze_shading summer = {PILGARTZE_EDITION_2, made.summer, 2, NULL, 0, NULL, 0};
    const pilgartze_shading winter = {PILGARTZE_EDITION_2, NULL, 0, made.winter, 2, NULL, 0};
    const double outside = 24.0 * LEAF_DAY + 20.0;
    const double in_summer = 24.0 * LEAF_DAY + 9.0;
    const double in_winter = in_summer - 24.0;
    pilgartze_row row;
    check(pilgartze_step_at(&made.site, outside, &made.surface, &reading, &neither, &row) == 0, "outside the beam", 0);
    check(row.factor == 1.0, "outside the beam", 1);
    check(pilgartze_step_at(&made.site, in_summer, &made.surface, &reading, &neither, &row) == 10, "no list", 0);
    check(pilgartze_step_at(&made.site, in_winter, &made.surface, &reading, &neither, &row) == 10, "no list", 1);
    check(pilgartze_step_at(&made.site, in_summer, &made.surface, &reading, &summer, &row) == 0, "summer alone", 0);
    check(pilgartze_step_at(&made.site, in_winter, &made.surface, &reading, &summer, &row) == 10, "summer alone", 1);
    check(pilgartze_step_at(&made.site, in_summer, &made.surface, &reading, &winter, &row) == 10, "winter alone", 0);
    check(pilgartze_step_at(&made.site, in_winter, &made.surface, &reading, &winter, &row) == 0, "winter alone", 1);
}

/* ---- Refusals ------------------------------------------------------------------------------------------------- */

/* What is no edition. */
static const uint64_t no_editions[] = {0, 3, (UINT64_C(1) << 32) + 1, (UINT64_C(1) << 63) + 2, UINT64_MAX};
enum { NO_EDITIONS = sizeof no_editions / sizeof no_editions[0] };

/* What is no leaf day. */
static const uint64_t no_leaf_days[] = {366, 367, UINT64_C(1) << 32, (UINT64_C(1) << 32) + 1, UINT64_C(1) << 63,
                                        UINT64_MAX};
enum { NO_LEAF_DAYS = sizeof no_leaf_days / sizeof no_leaf_days[0] };

/* 14, 1, 15, then 2 to 7, one fault more each time: nothing is stored. */
static void check_early_refusals(void)
{
    job spoilt = good_job();
    int i;
    spoilt.row_count = STEPS - 1;
    check_refused(&spoilt, PILGARTZE_REFUSED_RESULTS);
    spoilt.direct[HOURS - 1] = 10001.0;
    check_refused(&spoilt, PILGARTZE_REFUSED_READING);
    spoilt.hours = HOURS - 1;
    check_refused(&spoilt, PILGARTZE_REFUSED_SERIES);
    spoilt.window[1].transparency = -0.0;
    check_refused(&spoilt, PILGARTZE_REFUSED_OBJECT);
    spoilt.surface.width = 0.0;
    check_refused(&spoilt, PILGARTZE_REFUSED_SURFACE);
    spoilt.run.step = 0.1;
    check_refused(&spoilt, PILGARTZE_REFUSED_RUN);
    spoilt.site.last_leaf_day = PILGARTZE_NO_DAY;
    check_refused(&spoilt, PILGARTZE_REFUSED_LEAF_DAY);
    spoilt.site.timezone = 15;
    check_refused(&spoilt, PILGARTZE_REFUSED_SITE);
    for (i = 0; i < NO_EDITIONS; i++) {
        spoilt.edition = no_editions[i];
        check_refused(&spoilt, PILGARTZE_REFUSED_EDITION);
    }
    spoilt = good_job();
    spoilt.edition = 3;
    check_refused(&spoilt, PILGARTZE_REFUSED_EDITION);
}

/* Either leaf day by itself, also in a run with no steps; 0 and 365 are accepted, in a common year too. */
static void check_leaf_day_refusals(void)
{
    uint64_t i;
    for (i = 0; i < NO_LEAF_DAYS; i++) {
        job spoilt = good_job();
        spoilt.site.first_leaf_day = no_leaf_days[i];
        check_refused(&spoilt, PILGARTZE_REFUSED_LEAF_DAY);
        spoilt.run.end = spoilt.run.start;
        check_refused(&spoilt, PILGARTZE_REFUSED_LEAF_DAY);
        spoilt = good_job();
        spoilt.site.last_leaf_day = no_leaf_days[i];
        check_refused(&spoilt, PILGARTZE_REFUSED_LEAF_DAY);
        spoilt.row_count = 0;
        check_refused(&spoilt, PILGARTZE_REFUSED_LEAF_DAY);
    }
    for (i = 0; i < 8; i++) {
        job made = good_job();
        made.site.leap_year = i & 1;
        made.site.first_leaf_day = (i & 2) != 0 ? 365 : 0;
        made.site.last_leaf_day = (i & 4) != 0 ? 365 : 0;
        check(run_job(&made).number == 0, "leaf days 0 and 365", (int)i);
    }
}

/* An object that is wrong in either list, whether or not a step falls in that season, and with no steps. */
static void check_objects_of_both_lists(void)
{
    int i;
    for (i = 0; i < 6; i++) {
        job spoilt = good_job();
        pilgartze_sector *const list = i < 3 ? spoilt.summer : spoilt.winter;
        list[1].objects[0].height = 0.0;
        if (i % 3 == 1) { /* each step is in the other season */
            spoilt.site.first_leaf_day = 0;
            spoilt.site.last_leaf_day = i < 3 ? 1 : 365;
        }
        if (i % 3 == 2) {
            spoilt.run.end = spoilt.run.start;
        }
        check_refused(&spoilt, PILGARTZE_REFUSED_OBJECT);
    }
}

/* 8 to 11: the rows of the steps before are stored. The first of them come before the surface faces the sun. */
static void check_late_refusals(void)
{
    job spoilt = good_job();
    spoilt.winter[1].start = 141.0;
    check_refused(&spoilt, PILGARTZE_REFUSED_GAP);
    check(run_job(&spoilt).step > 0 && !untouched(0), "steps before the gap", 0);
    spoilt = good_job();
    spoilt.winter[1].end = 139.0;
    check_refused(&spoilt, PILGARTZE_REFUSED_TURNED);
    spoilt = good_job();
    spoilt.winter[1].end = 145.0;
    check_refused(&spoilt, PILGARTZE_REFUSED_NO_SECTOR);
    spoilt = good_job();
    spoilt.window[1] = pilgartze_reveal(0.1, 0.0);
    check_refused(&spoilt, PILGARTZE_REFUSED_REVEAL);
}

/* The factor with no lists at all. */
static pilgartze_factor_answer spoilt_factor(uint64_t edition, double altitude, double azimuth,
                                             const pilgartze_surface *surface)
{
    return pilgartze_factor_at(edition, altitude, azimuth, surface, NULL, 0, NULL, 0);
}

/* The same in the summer list alone: the steps of both winter days are stored, and in winter it counts for nothing. */
static void check_late_refusals_of_summer(void)
{
    static const uint64_t numbers[] = {PILGARTZE_REFUSED_GAP, PILGARTZE_REFUSED_TURNED, PILGARTZE_REFUSED_NO_SECTOR};
    int i;
    for (i = 0; i < 3; i++) {
        job spoilt = good_job();
        spoilt.summer[1].start = i == 0 ? 141.0 : 140.0;
        spoilt.summer[1].end = i == 0 ? 360.0 : i == 1 ? 139.0 : 145.0;
        check_refused(&spoilt, numbers[i]);
        check(run_job(&spoilt).step > STEPS_A_DAY * (LEAF_DAY - FIRST_DAY), "the third day", i);
        spoilt.site.first_leaf_day = FIRST_DAY + 4;
        check(run_job(&spoilt).count == STEPS, "no day of summer", i);
    }
}

/* A single step that is refused stores nothing. */
static void check_single_refusals(void)
{
    const job made = good_job();
    const pilgartze_shading shading = shading_of(&made);
    const pilgartze_reading reading = {0.0, 0.0, 1.5};
    pilgartze_breakdown all;
    memset(rows, UNTOUCHED, sizeof rows);
    memset(&all, UNTOUCHED, sizeof all);
    check(pilgartze_step_at(&made.site, 8760.0, &made.surface, &reading, &shading, rows) == 2, "step's time", 0);
    check(pilgartze_step_at(&made.site, 12.0, &made.surface, &reading, &shading, rows) == 6, "step's reading", 0);
    check(untouched(0), "refused step", 0);
    check(pilgartze_irradiance_at(&made.site, -1.0, &made.surface, &reading, &all) == 2, "irradiance's time", 0);
    check(pilgartze_irradiance_at(&made.site, 12.0, &made.surface, &reading, &all) == 6, "irradiance's reading", 0);
    check(same(&all, rows, sizeof all), "refused irradiance", 0);
    check(spoilt_factor(2, 91.0, 0.0, &made.surface).number == 3, "factor's altitude", 0);
    check(spoilt_factor(2, 0.0, -361.0, &made.surface).number == 3, "factor's azimuth", 0);
    check(spoilt_factor(2, 91.0, 0.0, &made.surface).factor == 0.0, "refused factor", 0);
}

/* 15 in the single-step calls: after the edition and the site, before the time and all else. */
static void check_single_leaf_days(void)
{
    const pilgartze_reading wrong = {0.0, 0.0, 1.5};
    int i;
    for (i = 0; i < 2 * NO_LEAF_DAYS; i++) {
        job made = good_job();
        pilgartze_shading shading = shading_of(&made);
        pilgartze_breakdown all;
        memset(rows, UNTOUCHED, sizeof rows);
        memset(&all, UNTOUCHED, sizeof all);
        *(i % 2 == 0 ? &made.site.first_leaf_day : &made.site.last_leaf_day) = no_leaf_days[i / 2];
        check(pilgartze_step_at(&made.site, 12.0, &made.surface, &wrong, &shading, rows) == 15, "step, reading", i);
        check(pilgartze_irradiance_at(&made.site, 12.0, &made.surface, &wrong, &all) == 15, "irradiance, reading", i);
        made.winter[0].count = 9;
        made.surface.width = 0.0;
        check(pilgartze_step_at(&made.site, 8760.0, &made.surface, &wrong, &shading, rows) == 15, "step, time", i);
        check(pilgartze_irradiance_at(&made.site, 8760.0, &made.surface, &wrong, &all) == 15, "irradiance, time", i);
        made.site.leap_year = 2;
        check(pilgartze_step_at(&made.site, 8760.0, &made.surface, &wrong, &shading, rows) == 1, "step, site", i);
        check(pilgartze_irradiance_at(&made.site, 8760.0, &made.surface, &wrong, &all) == 1, "irradiance, site", i);
        shading.edition = 0;
        check(pilgartze_step_at(&made.site, 8760.0, &made.surface, &wrong, &shading, rows) == 14, "step, edition", i);
        check(untouched(0) && same(&all, rows, sizeof all), "refused leaf day", i);
    }
}

/* A struct that is zeroed names no edition. That is tried before the site, the time, the surface and the sun. */
static void check_zeroed(void)
{
    job made = good_job();
    const pilgartze_weather weather = {made.diffuse, made.direct, made.reflectivity, made.hours};
    const pilgartze_reading reading = {0.0, 0.0, 1.5};
    pilgartze_shading zeroed;
    pilgartze_factor_answer answer;
    memset(&zeroed, 0, sizeof zeroed);
    memset(rows, UNTOUCHED, sizeof rows);
    check(pilgartze_run_job(&made.site, &made.run, &made.surface, &weather, &zeroed, &days, &totals, rows, STEPS)
                  .number == 14,
          "zeroed run", 0);
    check(pilgartze_step_at(&made.site, 12.0, &made.surface, &reading, &zeroed, rows) == 14, "zeroed step", 0);
    made.site.latitude = 91.0;
    made.surface.width = 0.0;
    check(pilgartze_step_at(&made.site, 8760.0, &made.surface, &reading, &zeroed, rows) == 14, "spoilt step", 0);
    check(untouched(0), "zeroed, rows", 0);
    answer = spoilt_factor(0, 91.0, 0.0, &made.surface);
    check(answer.number == 14 && answer.factor == 0.0, "spoilt factor", 0);
    zeroed.edition = PILGARTZE_EDITION_2;
    check(pilgartze_step_at(&made.site, 8760.0, &made.surface, &reading, &zeroed, rows) == 1, "step with edition", 0);
    check(spoilt_factor(zeroed.edition, 91.0, 0.0, &made.surface).number == 3, "factor with edition", 0);
}

/* So it is of glazing that is zeroed: it names no strips, and that is tried after the edition, before the objects. */
static void check_zeroed_glazing(void)
{
    job made = good_job();
    pilgartze_tall_glazing zeroed;
    pilgartze_factor_answer answer;
    memset(&zeroed, 0, sizeof zeroed);
    made.winter[0].count = 9;
    answer = pilgartze_strips_at(0, 91.0, 0.0, &zeroed, made.winter, 2, made.window, 4);
    check(answer.number == 14 && answer.factor == 0.0, "zeroed glazing", 0);
    answer = pilgartze_strips_at(made.edition, 35.0, 20.0, &zeroed, made.winter, 2, made.window, 4);
    check(answer.number == 3 && answer.factor == 0.0, "zeroed glazing with edition", 0);
    answer = pilgartze_strips_at(made.edition, 35.0, 20.0, &zeroed, NULL, 0, NULL, 0);
    check(answer.number == 3 && answer.factor == 0.0, "zeroed glazing, no lists", 0);
}

/* ---- The job's results ---------------------------------------------------------------------------------------- */

static void print_totals(const char *name, const pilgartze_totals *of)
{
    printf("  %s: %u steps, largest total %.17g, %.17g Wh/m2\n", name, (unsigned)of->count, of->largest, of->sum);
}

/* The sum with the overhang so deep, that of a day without leaves, of one with leaves and of the month, and the row of
 * a morning hour. 17 digits tell any two doubles apart. */
static void print_run(job *of, double depth)
{
    const pilgartze_row *const row = &rows[16];
    pilgartze_answer answer;
    of->window[0] = pilgartze_overhang(depth, 0.15);
    answer = run_job(of);
    printf("overhang %.1f m: %u steps, %.17g Wh/m2\n", depth, (unsigned)answer.count, answer.sum);
    print_totals("21 June", pilgartze_day_totals(&totals, of->site.leap_year, 171));
    print_totals("22 June", pilgartze_day_totals(&totals, of->site.leap_year, 172));
    print_totals("June", pilgartze_month_totals(&totals, of->site.leap_year, 6));
    printf("  at 8:00: altitude %.17g, azimuth %.17g, direct %.17g, diffuse %.17g, total %.17g, factor %.17g\n",
           row->altitude, row->azimuth, row->direct, row->diffuse, row->total, row->factor);
}

/* With the sun to the right of the way that the window faces, in winter. */
static void print_factor(const job *of, uint64_t edition, double altitude)
{
    const pilgartze_factor_answer answer =
        pilgartze_factor_at(edition, altitude, 20.0, &of->surface, of->winter, 2, of->window, 4);
    printf("edition %u, altitude %.0f: number %u, factor %.17g\n", (unsigned)edition, altitude,
           (unsigned)answer.number, answer.factor);
}

/* The same window in strips, from the lowest up, without the overhang: that would count from the top of each. */
static void print_strips(const job *of, uint64_t edition, size_t count)
{
    static const double heights[3] = {0.4, 0.5, 0.3};
    const pilgartze_tall_glazing glazing = {of->surface.tilt,  of->surface.orientation, of->surface.base_height,
                                            of->surface.width, heights,                 count};
    const pilgartze_factor_answer answer =
        pilgartze_strips_at(edition, 15.0, 20.0, &glazing, of->winter, 2, of->window + 1, 3);
    printf("edition %u, %u strips: number %u, factor %.17g\n", (unsigned)edition, (unsigned)count,
           (unsigned)answer.number, answer.factor);
}

static void print_results(void)
{
    job made = good_job();
    printf("pilgartze %u\n", (unsigned)pilgartze_version());
    print_run(&made, 0.6);
    print_run(&made, 1.2);
    print_factor(&made, PILGARTZE_EDITION_1, 35.0);
    print_factor(&made, PILGARTZE_EDITION_2, 35.0);
    print_factor(&made, PILGARTZE_EDITION_2, -1.0);
    print_factor(&made, 3, -1.0);
    print_strips(&made, PILGARTZE_EDITION_1, 3);
    print_strips(&made, PILGARTZE_EDITION_2, 3);
    print_strips(&made, PILGARTZE_EDITION_2, 0);
    print_strips(&made, 3, 0);
}

int main(int argc, char **argv)
{
    (void)argv;
    if (argc > 1) {
        print_results();
        return 0;
    }
    check_version();
    check_editions();
    check_sums();
    check_factors();
    check_fins();
    check_days();
    check_filled();
    check_lengths();
    check_totals();
    check_end_of_february();
    check_night();
    check_months(0);
    check_months(1);
    check_totals_lengths(0);
    check_totals_lengths(1);
    check_seasons_of_runs();
    check_one_list();
    check_every_day(0);
    check_every_day(1);
    check_no_lists();
    check_early_refusals();
    check_leaf_day_refusals();
    check_objects_of_both_lists();
    check_late_refusals();
    check_late_refusals_of_summer();
    check_single_refusals();
    check_single_leaf_days();
    check_zeroed();
    check_zeroed_glazing();
    printf("calls: %d of %d checks held\n", checks - failures, checks);
    return failures == 0 ? 0 : 1;
}
