/* Four days at a window in steps of half an hour. Two numbers are to be set, and need not be the same: the site's
 * series_step, for how long a value of the weather holds, and the run's step, for how long a row does. Here the one is
 * an hour or a half, the other an hour, a half or a quarter.
 *
 * The sun of a step is that of the middle of its hour, and in a sum a step counts for as many hours as it has. So the
 * sums are in Wh/m2, and the same by whichever steps, but for rounding: the answer's, and those of days and months.
 * That is checked, by steady sun and on bright days; where it is not so the exit status is 1. Good C99. */
#include "pilgartze.h"

#include <math.h>
#include <stdio.h>
#include <stdlib.h>

#define DAYS 4
#define DAY 88 /* 30 March, from 0: two of the days are in March, two in April */
#define MARCH 3
#define APRIL 4
#define HOURS (24 * DAYS)
#define MOST_VALUES (2 * HOURS)
#define MOST_STEPS (4 * HOURS)

/* How long a value of the weather and a row hold, in hours. The others are held to the first. */
static const struct {
    double series_step;
    double step;
} ways[] = {{1.0, 1.0}, {1.0, 0.5}, {0.5, 0.5}, {1.0, 0.25}};

enum { WAYS = sizeof ways / sizeof ways[0] };

static const pilgartze_surface window = {90.0, 180.0, 0.9, 1.2, 1.8};
static int failures = 0;

static void check(int holds, const char *what)
{
    if (!holds) {
        failures += 1;
        printf("%s: not as it should be\n", what);
    }
}

/* ---- Weather -------------------------------------------------------------------------------------------------- */

static double steady(int hour)
{
    (void)hour;
    return 500.0;
}

/* From 6 to 18 o'clock, with its most at noon; each day is brighter than the one before. */
static double bright(int hour)
{
    const double from_noon = (hour % 24 + 0.5 - 12.0) / 6.0;
    return fmax(0.0, (500.0 + 100.0 * (hour / 24)) * (1.0 - from_noon * from_noon));
}

/* ---- Runs ----------------------------------------------------------------------------------------------------- */

/* What a run leaves. */
typedef struct outcome {
    pilgartze_answer answer;
    pilgartze_year_totals totals;
    pilgartze_row rows[MOST_STEPS];
} outcome;

/* A wall before the morning sun, and an overhang. */
static void run_with_shade(const pilgartze_site *site, const pilgartze_run_times *run,
                           const pilgartze_weather *weather, outcome *left)
{
    const pilgartze_window_object overhang = pilgartze_overhang(0.6, 0.2);
    pilgartze_sector sectors[] = {pilgartze_free_sector(0.0, 150.0), pilgartze_free_sector(150.0, 360.0)};
    const pilgartze_shading shading = pilgartze_all_year(PILGARTZE_EDITION_2, sectors, 2, &overhang, 1);
    pilgartze_day_table days;
    pilgartze_add_object(&sectors[0], pilgartze_distant_obstacle(6.0, 12.0));
    left->answer =
        pilgartze_run_job(site, run, &window, weather, &shading, &days, &left->totals, left->rows, MOST_STEPS);
}

/* The days with a beam for each hour. Where a value holds for half an hour, each stands twice. */
static void run_days(double (*beam)(int hour), double series_step, double step, outcome *left)
{
    const pilgartze_site london = {51.5, -0.13, 0, DAY, series_step, 0, 0, 0, 0};
    const pilgartze_run_times days = {24.0 * DAY, 24.0 * (DAY + DAYS), step};
    double diffuse[MOST_VALUES], direct[MOST_VALUES], reflectivity[MOST_VALUES];
    pilgartze_weather weather = {diffuse, direct, reflectivity, 0};
    while ((double)weather.count * series_step < HOURS) {
        direct[weather.count] = beam((int)((double)weather.count * series_step));
        diffuse[weather.count] = 100.0;
        reflectivity[weather.count] = 0.2;
        weather.count += 1;
    }
    run_with_shade(&london, &days, &weather, left);
    if (left->answer.number != PILGARTZE_ACCEPTED) {
        printf("turned down: %s at step %u\n", pilgartze_refusal_word(left->answer.number),
               (unsigned)left->answer.step);
        exit(EXIT_FAILURE);
    }
}

static const pilgartze_totals *totals_of_day(const outcome *left, int day)
{
    return pilgartze_day_totals(&left->totals, 0, (uint64_t)(DAY + day));
}

static const pilgartze_totals *totals_of_month(const outcome *left, uint64_t month)
{
    return pilgartze_month_totals(&left->totals, 0, month);
}

/* ---- What must hold ------------------------------------------------------------------------------------------- */

/* The shade must be one that counts: some hours with sun are shaded in part, and the sum is less than without it. */
static void check_hours(const outcome *hourly)
{
    const double sum = hourly->answer.sum;
    double unshaded = 0.0;
    int in_part = 0;
    int i;
    for (i = 0; i < HOURS; i++) {
        const pilgartze_row *const row = &hourly->rows[i];
        in_part += row->direct > 0.0 && row->factor > 0.0 && row->factor < 1.0 ? 1 : 0;
        unshaded += row->direct;
    }
    check(hourly->answer.count == HOURS, "a row for each hour");
    check(in_part > 0, "some hours are shaded in part");
    check(sum > 0.0 && sum < unshaded, "the sum is that of some of the sun, not of all");
    for (i = 0; i < DAYS; i++) {
        check(totals_of_day(hourly, i)->sum > 0.0, "each day has some of the sum");
    }
    check(totals_of_month(hourly, MARCH)->sum < sum && totals_of_month(hourly, APRIL)->sum < sum, "so has each month");
}

static int same_but_for_rounding(double sum, double hourly)
{
    return fabs(sum - hourly) <= 1.0e-12 * hourly;
}

/* Of a day or of a month. */
static void check_totals(const pilgartze_totals *totals, double step, const pilgartze_totals *hourly)
{
    check((double)totals->count * step == (double)hourly->count, "its steps have as many hours");
    check(totals->largest == hourly->largest, "its largest total is that of the hours");
    check(same_but_for_rounding(totals->sum, hourly->sum), "its sum is that of the hours");
}

/* Each row is that of its hour, byte for byte, and the sums differ by rounding at most. */
static void check_parts(const outcome *left, double step, const outcome *hourly)
{
    int alike = 1;
    int i;
    for (i = 0; i * step < HOURS; i++) {
        alike = alike && memcmp(&left->rows[i], &hourly->rows[(int)(i * step)], sizeof left->rows[i]) == 0;
    }
    check(left->answer.count == (uint64_t)i, "the steps fill the days");
    check(alike, "a row is that of its hour");
    check(same_but_for_rounding(left->answer.sum, hourly->answer.sum), "the sum is that of the hours");
    for (i = 0; i < DAYS; i++) {
        check_totals(totals_of_day(left, i), step, totals_of_day(hourly, i));
    }
    check_totals(totals_of_month(left, MARCH), step, totals_of_month(hourly, MARCH));
    check_totals(totals_of_month(left, APRIL), step, totals_of_month(hourly, APRIL));
}

static void try_days(const char *name, double (*beam)(int hour))
{
    static outcome left[WAYS];
    int i;
    printf("%-11s %11s %6s %6s %10s %10s %10s\n", name, "series step", "step", "steps", "Wh/m2", "March", "April");
    for (i = 0; i < WAYS; i++) {
        run_days(beam, ways[i].series_step, ways[i].step, &left[i]);
        printf("%-11s %11.2f %6.2f %6u %10.3f %10.3f %10.3f\n", "", ways[i].series_step, ways[i].step,
               (unsigned)left[i].answer.count, left[i].answer.sum, totals_of_month(&left[i], MARCH)->sum,
               totals_of_month(&left[i], APRIL)->sum);
        if (i == 0) {
            check_hours(&left[i]);
        } else {
            check_parts(&left[i], ways[i].step, &left[0]);
        }
    }
}

int main(void)
{
    try_days("steady sun", steady);
    try_days("bright days", bright);
    return failures == 0 ? EXIT_SUCCESS : EXIT_FAILURE;
}
