/* Jobs in range. */
#include "job.h"

#include <stdio.h>
#include <stdlib.h>

static uint8_t *room_for(size_t length)
{
    uint8_t *room = calloc(length, 1);
    if (room == NULL) {
        perror("soak: no memory for the lists");
        exit(2);
    }
    return room;
}

size_t most_of(enum list list)
{
    static const size_t most[LISTS] = {MOST_SERIES,  MOST_SERIES, MOST_SERIES, MOST_SECTORS,
                                       MOST_SECTORS, MOST_WINDOW, MOST_HEIGHTS};
    return most[list];
}

job job_with_room(void)
{
    job made;
    int list;
    memset(&made, 0, sizeof made);
    for (list = 0; list < LISTS; list++) {
        made.lists[list] = room_for(most_of((enum list)list));
    }
    made.sectors = SUMMER;
    return made;
}

job bare_job(void)
{
    job made;
    memset(&made, 0, sizeof made);
    made.edition = PILGARTZE_EDITION_1;
    made.site.series_step = 1.0;
    made.site.first_leaf_day = 90;
    made.site.last_leaf_day = 300;
    made.run.end = 24.0;
    made.run.step = 1.0;
    made.surface.tilt = 180.0;
    made.surface.height = 1.0;
    made.surface.width = 1.0;
    made.sectors = SUMMER;
    return made;
}

/* ---- Editions ------------------------------------------------------------------------------------------------- */

uint64_t some_edition(source *from)
{
    return one_in(from, 2) ? PILGARTZE_EDITION_1 : PILGARTZE_EDITION_2;
}

uint64_t no_edition(source *from)
{
    switch (random_below(from, 4)) {
    case 0:
        return one_in(from, 2) ? 0 : 3;
    case 1:
        return some_edition(from) + (UINT64_C(1) << (one_in(from, 2) ? 32 : 2 + random_below(from, 62)));
    case 2:
        return UINT64_MAX - random_below(from, 3);
    default:
        return random_word(from) | 4;
    }
}

/* ---- Seasons -------------------------------------------------------------------------------------------------- */

static uint64_t some_leaf_day(source *from, const job *made)
{
    switch (random_below(from, 4)) {
    case 0:
        return random_below(from, PILGARTZE_DAYS);
    case 1:
        return one_in(from, 2) ? random_below(from, 2) : PILGARTZE_DAYS - 1 - random_below(from, 2);
    default: {
        const double about = made->time / 24.0 + (double)random_below(from, 4) - 1.0;
        return about > 0.0 && about < PILGARTZE_DAYS ? (uint64_t)about : random_below(from, PILGARTZE_DAYS);
    }
    }
}

void some_leaf_days(source *from, job *made)
{
    pilgartze_site *const site = &made->site;
    site->first_leaf_day = some_leaf_day(from, made);
    site->last_leaf_day = some_leaf_day(from, made);
    if (one_in(from, 8)) {
        site->last_leaf_day = site->first_leaf_day;
    }
    if (one_in(from, 16) && site->last_leaf_day + 1 < PILGARTZE_DAYS) {
        site->first_leaf_day = site->last_leaf_day + 1; /* summer all the year */
    }
}

/* About 366, beside a leaf day by a high bit, or of any bits. */
static uint64_t no_leaf_day(source *from)
{
    switch (random_below(from, 4)) {
    case 0:
        return PILGARTZE_DAYS + random_below(from, 2);
    case 1:
        return random_below(from, PILGARTZE_DAYS) +
               (UINT64_C(1) << (one_in(from, 2) ? 32 : 9 + random_below(from, 55)));
    case 2:
        return UINT64_MAX - random_below(from, 3);
    default:
        return random_word(from) | 512;
    }
}

void no_leaf_days(source *from, job *made)
{
    const size_t which = random_below(from, 3);
    some_leaf_days(from, made);
    if (which != 0) {
        made->site.first_leaf_day = no_leaf_day(from);
    }
    if (which != 1) {
        made->site.last_leaf_day = no_leaf_day(from);
    }
}

enum list other_season(enum list season)
{
    return season == SUMMER ? WINTER : SUMMER;
}

/* ---- Steps ---------------------------------------------------------------------------------------------------- */

size_t step_count(const pilgartze_run_times *run)
{
    double time = run->start;
    size_t count = 1;
    if (run->start == run->end) {
        return 0;
    }
    while (time < run->end - run->step) {
        time += run->step;
        count += 1;
    }
    return count;
}

double step_time(const pilgartze_run_times *run, size_t step)
{
    double time = run->start;
    while (step > 0) {
        time += run->step;
        step -= 1;
    }
    return time;
}

size_t series_index(const pilgartze_site *site, double time)
{
    const double place = (time - 24.0 * (double)site->start_day) / site->series_step;
    return place < 0.0 ? 0 : (size_t)place;
}

size_t day_of(double time)
{
    return (size_t)time / 24;
}

enum list season_at(const pilgartze_site *site, double time)
{
    const uint64_t first = site->first_leaf_day;
    const uint64_t last = site->last_leaf_day;
    const uint64_t day = day_of(time);
    const int summer = first <= last ? first <= day && day <= last : day >= first || day <= last;
    return summer ? SUMMER : WINTER;
}

size_t month_length(uint64_t leap_year, size_t month)
{
    static const size_t lengths[PILGARTZE_MONTHS] = {31, 28, 31, 30, 31, 30, 31, 31, 30, 31, 30, 31};
    return lengths[month] + (month == 1 && leap_year != 0 ? 1 : 0);
}

static double value_at(const uint8_t *series, size_t index)
{
    double value;
    memcpy(&value, series + 8 * index, sizeof value);
    return value;
}

pilgartze_reading reading_at(const job *of, size_t index)
{
    pilgartze_reading reading;
    reading.diffuse = value_at(of->lists[DIFFUSE], index);
    reading.direct = value_at(of->lists[DIRECT], index);
    reading.reflectivity = value_at(of->lists[REFLECTIVITY], index);
    return reading;
}

/* ---- Site, run and surface ------------------------------------------------------------------------------------ */

static double some_step(source *from)
{
    static const double steps[] = {1.0, 1.0, 1.0, 0.25, 0.5, 0.3, 7.1, 24.0};
    return one_in(from, 6) ? uniform(from, 0.25, 24.0) : steps[random_below(from, sizeof steps / sizeof steps[0])];
}

static void sound_site(source *from, pilgartze_site *site)
{
    site->timezone = (int64_t)random_below(from, 28) - 13;
    site->longitude = 15.0 * (double)site->timezone + uniform(from, -12.0, 12.0);
    if (site->longitude < -180.0 || site->longitude > 180.0) {
        site->longitude = uniform(from, -180.0, 180.0);
    }
    site->latitude = one_in(from, 16) ? (one_in(from, 2) ? 90.0 : -90.0) : uniform(from, -70.0, 70.0);
    site->leap_year = random_below(from, 2);
    site->direct_beam_conversion = random_below(from, 2);
    site->start_day = 0;
    site->series_step = some_step(from);
}

/* One of the last days of some month, as often of February as of all others. */
static size_t end_of_month(source *from, uint64_t leap_year)
{
    const size_t month = one_in(from, 2) ? 1 : random_below(from, PILGARTZE_MONTHS - 1);
    size_t day = 0;
    size_t i;
    for (i = 0; i <= month; i++) {
        day += month_length(leap_year, i);
    }
    return day - 1 - random_below(from, 2);
}

/* Some hours from about the morning of a day on, which is also when the series begin, or a whole year. In a quarter of
 * them the last step passes the end; an eighth begins where a month ends. */
static void sound_run(source *from, job *made, int years)
{
    const double hours = made->site.leap_year == 1 ? 8784.0 : 8760.0;
    const size_t count = one_in(from, 8) ? random_below(from, 3) : random_below(from, 40);
    const size_t day = one_in(from, 8) ? end_of_month(from, made->site.leap_year) : random_below(from, 324);
    pilgartze_run_times *run = &made->run;
    run->step = some_step(from);
    if (years && one_in(from, 500)) {
        run->start = 0.0;
        run->end = hours;
        return;
    }
    run->start = 24.0 * (double)day + (double)random_below(from, 14);
    run->end = run->start + run->step * (double)count - (one_in(from, 4) ? uniform(from, 0.0, run->step) : 0.0);
    if (run->end > hours || run->end <= 0.0) {
        run->end = hours;
        run->start = hours - 6.0 * run->step;
    }
    if (one_in(from, 16)) {
        run->start = uniform(from, run->end, hours - 1.0); /* above the end: one step */
    }
    if (!one_in(from, 64)) {
        made->site.start_day = (uint64_t)(run->start / 24.0);
    }
}

static void sound_surface(source *from, pilgartze_surface *surface)
{
    surface->tilt = one_in(from, 2) ? 90.0 : uniform(from, 0.0, 180.0);
    surface->orientation = one_in(from, 8) ? 0.0 : uniform(from, 0.0, 360.0);
    surface->base_height = uniform(from, 0.0, 20.0);
    surface->height = uniform(from, 0.001, 5.0);
    surface->width = uniform(from, 0.001, 5.0);
}

void other_numbers(source *from, job *made)
{
    made->edition = some_edition(from);
    made->site.latitude = uniform(from, -90.0, 90.0);
    made->site.longitude = uniform(from, -180.0, 180.0);
    sound_surface(from, &made->surface);
    made->time = uniform(from, 0.0, 8759.0);
    made->altitude = uniform(from, 0.0, 90.0);
    made->azimuth = uniform(from, -180.0, 180.0);
    made->sectors = one_in(from, 2) ? SUMMER : WINTER;
    some_leaf_days(from, made);
}

/* ---- Lists ---------------------------------------------------------------------------------------------------- */

static double sound_reading(source *from, enum list list)
{
    if (list == REFLECTIVITY) {
        return uniform(from, 0.0, 1.0);
    }
    return one_in(from, 6) ? 0.0 : uniform(from, 0.0, one_in(from, 16) ? 10000.0 : 900.0);
}

/* Values in range as far as the steps need them, and a few bytes more now and then. */
static void sound_series(source *from, job *made, size_t values)
{
    int list;
    size_t i;
    for (list = DIFFUSE; list <= REFLECTIVITY; list++) {
        for (i = 0; i < values; i++) {
            const double value = sound_reading(from, (enum list)list);
            memcpy(made->lists[list] + 8 * i, &value, sizeof value);
        }
        made->lengths[list] = 8 * values + (one_in(from, 4) ? random_below(from, 40) : 0);
        for (i = 8 * values; i < made->lengths[list]; i++) {
            made->lists[list][i] = (uint8_t)random_word(from);
        }
    }
}

static pilgartze_object distant_object(source *from)
{
    const double height = uniform(from, 0.1, 40.0);
    const double distance = uniform(from, 0.1, 60.0);
    return one_in(from, 2) ? pilgartze_distant_obstacle(height, distance)
                           : pilgartze_distant_overhang(height, distance);
}

/* All the way round, in equal parts or not. */
static void sound_sectors(source *from, job *made, enum list list)
{
    const size_t count = one_in(from, 4) ? 1 + random_below(from, PILGARTZE_MOST_SECTORS) : 1 + random_below(from, 4);
    double start = 0.0;
    size_t i;
    for (i = 0; i < count; i++) {
        const double even = 360.0 * (double)(i + 1) / (double)count;
        const double end = i + 1 == count ? 360.0 : uniform(from, start, even);
        pilgartze_sector sector = pilgartze_free_sector(start, end);
        size_t objects = one_in(from, 2) ? 0 : random_below(from, PILGARTZE_MOST_OBJECTS + 1);
        while (objects > 0) {
            pilgartze_add_object(&sector, distant_object(from));
            objects -= 1;
        }
        memcpy(made->lists[list] + i * sizeof sector, &sector, sizeof sector);
        start = end;
    }
    made->lengths[list] = count * sizeof(pilgartze_sector);
}

void thin_sector(source *from, pilgartze_sector *sector)
{
    const size_t left = random_below(from, (size_t)sector->count + 1);
    memset(&sector->objects[left], 0, (PILGARTZE_MOST_OBJECTS - left) * sizeof sector->objects[0]);
    sector->count = left;
}

/* The winter list from the summer list, where the trees are to be bare with fewer objects. */
static void sound_winter(source *from, job *made, int bare)
{
    size_t at;
    made->lengths[WINTER] = made->lengths[SUMMER];
    for (at = 0; at < made->lengths[SUMMER]; at += sizeof(pilgartze_sector)) {
        pilgartze_sector sector;
        memcpy(&sector, made->lists[SUMMER] + at, sizeof sector);
        if (bare) {
            thin_sector(from, &sector);
        }
        memcpy(made->lists[WINTER] + at, &sector, sizeof sector);
    }
}

static void sound_seasons(source *from, job *made)
{
    made->sectors = one_in(from, 2) ? SUMMER : WINTER;
    some_leaf_days(from, made);
    sound_sectors(from, made, SUMMER);
    if (one_in(from, 2)) {
        sound_sectors(from, made, WINTER);
    } else {
        sound_winter(from, made, one_in(from, 2));
    }
}

static void sound_window(source *from, job *made)
{
    const size_t count = one_in(from, 4) ? random_below(from, PILGARTZE_MOST_WINDOW_OBJECTS + 1)
                                         : random_below(from, 4);
    size_t i;
    for (i = 0; i < count; i++) {
        const size_t kind = random_below(from, 4);
        const double distance = one_in(from, 4) ? 0.0 : uniform(from, 0.0, 5.0);
        const double size = uniform(from, 0.01, 10.0);
        const pilgartze_window_object object =
            kind == 0 ? pilgartze_obstacle(size, distance, uniform(from, 0.0, 1.0))
                      : pilgartze_window_part((enum pilgartze_window_kind)kind, size, distance);
        memcpy(made->lists[WINDOW] + i * sizeof object, &object, sizeof object);
    }
    made->lengths[WINDOW] = count * sizeof(pilgartze_window_object);
}

/* A fin on each side, in the place of the first two objects. */
static void fins_on_both_sides(source *from, job *made)
{
    const double distance = one_in(from, 2) ? 0.0 : uniform(from, 0.0, 0.3);
    const pilgartze_window_object fins[] = {pilgartze_right_fin(uniform(from, 0.05, 1.0), distance),
                                            pilgartze_left_fin(uniform(from, 0.05, 1.0), distance)};
    memcpy(made->lists[WINDOW], fins, sizeof fins);
    if (made->lengths[WINDOW] < sizeof fins) {
        made->lengths[WINDOW] = sizeof fins;
    }
}

/* ---- The whole ------------------------------------------------------------------------------------------------ */

/* One of the run's steps, for the single calls. */
static void sound_single(source *from, job *made, size_t steps)
{
    made->time = steps == 0 ? uniform(from, 0.0, 8759.0) : step_time(&made->run, random_below(from, steps));
    made->reading.diffuse = sound_reading(from, DIFFUSE);
    made->reading.direct = sound_reading(from, DIRECT);
    made->reading.reflectivity = sound_reading(from, REFLECTIVITY);
    made->altitude = one_in(from, 8) ? 0.0 : uniform(from, 0.0, 90.0);
    made->azimuth = one_in(from, 8) ? uniform(from, -360.0, 360.0) : uniform(from, -180.0, 180.0);
}

/* Turns the surface to about the north, at a site where the sun comes there: south of the tropics, or so far north that
 * it does in summer nights. There its azimuth less (180 - orientation) is often beyond 180; for the factor it is. */
static void turn_to_the_north(source *from, job *made)
{
    const double aside = one_in(from, 2) ? 0.0 : uniform(from, 0.0, 60.0);
    const int to_the_east = one_in(from, 2);
    made->site.latitude = one_in(from, 4) ? uniform(from, 66.0, 89.0) : uniform(from, -70.0, -24.0);
    made->surface.orientation = to_the_east ? aside : 360.0 - aside;
    made->azimuth = to_the_east ? uniform(from, -180.0, -90.0) : uniform(from, 90.0, 180.0);
}

void sound_job(source *from, job *made, int years)
{
    size_t steps, values;
    made->edition = some_edition(from);
    sound_site(from, &made->site);
    sound_run(from, made, years);
    sound_surface(from, &made->surface);
    steps = step_count(&made->run);
    values = steps == 0 ? 0 : series_index(&made->site, step_time(&made->run, steps - 1)) + 1;
    sound_series(from, made, values);
    sound_window(from, made);
    sound_single(from, made, steps);
    sound_seasons(from, made);
    some_heights(from, made);
    made->results[RUN] = steps * sizeof(pilgartze_row) + (one_in(from, 2) ? random_below(from, 100) : 0);
    made->results[STEP] = sizeof(pilgartze_row) + (one_in(from, 2) ? random_below(from, 100) : 0);
    made->results[IRRADIANCE] = sizeof(pilgartze_breakdown) + (one_in(from, 2) ? random_below(from, 100) : 0);
    made->results[FACTOR] = 0;
    made->results[STRIPS] = 0;
    made->days = PILGARTZE_DAYS_LENGTH + (one_in(from, 2) ? random_below(from, 100) : 0);
    made->totals = PILGARTZE_TOTALS_LENGTH(made->site.leap_year) + (one_in(from, 2) ? random_below(from, 100) : 0);
    if (made->lengths[WINDOW] > 0 && one_in(from, 2)) {
        fins_on_both_sides(from, made);
        turn_to_the_north(from, made);
    }
    if (one_in(from, 2)) {
        aim(from, made);
    }
}
