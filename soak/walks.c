/* The walk along the sectors, worked out here from the lent bytes: where it ends, and jobs in which it ends in each way
 * at each place. */
#include "checks.h"

#include <stdio.h>

/* ---- The walk ------------------------------------------------------------------------------------------------- */

static int within_90(double angle)
{
    return angle >= -90.0 && angle <= 90.0;
}

int inside_the_beam(const pilgartze_surface *surface, double altitude, double azimuth)
{
    double beside = 180.0 - surface->orientation - azimuth;
    if (beside > 180.0) {
        beside -= 360.0;
    } else if (beside < -180.0) {
        beside += 360.0;
    }
    return within_90(beside) && within_90(surface->tilt - altitude);
}

static enum end end_at(const pilgartze_sector *sector, int first, double last, double azimuth)
{
    if (!first && sector->start != last) {
        return GAP;
    }
    if (sector->end < sector->start) {
        return TURNED;
    }
    return azimuth < 180.0 - sector->start && azimuth > 180.0 - sector->end ? MATCH : NO_SECTOR;
}

walk walk_along(const job *of, enum list season, double azimuth)
{
    const size_t count = of->lengths[season] / sizeof(pilgartze_sector);
    double last = 0.0;
    walk met = {NO_SECTOR, 0};
    while (met.place < count) {
        pilgartze_sector sector;
        memcpy(&sector, of->lists[season] + met.place * sizeof sector, sizeof sector);
        met.end = end_at(&sector, met.place == 0, last, azimuth);
        if (met.end != NO_SECTOR) {
            return met;
        }
        last = sector.end;
        met.place += 1;
    }
    return met;
}

const char *wrong_walk(soak *in, enum call call, const job *of, enum list season, double altitude, double azimuth,
                       uint64_t number)
{
    static const uint64_t numbers[] = {PILGARTZE_REFUSED_GAP, PILGARTZE_REFUSED_TURNED, 0, PILGARTZE_REFUSED_NO_SECTOR};
    walk met;
    if (!inside_the_beam(&of->surface, altitude, azimuth)) {
        return number == 0 ? NULL : "refused outside the beam";
    }
    met = walk_along(of, season, azimuth);
    if (met.end != NO_SECTOR) {
        in->walks[call][season - SUMMER][met.end][met.place] += 1;
    }
    if (number == numbers[met.end] || (met.end == MATCH && number == PILGARTZE_REFUSED_REVEAL)) {
        return NULL;
    }
    return "not the number by which the walk ends";
}

/* Twelve places to a line, those of both seasons together. */
static void tell_places(const soak *in, enum call call, enum end end, size_t first)
{
    static const char *const words[] = {"gap", "turned", "match"};
    size_t place;
    printf("%-6s %-6s at %2zu..%2zu", name_of(call), words[end], first, first + 11);
    for (place = first; place < first + 12; place++) {
        printf("%9llu", (unsigned long long)(in->walks[call][0][end][place] + in->walks[call][1][end][place]));
    }
    printf("\n");
}

int tell_walks(const soak *in)
{
    static const enum call calls[] = {RUN, STEP, FACTOR, STRIPS};
    int unmet = 0;
    size_t i, place;
    for (i = 0; i < 3 * sizeof calls / sizeof calls[0]; i++) {
        const enum call call = calls[i / 3];
        const enum end end = (enum end)(i % 3);
        for (place = 0; place < PILGARTZE_MOST_SECTORS; place++) {
            const int possible = end != GAP || place > 0; /* no sector stands before the first */
            unmet += possible && in->walks[call][0][end][place] == 0 ? 1 : 0;
            unmet += possible && in->walks[call][1][end][place] == 0 ? 1 : 0;
            if (place % 12 == 0 && !in->on_the_heap) {
                tell_places(in, call, end, place);
            }
        }
    }
    return unmet;
}

/* ---- A walk for each way and place ---------------------------------------------------------------------------- */

/* So many: each way to end at each place; the first sector has no gap before it. */
#define WALKS (3 * PILGARTZE_MOST_SECTORS - 1)

/* Each of them in turn. */
static walk walk_of_turn(uint64_t turn)
{
    const size_t which = 1 + (size_t)(turn % WALKS);
    walk made;
    made.end = (enum end)(which / PILGARTZE_MOST_SECTORS);
    made.place = which % PILGARTZE_MOST_SECTORS;
    return made;
}

/* The end of the k-th sector, where the sun stands in that of the place. */
static double end_of(size_t k, size_t place, double sun)
{
    const size_t last = PILGARTZE_MOST_SECTORS - 1;
    if (k < place) {
        return (sun - 1.0) * (double)(k + 1) / (double)place;
    }
    return k == last ? 360.0 : sun + 1.0 + (359.0 - sun) * (double)(k - place) / (double)(last - place);
}

/* As many sectors as there may be; a gap is an overlap at every other place. */
static void sectors_ending(source *from, job *made, enum list season, walk by, double sun)
{
    double start = 0.0;
    size_t k;
    for (k = 0; k < PILGARTZE_MOST_SECTORS; k++) {
        pilgartze_sector sector = pilgartze_free_sector(start, end_of(k, by.place, sun));
        start = sector.end;
        if (k == by.place && by.end == GAP) {
            sector.start += k % 2 == 0 ? 0.5 : -0.5;
        }
        if (k == by.place && by.end == TURNED) {
            sector.start = k == 0 ? sun : sector.start;
            sector.end = sector.start / 2.0;
        }
        pilgartze_add_object(&sector, pilgartze_distant_obstacle(uniform(from, 0.1, 20.0), uniform(from, 0.1, 20.0)));
        memcpy(made->lists[season] + k * sizeof sector, &sector, sizeof sector);
    }
    made->lengths[season] = PILGARTZE_MOST_SECTORS * sizeof(pilgartze_sector);
}

/* A list along which the walk ends in another way. */
static void other_walk(job *made, enum list season, walk by)
{
    const pilgartze_sector only = by.end == MATCH ? pilgartze_free_sector(360.0, 0.0)
                                                  : pilgartze_free_sector(0.0, 360.0);
    memcpy(made->lists[season], &only, sizeof only);
    made->lengths[season] = sizeof only;
}

/* Leaf days by which the single step is in that season; the factor takes its list too. */
static void put_in_season(source *from, job *made, enum list season)
{
    do {
        some_leaf_days(from, made);
    } while (season_at(&made->site, made->time) != season);
    made->sectors = season;
}

void one_step(source *from, uint64_t leap_year, double time, job *made)
{
    const double half = 0.5;
    int list;
    size_t i;
    made->edition = some_edition(from);
    memset(&made->site, 0, sizeof made->site);
    made->site.latitude = uniform(from, 30.0, 60.0);
    made->site.longitude = uniform(from, -5.0, 5.0);
    made->site.series_step = 1.0;
    made->site.leap_year = leap_year;
    made->site.start_day = day_of(time);
    made->time = time;
    made->run = (pilgartze_run_times){time, time < 8783.0 ? time + 0.5 : 8784.0, 1.0};
    made->surface = (pilgartze_surface){90.0, 180.0, uniform(from, 0.0, 5.0), 1.5, 1.2};
    made->reading = (pilgartze_reading){half, half, half};
    some_heights(from, made);
    for (list = DIFFUSE; list <= REFLECTIVITY; list++) {
        made->lengths[list] = 8 * 24;
        for (i = 0; i < 24; i++) {
            memcpy(made->lists[list] + 8 * i, &half, sizeof half);
        }
    }
    made->results[RUN] = sizeof(pilgartze_row);
    made->results[STEP] = sizeof(pilgartze_row);
    made->results[IRRADIANCE] = sizeof(pilgartze_breakdown);
    made->days = PILGARTZE_DAYS_LENGTH;
    made->totals = PILGARTZE_TOTALS_LENGTH(leap_year);
}

void sun_of_step(soak *in, job *of)
{
    pilgartze_breakdown there;
    const pilgartze_answer answer = tried(in, &in->second, IRRADIANCE, of, 1, 0);
    if (answer.number != 0) {
        failed(in, "refused, and the step's other call is not", IRRADIANCE, of, &answer);
    }
    memcpy(&there, in->second.at.results, sizeof there);
    of->altitude = there.altitude;
    of->azimuth = there.azimuth;
}

void try_walk(soak *in, source *from)
{
    static const uint64_t numbers[] = {PILGARTZE_REFUSED_GAP, PILGARTZE_REFUSED_TURNED, 0};
    static const enum call calls[] = {RUN, STEP, FACTOR, STRIPS};
    static job made;
    const walk by = walk_of_turn(in->turn);
    const enum list season = in->turn / WALKS % SEASONS == 0 ? SUMMER : WINTER;
    size_t i;
    made = made.lists[0] == NULL ? job_with_room() : made;
    one_step(from, 0, 24.0 * (double)random_below(from, 365) + 10.0 + (double)random_below(from, 4), &made);
    put_in_season(from, &made, season);
    lay_out(&in->second, &made, 0, 0, 1);
    sun_of_step(in, &made);
    made.surface.orientation = 180.0 - made.azimuth;
    sectors_ending(from, &made, season, by, made.surface.orientation);
    other_walk(&made, other_season(season), by);
    lay_out(&in->first, &made, (unsigned)random_word(from), 0, one_in(from, 2));
    for (i = 0; i < sizeof calls / sizeof calls[0]; i++) {
        const pilgartze_answer answer = tried(in, &in->first, calls[i], &made, one_in(from, 2), 0);
        /* rows and factors have been looked at */
        const int unknown = answer.number != 0 && !given_the_sun(calls[i]);
        const char *wrong =
            unknown ? wrong_walk(in, calls[i], &made, season, made.altitude, made.azimuth, answer.number) : NULL;
        wrong = wrong == NULL && answer.number != numbers[by.end] ? "not the walk that was meant" : wrong;
        if (wrong != NULL) {
            failed(in, wrong, calls[i], &made, &answer);
        }
    }
}
