/* The sample that the examples quote: a window in southern England, its weather and its street. The weather is made up:
 * clear skies by the height of the sun, and clouds that come and go by the day. */
#ifndef SAMPLE_H
#define SAMPLE_H

#include "pilgartze.h"

#include <math.h>
#include <stdio.h>
#include <stdlib.h>

#define HOURS 8760
#define SECTORS 36
#define WH_PER_KWH 1000.0

/* The leaf days, its last two fields, are set where there are trees. */
static const pilgartze_site site = {51.06, -1.31, 0, 0, 1.0, 0, 0, 0, 0};
static const pilgartze_surface window = {90.0, 135.0, 0.9, 1.2, 1.8};

static const char *const month_names[PILGARTZE_MONTHS] = {"January",   "February", "March",    "April",
                                                          "May",       "June",     "July",     "August",
                                                          "September", "October",  "November", "December"};

/* ---- Weather -------------------------------------------------------------------------------------------------- */

static double radians(double degrees)
{
    return degrees * 3.14159265358979323846 / 180.0;
}

/* A number from 0 to 1 that looks random and is the same at every run. */
static double scatter(uint32_t seed)
{
    seed = (seed ^ 61u) ^ (seed >> 16);
    seed *= 9u;
    seed ^= seed >> 4;
    seed *= 668265261u;
    seed ^= seed >> 15;
    return seed / 4294967295.0;
}

/* The sine of the sun's altitude in the middle of an hour, by a plain formula that does for made-up weather. */
static double sun_height(int hour)
{
    const double day = hour / 24;
    const double declination = radians(23.45) * sin(radians(360.0 * (285.0 + day) / 365.0));
    const double hour_angle = radians(15.0 * (hour % 24 + 0.5 - 12.0) + site.longitude);
    const double latitude = radians(site.latitude);
    return sin(latitude) * sin(declination) + cos(latitude) * cos(declination) * cos(hour_angle);
}

/* How much of the sky is clouded, 0 to 1: mostly the day's, partly the hour's. */
static double cloud(int hour)
{
    const double day = scatter((uint32_t)(hour / 24));
    const double passing = scatter((uint32_t)(hour + 100000));
    return sqrt(0.75 * day + 0.25 * passing);
}

/* A year of hours. Diffuse is on the horizontal plane, direct at normal incidence. */
static pilgartze_weather make_weather(void)
{
    static double diffuse[HOURS];
    static double direct[HOURS];
    static double reflectivity[HOURS];
    const pilgartze_weather made = {diffuse, direct, reflectivity, HOURS};
    int hour;
    for (hour = 0; hour < HOURS; hour++) {
        const double height = fmax(0.0, sun_height(hour));
        const double clouded = cloud(hour);
        const double beam = height > 0.0 ? 1050.0 * exp(-0.2 / height) : 0.0;
        direct[hour] = beam * (1.0 - clouded);
        diffuse[hour] = height * (120.0 * (1.0 - clouded) + 360.0 * clouded);
        reflectivity[hour] = 0.2;
    }
    return made;
}

/* ---- Shade ---------------------------------------------------------------------------------------------------- */

/* A terrace of houses 8.2 m high along the other side of the street, 18 m away, that ends 60 degrees to either side. */
static void make_street(pilgartze_sector *sectors)
{
    int i;
    for (i = 0; i < SECTORS; i++) {
        const double width = 360.0 / SECTORS;
        const double aside = width * (i + 0.5) - window.orientation;
        sectors[i] = pilgartze_free_sector(width * i, width * (i + 1));
        if (fabs(aside) < 60.0) {
            pilgartze_add_object(&sectors[i], pilgartze_distant_obstacle(8.2, 18.0 / cos(radians(aside))));
        }
    }
}

/* ---- Quotes --------------------------------------------------------------------------------------------------- */

/* How much of the direct sun gets past the shade in a year, in Wh/m2; that of each month is in the totals. A job that
 * is turned down ends the program. */
static double quote(const pilgartze_site *at, const pilgartze_weather *weather, const pilgartze_shading *shading,
                    pilgartze_year_totals *totals)
{
    static pilgartze_row rows[HOURS]; /* room for each hour's sun, irradiance and factor, of which the sums are made */
    const pilgartze_run_times hours = {0.0, HOURS, 1.0};
    pilgartze_day_table days; /* the run works each day out once, in here */
    const pilgartze_answer answer =
        pilgartze_run_job(at, &hours, &window, weather, shading, &days, totals, rows, HOURS);
    if (answer.number != PILGARTZE_ACCEPTED) {
        fprintf(stderr, "turned down: %s (%u) at step %u\n", pilgartze_refusal_word(answer.number),
                (unsigned)answer.number, (unsigned)answer.step);
        exit(EXIT_FAILURE);
    }
    return answer.sum;
}

#endif
