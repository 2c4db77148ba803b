/* What the five calls take, all in one: a job, and the further numbers of the single calls. */
#ifndef SOAK_JOB_H
#define SOAK_JOB_H

#include "pilgartze.h"
#include "random.h"

/* The lists that are only read. */
enum list { DIFFUSE, DIRECT, REFLECTIVITY, SUMMER, WINTER, WINDOW, HEIGHTS, LISTS };

enum call { RUN, STEP, IRRADIANCE, FACTOR, STRIPS, CALLS };

/* No list is longer. A whole year of quarter hours fits, and sectors and window objects in far too great a number. */
#define MOST_SERIES ((size_t)8 * 35200)
#define MOST_SECTORS ((size_t)30 * 1000)
#define MOST_WINDOW ((size_t)4 * 1000)
#define MOST_HEIGHTS ((size_t)8 * 150)
#define MOST_RESULTS (sizeof(pilgartze_row) * PILGARTZE_MOST_STEPS + 1000)
#define MOST_DAYS ((size_t)2 * PILGARTZE_DAYS_LENGTH)
#define MOST_TOTALS ((size_t)2 * PILGARTZE_TOTALS_LENGTH(1))

typedef struct job {
    uint64_t edition;
    pilgartze_site site;
    pilgartze_run_times run;
    pilgartze_surface surface;
    double time;               /* of the single step */
    pilgartze_reading reading; /* its values of the series */
    double altitude;           /* of the factor's sun, and of the strips' */
    double azimuth;
    uint8_t *lists[LISTS];
    size_t lengths[LISTS];
    enum list sectors;     /* the list that factor and strips take: SUMMER or WINTER */
    size_t results[CALLS]; /* the lengths of the results lists */
    size_t days;           /* the length of the run's table of days */
    size_t totals;         /* and of its totals */
} job;

size_t most_of(enum list list);
/* 1 or 2, each as often as the other. */
uint64_t some_edition(source *from);
/* Any other whole number: about these two, beside them by a high bit, or of any bits. */
uint64_t no_edition(source *from);
/* Leaf days in range: any, about the ends of the year, or about the day of the single step. */
void some_leaf_days(source *from, job *made);
/* At least one of them above 365. */
void no_leaf_days(source *from, job *made);
/* The other season. */
enum list other_season(enum list season);
/* Heights of 1 to 12 strips on the surface's base, all in range. */
void some_heights(source *from, job *made);
/* Most of them out of range: none, too many, a part of one, one that is no height, or a base above the range. */
void odd_heights(source *from, job *made);
/* Takes the room for the lists. */
job job_with_room(void);
/* The numbers of a day on a surface that faces the ground, so that no step needs a sector; no lists. */
job bare_job(void);

/* The run's steps, by include/pilgartze.h: how many, when, and which value of the series; for runs in range only. */
size_t step_count(const pilgartze_run_times *run);
double step_time(const pilgartze_run_times *run, size_t step);
size_t series_index(const pilgartze_site *site, double time);
/* The day of a step, from 0, and the list that it walks: SUMMER or WINTER. */
size_t day_of(double time);
enum list season_at(const pilgartze_site *site, double time);
/* How many days a month has, which is counted from 0. */
size_t month_length(uint64_t leap_year, size_t month);
pilgartze_reading reading_at(const job *of, size_t index);

/* A job with all in range and, for the most part, accepted; now and then of a whole year where those are wanted. Every
 * other one is aimed. Of those with objects at the window every other one has fins on both sides, and the sun often
 * beyond 180 from the way it faces. The winter list is another than the summer list, the same with fewer objects, or
 * the same. */
void sound_job(source *from, job *made, int years);
/* A sound job, one with some of it spoilt, or anything at all; gives whether it is sound. */
int any_job(source *from, job *made, int years);
/* Some of a sector's objects gone, from the last on. */
void thin_sector(source *from, pilgartze_sector *sector);
/* Another edition, site and surface for the same lists. */
void other_numbers(source *from, job *made);

/* Moves the site or turns the surface: at the single step the sun is then overhead or square on the glass, for the most
 * part. */
void aim(source *from, job *made);
/* Whether at the single step all of a beam comes to the glass: the cosine of incidence is exactly 1. */
int sun_square(const job *of);
/* Whether the altitude there is exactly 90. */
int sun_overhead(const job *of);

/* Spoils one part. */
void spoil(source *from, job *made);
/* Numbers and lists of any bits whatever, from that part on: 0 the site, 1 the run, 2 the surface, 3 the rest. */
void scramble(source *from, job *made, size_t part);

/* Prints all of it, in bits. */
void tell_job(const job *of);

#endif
