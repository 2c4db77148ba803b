/* pilgartze.h: sun, sky and shade on one surface, for C99 and C++11. Link with libpilgartze.a or
 * libpilgartze.so (x86-64, Linux).
 *
 * A site, its weather and a surface go in. For each step of a run the sun's position, the irradiance on the surface and
 * a direct shading factor come out, and the sum of factor times direct irradiance times step over all steps: how much
 * direct sun got past the shade, in Wh/m2. For each day and each month of the year that sum is kept too, with the count
 * of its steps and the largest total irradiance.
 *
 * Five calls are in the library: pilgartze_run, pilgartze_step, pilgartze_irradiance, pilgartze_factor and
 * pilgartze_strips. They take plain numbers and lists of bytes. Below them stand inline functions that take structs and
 * arrays in their place: pilgartze_run_job, pilgartze_step_at, pilgartze_irradiance_at, pilgartze_factor_at and
 * pilgartze_strips_at. Most programs need only these. A sixth function, pilgartze_version, says which version of the
 * library is linked.
 *
 * What the library promises. It is proved, for every input, that
 * - a call ends, and never stops the program;
 * - it checks its own input, and turns down with a number what is out of range (enum pilgartze_refusal);
 * - it reads and writes nothing outside the lists that it is lent;
 * - the answer and every byte of the results, of the totals and of the table of days follow from the input alone;
 * - the results of an accepted call are finite numbers, all but perhaps the factor: an altitude lies from 0 to 90, and
 *   direct irradiance is not below 0. (A factor could be NaN only where a shade extent is, see below; none is known to
 *   be. It would be stored as 7FF8000000000000, and only the bits of a NaN in the answer's sum are left open.)
 * It keeps no state, takes no memory from the heap and at most PILGARTZE_STACK_BYTES of the stack, and calls nothing of
 * the C library but memcpy and memset, not even its mathematics.
 * So any number of threads may call at once, also with the same series, sectors and window, as long as each has
 * results, totals and a table of days of its own.
 *
 * Also proved: two jobs compared. A job is one call of the run; a shade extent is the height or width of shade that is
 * worked out for one object. Take two accepted jobs with
 * - the same edition, site (so the same leaf days), run and surface;
 * - series of equally many values, and the same doubles in them;
 * - equally many sectors, and those at the same place start and end at the same numbers (0.0 and -0.0 are one number):
 *   in the summer lists, and in the winter lists, whether or not a step falls in that season;
 * - no shade extent that is NaN, in either job, at any step, in the list of its day.
 * Then both have the same steps and the same direct values. Every factor lies from 0 to 1, and is exactly 1 with no
 * objects. Each sum lies from 0 to the unshaded sum, that of direct times step, and is that one, bit for bit, with no
 * objects, in either season. The same objects, in any order and number, give the same factors, sum and totals, bit for
 * bit. Where either job holds all objects of the other, sector by sector in summer and in winter, and at the window,
 * its factors are nowhere larger, nor is its sum, nor that of any day or month; and so where each of its objects is the
 * other's at its place, or that one changed so that it shades more (see pilgartze_factor_at). Day by day and month by
 * month both have the same count and the same largest total.
 * Objects are the same where all their words are. That no extent is NaN is measured, not proved: none is known to be.
 * Also proved: a job with the same sectors in both lists is a job with one list, whatever leaf days of 0..365 it has.
 *
 * What the library asks, as any C function does:
 * - A list's pointer and length name memory that is there, and no other thread writes to it during the call.
 * - The results, the totals and the table of days overlap no other list, nor each other. (The lists that are only read
 *   may overlap each other.)
 * - An empty list of a raw call has length 0 and any pointer but NULL. The inline functions see to that: there a list
 *   with count 0 may be NULL. Pointers to structs (site, run, surface, tall glazing, weather, reading, shading, table
 *   of days, totals, row, breakdown) may not be NULL.
 * - The floating-point unit is in its usual mode: it rounds to nearest, flushes no subnormals to zero (a program built
 *   with -ffast-math may do so) and stops the program at no exception (feenableexcept).
 *
 * Angles are in degrees, lengths in metres, times in hours, irradiance in W/m2, sums in Wh/m2. "a..b" includes both
 * ends. A NaN is in no range; -0.0 counts as 0, so it is in 0..b and is not "above 0".
 *
 * Two ways of counting directions:
 * - An orientation (of a surface, of a sector's ends) is 0..360, clockwise from north: north 0, east 90, south 180,
 *   west 270.
 * - The sun's azimuth is counted from south, eastwards positive: south 0, east 90, west -90, north 180 or -180.
 *   azimuth = 180 - orientation.
 *
 * The sun is inside the beam where its azimuth is at most 90 degrees from the way the surface faces (a difference
 * beyond 180 is shifted by 360 once) and its altitude at most 90 from the tilt. That can be so at night too, when the
 * altitude is 0. A NaN is outside the beam. This test goes by a vertical projection of the surface:
 * - Outside the beam the factor is 1 whatever stands there, though direct light may still arrive on pitched glass.
 * - A flat rooflight has an orientation that matters: a wall all round shades it fully from one side and not at all
 *   from the other. Turn it to the sun at noon: 180 north of the tropics, 0 south of them.
 *
 * The clock is the standard time of the site's timezone, all the year: no summer time. Take half an hour of a timezone
 * as 7.5 degrees of longitude: for UTC + 5:30 timezone 5 and a longitude less by 7.5.
 *
 * How objects combine. A distant object is as wide as its sector, one at the window as wide or as high as the window.
 * Of the obstacles in a sector the one with the largest shade counts; so of all overhangs, in the sector and at the
 * window, of the right fins and of the left fins. An obstacle at the window is looked at by itself, as if no distant
 * one were there, and the least factor counts: two hedges do not add up.
 *
 * Two editions of the rule for fins, and the caller names one (the field edition of pilgartze_shading). Take edition 2:
 * a fin shades where the sun stands on its side. In edition 1, which follows the Rust that this is a port of, right
 * fins seldom shade; it is there for quotes that were made with it. All else is the same in both.
 *
 * Two lists of sectors: one for the days with leaves on the trees, one for the others. The site has the first and the
 * last day with leaves, and each step goes by the list of its day. With the same sectors all the year name them twice:
 * pilgartze_all_year does, and which leaf days there are, of 0..365, does not matter then.
 *
 * What gets past the shade is factor * direct + diffuse, not factor * total: diffuse light is never dimmed.
 *
 * DIFFERENCES.md (in docs, installed in share/doc/pilgartze) has an input for each of these, and where the standard has
 * it otherwise.
 */
#ifndef PILGARTZE_H
#define PILGARTZE_H

#include <float.h>
#include <stddef.h>
#include <stdint.h>
#include <string.h>

#if defined(__BYTE_ORDER__) && defined(__ORDER_LITTLE_ENDIAN__)
#if __BYTE_ORDER__ != __ORDER_LITTLE_ENDIAN__
#error "pilgartze: this machine is not little-endian, and the library's lists are least byte first"
#endif
#elif !defined(__x86_64__)
#error "pilgartze: cannot tell whether this machine is little-endian"
#endif

#if FLT_RADIX != 2 || DBL_MANT_DIG != 53 || DBL_MAX_EXP != 1024
#error "pilgartze: a double of this compiler is not binary64"
#endif

#ifdef __cplusplus
extern "C" {
#endif

/* ---- Version -------------------------------------------------------------------------------------------------- */

/* The version of this header. The first part changes where a call, a record or a unit does, so that programs have to
 * change, the second where something is added, the third otherwise (docs/CHANGES.md). */
#define PILGARTZE_VERSION_MAJOR 6
#define PILGARTZE_VERSION_MINOR 1
#define PILGARTZE_VERSION_PATCH 0
#define PILGARTZE_VERSION \
    (PILGARTZE_VERSION_MAJOR * 1000000 + PILGARTZE_VERSION_MINOR * 1000 + PILGARTZE_VERSION_PATCH)

/* The version of the library that is linked, counted in the same way: it should be PILGARTZE_VERSION. */
uint64_t pilgartze_version(void);

/* ---- Stack ---------------------------------------------------------------------------------------------------- */

/* No call takes more bytes of stack than this, its arguments, memcpy and memset included: enough for a thread's stack,
 * beside what the caller needs. It is not proved but worked out from the library's machine code, and measured
 * (soak/run). */
#define PILGARTZE_STACK_BYTES 65536

/* ---- Refusals ------------------------------------------------------------------------------------------------- */

/* Why a call is turned down; 0 where it is not. Where several hold, the one that is tried first is given: 14, 1, 15,
 * then 2 to 7 in number order, over all steps, before anything is computed or stored; then 8 to 11, step by step. After
 * the arrow stands what to do. */
enum pilgartze_refusal {
    PILGARTZE_ACCEPTED = 0,
    /* site: a field of the site other than the leaf days is out of range.
     * -> Hold each field to the range beside it in pilgartze_site. */
    PILGARTZE_REFUSED_SITE = 1,
    /* run: a field of the run is out of range, or a step's hour is not in the year (8760 hours, in a leap year 8784);
     * in a single-step call, a time that is out of range or whose hour is not in the year.
     * -> Hold start, end and step to their ranges; end at 8760, or set leap_year. */
    PILGARTZE_REFUSED_RUN = 2,
    /* surface: a field of the surface is out of range; also the sun's altitude or azimuth in a call of the factor or of
     * the strips, and there a strip's base or height that is out of range, no strip, more than 12, or a part of one.
     * -> Hold each field to its range; an azimuth far beyond 360 is that of a sun overhead. Pass 1 to 12 strips. */
    PILGARTZE_REFUSED_SURFACE = 3,
    /* object: in a sector or at the window a field is out of range, a kind is not known, a count is above 8, an unused
     * object or word is not all bits zero, or a list is too long or ends amid a record. Both lists of sectors are
     * looked at, also that of a season in which no step falls.
     * -> Begin each sector by pilgartze_free_sector and each object by its function below; leave out an object of
     *    height or depth 0. */
    PILGARTZE_REFUSED_OBJECT = 4,
    /* series: a step needs a value past the end of a series.
     * -> Lengthen the series or end the run sooner; see that start_day and series_step are those of the series. */
    PILGARTZE_REFUSED_SERIES = 5,
    /* reading: a value of a series that a step needs is out of range.
     * -> Look for NaN, for values below 0 (also tiny ones) and for a reflectivity above 1. */
    PILGARTZE_REFUSED_READING = 6,
    /* results: the results list is too short for the steps; or the table of days is too short, or the totals are too
     * short for the year, also for no steps.
     * -> Lend a row for each step; PILGARTZE_MOST_STEPS rows are always enough. Lend a pilgartze_day_table and a
     *    pilgartze_year_totals. */
    PILGARTZE_REFUSED_RESULTS = 7,
    /* gap: a sector does not start where the one before it ends. 8 to 10 come only where the sun is inside the beam,
     * and go by the sectors of the step's day in their order, up to the one with the sun: at each gap, then turned,
     * then whether the sun is in it.
     * -> Start each sector at just the double at which the one before ends. */
    PILGARTZE_REFUSED_GAP = 8,
    /* turned: a sector ends below its start.
     * -> Part a sector that goes across north into two, one that ends at 360 and one that starts at 0. */
    PILGARTZE_REFUSED_TURNED = 9,
    /* no sector: the sun is in none of the sectors.
     * -> Let the sectors go from 0 to 360. If they do, the sun stands exactly on a border, or is overhead: move the
     *    border or the longitude by 0.0001. */
    PILGARTZE_REFUSED_NO_SECTOR = 10,
    /* reveal: an object at the window is a reveal (kind 4), for which there is no factor; the sun is inside the beam,
     * and a sector with it is found.
     * -> Pass an overhang, a left fin and a right fin of its depth and distance, in edition 2. */
    PILGARTZE_REFUSED_REVEAL = 11,
    /* line: a line of a shade listing is malformed. The shade listing has this number; no call below gives it.
     * -> Ten values of 16 upper-case hexadecimal digits, single spaces, after the names line. */
    PILGARTZE_REFUSED_LINE = 12,
    /* edition: neither 1 nor 2. Tried before all others, in each call that has an edition. No number is 13.
     * -> Set shading.edition to PILGARTZE_EDITION_2. */
    PILGARTZE_REFUSED_EDITION = 14,
    /* leaf day: the first or the last leaf day is not 0..365. Tried after 1 and before 2, in each call that has a site.
     * -> Count days from 0: pilgartze_day_of gives a date's. */
    PILGARTZE_REFUSED_LEAF_DAY = 15
};

/* The word of a number: "accepted" for 0, "unknown" for a number that no call gives. */
static inline const char *pilgartze_refusal_word(uint64_t number)
{
    static const char *const words[] = {"accepted", "site", "run", "surface", "object", "series", "reading", "results",
                                        "gap", "turned", "no sector", "reveal", "line", "unknown", "edition",
                                        "leaf day"};
    return number < sizeof words / sizeof words[0] ? words[number] : "unknown";
}

/* ---- What goes in --------------------------------------------------------------------------------------------- */

/* Where the surface stands, and how the weather series are to be read. */
typedef struct pilgartze_site {
    double latitude;                 /* -90..90, north positive */
    double longitude;                /* -180..180, east positive */
    int64_t timezone;                /* -13..14, hours ahead of UTC; the sun goes by timezone - longitude / 15 */
    uint64_t start_day;              /* 0..365, the day of the year, from 0, on which the series begin */
    double series_step;              /* 0.25..24, hours from one value of a series to the next */
    uint64_t leap_year;              /* 0 or 1 */
    uint64_t direct_beam_conversion; /* 0: the direct series is the beam at normal incidence;
                                        1: it is the beam on the horizontal plane, and is converted: divided by the
                                        sine of the altitude, so that 10 W/m2 with the sun just above the horizon can
                                        come to millions. Prefer 0 where the series can be had */
    uint64_t first_leaf_day;         /* 0..365, the first day of the year, from 0, with leaves on the trees; */
    uint64_t last_leaf_day;          /* 0..365, the last. If the first is not above the last, summer is the days from
                                        the first to the last, both included; otherwise, as south of the tropics, the
                                        days from the first on and those up to the last. So the first just above the
                                        last is summer always. pilgartze_day_of gives a date's day. Set both wherever
                                        the two lists of sectors differ: both 0 is a summer of 1 January alone */
} pilgartze_site;

/* The steps of a run, in hours from the start of the year. The first step is at start; after a step at time t another
 * follows, at t + step, as long as t < end - step (each sum and difference rounded). Start = end is a run of no steps,
 * start above end is a run of one. Note that the count is not always the ceiling of (end - start) / step: 0 to 3 by 0.3
 * is 11 steps. Each counts whole in the sum, also where the last passes the end: 3.3 hours there. The sun of a step is
 * that of the middle of its hour, so that the steps within an hour have the same sun. */
typedef struct pilgartze_run_times {
    double start; /* 0..8784 */
    double end;   /* above 0, up to 8784 */
    double step;  /* 0.25..24 */
} pilgartze_run_times;

/* No accepted run has more steps than this, so that as many rows are always enough. */
#define PILGARTZE_MOST_STEPS 35137

typedef struct pilgartze_surface {
    double tilt;        /* 0..180: 0 faces the sky, 90 is upright, 180 faces the ground */
    double orientation; /* 0..360, clockwise from north: which way the surface faces */
    double base_height; /* 0..1000, from the ground to the lower edge */
    double height;      /* 0.001..1000; of a tilted surface its vertical projection: slant height * sine of the tilt.
                           The slant height itself is accepted and gives a wrong factor */
    double width;       /* 0.001..1000 */
} pilgartze_surface;

/* Tall glazing, such as a stair window, cut into strips from side to side: a surface whose height is that of its strips
 * together. The first strip stands on base_height, each later one on the strip below: its base is that one's base plus
 * height, rounded. All bases are 0..1000. One that is zeroed has no strips and is refused (3). */
typedef struct pilgartze_tall_glazing {
    double tilt;           /* as those of a surface */
    double orientation;
    double base_height;    /* 0..1000, from the ground to the lower edge of the lowest strip */
    double width;
    const double *heights; /* of each strip, the lowest first, 0.001..1000; of tilted glazing vertical projections */
    size_t strip_count;    /* 1..12 */
} pilgartze_tall_glazing;

#define PILGARTZE_MOST_STRIPS 12

/* Kinds of distant objects. */
enum pilgartze_object_kind { PILGARTZE_DISTANT_OBSTACLE = 0, PILGARTZE_DISTANT_OVERHANG = 1 };

/* A distant object, in a sector. */
typedef struct pilgartze_object {
    uint64_t kind;   /* an enum pilgartze_object_kind */
    double height;   /* above 0, up to 1000: of an obstacle's top, or an overhang's lower edge, above the ground */
    double distance; /* above 0, up to 10000, from the surface */
} pilgartze_object;

#define PILGARTZE_MOST_OBJECTS 8

/* A part of the horizon with the objects that stand there. A list has at most 36 sectors; each starts where the one
 * before it ends. The sun is in a sector where it is strictly between its ends: a sun exactly on a border is in none,
 * and so is one exactly in the north. Whether there is a gap is looked at only up to the sector with the sun.
 * Let the sectors go all the way round, from 0 to 360: where the sun is inside the beam and in no sector the step is
 * refused (10), and that can be so at night too, when the altitude is 0. With nothing in the distance one free sector
 * from 0 to 360 does, but for hours in which the sun is exactly in the north: such are met on day 359, whose equation
 * of time is 0, at longitudes 7.5, 22.5, 37.5 and so on. A longitude moved by 0.0001 has none. */
typedef struct pilgartze_sector {
    double start;                                     /* 0..360, clockwise from north */
    double end;                                       /* 0..360 */
    uint64_t count;                                   /* 0..8, how many of the objects are used */
    pilgartze_object objects[PILGARTZE_MOST_OBJECTS]; /* the others are all bits zero */
} pilgartze_sector;

#define PILGARTZE_MOST_SECTORS 36

/* Kinds of objects at the window. Left and right are those of one who looks out. */
enum pilgartze_window_kind {
    PILGARTZE_OBSTACLE = 0,
    PILGARTZE_OVERHANG = 1,
    PILGARTZE_RIGHT_FIN = 2, /* in edition 1 seldom shades: only where the azimuth less (180 - orientation) is below
                                -270 */
    PILGARTZE_LEFT_FIN = 3,
    PILGARTZE_REVEAL = 4 /* refused (11) where the sun is inside the beam and a sector with it is found: pass an
                            overhang and two fins of its depth and distance */
};

/* An object at the window. A list has at most 16. */
typedef struct pilgartze_window_object {
    uint64_t kind;       /* an enum pilgartze_window_kind */
    double size;         /* above 0, up to 1000: an obstacle's height above the ground, any other's depth */
    double distance;     /* 0..10000: from an obstacle to the window, from any other to the window's edge */
    double transparency; /* an obstacle's, 0 (opaque) .. 1 (shades nothing); of any other kind all bits zero (0.0, not
                            -0.0) */
} pilgartze_window_object;

#define PILGARTZE_MOST_WINDOW_OBJECTS 16

/* The weather series. A step uses the value at the floor of (time - 24 * start_day) / series_step; below 0, in a run
 * that starts before its series, it uses the first. Values that no step uses may be anything. */
typedef struct pilgartze_weather {
    const double *diffuse;      /* 0..10000 W/m2, on the horizontal plane */
    const double *direct;       /* 0..10000 W/m2, see direct_beam_conversion */
    const double *reflectivity; /* 0..1, of the ground */
    size_t count;               /* how many values each of the three has */
} pilgartze_weather;

/* One value of each series, for the single-step calls. */
typedef struct pilgartze_reading {
    double diffuse;      /* 0..10000 W/m2 */
    double direct;       /* 0..10000 W/m2 */
    double reflectivity; /* 0..1 */
} pilgartze_reading;

/* Editions of the rule for fins. */
enum pilgartze_edition {
    PILGARTZE_EDITION_1 = 1, /* as the Rust has it: for quotes that were made with it */
    PILGARTZE_EDITION_2 = 2  /* fins of both sides shade: take this one */
};

/* All that may shade the surface, in summer and in winter, and by which edition. One that is zeroed names no edition
 * and is refused (14). What stands there all the year is in both lists; they need not have the same sectors, nor
 * equally many. With one list for all the year, or for a year without leaves, begin it by pilgartze_all_year. */
typedef struct pilgartze_shading {
    uint64_t edition;               /* an enum pilgartze_edition */
    const pilgartze_sector *summer; /* on days with leaves, see first_leaf_day of pilgartze_site */
    size_t summer_count;            /* 0..36 */
    const pilgartze_sector *winter; /* on all other days */
    size_t winter_count;            /* 0..36 */
    const pilgartze_window_object *window;
    size_t window_count; /* 0..16 */
} pilgartze_shading;

/* ---- What comes out ------------------------------------------------------------------------------------------- */

/* A step's results. All are numbers (of the factor see below). With the sun overhead the azimuth can be far beyond
 * 180, where no sector is: if the sun is inside the beam then, the step is refused 10. */
typedef struct pilgartze_row {
    double altitude; /* the sun's, above the horizon: 0..90; 0 at night */
    double azimuth;  /* the sun's, from south, eastwards positive */
    double direct;   /* W/m2 on the unshaded surface: the beam, and the sky's light from around the sun; not below 0 */
    double diffuse;  /* W/m2: the rest of the sky's light, and what the ground reflects; can be below 0 */
    double total;    /* direct + diffuse, unshaded */
    double factor;   /* the part of direct that reaches the surface; 1 outside the beam. From 0 to 1: proved where no
                        shade extent is NaN; none is known to be; that is measured, not proved */
} pilgartze_row;

/* What depends on the day alone. */
typedef struct pilgartze_day_values {
    double declination;                 /* the sun's, in degrees, north positive: within 28 of 0 */
    double equation_of_time;            /* in minutes: within 16.3 of 0 */
    double extra_terrestrial_radiation; /* in W/m2: 1300..1420 */
} pilgartze_day_values;

/* How many days the table of a run has, in either year, and its length in bytes. */
#define PILGARTZE_DAYS 366
#define PILGARTZE_DAYS_LENGTH 8784

/* The table of days: a run works each day out once, into this, and its hours read it. days[0] is 1 January; in a common
 * year days[364] is 31 December and days[365] is one day more, which is filled too. Filled before the first step, in
 * every run that is not refused 14, 15 or 1 to 7, also in one with no steps or refused later. */
typedef struct pilgartze_day_table {
    pilgartze_day_values days[PILGARTZE_DAYS];
} pilgartze_day_table;

/* What a run keeps of one day or of one month: of the steps that start in it. A step belongs whole to the day in which
 * it starts, also one of 24 hours that starts at noon. */
typedef struct pilgartze_totals {
    uint64_t count; /* how many steps */
    double largest; /* the largest total of their rows, in W/m2, unshaded; NaN (7FF8000000000000) with no steps */
    double sum;     /* in Wh/m2: from 0, step by step, plus (factor * direct) * step, as in the answer; a month's is not
                       added up from its days' sums, so that its last bits can differ from theirs */
} pilgartze_totals;

#define PILGARTZE_MONTHS 12

/* How many days a year has, how many totals a run keeps for it, its days' and then its months', and their length in
 * bytes. Leap_year is 0 or 1, as in the site. */
#define PILGARTZE_DAYS_IN_YEAR(leap_year) ((leap_year) != 0 ? 366 : 365)
#define PILGARTZE_TOTALS_COUNT(leap_year) ((leap_year) != 0 ? 378 : 377)
#define PILGARTZE_TOTALS_LENGTH(leap_year) ((leap_year) != 0 ? 9072 : 9048)

/* No year has more. */
#define PILGARTZE_MOST_TOTALS 378

/* Totals of a year: its 365 or 366 days, 1 January first, and right behind them its 12 months. So January stands at
 * PILGARTZE_DAYS_IN_YEAR(leap_year), and in a common year the last of the 378 is not touched; pilgartze_day_totals and
 * pilgartze_month_totals below find them. Emptied (0, NaN, 0) before the first step and kept from step to step, in
 * every run that is not refused 14, 15 or 1 to 7: also in one with no steps, and where a step is refused they are those
 * of the rows before it. */
typedef struct pilgartze_year_totals {
    pilgartze_totals totals[PILGARTZE_MOST_TOTALS];
} pilgartze_year_totals;

/* The irradiance on the unshaded surface and what it is added up of, in W/m2. Direct includes circumsolar; diffuse is
 * sky, horizontal and ground together. */
typedef struct pilgartze_breakdown {
    double altitude;
    double azimuth;
    double direct;
    double diffuse;
    double total;
    double sky;         /* from the sky as a whole */
    double circumsolar; /* from the sky around the sun */
    double horizontal;  /* from the sky near the horizon; can be below 0 */
    double ground;      /* reflected by the ground */
} pilgartze_breakdown;

/* A run's answer. Where number is not 0, count and sum are 0. (Before version 3 the step was not in the sum: where a
 * program multiplies the sum by the step, it is to stop.) */
typedef struct pilgartze_answer {
    uint64_t number; /* an enum pilgartze_refusal; 0: accepted */
    uint64_t step;   /* where number is 8 to 11 the step, from 0, at which the run ended; otherwise 0 */
    uint64_t count;  /* how many steps there are, and rows were stored */
    double sum;      /* in Wh/m2: from 0, step by step, plus (factor * direct) * step, the step being the run's */
} pilgartze_answer;

typedef struct pilgartze_factor_answer {
    uint64_t number; /* an enum pilgartze_refusal; 0: accepted */
    double factor;   /* 0 where refused; else as in a row, and from 0 to 1 as there */
} pilgartze_factor_answer; /* of pilgartze_factor and of pilgartze_strips */

/* The structs are the library's records, byte for byte. */
#define PILGARTZE_SIZE(type, size) typedef char type##_has_its_size[sizeof(type) == (size) ? 1 : -1]
PILGARTZE_SIZE(double, 8);
PILGARTZE_SIZE(pilgartze_object, 24);
PILGARTZE_SIZE(pilgartze_sector, 216);
PILGARTZE_SIZE(pilgartze_window_object, 32);
PILGARTZE_SIZE(pilgartze_row, 48);
PILGARTZE_SIZE(pilgartze_day_values, 24);
PILGARTZE_SIZE(pilgartze_day_table, PILGARTZE_DAYS_LENGTH);
PILGARTZE_SIZE(pilgartze_totals, 24);
PILGARTZE_SIZE(pilgartze_year_totals, PILGARTZE_TOTALS_LENGTH(1));
PILGARTZE_SIZE(pilgartze_breakdown, 72);
PILGARTZE_SIZE(pilgartze_answer, 32);
PILGARTZE_SIZE(pilgartze_factor_answer, 16);
#undef PILGARTZE_SIZE

/* ---- The library's functions ---------------------------------------------------------------------------------- */

/* An edition first, where the call gives a factor, then numbers in the order of the structs above, then lists, each a
 * pointer and a length in bytes. A series is a list of doubles, sectors are records of 216 bytes (struct
 * pilgartze_sector), window objects of 32, days and totals of 24, results of 48 or 72; every word is 8 bytes, least
 * byte first. Pointers need no alignment. A part of a double at the end of a series or of results counts for nothing;
 * at the end of heights it is refused (3). */

/* A run over all steps. Accepted: one row of 48 bytes for each step, in order; bytes past the last row are untouched.
 * Refused 14, 15 or 1 to 7: nothing is stored. Refused 8 to 11 at a step: the rows of the steps before it are stored,
 * all other bytes of the results are untouched.
 * Summer and winter may be the same memory.
 * Days is room for the table of days, PILGARTZE_DAYS_LENGTH bytes or more; where it is shorter the run is refused 7, as
 * for short results. Where the run is not refused 14, 15 or 1 to 7 all of the table is stored, before the first step;
 * bytes past it are untouched. What was in it before does not matter.
 * Totals is room for the totals of the year, PILGARTZE_TOTALS_LENGTH(leap_year) bytes or more; where it is shorter the
 * run is refused 7. Where the run is not refused 14, 15 or 1 to 7 all of them are emptied before the first step, and
 * each step's row is added to its day's and to its month's; bytes past them are untouched. What was in them before does
 * not matter. Where a step is refused 8 to 11 they are those of the rows that are stored, though count and sum of the
 * answer are 0. */
pilgartze_answer pilgartze_run(
    uint64_t edition, double latitude, double longitude, int64_t timezone, uint64_t start_day, double series_step,
    uint64_t leap_year, uint64_t direct_beam_conversion, uint64_t first_leaf_day, uint64_t last_leaf_day, double start,
    double end, double step, double tilt, double orientation, double base_height, double height, double width,
    const uint8_t *diffuse, size_t diffuse_length, const uint8_t *direct, size_t direct_length,
    const uint8_t *reflectivity, size_t reflectivity_length, const uint8_t *summer, size_t summer_length,
    const uint8_t *winter, size_t winter_length, const uint8_t *window, size_t window_length, uint8_t *days,
    size_t days_length, uint8_t *totals, size_t totals_length, uint8_t *results, size_t results_length);

/* One step: the row that a run has at that time, with these values of the series. Time is 0..8784 with its hour in the
 * year, else it is refused 2. Gives the number: 0, or 14, 1, 15, 2, 3, 4, 6, 7, 8 to 11, tried in this order. Accepted:
 * 48 bytes are stored, the rest is untouched. Refused: nothing is stored. */
uint64_t pilgartze_step(
    uint64_t edition, double latitude, double longitude, int64_t timezone, uint64_t start_day, double series_step,
    uint64_t leap_year, uint64_t direct_beam_conversion, uint64_t first_leaf_day, uint64_t last_leaf_day, double time,
    double tilt, double orientation, double base_height, double height, double width, double diffuse, double direct,
    double reflectivity, const uint8_t *summer, size_t summer_length, const uint8_t *winter, size_t winter_length,
    const uint8_t *window, size_t window_length, uint8_t *results, size_t results_length);

/* The sun and the irradiance of one step, with its breakdown and without shade. The leaf days change nothing in it, but
 * are checked as in the other calls. Gives the number: 0, or 1, 15, 2, 3, 6, 7, tried in this order. Accepted: 72 bytes
 * are stored, the rest is untouched. Refused: nothing is stored. */
uint64_t pilgartze_irradiance(
    double latitude, double longitude, int64_t timezone, uint64_t start_day, double series_step, uint64_t leap_year,
    uint64_t direct_beam_conversion, uint64_t first_leaf_day, uint64_t last_leaf_day, double time, double tilt,
    double orientation, double base_height, double height, double width, double diffuse, double direct,
    double reflectivity, uint8_t *results, size_t results_length);

/* The factor for a sun at altitude 0..90 and azimuth -360..360. It has no day, and so one list of sectors. The number
 * is 0, or 14, 3, 4, 8 to 11, tried in this order; 3 is also an altitude or azimuth out of range. Nothing is stored. */
pilgartze_factor_answer pilgartze_factor(uint64_t edition, double altitude, double azimuth, double tilt,
                                         double orientation, double base_height, double height, double width,
                                         const uint8_t *sectors, size_t sectors_length, const uint8_t *window,
                                         size_t window_length);

/* The factor of tall glazing in strips, at one sun as in pilgartze_factor. Heights is a list of doubles, the lowest
 * strip's first, 8 to 96 bytes; the surface's own height is not passed. Each strip has its factor, which is that of
 * pilgartze_factor for a surface with the strip's base and height; the answer is the sum of factor * height divided by
 * the sum of heights, both from 0 and from the lowest strip up, each product, sum and the quotient rounded. Outside the
 * beam it is exactly 1. The number is 0, or 14, 3, 4, 8 to 11, tried in this order; 3 is also a strip whose base is not
 * 0..1000 or whose height is not 0.001..1000, and a list of heights that is empty, has more than 12 or ends amid a
 * double. Nothing is stored. */
pilgartze_factor_answer pilgartze_strips(uint64_t edition, double altitude, double azimuth, double tilt,
                                         double orientation, double base_height, double width,
                                         const uint8_t *heights, size_t heights_length, const uint8_t *sectors,
                                         size_t sectors_length, const uint8_t *window, size_t window_length);

/* ---- Objects -------------------------------------------------------------------------------------------------- */

/* None of these checks a range; the calls below do. */

/* A building, a tree, a hill: shades from below. Height is that of its top above the ground. */
static inline pilgartze_object pilgartze_distant_obstacle(double height, double distance)
{
    pilgartze_object object;
    object.kind = PILGARTZE_DISTANT_OBSTACLE;
    object.height = height;
    object.distance = distance;
    return object;
}

/* A bridge, a balcony: shades from above. Height is that of its lower edge above the ground. */
static inline pilgartze_object pilgartze_distant_overhang(double height, double distance)
{
    pilgartze_object object;
    object.kind = PILGARTZE_DISTANT_OVERHANG;
    object.height = height;
    object.distance = distance;
    return object;
}

/* A sector without an object. */
static inline pilgartze_sector pilgartze_free_sector(double start, double end)
{
    pilgartze_sector sector;
    memset(&sector, 0, sizeof sector);
    sector.start = start;
    sector.end = end;
    return sector;
}

/* Adds an object to a sector. Gives 1, or 0 where the sector is full and stays as it is. */
static inline int pilgartze_add_object(pilgartze_sector *sector, pilgartze_object object)
{
    if (sector->count >= PILGARTZE_MOST_OBJECTS) {
        return 0;
    }
    sector->objects[sector->count] = object;
    sector->count += 1;
    return 1;
}

/* A fence or a hedge near the window. Height is that of its top above the ground. */
static inline pilgartze_window_object pilgartze_obstacle(double height, double distance, double transparency)
{
    pilgartze_window_object object;
    object.kind = PILGARTZE_OBSTACLE;
    object.size = height;
    object.distance = distance;
    object.transparency = transparency;
    return object;
}

/* An object other than an obstacle, by its kind. */
static inline pilgartze_window_object pilgartze_window_part(enum pilgartze_window_kind kind, double depth,
                                                            double distance)
{
    pilgartze_window_object object;
    object.kind = (uint64_t)kind;
    object.size = depth;
    object.distance = distance;
    object.transparency = 0.0;
    return object;
}

/* Distance is that from the window's upper edge up to the overhang. */
static inline pilgartze_window_object pilgartze_overhang(double depth, double distance)
{
    return pilgartze_window_part(PILGARTZE_OVERHANG, depth, distance);
}

/* Distance is that from the window's side to the fin. */
static inline pilgartze_window_object pilgartze_right_fin(double depth, double distance)
{
    return pilgartze_window_part(PILGARTZE_RIGHT_FIN, depth, distance);
}

static inline pilgartze_window_object pilgartze_left_fin(double depth, double distance)
{
    return pilgartze_window_part(PILGARTZE_LEFT_FIN, depth, distance);
}

static inline pilgartze_window_object pilgartze_reveal(double depth, double distance)
{
    return pilgartze_window_part(PILGARTZE_REVEAL, depth, distance);
}

/* ---- Seasons -------------------------------------------------------------------------------------------------- */

/* The shading of a job with the same sectors all the year: both lists are the same memory. (No version before 6 had two
 * lists: a program made for those begins its shading by this, and may leave both leaf days 0.) */
static inline pilgartze_shading pilgartze_all_year(uint64_t edition, const pilgartze_sector *sectors,
                                                   size_t sector_count, const pilgartze_window_object *window,
                                                   size_t window_count)
{
    pilgartze_shading shading;
    shading.edition = edition;
    shading.summer = sectors;
    shading.summer_count = sector_count;
    shading.winter = sectors;
    shading.winter_count = sector_count;
    shading.window = window;
    shading.window_count = window_count;
    return shading;
}

/* What pilgartze_day_of gives for a date that is not in the year. As a leaf day it is refused 15. */
#define PILGARTZE_NO_DAY 366

/* The day of the year, from 0, of a day (1..31) of a month (1..12): in a common year 20 April is 109, in a leap year
 * 110. Leap_year is 0 or 1, as in the site; with another, such as 2028, no date is in the year. */
static inline uint64_t pilgartze_day_of(uint64_t leap_year, uint64_t month, uint64_t day)
{
    static const unsigned char lengths[2][12] = {{31, 28, 31, 30, 31, 30, 31, 31, 30, 31, 30, 31},
                                                 {31, 29, 31, 30, 31, 30, 31, 31, 30, 31, 30, 31}};
    uint64_t before = 0, m;
    if (leap_year > 1 || month - 1 >= 12 || day - 1 >= lengths[leap_year][month - 1]) {
        return PILGARTZE_NO_DAY;
    }
    for (m = 1; m < month; m++) {
        before += lengths[leap_year][m - 1];
    }
    return before + day - 1;
}

/* ---- Calls with structs --------------------------------------------------------------------------------------- */

/* The two that follow are for the calls below. */

/* A list's bytes; of an empty list any pointer but NULL. */
static inline const uint8_t *pilgartze_bytes(const void *list, size_t count, const uint8_t *nothing)
{
    return count == 0 ? nothing : (const uint8_t *)list;
}

/* How many bytes so many records have; no list is as long as what a wrong count, such as -1, would come to. */
static inline size_t pilgartze_length(size_t count, size_t size)
{
    const size_t most = (size_t)-1 / 2;
    return count > most / size ? most : count * size;
}

/* pilgartze_run with structs. The rows are room for row_count results. For series of different lengths call
 * pilgartze_run itself. (Version 1 had no days, and no version before 4 had totals: declare a pilgartze_day_table and a
 * pilgartze_year_totals, and pass their addresses before the rows. No version before 5 had editions, and none before 6
 * two lists of sectors: begin the shading by pilgartze_all_year.) */
static inline pilgartze_answer pilgartze_run_job(const pilgartze_site *site, const pilgartze_run_times *run,
                                                 const pilgartze_surface *surface, const pilgartze_weather *weather,
                                                 const pilgartze_shading *shading, pilgartze_day_table *days,
                                                 pilgartze_year_totals *totals, pilgartze_row *rows,
                                                 size_t row_count)
{
    uint8_t nothing = 0;
    const size_t series_length = pilgartze_length(weather->count, sizeof(double));
    return pilgartze_run(
        shading->edition, site->latitude, site->longitude, site->timezone, site->start_day, site->series_step,
        site->leap_year, site->direct_beam_conversion, site->first_leaf_day, site->last_leaf_day, run->start, run->end,
        run->step, surface->tilt, surface->orientation, surface->base_height, surface->height, surface->width,
        pilgartze_bytes(weather->diffuse, weather->count, &nothing), series_length,
        pilgartze_bytes(weather->direct, weather->count, &nothing), series_length,
        pilgartze_bytes(weather->reflectivity, weather->count, &nothing), series_length,
        pilgartze_bytes(shading->summer, shading->summer_count, &nothing),
        pilgartze_length(shading->summer_count, sizeof(pilgartze_sector)),
        pilgartze_bytes(shading->winter, shading->winter_count, &nothing),
        pilgartze_length(shading->winter_count, sizeof(pilgartze_sector)),
        pilgartze_bytes(shading->window, shading->window_count, &nothing),
        pilgartze_length(shading->window_count, sizeof(pilgartze_window_object)),
        (uint8_t *)days, sizeof *days, (uint8_t *)totals, sizeof *totals,
        row_count == 0 ? &nothing : (uint8_t *)rows, pilgartze_length(row_count, sizeof(pilgartze_row)));
}

/* The totals of a day of the year, counted from 0 (0..364, in a leap year 0..365), and of a month (1..12), as a run
 * with that leap_year leaves them. NULL where the year has no such day or month. In a common year 28 February is day 58
 * and 1 March day 59. */
static inline const pilgartze_totals *pilgartze_day_totals(const pilgartze_year_totals *totals, uint64_t leap_year,
                                                           uint64_t day)
{
    return day < PILGARTZE_DAYS_IN_YEAR(leap_year) ? &totals->totals[day] : NULL;
}

static inline const pilgartze_totals *pilgartze_month_totals(const pilgartze_year_totals *totals, uint64_t leap_year,
                                                             uint64_t month)
{
    return month - 1 < PILGARTZE_MONTHS ? &totals->totals[PILGARTZE_DAYS_IN_YEAR(leap_year) + month - 1] : NULL;
}

/* pilgartze_step with structs. The row is written where the answer is 0, and untouched otherwise. */
static inline uint64_t pilgartze_step_at(const pilgartze_site *site, double time, const pilgartze_surface *surface,
                                         const pilgartze_reading *reading, const pilgartze_shading *shading,
                                         pilgartze_row *row)
{
    const uint8_t nothing = 0;
    return pilgartze_step(
        shading->edition, site->latitude, site->longitude, site->timezone, site->start_day, site->series_step,
        site->leap_year, site->direct_beam_conversion, site->first_leaf_day, site->last_leaf_day, time, surface->tilt,
        surface->orientation, surface->base_height, surface->height, surface->width, reading->diffuse, reading->direct,
        reading->reflectivity,
        pilgartze_bytes(shading->summer, shading->summer_count, &nothing),
        pilgartze_length(shading->summer_count, sizeof(pilgartze_sector)),
        pilgartze_bytes(shading->winter, shading->winter_count, &nothing),
        pilgartze_length(shading->winter_count, sizeof(pilgartze_sector)),
        pilgartze_bytes(shading->window, shading->window_count, &nothing),
        pilgartze_length(shading->window_count, sizeof(pilgartze_window_object)), (uint8_t *)row, sizeof *row);
}

/* pilgartze_irradiance with structs. The breakdown is written where the answer is 0, and untouched otherwise. */
static inline uint64_t pilgartze_irradiance_at(const pilgartze_site *site, double time,
                                               const pilgartze_surface *surface, const pilgartze_reading *reading,
                                               pilgartze_breakdown *breakdown)
{
    return pilgartze_irradiance(
        site->latitude, site->longitude, site->timezone, site->start_day, site->series_step, site->leap_year,
        site->direct_beam_conversion, site->first_leaf_day, site->last_leaf_day, time, surface->tilt,
        surface->orientation, surface->base_height, surface->height, surface->width, reading->diffuse, reading->direct,
        reading->reflectivity, (uint8_t *)breakdown, sizeof *breakdown);
}

/* pilgartze_factor with structs. It has no day: pass the sectors of the season that is meant.
 *
 * As one measure of an object is dragged the factor goes one way, where no shade extent is NaN: a taller or nearer
 * distant obstacle, a lower or farther distant overhang, a deeper or nearer overhang or fin at the window and a taller
 * or nearer near obstacle of transparency 0 never raise it, and a clearer near obstacle never lowers it
 * (docs/PROMISES.md, "Dragging a handle"). */
static inline pilgartze_factor_answer pilgartze_factor_at(uint64_t edition, double altitude, double azimuth,
                                                          const pilgartze_surface *surface,
                                                          const pilgartze_sector *sectors, size_t sector_count,
                                                          const pilgartze_window_object *window, size_t window_count)
{
    const uint8_t nothing = 0;
    return pilgartze_factor(edition, altitude, azimuth, surface->tilt, surface->orientation, surface->base_height,
                            surface->height, surface->width, pilgartze_bytes(sectors, sector_count, &nothing),
                            pilgartze_length(sector_count, sizeof(pilgartze_sector)),
                            pilgartze_bytes(window, window_count, &nothing),
                            pilgartze_length(window_count, sizeof(pilgartze_window_object)));
}

/* pilgartze_strips with structs. Where no shade extent of a strip is NaN the factor lies from 0 to 1, is exactly 1 with
 * no objects, is the same double with the same objects in any order and number, never larger with more, and as one
 * measure of an object is dragged it goes one way as that of pilgartze_factor_at does.
 *
 * - The distance of an overhang at the window counts from the upper edge of each strip, not of the glazing: one that is
 *   meant for the upper edge shades every strip as if it hung right above it.
 * - One strip need not give the double of pilgartze_factor, for it is multiplied by its height and divided by it again;
 *   nor need the factor lie from the least to the largest of the strips' own. Both by rounding alone. */
static inline pilgartze_factor_answer pilgartze_strips_at(uint64_t edition, double altitude, double azimuth,
                                                          const pilgartze_tall_glazing *glazing,
                                                          const pilgartze_sector *sectors, size_t sector_count,
                                                          const pilgartze_window_object *window, size_t window_count)
{
    const uint8_t nothing = 0;
    return pilgartze_strips(edition, altitude, azimuth, glazing->tilt, glazing->orientation, glazing->base_height,
                            glazing->width, pilgartze_bytes(glazing->heights, glazing->strip_count, &nothing),
                            pilgartze_length(glazing->strip_count, sizeof(double)),
                            pilgartze_bytes(sectors, sector_count, &nothing),
                            pilgartze_length(sector_count, sizeof(pilgartze_sector)),
                            pilgartze_bytes(window, window_count, &nothing),
                            pilgartze_length(window_count, sizeof(pilgartze_window_object)));
}

#ifdef __cplusplus
}
#endif

#endif
