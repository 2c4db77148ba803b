/* What the parts of the wrong engines share. */
#ifndef SOAK_WRONG_H
#define SOAK_WRONG_H

#include "pilgartze.h"

/* ---- Arguments ------------------------------------------------------------------------------------------------ */

#define SITE_NUMBERS                                                                                              \
    double latitude, double longitude, int64_t timezone, uint64_t start_day, double series_step, uint64_t leap_year, \
        uint64_t direct_beam_conversion, uint64_t first_leaf_day, uint64_t last_leaf_day
#define SITE                                                                                                  \
    latitude, longitude, timezone, start_day, series_step, leap_year, direct_beam_conversion, first_leaf_day, \
        last_leaf_day
#define SURFACE_NUMBERS double tilt, double orientation, double base_height, double height, double width
#define SURFACE tilt, orientation, base_height, height, width
#define LIST(name) const uint8_t *name, size_t name##_length
#define SERIES_LISTS LIST(diffuse), LIST(direct), LIST(reflectivity)
#define SERIES diffuse, diffuse_length, direct, direct_length, reflectivity, reflectivity_length
#define READINGS double diffuse, double direct, double reflectivity
#define READING diffuse, direct, reflectivity
#define OBJECT_LISTS LIST(summer), LIST(winter), LIST(window)
#define OBJECTS summer, summer_length, winter, winter_length, window, window_length
#define FACTOR_LISTS LIST(sectors), LIST(window)
#define FACTOR_OBJECTS sectors, sectors_length, window, window_length
#define DAYS_LIST uint8_t *days, size_t days_length
#define DAYS days, days_length
#define TOTALS_LIST uint8_t *totals, size_t totals_length
#define TOTALS totals, totals_length
#define RESULTS_LIST uint8_t *results, size_t results_length
#define RESULTS results, results_length
#define RUN_ARGUMENTS                                                                                                \
    uint64_t edition, SITE_NUMBERS, double start, double end, double step, SURFACE_NUMBERS, SERIES_LISTS, OBJECT_LISTS
#define STEP_ARGUMENTS uint64_t edition, SITE_NUMBERS, double time, SURFACE_NUMBERS, READINGS, OBJECT_LISTS
#define FACTOR_ARGUMENTS uint64_t edition, double altitude, double azimuth, SURFACE_NUMBERS, FACTOR_LISTS
#define STRIPS_ARGUMENTS                                                                                             \
    uint64_t edition, double altitude, double azimuth, double tilt, double orientation, double base_height,          \
        double width, LIST(heights), FACTOR_LISTS

/* The library's calls. */
pilgartze_answer sound_run(RUN_ARGUMENTS, DAYS_LIST, TOTALS_LIST, RESULTS_LIST);
uint64_t sound_step(STEP_ARGUMENTS, RESULTS_LIST);
uint64_t sound_irradiance(SITE_NUMBERS, double time, SURFACE_NUMBERS, READINGS, RESULTS_LIST);
pilgartze_factor_answer sound_factor(FACTOR_ARGUMENTS);

/* ---- Flaws ---------------------------------------------------------------------------------------------------- */

/* What of a run's times its sums may go by. */
typedef struct run_hours {
    double series_step, start, end, step;
} run_hours;

/* Whether that is the flaw of this run; "none" where it has none. */
int flaw(const char *name);
uint8_t read_at(const uint8_t *place);
/* Changes a byte of a list, if it has any. */
void change(const uint8_t *list, size_t length);
/* Takes more of the stack than a call may. */
void go_deep(void);

/* Whether a run with that number came as far as its steps; whether it was refused at one of them. */
int steps_tried(uint64_t number);
int step_refused(uint64_t number);

/* The totals as they were before the run, as far as there is room for them; some flaws read or store beside them. */
void totals_before(uint8_t *totals, size_t length, pilgartze_year_totals *former);
/* The length that a flaw takes for that of the totals. */
size_t wrong_totals_length(uint64_t leap_year, size_t length);
/* Whether a flaw takes totals that are too short. */
int short_totals_taken(uint64_t leap_year, size_t length, int no_steps);
/* Whether they are too short, and a flaw refuses them before all else. */
int short_totals_first(uint64_t leap_year, size_t length);
/* What a flaw makes of the totals after a run with that answer. */
void change_totals(const pilgartze_year_totals *former, const pilgartze_answer *answer, uint64_t leap_year,
                   const run_hours *hours, uint8_t *totals, size_t length, const uint8_t *results);

/* Whether there is such an edition. */
int known_edition(uint64_t edition);
/* The edition that a flaw takes for the one that is named, in all calls. */
uint64_t edition_taken(uint64_t edition);
/* What a flaw makes of a run that is refused 14, and stores. */
pilgartze_answer run_at_14(pilgartze_answer answer, DAYS_LIST, TOTALS_LIST, RESULTS_LIST);
/* Whether the flaw is one by which other fins shade. */
int takes_other_fins(void);
/* The factor that it gives; the library's, where it is none of these. */
pilgartze_factor_answer factor_by_other_fins(FACTOR_ARGUMENTS);
/* The same in a row of a step with that list. */
void change_factor(uint64_t edition, SURFACE_NUMBERS, FACTOR_LISTS, uint8_t *row);

/* Who asks for a factor: a run, another call, or one for a surface so high up as hardly any but a strip is. */
enum asker { A_RUN, ANOTHER_CALL, HIGH_UP };
/* The objects of a list with the sizes that a flaw takes, in the room if it is one of these. */
const uint8_t *objects_by_size(uint64_t edition, enum asker asker, int at_the_window, LIST(objects), uint8_t *room);
/* Whether the flaw is one by which a run with a large object has other factors; what it makes of its rows. */
int takes_other_rows(void);
void change_rows_by_size(double start, double step, LIST(window), uint8_t *results, size_t rows);

/* The sound calls, with the leaf days, the seasons and the lists that a flaw takes. */
pilgartze_answer run_by_seasons(RUN_ARGUMENTS, DAYS_LIST, TOTALS_LIST, RESULTS_LIST);
uint64_t step_by_seasons(STEP_ARGUMENTS, RESULTS_LIST);
uint64_t irradiance_by_seasons(SITE_NUMBERS, double time, SURFACE_NUMBERS, READINGS, RESULTS_LIST);
/* Whether the flaw is one by which a step walks another list. */
int takes_other_seasons(void);
/* Whether a step is in summer. */
int is_summer(uint64_t first_leaf_day, uint64_t last_leaf_day, double time);
/* Whether a leaf day is above 365. */
int no_leaf_day(uint64_t first_leaf_day, uint64_t last_leaf_day);
/* Lets another thread come between, also where there is one processor only. */
void wait_a_little(void);

#endif
