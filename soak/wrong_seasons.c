/* What the wrong engines of soak/wrong.c make of the leaf days, of the seasons and of their lists. */
#include "wrong.h"

#define ROW sizeof(pilgartze_row)
#define SECTOR sizeof(pilgartze_sector)
#define LAST_DAY ((uint64_t)365)

int no_leaf_day(uint64_t first_leaf_day, uint64_t last_leaf_day)
{
    return first_leaf_day > LAST_DAY || last_leaf_day > LAST_DAY;
}

static int from_to(uint64_t first, uint64_t last, uint64_t day)
{
    return first <= last ? first <= day && day <= last : first <= day || day <= last;
}

int is_summer(uint64_t first_leaf_day, uint64_t last_leaf_day, double time)
{
    return from_to(first_leaf_day, last_leaf_day, (uint64_t)time / 24);
}

/* ---- The leaf days -------------------------------------------------------------------------------------------- */

typedef struct leaf_days {
    uint64_t first, last;
} leaf_days;

/* Whether a flaw refuses leaf days that there are. */
static int refused_too(leaf_days of, uint64_t leap_year)
{
    const int has_365 = of.first == LAST_DAY || of.last == LAST_DAY;
    return (flaw("leaf_day_365_refused") && has_365) ||
           (flaw("leaf_day_365_refused_in_a_common_year") && has_365 && leap_year == 0) ||
           (flaw("leaf_day_0_refused") && (of.first == 0 || of.last == 0)) ||
           (flaw("turned_order_refused") && of.first > of.last) ||
           (flaw("one_leaf_day_refused") && of.first == of.last) ||
           (flaw("summer_all_the_year_refused") && of.first == of.last + 1);
}

/* The leaf days that a flaw takes for those that are given, in all calls. */
static leaf_days leaf_days_taken(leaf_days given, uint64_t leap_year)
{
    leaf_days taken = given;
    if (refused_too(given, leap_year)) {
        taken.first = LAST_DAY + 1;
    }
    if (flaw("leaf_day_366_taken")) {
        taken.first -= given.first == LAST_DAY + 1 ? 1 : 0;
        taken.last -= given.last == LAST_DAY + 1 ? 1 : 0;
    }
    if (flaw("first_leaf_day_not_checked") && given.first > LAST_DAY && given.last <= LAST_DAY) {
        taken.first = 0; /* the days up to the last are left */
    }
    if (flaw("last_leaf_day_not_checked") && given.last > LAST_DAY) {
        taken.last = LAST_DAY;
    }
    if (flaw("leaf_days_of_32_bits")) {
        taken = (leaf_days){(uint32_t)given.first, (uint32_t)given.last};
    }
    if (flaw("leaf_days_of_16_bits")) {
        taken = (leaf_days){(uint16_t)given.first, (uint16_t)given.last};
    }
    if (flaw("leaf_days_without_their_highest_bit")) {
        taken = (leaf_days){given.first & INT64_MAX, given.last & INT64_MAX};
    }
    return taken;
}

/* The same, where another thread may come between. */
static leaf_days kept_leaf_days(leaf_days taken)
{
    static volatile uint64_t first, last;
    if (flaw("leaf_days_kept_for_all_threads")) {
        first = taken.first;
        last = taken.last;
        wait_a_little();
        return (leaf_days){first, last};
    }
    return taken;
}

/* ---- The season of a step ------------------------------------------------------------------------------------- */

int takes_other_seasons(void)
{
    static const char *const flaws[] = {"summer_without_its_first_day",
                                        "summer_without_its_last_day",
                                        "summer_a_day_longer",
                                        "summer_of_one_day_is_winter",
                                        "turned_order_not_wrapped",
                                        "turned_order_exchanged",
                                        "turned_order_without_new_year",
                                        "turned_order_without_the_end",
                                        "turned_without_its_first_day",
                                        "turned_without_its_last_day",
                                        "summer_all_the_year_is_winter",
                                        "seasons_exchanged",
                                        "seasons_exchanged_in_the_south",
                                        "summer_all_the_year",
                                        "winter_all_the_year",
                                        "days_from_1",
                                        "days_from_the_series_on",
                                        "days_of_8_bits",
                                        "day_rounded",
                                        "season_of_the_end_of_the_step",
                                        "season_of_the_day_before",
                                        "leap_day_not_counted",
                                        "day_365_in_winter",
                                        "day_365_for_364_in_a_common_year",
                                        "season_kept_from_the_first_step",
                                        "season_one_step_late",
                                        "season_of_the_last_step",
                                        "summer_shades_in_winter_too",
                                        "first_and_last_exchanged",
                                        "season_of_the_next_hour"};
    size_t i;
    for (i = 0; i < sizeof flaws / sizeof flaws[0]; i++) {
        if (flaw(flaws[i])) {
            return 1;
        }
    }
    return 0;
}

/* A run as its seasons see it. */
typedef struct season_run {
    leaf_days leaf;
    uint64_t leap_year, start_day;
    double latitude, start, step;
    size_t steps;
} season_run;

static uint64_t day_of(double time)
{
    return time < 0.0 ? 0 : (uint64_t)time / 24;
}

/* The time by whose day the flaw goes. */
static double time_taken(const season_run *of, double time)
{
    if (flaw("season_kept_from_the_first_step")) {
        return of->start;
    }
    if (flaw("season_of_the_last_step")) {
        return of->start + of->step * (double)(of->steps - 1);
    }
    if (flaw("season_one_step_late") && time > of->start) {
        return time - of->step;
    }
    if (flaw("season_of_the_end_of_the_step")) {
        return time + of->step;
    }
    if (flaw("season_of_the_next_hour")) {
        return time + 1.0;
    }
    if (flaw("season_of_the_day_before")) {
        return time - 24.0;
    }
    return flaw("day_rounded") ? time + 12.0 : time;
}

static uint64_t day_taken(const season_run *of, double time)
{
    const uint64_t day = day_of(time_taken(of, time));
    if (flaw("days_from_1")) {
        return day + 1;
    }
    if (flaw("days_from_the_series_on")) {
        return day >= of->start_day ? day - of->start_day : 0;
    }
    if (flaw("days_of_8_bits")) {
        return (uint8_t)day;
    }
    return flaw("leap_day_not_counted") && of->leap_year != 0 && day > 58 ? day - 1 : day;
}

/* The first leaf day is not above the last. */
static int summer_in_order(leaf_days leaf, uint64_t day)
{
    if (flaw("summer_without_its_first_day") && day == leaf.first) {
        return 0;
    }
    if (flaw("summer_without_its_last_day") && day == leaf.last) {
        return 0;
    }
    if (flaw("summer_a_day_longer") && day == leaf.last + 1) {
        return 1;
    }
    if (flaw("summer_of_one_day_is_winter") && leaf.first == leaf.last) {
        return 0;
    }
    return from_to(leaf.first, leaf.last, day);
}

/* It is. */
static int summer_turned(leaf_days leaf, uint64_t day)
{
    if (flaw("turned_order_not_wrapped") || (flaw("summer_all_the_year_is_winter") && leaf.first == leaf.last + 1)) {
        return 0;
    }
    if (flaw("turned_order_exchanged")) {
        return from_to(leaf.last, leaf.first, day);
    }
    if (flaw("turned_order_without_new_year")) {
        return day >= leaf.first;
    }
    if (flaw("turned_order_without_the_end")) {
        return day <= leaf.last;
    }
    if ((flaw("turned_without_its_first_day") && day == leaf.first) ||
        (flaw("turned_without_its_last_day") && day == leaf.last)) {
        return 0;
    }
    return from_to(leaf.first, leaf.last, day);
}

static int summer_taken(const season_run *of, double time)
{
    const uint64_t day = day_taken(of, time);
    leaf_days leaf = of->leaf;
    int summer;
    if (flaw("first_and_last_exchanged")) {
        leaf = (leaf_days){of->leaf.last, of->leaf.first};
    }
    if (flaw("day_365_for_364_in_a_common_year") && of->leap_year == 0) {
        leaf.first -= leaf.first == LAST_DAY ? 1 : 0;
    }
    summer = leaf.first <= leaf.last ? summer_in_order(leaf, day) : summer_turned(leaf, day);
    if (flaw("seasons_exchanged") || (flaw("seasons_exchanged_in_the_south") && of->latitude < 0.0)) {
        return !summer;
    }
    if (flaw("summer_all_the_year") || flaw("winter_all_the_year")) {
        return flaw("summer_all_the_year");
    }
    return flaw("day_365_in_winter") && day == LAST_DAY ? 0 : summer;
}

/* ---- The lists ------------------------------------------------------------------------------------------------ */

/* Both lists as a flaw takes them. */
typedef struct season_lists {
    const uint8_t *summer;
    size_t summer_length;
    const uint8_t *winter;
    size_t winter_length;
} season_lists;

/* Whether there is nothing wrong with a list, as the factor sees it: the sun is outside the beam. */
static int sound_list(LIST(sectors))
{
    const uint8_t none = 0;
    return sound_factor(PILGARTZE_EDITION_1, 0.0, 180.0, 90.0, 180.0, 0.0, 1.0, 1.0, sectors, sectors_length, &none, 0)
               .number == 0;
}

/* Whether a flaw refuses two lists that are both sound. */
static int lists_refused(const season_lists *of)
{
    const int meet = of->summer < of->winter + of->winter_length && of->winter < of->summer + of->summer_length;
    return (flaw("lists_of_other_lengths_refused") && of->summer_length != of->winter_length) ||
           (flaw("one_empty_list_refused") && (of->summer_length == 0) != (of->winter_length == 0)) ||
           (flaw("the_same_memory_refused") && of->summer == of->winter && meet) ||
           (flaw("lists_that_overlap_refused") && of->summer != of->winter && meet);
}

static size_t shorter(size_t length, int by_a_record)
{
    return by_a_record && length >= SECTOR ? length - SECTOR : length;
}

/* Both are sound. */
static season_lists parts_taken(season_lists of)
{
    const int first_gone = flaw("winter_without_its_first_record") && of.winter_length >= SECTOR;
    of.summer_length = shorter(of.summer_length, flaw("summer_a_record_short"));
    of.winter_length = shorter(of.winter_length, flaw("winter_a_record_short") || first_gone);
    of.winter += first_gone ? SECTOR : 0;
    if (flaw("winter_not_longer_than_summer") && of.winter_length > of.summer_length) {
        of.winter_length = of.summer_length;
    }
    if (flaw("summer_not_longer_than_winter") && of.summer_length > of.winter_length) {
        of.summer_length = of.winter_length;
    }
    if (flaw("summer_for_an_empty_winter") && of.winter_length == 0) {
        of = (season_lists){of.summer, of.summer_length, of.summer, of.summer_length};
    }
    return of;
}

/* Whether a list has too many sectors, which all flaws see. */
static int too_long(const season_lists *of)
{
    const size_t most = SECTOR * PILGARTZE_MOST_SECTORS;
    return of->summer_length > most || of->winter_length > most;
}

/* The lists that a flaw goes by; a list that it does not look at is the other one. */
static season_lists lists_taken(season_lists of, int has_summer, int has_winter)
{
    const int summer = sound_list(of.summer, of.summer_length);
    const int winter = sound_list(of.winter, of.winter_length);
    if (summer && winter) {
        return parts_taken(of);
    }
    if (too_long(&of)) {
        return of;
    }
    if (summer && (flaw("winter_list_not_checked") || (flaw("unused_list_not_checked") && !has_winter))) {
        return (season_lists){of.summer, of.summer_length, of.summer, of.summer_length};
    }
    if (winter && (flaw("summer_list_not_checked") || (flaw("unused_list_not_checked") && !has_summer))) {
        return (season_lists){of.winter, of.winter_length, of.winter, of.winter_length};
    }
    return of;
}

/* ---- The run -------------------------------------------------------------------------------------------------- */

static size_t steps_of(double start, double end, double step)
{
    double time = start;
    size_t count = start == end ? 0 : 1;
    while (count > 0 && count < PILGARTZE_MOST_STEPS && time < end - step) {
        time += step;
        count += 1;
    }
    return count;
}

/* Whether a run has a step in summer, or in winter. */
static int has_season(const season_run *of, int summer)
{
    double time = of->start;
    size_t i;
    for (i = 0; i < of->steps; i++) {
        if (is_summer(of->leaf.first, of->leaf.last, time) == summer) {
            return 1;
        }
        time += of->step;
    }
    return 0;
}

/* The lists of a run all of whose steps are in one season by the flaw: that season's, twice. */
static season_lists lists_of_one_season(const season_run *of, season_lists lists)
{
    const int summer = of->steps > 0 && summer_taken(of, of->start);
    double time = of->start;
    size_t i;
    for (i = 0; i < of->steps; i++) {
        if (summer_taken(of, time) != summer) {
            return lists;
        }
        time += of->step;
    }
    return summer ? (season_lists){lists.summer, lists.summer_length, lists.summer, lists.summer_length}
                  : (season_lists){lists.winter, lists.winter_length, lists.winter, lists.winter_length};
}

static double value_at(const uint8_t *series, size_t index)
{
    double value;
    memcpy(&value, series + 8 * index, sizeof value);
    return value;
}

/* A row with the list of one season in both places, where that is accepted. */
static void store_by_list(uint64_t edition, SITE_NUMBERS, double time, SURFACE_NUMBERS, READINGS, FACTOR_LISTS,
                          uint8_t *row)
{
    uint8_t made[ROW];
    double before, after;
    if (sound_step(edition, SITE, time, SURFACE, READING, sectors, sectors_length, sectors, sectors_length, window,
                   window_length, made, sizeof made) == 0) {
        memcpy(&before, row + offsetof(pilgartze_row, factor), sizeof before);
        memcpy(&after, made + offsetof(pilgartze_row, factor), sizeof after);
        if (!flaw("summer_shades_in_winter_too") || after < before) {
            memcpy(row, made, ROW);
        }
    }
}

/* The rows that a flaw has by the list of the other season. */
static void change_rows(const season_run *of, RUN_ARGUMENTS, uint8_t *results, size_t rows)
{
    double time = start;
    size_t i;
    for (i = 0; i < rows && takes_other_seasons(); i++) {
        const int is = is_summer(of->leaf.first, of->leaf.last, time);
        const int taken = flaw("summer_shades_in_winter_too") ? 1 : summer_taken(of, time);
        const double place = (time - 24.0 * (double)start_day) / series_step;
        const size_t index = place < 0.0 ? 0 : (size_t)place;
        if (is != taken) {
            store_by_list(edition, SITE, time, SURFACE, value_at(diffuse, index), value_at(direct, index),
                          value_at(reflectivity, index), taken ? summer : winter, taken ? summer_length : winter_length,
                          window, window_length, results + ROW * i);
        }
        time += step;
    }
    (void)end;
    (void)diffuse_length;
    (void)direct_length;
    (void)reflectivity_length;
}

/* Whether a flaw gives a run's other refusal, with a leaf day that there is not, before 15. The run has no leaf days
 * then, and no table of days, so that nothing is stored. */
static int other_refusal_first(uint64_t number)
{
    return (flaw("leaf_days_after_2") && number == PILGARTZE_REFUSED_RUN) ||
           (flaw("leaf_days_after_3") && number >= PILGARTZE_REFUSED_RUN && number <= PILGARTZE_REFUSED_SURFACE) ||
           (flaw("leaf_days_after_4") && number >= PILGARTZE_REFUSED_RUN && number <= PILGARTZE_REFUSED_OBJECT) ||
           (flaw("leaf_days_after_6") && number >= PILGARTZE_REFUSED_RUN && number <= PILGARTZE_REFUSED_READING);
}

/* What a flaw makes of a run that is refused 15, and stores. */
static pilgartze_answer run_at_15(pilgartze_answer answer, DAYS_LIST, TOTALS_LIST, RESULTS_LIST)
{
    if (flaw("run_at_15_stores") && results_length > 0) {
        results[0] ^= 1;
    }
    if (flaw("run_at_15_changes_the_days") && days_length > 0) {
        days[0] ^= 1;
    }
    if (flaw("run_at_15_changes_the_totals") && totals_length > 0) {
        totals[0] ^= 1;
    }
    answer.step = flaw("step_1_at_15") ? 1 : answer.step;
    answer.count = flaw("count_1_at_15") ? 1 : answer.count;
    answer.sum = flaw("sum_at_15") ? -0.0 : answer.sum;
    answer.number = flaw("leaf_days_refused_as_site") ? PILGARTZE_REFUSED_SITE : answer.number;
    return answer;
}

/* With a leaf day that there is not. */
static pilgartze_answer run_without_leaf_days(RUN_ARGUMENTS, DAYS_LIST, TOTALS_LIST, RESULTS_LIST)
{
    const leaf_days given = {first_leaf_day, last_leaf_day};
    pilgartze_answer answer;
    first_leaf_day = last_leaf_day = 0;
    if (flaw("any_leaf_days_for_no_steps") && start == end) {
        return sound_run(edition, SITE, start, end, step, SURFACE, SERIES, OBJECTS, DAYS, TOTALS, RESULTS);
    }
    if (flaw("leaf_days_before_1")) {
        return (pilgartze_answer){PILGARTZE_REFUSED_LEAF_DAY, 0, 0, 0.0};
    }
    answer = sound_run(edition, SITE, start, end, step, SURFACE, SERIES, OBJECTS, days, 0, TOTALS, RESULTS);
    if (other_refusal_first(answer.number)) {
        return answer;
    }
    first_leaf_day = given.first;
    last_leaf_day = given.last;
    answer = sound_run(edition, SITE, start, end, step, SURFACE, SERIES, OBJECTS, DAYS, TOTALS, RESULTS);
    return answer.number == PILGARTZE_REFUSED_LEAF_DAY ? run_at_15(answer, DAYS, TOTALS, RESULTS) : answer;
}

/* The number of the refusal that comes before the steps; 7 where there is none, since it is lent no table of days. */
#define NUMBER_BEFORE_THE_STEPS                                                                                        \
    sound_run(edition, SITE, start, end, step, SURFACE, SERIES, OBJECTS, days, 0, TOTALS, RESULTS).number

pilgartze_answer run_by_seasons(RUN_ARGUMENTS, DAYS_LIST, TOTALS_LIST, RESULTS_LIST)
{
    const leaf_days taken = kept_leaf_days(leaf_days_taken((leaf_days){first_leaf_day, last_leaf_day}, leap_year));
    season_lists lists = {summer, summer_length, winter, winter_length};
    season_run of = {taken, leap_year, start_day, latitude, start, step, 0};
    pilgartze_answer answer;
    uint64_t number;
    first_leaf_day = taken.first;
    last_leaf_day = taken.last;
    if (no_leaf_day(taken.first, taken.last)) {
        return run_without_leaf_days(edition, SITE, start, end, step, SURFACE, SERIES, OBJECTS, DAYS, TOTALS, RESULTS);
    }
    number = NUMBER_BEFORE_THE_STEPS;
    if (number >= PILGARTZE_REFUSED_OBJECT && number <= PILGARTZE_REFUSED_RESULTS) {
        of.steps = steps_of(start, end, step);
        if (number > PILGARTZE_REFUSED_OBJECT && lists_refused(&lists)) {
            return (pilgartze_answer){PILGARTZE_REFUSED_OBJECT, 0, 0, 0.0};
        }
        lists = lists_taken(lists, has_season(&of, 1), has_season(&of, 0));
    }
    if (number > PILGARTZE_REFUSED_OBJECT && takes_other_seasons() && !flaw("summer_shades_in_winter_too")) {
        lists = lists_of_one_season(&of, lists);
    }
    answer = sound_run(edition, SITE, start, end, step, SURFACE, SERIES, lists.summer, lists.summer_length,
                       lists.winter, lists.winter_length, window, window_length, DAYS, TOTALS, RESULTS);
    if (steps_tried(answer.number)) {
        change_rows(&of, edition, SITE, start, end, step, SURFACE, SERIES, OBJECTS, results,
                    (size_t)(answer.number == 0 ? answer.count : answer.step));
    }
    return answer;
}

/* ---- The single calls ----------------------------------------------------------------------------------------- */

/* With a leaf day that there is not. */
static uint64_t step_without_leaf_days(STEP_ARGUMENTS, RESULTS_LIST)
{
    const leaf_days given = {first_leaf_day, last_leaf_day};
    uint64_t number;
    first_leaf_day = last_leaf_day = 0;
    if (flaw("step_takes_any_leaf_day")) {
        return sound_step(edition, SITE, time, SURFACE, READING, OBJECTS, RESULTS);
    }
    if (flaw("step_tries_the_leaf_days_before_1")) {
        return PILGARTZE_REFUSED_LEAF_DAY;
    }
    number = sound_step(edition, SITE, time, SURFACE, READING, OBJECTS, results, 0);
    if (flaw("step_tries_the_time_before_15") && number == PILGARTZE_REFUSED_RUN) {
        return number;
    }
    if (flaw("step_tries_the_reading_before_15") && number == PILGARTZE_REFUSED_READING) {
        return number;
    }
    first_leaf_day = given.first;
    last_leaf_day = given.last;
    number = sound_step(edition, SITE, time, SURFACE, READING, OBJECTS, RESULTS);
    if (flaw("step_at_15_stores") && number == PILGARTZE_REFUSED_LEAF_DAY && results_length > 0) {
        results[0] ^= 1;
    }
    return number;
}

/* By which number a step is refused with the list of the season that it is not in; 0 where it is not. */
static uint64_t refused_by_the_other(STEP_ARGUMENTS)
{
    const int in_summer = is_summer(first_leaf_day, last_leaf_day, time);
    uint8_t row[ROW];
    if (in_summer) {
        summer = winter;
        summer_length = winter_length;
    } else {
        winter = summer;
        winter_length = summer_length;
    }
    return sound_step(edition, SITE, time, SURFACE, READING, OBJECTS, row, sizeof row);
}

/* Whether the step walks the summer list. */
static int step_in_summer(const season_run *of, double time)
{
    if (flaw("step_in_summer_always") || flaw("step_in_winter_always")) {
        return flaw("step_in_summer_always");
    }
    return flaw("summer_shades_in_winter_too") ? is_summer(of->leaf.first, of->leaf.last, time)
                                               : summer_taken(of, time);
}

/* The lists that a flaw goes by at a single step, which was refused 7 where all before that is well. */
static season_lists lists_of_step(const season_run *of, uint64_t number, season_lists given)
{
    const season_lists summer = {given.summer, given.summer_length, given.summer, given.summer_length};
    const season_lists winter = {given.winter, given.winter_length, given.winter, given.winter_length};
    if (flaw("step_checks_the_list_of_its_season") && !too_long(&given)) {
        return is_summer(of->leaf.first, of->leaf.last, of->start) ? summer : winter;
    }
    if (number == PILGARTZE_REFUSED_RESULTS &&
        (takes_other_seasons() || flaw("step_in_summer_always") || flaw("step_in_winter_always"))) {
        return step_in_summer(of, of->start) ? summer : winter;
    }
    return lists_taken(given, 1, 1);
}

uint64_t step_by_seasons(STEP_ARGUMENTS, RESULTS_LIST)
{
    const leaf_days taken = kept_leaf_days(leaf_days_taken((leaf_days){first_leaf_day, last_leaf_day}, leap_year));
    const season_run of = {taken, leap_year, start_day, latitude, time, 1.0, 1};
    season_lists lists = {summer, summer_length, winter, winter_length};
    uint64_t number;
    first_leaf_day = taken.first;
    last_leaf_day = taken.last;
    if (no_leaf_day(taken.first, taken.last)) {
        return step_without_leaf_days(edition, SITE, time, SURFACE, READING, OBJECTS, RESULTS);
    }
    number = sound_step(edition, SITE, time, SURFACE, READING, OBJECTS, results, 0);
    if (number != PILGARTZE_REFUSED_OBJECT && number != PILGARTZE_REFUSED_READING &&
        number != PILGARTZE_REFUSED_RESULTS) {
        return number;
    }
    if (number != PILGARTZE_REFUSED_OBJECT && lists_refused(&lists)) {
        return PILGARTZE_REFUSED_OBJECT;
    }
    if (flaw("step_walks_both_lists") && number == PILGARTZE_REFUSED_RESULTS && results_length >= ROW) {
        number = refused_by_the_other(edition, SITE, time, SURFACE, READING, OBJECTS);
        if (step_refused(number)) {
            return number;
        }
    }
    lists = lists_of_step(&of, number, lists);
    return sound_step(edition, SITE, time, SURFACE, READING, lists.summer, lists.summer_length, lists.winter,
                      lists.winter_length, window, window_length, RESULTS);
}

/* With a leaf day that there is not. */
static uint64_t irradiance_without_leaf_days(SITE_NUMBERS, double time, SURFACE_NUMBERS, READINGS, RESULTS_LIST)
{
    const leaf_days given = {first_leaf_day, last_leaf_day};
    uint64_t number;
    first_leaf_day = last_leaf_day = 0;
    if (flaw("irradiance_takes_any_leaf_day")) {
        return sound_irradiance(SITE, time, SURFACE, READING, RESULTS);
    }
    if (flaw("irradiance_tries_the_leaf_days_before_1")) {
        return PILGARTZE_REFUSED_LEAF_DAY;
    }
    number = sound_irradiance(SITE, time, SURFACE, READING, results, 0);
    if (flaw("irradiance_tries_the_time_before_15") && number == PILGARTZE_REFUSED_RUN) {
        return number;
    }
    first_leaf_day = given.first;
    last_leaf_day = given.last;
    number = sound_irradiance(SITE, time, SURFACE, READING, RESULTS);
    if (flaw("irradiance_at_15_stores") && number == PILGARTZE_REFUSED_LEAF_DAY && results_length > 0) {
        results[0] ^= 1;
    }
    return number;
}

uint64_t irradiance_by_seasons(SITE_NUMBERS, double time, SURFACE_NUMBERS, READINGS, RESULTS_LIST)
{
    const leaf_days taken = leaf_days_taken((leaf_days){first_leaf_day, last_leaf_day}, leap_year);
    uint64_t number;
    first_leaf_day = taken.first;
    last_leaf_day = taken.last;
    if (no_leaf_day(taken.first, taken.last)) {
        return irradiance_without_leaf_days(SITE, time, SURFACE, READING, RESULTS);
    }
    number = sound_irradiance(SITE, time, SURFACE, READING, RESULTS);
    if (flaw("irradiance_by_season") && number == 0 && is_summer(taken.first, taken.last, time)) {
        results[offsetof(pilgartze_breakdown, ground)] ^= 1;
    }
    return number;
}
