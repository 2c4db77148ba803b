/* Engines that are wrong in one way each, which the soak has to find: the sound library under other names, and around
 * it what the flaw does that the environment variable SOAK_FLAW names. soak/flaws says by what each must be found. What
 * flaws do to the totals of days and months stands in soak/wrong_totals.c, what they do to editions and fins in
 * soak/wrong_editions.c, to leaf days and seasons in soak/wrong_seasons.c, to sizes in soak/wrong_sizes.c, and to tall
 * glazing in strips in soak/wrong_strips.c. */
#define _POSIX_C_SOURCE 200809L
#include "wrong.h"

#include <fenv.h>
#include <math.h>
#include <stdlib.h>
#include <time.h>

#define ROW sizeof(pilgartze_row)
#define DAY sizeof(pilgartze_day_values)

int flaw(const char *name)
{
    static const char *chosen = NULL;
    if (chosen == NULL) {
        chosen = getenv("SOAK_FLAW") == NULL ? "none" : getenv("SOAK_FLAW");
    }
    return strcmp(chosen, name) == 0;
}

int step_refused(uint64_t number)
{
    return number >= PILGARTZE_REFUSED_GAP && number <= PILGARTZE_REFUSED_REVEAL;
}

int steps_tried(uint64_t number)
{
    return number == 0 || step_refused(number);
}

/* ---- What a flaw does before the run -------------------------------------------------------------------------- */

void change(const uint8_t *list, size_t length)
{
    if (length > 0) {
        *(volatile uint8_t *)(uintptr_t)list ^= 1;
    }
}

uint8_t read_at(const uint8_t *place)
{
    return *(const volatile uint8_t *)place;
}

/* Its stack is taken only where it is called. */
__attribute__((noinline)) void go_deep(void)
{
    volatile uint8_t deep[2 * PILGARTZE_STACK_BYTES];
    size_t i;
    for (i = 0; i < sizeof deep; i += 64) {
        deep[i] = 1;
    }
}

void wait_a_little(void)
{
    const struct timespec little = {0, 20000};
    nanosleep(&little, NULL);
}

/* As a run with no steps does. */
static void fill_days(uint8_t *days)
{
    uint8_t none = 0;
    pilgartze_year_totals own;
    sound_run(PILGARTZE_EDITION_1, 0.0, 0.0, 0, 0, 1.0, 0, 0, 0, 0, 1.0, 1.0, 1.0, 90.0, 0.0, 0.0, 1.0, 1.0, &none, 0,
              &none, 0, &none, 0, &none, 0, &none, 0, &none, 0, days, PILGARTZE_DAYS_LENGTH, (uint8_t *)&own,
              sizeof own, &none, 0);
}

static void before_days(DAYS_LIST)
{
    if (flaw("reads_past_the_days")) {
        read_at(days + days_length);
    }
    if (flaw("reads_before_the_days")) {
        read_at(days - 1);
    }
    /* on the same page, where no guard sees it */
    if (flaw("stores_a_byte_before_the_days") && (uintptr_t)days % 4096 != 0) {
        days[-1] ^= 1;
    }
    if (flaw("days_filled_before_the_checks") && days_length >= PILGARTZE_DAYS_LENGTH) {
        fill_days(days);
    }
}

static void before_run(LIST(direct), LIST(reflectivity), OBJECT_LISTS)
{
    if (flaw("changes_a_series")) {
        change(direct, direct_length);
    }
    if (flaw("changes_the_window_and_mends_it")) {
        change(window, window_length);
        change(window, window_length);
    }
    if (flaw("reads_past_a_series")) {
        read_at(reflectivity + reflectivity_length);
    }
    if (flaw("reads_before_the_sectors")) {
        read_at(summer - 1);
    }
    if (flaw("reads_before_the_winter_list")) {
        read_at(winter - 1);
    }
    if (flaw("reads_past_the_winter_list")) {
        read_at(winter + winter_length);
    }
    if (flaw("changes_the_winter_list")) {
        change(winter, winter_length);
    }
    if (flaw("deep_stack")) {
        go_deep();
    }
    if (flaw("rounds_upwards")) {
        fesetround(FE_UPWARD);
    }
    (void)summer_length;
}

/* ---- And after it --------------------------------------------------------------------------------------------- */

static void stores_of_acceptance(const pilgartze_answer *answer, RESULTS_LIST)
{
    static unsigned calls = 0;
    const size_t stored = ROW * (size_t)answer->count;
    calls += 1;
    if (flaw("stores_behind_the_last_row") && results_length > stored) {
        results[stored] ^= 1;
    }
    if (flaw("changes_a_bit_the_second_time") && stored > 0 && calls % 2 == 0) {
        results[0] ^= 1;
    }
}

static void stores_of_refusal(const pilgartze_answer *answer, RESULTS_LIST)
{
    if (flaw("stores_though_refused") && !step_refused(answer->number) && results_length > 0) {
        results[results_length - 1] ^= 1;
    }
    if (flaw("stores_the_refused_row") && step_refused(answer->number)) {
        results[ROW * (size_t)answer->step] ^= 1;
    }
    while (flaw("does_not_return") && answer->number == PILGARTZE_REFUSED_SERIES) {
    }
}

static void wrong_stores(const pilgartze_answer *answer, RESULTS_LIST)
{
    if (flaw("stores_a_byte_past_the_results")) {
        results[results_length] ^= 1;
    }
    if (flaw("stores_a_byte_before_the_results")) {
        results[-1] ^= 1;
    }
    if (answer->number == 0) {
        stores_of_acceptance(answer, RESULTS);
    } else {
        stores_of_refusal(answer, RESULTS);
    }
}

static double nan_double(void)
{
    const uint64_t bits = UINT64_C(0x7FF8000000000000);
    double nan;
    memcpy(&nan, &bits, sizeof nan);
    return nan;
}

/* The altitude is exactly 90. */
static void wrong_overhead(pilgartze_row *row)
{
    if (flaw("nan_for_the_sun_overhead")) {
        row->altitude = nan_double();
    }
    if (flaw("factor_1_for_the_sun_overhead")) {
        row->factor = 1.0;
    }
}

static void wrong_rows(uint8_t *results, size_t rows)
{
    const uint64_t above = UINT64_C(0x3FF0000000000001);
    size_t i;
    for (i = 0; i < rows; i++) {
        pilgartze_row row;
        memcpy(&row, results + ROW * i, sizeof row);
        if (row.altitude == 90.0) {
            wrong_overhead(&row);
        }
        if (flaw("factor_above_one") && row.factor == 1.0) {
            memcpy(&row.factor, &above, sizeof above);
        }
        memcpy(results + ROW * i, &row, sizeof row);
    }
}

/* Those of the last step up to the end of the run; all, where it ends before that. */
static double hours_to_the_end(const run_hours *of, size_t rows)
{
    double time = of->start;
    for (; rows > 1; rows--) {
        time += of->step;
    }
    return time + of->step <= of->end ? of->step : time < of->end ? of->end - time : 0.0;
}

/* The sum with what a row, of so many hours, adds to it. */
static double with_row(double sum, const pilgartze_row *row, double hours)
{
    const double shaded = row->factor * row->direct;
    if (flaw("step_left_out") || flaw("step_once_at_the_end")) {
        return sum + shaded;
    }
    if (flaw("step_times_direct_first")) {
        return sum + row->factor * (row->direct * hours);
    }
    return flaw("product_not_rounded") ? fma(shaded, hours, sum) : sum + shaded * hours;
}

static double sum_of(const uint8_t *results, size_t rows, const run_hours *of)
{
    const int from_the_last = flaw("sum_from_the_last") || (flaw("hours_from_the_last") && of->step == 1.0);
    const double hours = flaw("series_step_in_the_sum") ? of->series_step : of->step;
    const double last_hours = flaw("last_step_up_to_the_end") ? hours_to_the_end(of, rows) : hours;
    double sum = 0.0;
    size_t i;
    for (i = 0; i < rows; i++) {
        const size_t place = from_the_last ? rows - 1 - i : i;
        pilgartze_row row;
        memcpy(&row, results + ROW * place, sizeof row);
        sum = with_row(sum, &row, place + 1 == rows ? last_hours : hours);
    }
    return flaw("step_once_at_the_end") ? sum * hours : sum;
}

/* Whether the sum is to be added up here; otherwise it is the library's. */
static int sum_of_its_own(void)
{
    return flaw("sum_from_the_last") || flaw("hours_from_the_last") || flaw("step_left_out") ||
           flaw("step_times_direct_first") || flaw("step_once_at_the_end") || flaw("series_step_in_the_sum") ||
           flaw("last_step_up_to_the_end") || flaw("product_not_rounded") || flaw("factor_1_for_the_sun_overhead") ||
           takes_other_fins() || takes_other_seasons() || takes_other_rows();
}

static double wrong_sum(double sum, const uint8_t *results, size_t rows, const run_hours *of)
{
    if (sum_of_its_own()) {
        return sum_of(results, rows, of);
    }
    return flaw("nan_sum") ? nan_double() : sum;
}

static pilgartze_answer wrong_answer(pilgartze_answer answer, uint8_t *results, const run_hours *of)
{
    if (answer.number == 0) {
        wrong_rows(results, (size_t)answer.count);
        answer.sum = wrong_sum(answer.sum, results, (size_t)answer.count, of);
        answer.count -= flaw("one_step_less") && answer.count > 0 ? 1 : 0;
        return answer;
    }
    answer.count = flaw("counts_though_refused") ? answer.step : answer.count;
    answer.sum = flaw("minus_zero_sum") ? -0.0 : answer.sum;
    answer.step += flaw("step_of_an_early_refusal") && !step_refused(answer.number) ? 1 : 0;
    answer.number = flaw("gives_number_12") && answer.number == PILGARTZE_REFUSED_REVEAL ? 12 : answer.number;
    return answer;
}

/* ---- The table of days ---------------------------------------------------------------------------------------- */

static size_t wrong_days_length(size_t length)
{
    if (flaw("days_one_byte_longer_wanted") && length == PILGARTZE_DAYS_LENGTH) {
        return length - 1;
    }
    return flaw("days_length_of_32_bits") ? (uint32_t)length : length;
}

/* Lets the table be what it was, from that day on. */
static void leave_days(const pilgartze_day_table *former, size_t day, uint8_t *days)
{
    memcpy(days + DAY * day, &former->days[day], DAY * (PILGARTZE_DAYS - day));
}

/* A table that is not filled, where all of it should be. */
static void leave_some_days(const pilgartze_day_table *former, const pilgartze_answer *answer, uint64_t leap_year,
                            uint8_t *days)
{
    const int no_steps = answer->number == 0 && answer->count == 0;
    if ((flaw("days_not_filled_where_refused") && answer->number != 0) ||
        (flaw("days_not_filled_for_no_steps") && no_steps) ||
        (flaw("days_not_filled_twice") && memcmp(days, former, DAY) == 0)) {
        leave_days(former, 0, days);
    }
    if (flaw("day_366_not_filled") || (flaw("day_366_left_in_a_common_year") && leap_year == 0)) {
        leave_days(former, 365, days);
    }
}

static void wrong_values_of_days(uint8_t *days)
{
    const double nan = nan_double();
    size_t at;
    for (at = 0; at < PILGARTZE_DAYS_LENGTH && flaw("day_values_exchanged"); at += DAY) {
        pilgartze_day_values day;
        memcpy(&day, days + at, sizeof day);
        memcpy(days + at, &day.equation_of_time, 8);
        memcpy(days + at + 8, &day.declination, 8);
    }
    if (flaw("nan_on_the_last_day")) {
        memcpy(days + PILGARTZE_DAYS_LENGTH - 8, &nan, sizeof nan);
    }
}

/* The list has room for the table. */
static void wrong_table(const pilgartze_day_table *former, const pilgartze_answer *answer, uint64_t leap_year,
                        DAYS_LIST)
{
    if (steps_tried(answer->number)) {
        leave_some_days(former, answer, leap_year, days);
        wrong_values_of_days(days);
        if (flaw("stores_behind_the_days") && days_length > PILGARTZE_DAYS_LENGTH) {
            days[PILGARTZE_DAYS_LENGTH] ^= 1;
        }
    }
}

/* The bits by which what was in the results, in the table or in the totals before changes the first row. */
static uint8_t bits_from_before(uint8_t old, const pilgartze_day_table *days, const pilgartze_year_totals *totals)
{
    if (flaw("reads_the_former_days")) {
        return *(const uint8_t *)days;
    }
    if (flaw("reads_the_former_totals")) {
        return *(const uint8_t *)totals;
    }
    return flaw("reads_the_results") ? old % 2 : 0;
}

/* ---- In an edition that there is ------------------------------------------------------------------------------ */

#define SECTOR sizeof(pilgartze_sector)

/* The sectors without the first, or without the last that a list can have. */
static size_t left_out(int first, size_t length)
{
    return first && length >= SECTOR ? SECTOR : 0;
}

static size_t walked(int first, int last, size_t length)
{
    return last && length == SECTOR * PILGARTZE_MOST_SECTORS ? length - SECTOR : length - left_out(first, length);
}

/* How much of the window's list the factor goes by. */
static size_t looked_at(size_t length)
{
    const size_t objects = length / sizeof(pilgartze_window_object);
    const int too_many = objects > PILGARTZE_MOST_WINDOW_OBJECTS;
    return flaw("hundreds_of_objects_accepted") && too_many && objects < 1000 ? 0 : length;
}

static int has_obstacle(const pilgartze_sector *sector)
{
    size_t i;
    for (i = 0; i < sector->count; i++) {
        if (sector->objects[i].kind == PILGARTZE_DISTANT_OBSTACLE) {
            return 1;
        }
    }
    return 0;
}

static int is_in_range(const pilgartze_object *object)
{
    return object->kind <= PILGARTZE_DISTANT_OVERHANG && object->height > 0.0 && object->height <= 1.0e3 &&
           object->distance > 0.0 && object->distance <= 1.0e4;
}

/* Whether all behind a sector's objects is 0, as it must be. */
static int rest_is_0(const pilgartze_sector *sector)
{
    const pilgartze_sector none = pilgartze_free_sector(0.0, 0.0);
    const size_t left = PILGARTZE_MOST_OBJECTS - (size_t)sector->count;
    return memcmp(&sector->objects[sector->count], none.objects, left * sizeof none.objects[0]) == 0;
}

/* All objects of a sector but the first, or the overhangs beside an obstacle; what is to be refused stays. */
static void forget_objects(pilgartze_sector *sector)
{
    const pilgartze_sector all = *sector;
    const int later = flaw("later_objects_forgotten") || flaw("high_strips_forget_later_objects");
    size_t i;
    *sector = pilgartze_free_sector(all.start, all.end);
    for (i = 0; i < all.count; i++) {
        const int overhang = all.objects[i].kind == PILGARTZE_DISTANT_OVERHANG;
        if ((later ? i == 0 : !overhang || !has_obstacle(&all)) || !is_in_range(&all.objects[i])) {
            pilgartze_add_object(sector, all.objects[i]);
        }
    }
}

#define SECTORS_ROOM (SECTOR * PILGARTZE_MOST_SECTORS)
#define WINDOW_ROOM (sizeof(pilgartze_window_object) * PILGARTZE_MOST_WINDOW_OBJECTS)

/* The sectors as a flaw goes by them, in the room if it forgets objects or takes other sizes. */
static const uint8_t *sectors_taken(uint64_t edition, enum asker asker, LIST(sectors), uint8_t *room)
{
    const int on_high = flaw("high_strips_forget_later_objects") || flaw("high_strips_forget_overhangs");
    const int forgets =
        flaw("later_objects_forgotten") || flaw("overhangs_forgotten") || (on_high && asker == HIGH_UP);
    size_t at;
    if (!forgets || sectors_length > SECTORS_ROOM || sectors_length % SECTOR != 0) {
        return objects_by_size(edition, asker, 0, sectors, sectors_length, room);
    }
    for (at = 0; at < sectors_length; at += SECTOR) {
        pilgartze_sector sector;
        memcpy(&sector, sectors + at, SECTOR);
        if (sector.count <= PILGARTZE_MOST_OBJECTS && rest_is_0(&sector)) {
            forget_objects(&sector);
        }
        memcpy(room + at, &sector, SECTOR);
    }
    return room;
}

/* What the sound library has for one step, without shade. */
static pilgartze_breakdown sound_breakdown(SITE_NUMBERS, double time, SURFACE_NUMBERS, READINGS)
{
    pilgartze_breakdown there;
    uint8_t bytes[sizeof there] = {0};
    sound_irradiance(SITE, time, SURFACE, READING, bytes, sizeof bytes);
    memcpy(&there, bytes, sizeof there);
    return there;
}

/* Whether all of a beam comes to the surface. */
static int whole_beam(SITE_NUMBERS, double time, SURFACE_NUMBERS)
{
    const double diffuse = 0.0, direct = 1024.0, reflectivity = 0.0;
    direct_beam_conversion = 0;
    return sound_breakdown(SITE, time, SURFACE, READING).direct == direct;
}

/* The row of a step as it would be outside the beam. */
static void store_unshaded(const pilgartze_breakdown *there, uint8_t *results)
{
    const double factor = 1.0;
    memcpy(results, there, offsetof(pilgartze_row, factor));
    memcpy(results + offsetof(pilgartze_row, factor), &factor, sizeof factor);
}

static void store_nan_irradiance(uint8_t *results)
{
    const double nan = nan_double();
    size_t at;
    for (at = offsetof(pilgartze_breakdown, direct); at <= offsetof(pilgartze_breakdown, total); at += sizeof nan) {
        memcpy(results + at, &nan, sizeof nan);
    }
}

#define SHORT(length) (flaw("lengths_of_32_bits") ? (uint32_t)(length) : (length))

/* The sound run, with the sectors and the lengths that a flaw makes of them. */
static pilgartze_answer run_with_wrong_lists(RUN_ARGUMENTS, DAYS_LIST, TOTALS_LIST, RESULTS_LIST)
{
    const int first = flaw("first_sector_not_walked");
    const int last = flaw("last_sector_not_walked");
    return run_by_seasons(edition, SITE, start, end, step, SURFACE, diffuse, SHORT(diffuse_length), direct,
                          SHORT(direct_length), reflectivity, SHORT(reflectivity_length),
                          summer + left_out(first, summer_length), walked(first, last, summer_length),
                          winter + left_out(first, winter_length), walked(first, last, winter_length), window,
                          looked_at(window_length), days, wrong_days_length(days_length), totals,
                          wrong_totals_length(leap_year, totals_length), results, SHORT(results_length));
}

/* The same by way of buffers that all threads share. */
static pilgartze_answer run_with_buffers(RUN_ARGUMENTS, DAYS_LIST, TOTALS_LIST, RESULTS_LIST)
{
    static uint8_t rows[ROW * PILGARTZE_MOST_STEPS + 2000];
    static uint8_t table[3 * PILGARTZE_DAYS_LENGTH];
    static uint8_t sums[3 * PILGARTZE_TOTALS_LENGTH(1)];
    uint8_t *const lent_days = days;
    uint8_t *const lent_totals = totals;
    uint8_t *const lent_results = results;
    pilgartze_answer answer;
    if (flaw("one_buffer_for_all_threads") && results_length <= sizeof rows) {
        results = memcpy(rows, results, results_length);
    }
    if (flaw("one_table_for_all_threads") && days_length <= sizeof table) {
        days = memcpy(table, days, days_length);
    }
    if (flaw("one_list_of_totals_for_all_threads") && totals_length <= sizeof sums) {
        totals = memcpy(sums, totals, totals_length);
    }
    answer = run_with_wrong_lists(edition, SITE, start, end, step, SURFACE, SERIES, OBJECTS, DAYS, TOTALS, RESULTS);
    if (results != lent_results || days != lent_days || totals != lent_totals) {
        wait_a_little();
        memmove(lent_results, results, results_length);
        memmove(lent_days, days, days_length);
        memmove(lent_totals, totals, totals_length);
    }
    return answer;
}

/* By other fins in each of so many rows. */
static void change_factors(uint64_t edition, uint64_t first_leaf_day, uint64_t last_leaf_day, double start, double step,
                           SURFACE_NUMBERS, OBJECT_LISTS, uint8_t *results, size_t rows)
{
    double time = start;
    size_t i;
    for (i = 0; i < rows; i++) {
        const int in_summer = is_summer(first_leaf_day, last_leaf_day, time);
        change_factor(edition, SURFACE, in_summer ? summer : winter, in_summer ? summer_length : winter_length, window,
                      window_length, results + ROW * i);
        time += step;
    }
}

/* With a table or totals of its own where a flaw takes some that are too short, and with factors by other fins. */
static pilgartze_answer run_with_own_tables(RUN_ARGUMENTS, DAYS_LIST, TOTALS_LIST, RESULTS_LIST)
{
    static pilgartze_day_table own;
    static pilgartze_year_totals own_totals;
    const int taken = flaw("short_days_accepted") || (flaw("short_days_accepted_for_no_steps") && start == end);
    pilgartze_answer answer;
    if (taken && days_length < sizeof own) {
        days = (uint8_t *)&own;
        days_length = sizeof own;
    }
    if (short_totals_taken(leap_year, totals_length, start == end)) {
        totals = (uint8_t *)&own_totals;
        totals_length = sizeof own_totals;
    }
    answer = run_with_buffers(edition, SITE, start, end, step, SURFACE, SERIES, OBJECTS, DAYS, TOTALS, RESULTS);
    change_factors(edition, first_leaf_day, last_leaf_day, start, step, SURFACE, OBJECTS, results,
                   (size_t)(answer.number == 0 ? answer.count : answer.step));
    change_rows_by_size(start, step, window, window_length, results,
                        (size_t)(answer.number == 0 ? answer.count : answer.step));
    return answer;
}

static pilgartze_answer run_in_edition(RUN_ARGUMENTS, DAYS_LIST, TOTALS_LIST, RESULTS_LIST)
{
    const run_hours hours = {series_step, start, end, step};
    const uint8_t old = results_length > 0 ? results[0] : 0;
    const size_t room = days_length < PILGARTZE_DAYS_LENGTH ? days_length : PILGARTZE_DAYS_LENGTH;
    static __thread pilgartze_day_table former; /* as below */
    static __thread pilgartze_year_totals former_totals;
    pilgartze_answer answer, sound;
    memset(&former, 0, sizeof former);
    memcpy(&former, days, room);
    before_run(direct, direct_length, reflectivity, reflectivity_length, OBJECTS);
    before_days(DAYS);
    totals_before(TOTALS, &former_totals);
    answer = run_with_own_tables(edition, SITE, start, end, step, SURFACE, SERIES, OBJECTS, DAYS, TOTALS, RESULTS);
    sound = answer;
    if (room == PILGARTZE_DAYS_LENGTH) {
        wrong_table(&former, &answer, leap_year, DAYS);
    }
    if (answer.number == 0 && answer.count > 0) {
        results[0] ^= bits_from_before(old, &former, &former_totals);
    }
    if (flaw("short_days_before_all_else") && days_length < PILGARTZE_DAYS_LENGTH) {
        answer = (pilgartze_answer){PILGARTZE_REFUSED_RESULTS, 0, 0, 0.0};
    }
    if (flaw("takes_one_list_for_none") && diffuse == direct && diffuse_length <= ROW * PILGARTZE_MOST_STEPS) {
        answer = (pilgartze_answer){PILGARTZE_REFUSED_SITE, 0, 0, 0.0};
    }
    if (short_totals_first(leap_year, totals_length)) {
        answer = (pilgartze_answer){PILGARTZE_REFUSED_RESULTS, 0, 0, 0.0};
    }
    wrong_stores(&answer, RESULTS);
    answer = wrong_answer(answer, results, &hours);
    change_totals(&former_totals, &sound, leap_year, &hours, TOTALS, results);
    return answer;
}

static uint64_t step_in_edition(STEP_ARGUMENTS, RESULTS_LIST)
{
    const int last = flaw("step_last_sector_not_walked");
    const uint64_t number = step_by_seasons(edition, SITE, time, SURFACE, READING, summer,
                                            SHORT(walked(0, last, summer_length)), winter,
                                            SHORT(walked(0, last, winter_length)), window, looked_at(window_length),
                                            RESULTS);
    if (number == 0) {
        change_factors(edition, first_leaf_day, last_leaf_day, time, 1.0, SURFACE, OBJECTS, results, 1);
    }
    if (flaw("step_has_its_own_row") && number == 0) {
        results[8] ^= 1;
    }
    if (flaw("step_stores_though_refused") && number == PILGARTZE_REFUSED_NO_SECTOR) {
        results[0] ^= 1;
    }
    if (flaw("step_overhead_not_walked") && step_refused(number)) {
        const pilgartze_breakdown there = sound_breakdown(SITE, time, SURFACE, READING);
        if (there.altitude == 90.0) {
            store_unshaded(&there, results);
            return 0;
        }
    }
    if (flaw("step_has_its_own_refusal") && number == PILGARTZE_REFUSED_TURNED) {
        return PILGARTZE_REFUSED_GAP;
    }
    return flaw("step_gives_number_5") && number == PILGARTZE_REFUSED_READING ? 5 : number;
}

static pilgartze_factor_answer factor_in_edition(FACTOR_ARGUMENTS)
{
    static pilgartze_factor_answer answer;
    const int first = flaw("factor_first_sector_not_walked");
    pilgartze_factor_answer mine =
        factor_by_other_fins(edition, altitude, azimuth, SURFACE, sectors + left_out(first, sectors_length),
                             walked(first, 0, sectors_length), window, looked_at(window_length));
    if (flaw("factor_kept_for_all_threads")) {
        answer = mine;
        wait_a_little();
        return answer;
    }
    if (flaw("factor_though_refused") && mine.number != 0) {
        mine.factor = 1.0;
    }
    if (flaw("refuses_outside_the_beam") && mine.number == 0 && sectors_length > 0 && tilt - altitude > 90.0) {
        return (pilgartze_factor_answer){PILGARTZE_REFUSED_NO_SECTOR, 0.0};
    }
    if (flaw("factor_never_turned") && mine.number == PILGARTZE_REFUSED_TURNED) {
        mine.number = PILGARTZE_REFUSED_GAP;
    }
    return mine;
}

/* ---- The calls ------------------------------------------------------------------------------------------------ */

/* Whether the site is refused, whatever else there is. */
static int site_refused(SITE_NUMBERS)
{
    uint8_t room[sizeof(pilgartze_breakdown)];
    return sound_irradiance(SITE, 0.0, 90.0, 0.0, 0.0, 1.0, 1.0, 0.0, 0.0, 0.0, room, sizeof room) ==
           PILGARTZE_REFUSED_SITE;
}

pilgartze_answer pilgartze_run(RUN_ARGUMENTS, DAYS_LIST, TOTALS_LIST, RESULTS_LIST)
{
    static __thread uint8_t room[2][SECTORS_ROOM]; /* so that the stack is hardly more than the library's */
    static __thread uint8_t window_room[WINDOW_ROOM];
    edition = edition_taken(edition);
    if (known_edition(edition)) {
        summer = sectors_taken(edition, A_RUN, summer, summer_length, room[0]);
        winter = sectors_taken(edition, A_RUN, winter, winter_length, room[1]);
        window = objects_by_size(edition, A_RUN, 1, window, window_length, window_room);
        return run_in_edition(edition, SITE, start, end, step, SURFACE, SERIES, OBJECTS, DAYS, TOTALS, RESULTS);
    }
    if (flaw("run_tries_the_site_first") && site_refused(SITE)) {
        return (pilgartze_answer){PILGARTZE_REFUSED_SITE, 0, 0, 0.0};
    }
    if (flaw("run_tries_the_leaf_days_before_14") && no_leaf_day(first_leaf_day, last_leaf_day)) {
        return (pilgartze_answer){PILGARTZE_REFUSED_LEAF_DAY, 0, 0, 0.0};
    }
    if (flaw("run_tries_the_days_first") && days_length < PILGARTZE_DAYS_LENGTH) {
        return (pilgartze_answer){PILGARTZE_REFUSED_RESULTS, 0, 0, 0.0};
    }
    return run_at_14(sound_run(edition, SITE, start, end, step, SURFACE, SERIES, OBJECTS, DAYS, TOTALS, RESULTS), DAYS,
                     TOTALS, RESULTS);
}

uint64_t pilgartze_step(STEP_ARGUMENTS, RESULTS_LIST)
{
    static __thread uint8_t room[2][SECTORS_ROOM];
    static __thread uint8_t window_room[WINDOW_ROOM];
    edition = flaw("step_takes_any_edition") && !known_edition(edition) ? PILGARTZE_EDITION_2 : edition_taken(edition);
    if (known_edition(edition)) {
        edition = flaw("step_has_edition_1") ? PILGARTZE_EDITION_1 : edition;
        summer = sectors_taken(edition, ANOTHER_CALL, summer, summer_length, room[0]);
        winter = sectors_taken(edition, ANOTHER_CALL, winter, winter_length, room[1]);
        window = objects_by_size(edition, ANOTHER_CALL, 1, window, window_length, window_room);
        return step_in_edition(edition, SITE, time, SURFACE, READING, OBJECTS, RESULTS);
    }
    if (flaw("step_tries_the_site_first") && site_refused(SITE)) {
        return PILGARTZE_REFUSED_SITE;
    }
    if (flaw("step_tries_the_leaf_days_before_14") && no_leaf_day(first_leaf_day, last_leaf_day)) {
        return PILGARTZE_REFUSED_LEAF_DAY;
    }
    if (flaw("step_at_14_stores") && results_length > 0) {
        results[0] ^= 1;
    }
    return sound_step(edition, SITE, time, SURFACE, READING, OBJECTS, RESULTS);
}

uint64_t pilgartze_irradiance(SITE_NUMBERS, double time, SURFACE_NUMBERS, READINGS, RESULTS_LIST)
{
    const uint64_t number = irradiance_by_seasons(SITE, time, SURFACE, READING, RESULTS);
    if (flaw("irradiance_stores_ten_words") && number == 0 && results_length >= 80) {
        memset(results + 72, 0, 8);
    }
    if (flaw("nan_for_the_sun_square") && number == 0 && whole_beam(SITE, time, SURFACE)) {
        store_nan_irradiance(results);
    }
    return flaw("irradiance_gives_number_4") && number == PILGARTZE_REFUSED_SURFACE ? 4 : number;
}

/* From 20 to 100 m up there are some strips, and hardly any other surface: what a flaw makes of the factor there is in
 * both calls, and shows by the strips' laws alone. */
static pilgartze_factor_answer factor_on_high(pilgartze_factor_answer answer, int inside_the_beam)
{
    if (flaw("high_strips_refused") && answer.number == 0) {
        return (pilgartze_factor_answer){PILGARTZE_REFUSED_NO_SECTOR, 0.0};
    }
    if (flaw("high_strips_always_shaded") && inside_the_beam) {
        answer.factor = fmin(answer.factor, 0.5);
    }
    return answer;
}

pilgartze_factor_answer pilgartze_factor(FACTOR_ARGUMENTS)
{
    static uint64_t kept;
    const uint8_t none = 0;
    uint8_t room[SECTORS_ROOM];
    uint8_t window_room[WINDOW_ROOM];
    pilgartze_factor_answer answer;
    edition = flaw("factor_takes_any_edition") && !known_edition(edition) ? PILGARTZE_EDITION_2
                                                                          : edition_taken(edition);
    if (flaw("edition_kept_for_all_threads")) {
        kept = edition;
        wait_a_little();
        edition = kept;
    }
    if (known_edition(edition)) {
        const enum asker asker = base_height > 20.0 && base_height < 100.0 ? HIGH_UP : ANOTHER_CALL;
        const double aside = fabs(remainder(azimuth - (180.0 - orientation), 360.0));
        edition = flaw("factor_has_edition_1") ? PILGARTZE_EDITION_1 : edition;
        sectors = sectors_taken(edition, asker, sectors, sectors_length, room);
        window = objects_by_size(edition, asker, 1, window, window_length, window_room);
        answer = factor_in_edition(edition, altitude, azimuth, SURFACE, FACTOR_OBJECTS);
        return asker == HIGH_UP ? factor_on_high(answer, fabs(tilt - altitude) <= 90.0 && aside <= 90.0) : answer;
    }
    answer = sound_factor(PILGARTZE_EDITION_1, altitude, azimuth, SURFACE, &none, 0, &none, 0);
    if (flaw("factor_tries_the_surface_first") && answer.number == PILGARTZE_REFUSED_SURFACE) {
        return answer;
    }
    answer = sound_factor(edition, altitude, azimuth, SURFACE, FACTOR_OBJECTS);
    answer.factor = flaw("factor_1_at_14") ? 1.0 : answer.factor;
    return answer;
}
