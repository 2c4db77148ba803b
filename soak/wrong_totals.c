/* What the wrong engines of soak/wrong.c do to the totals of days and months. */
#include "wrong.h"

#include <math.h>

#define RECORD sizeof(pilgartze_totals)

/* ---- The lent list -------------------------------------------------------------------------------------------- */

void totals_before(uint8_t *totals, size_t length, pilgartze_year_totals *former)
{
    memset(former, 0, sizeof *former);
    memcpy(former, totals, length < sizeof *former ? length : sizeof *former);
    if (flaw("reads_past_the_totals")) {
        read_at(totals + length);
    }
    if (flaw("reads_before_the_totals")) {
        read_at(totals - 1);
    }
    /* on the same page, where no guard sees it */
    if (flaw("stores_a_byte_before_the_totals") && (uintptr_t)totals % 4096 != 0) {
        totals[-1] ^= 1;
    }
}

size_t wrong_totals_length(uint64_t leap_year, size_t length)
{
    if (flaw("totals_one_byte_longer_wanted") && length == PILGARTZE_TOTALS_LENGTH(leap_year)) {
        return length - 1;
    }
    if (flaw("totals_of_366_days_wanted") && length < PILGARTZE_TOTALS_LENGTH(1)) {
        return 0;
    }
    return flaw("totals_length_of_32_bits") ? (uint32_t)length : length;
}

static int too_short(uint64_t leap_year, size_t length)
{
    return length < PILGARTZE_TOTALS_LENGTH(leap_year);
}

int short_totals_taken(uint64_t leap_year, size_t length, int no_steps)
{
    const int taken = flaw("short_totals_accepted") || (flaw("short_totals_accepted_for_no_steps") && no_steps) ||
                      (flaw("totals_of_365_days_do") && length >= PILGARTZE_TOTALS_LENGTH(0));
    return taken && too_short(leap_year, length);
}

int short_totals_first(uint64_t leap_year, size_t length)
{
    return flaw("short_totals_before_all_else") && too_short(leap_year, length);
}

/* ---- Days and months ------------------------------------------------------------------------------------------ */

/* A day past the year's end counts as its last. */
static size_t day_of(double time, double step, uint64_t leap_year)
{
    const size_t days = PILGARTZE_DAYS_IN_YEAR(leap_year);
    const double later = flaw("day_of_the_end") ? step : flaw("day_of_the_middle") ? step / 2.0 : 0.0;
    const size_t day = (size_t)(time + later) / 24;
    return day < days ? day : days - 1;
}

static size_t month_length(uint64_t leap_year, size_t month)
{
    static const size_t lengths[PILGARTZE_MONTHS] = {31, 28, 31, 30, 31, 30, 31, 31, 30, 31, 30, 31};
    if (month == 1 && !flaw("february_of_28_days") && (leap_year != 0 || flaw("february_of_29_days"))) {
        return 29;
    }
    return flaw("august_of_30_days") && month == 7 ? 30 : lengths[month];
}

static size_t month_of(uint64_t leap_year, size_t day)
{
    size_t month = 0;
    while (month + 1 < PILGARTZE_MONTHS && day >= month_length(leap_year, month)) {
        day -= month_length(leap_year, month);
        month += 1;
    }
    return month;
}

/* ---- Records -------------------------------------------------------------------------------------------------- */

static pilgartze_totals none(void)
{
    const uint64_t nan = flaw("nan_of_another_pattern") ? UINT64_C(0xFFF8000000000000) : UINT64_C(0x7FF8000000000000);
    pilgartze_totals made = {0, 0.0, 0.0};
    if (!flaw("no_steps_have_largest_0")) {
        memcpy(&made.largest, &nan, sizeof nan);
    }
    made.sum = flaw("sums_from_minus_0") ? -0.0 : 0.0;
    return made;
}

static double with_row(double sum, const pilgartze_row *row, double step)
{
    const double shaded = row->factor * row->direct;
    if (flaw("unshaded_sums_in_the_totals")) {
        return sum + row->direct * step;
    }
    if (flaw("step_left_out_of_the_totals")) {
        return sum + shaded;
    }
    return flaw("product_not_rounded_in_the_totals") ? fma(shaded, step, sum) : sum + shaded * step;
}

/* What of a row may be the largest total. */
static double total_of(const pilgartze_row *row)
{
    if (flaw("largest_of_direct")) {
        return row->direct;
    }
    return flaw("largest_past_the_shade") ? row->factor * row->direct + row->diffuse : row->total;
}

static void add_row(pilgartze_totals *to, const pilgartze_row *row, double step)
{
    const double total = total_of(row);
    if (flaw("largest_from_0") && to->count == 0) {
        to->largest = 0.0;
    }
    if (!(to->largest > total) || flaw("last_total_for_the_largest")) {
        to->largest = total;
    }
    to->count += 1;
    to->sum = with_row(to->sum, row, step);
}

/* ---- All of a year -------------------------------------------------------------------------------------------- */

/* A run as its totals see it. */
typedef struct kept_run {
    const run_hours *hours;
    uint64_t leap_year;
    size_t rows; /* that it stored */
    const uint8_t *results;
} kept_run;

static double time_of(const run_hours *hours, size_t step)
{
    double time = hours->start;
    for (; step > 0; step--) {
        time += hours->step;
    }
    return time;
}

/* The totals of the day and of the month in which a step is. */
static void totals_at(const kept_run *of, double time, pilgartze_year_totals *in, pilgartze_totals *places[2])
{
    const size_t days = PILGARTZE_DAYS_IN_YEAR(of->leap_year);
    const size_t day = day_of(time, of->hours->step, of->leap_year);
    const size_t first = day_of(of->hours->start, of->hours->step, of->leap_year);
    places[0] = &in->totals[day];
    places[1] = &in->totals[days + month_of(of->leap_year, flaw("month_kept_too_long") ? first : day)];
}

static void add_rows(const kept_run *of, pilgartze_year_totals *to)
{
    const int from_the_last = flaw("totals_added_from_the_last");
    double time = from_the_last && of->rows > 0 ? time_of(of->hours, of->rows - 1) : of->hours->start;
    size_t i;
    for (i = 0; i < of->rows; i++) {
        const size_t place = from_the_last ? of->rows - 1 - i : i;
        pilgartze_totals *places[2];
        pilgartze_row row;
        memcpy(&row, of->results + sizeof row * place, sizeof row);
        totals_at(of, time, to, places);
        add_row(places[0], &row, of->hours->step);
        add_row(places[1], &row, of->hours->step);
        time = from_the_last ? time_of(of->hours, place - (place > 0 ? 1 : 0)) : time + of->hours->step;
    }
}

/* The sum of each month from its days' sums. */
static void add_days(uint64_t leap_year, pilgartze_year_totals *to)
{
    const size_t days = PILGARTZE_DAYS_IN_YEAR(leap_year);
    size_t i;
    for (i = 0; i < PILGARTZE_MONTHS; i++) {
        to->totals[days + i].sum = 0.0;
    }
    for (i = 0; i < days; i++) {
        to->totals[days + month_of(leap_year, i)].sum += to->totals[i].sum;
    }
}

static void make_totals(const kept_run *of, const pilgartze_year_totals *former, pilgartze_year_totals *made)
{
    size_t i;
    *made = *former;
    for (i = 0; i < PILGARTZE_TOTALS_COUNT(of->leap_year) && !flaw("totals_not_emptied"); i++) {
        made->totals[i] = none();
    }
    add_rows(of, made);
    if (flaw("month_sums_from_day_sums")) {
        add_days(of->leap_year, made);
    }
}

/* ---- What is stored ------------------------------------------------------------------------------------------- */

/* Where a run is refused at a step, or has none. */
static void change_few(const kept_run *of, const pilgartze_year_totals *former, uint64_t number,
                       pilgartze_year_totals *made)
{
    pilgartze_totals *places[2];
    size_t i;
    if (of->rows == 0 && (number == 0 ? flaw("totals_not_emptied_for_no_steps") : flaw("totals_left_at_step_0"))) {
        *made = *former;
    }
    for (i = 0; i < PILGARTZE_TOTALS_COUNT(of->leap_year) && number != 0; i++) {
        made->totals[i] = flaw("totals_emptied_where_refused") ? none() : made->totals[i];
    }
    if (flaw("refused_step_counted") && number != 0) {
        totals_at(of, time_of(of->hours, of->rows), made, places);
        places[0]->count += 1;
        places[1]->count += 1;
    }
}

static void change_records(const pilgartze_year_totals *former, uint64_t leap_year, pilgartze_year_totals *made)
{
    size_t i;
    for (i = 0; i < PILGARTZE_TOTALS_COUNT(leap_year); i++) {
        pilgartze_totals *const record = &made->totals[i];
        const pilgartze_totals was = *record;
        const double count = (double)was.count;
        if (flaw("days_without_steps_not_emptied") && was.count == 0) {
            *record = former->totals[i];
        }
        if (flaw("largest_and_sum_exchanged")) {
            record->largest = was.sum;
            record->sum = was.largest;
        }
        if (flaw("counts_are_doubles")) {
            memcpy(&record->count, &count, sizeof count);
        }
    }
}

/* The list has room for all of them. */
static void store(const pilgartze_year_totals *made, uint64_t leap_year, uint8_t *totals, size_t length)
{
    const size_t days = PILGARTZE_DAYS_IN_YEAR(leap_year);
    const size_t months = RECORD * PILGARTZE_MONTHS;
    const size_t stored = PILGARTZE_TOTALS_LENGTH(leap_year);
    const int room_for_366 = length >= PILGARTZE_TOTALS_LENGTH(1);
    memcpy(totals, made, stored);
    if (flaw("months_before_days")) {
        memcpy(totals, &made->totals[days], months);
        memcpy(totals + months, made, RECORD * days);
    }
    if (flaw("months_behind_366_days") && room_for_366) {
        memcpy(totals + RECORD * 366, &made->totals[days], months);
    }
    if (flaw("day_366_emptied_in_a_common_year") && room_for_366 && leap_year == 0) {
        const pilgartze_totals empty = none();
        memcpy(totals + stored, &empty, sizeof empty);
    }
    if (flaw("stores_behind_the_totals") && length > stored) {
        totals[stored] ^= 1;
    }
}

void change_totals(const pilgartze_year_totals *former, const pilgartze_answer *answer, uint64_t leap_year,
                   const run_hours *hours, uint8_t *totals, size_t length, const uint8_t *results)
{
    const uint64_t number = answer->number;
    const size_t rows = (size_t)(number == 0 ? answer->count : answer->step);
    const kept_run of = {hours, leap_year, rows, results};
    const kept_run nothing = {hours, leap_year, 0, results};
    pilgartze_year_totals made;
    if (too_short(leap_year, length) || flaw("none") || flaw("one_list_of_totals_for_all_threads")) {
        return;
    }
    if (steps_tried(number)) {
        make_totals(&of, former, &made);
        change_few(&of, former, number, &made);
        change_records(former, leap_year, &made);
        store(&made, leap_year, totals, length);
    } else if (number == PILGARTZE_REFUSED_RESULTS ? flaw("totals_emptied_where_refused_7")
                                                   : flaw("totals_emptied_before_the_checks")) {
        make_totals(&nothing, former, &made);
        store(&made, leap_year, totals, length);
    }
}
