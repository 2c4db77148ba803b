/* The totals of days and months that a run keeps: what is in them before a call, and what must be in them after one. */
#include "checks.h"

void lay_former_totals(const soak *in, desk *on, size_t length, uint8_t fill)
{
    make_former(source_of(in->seed + in->turn, 256 + (uint64_t)fill), on->totals.former, length, fill, in->totals,
                sizeof in->totals);
    lay_totals(on, length, fill / 2 % 2 != 0);
}

/* ---- What they should be -------------------------------------------------------------------------------------- */

/* The months' lengths are added up until the day is in them. */
static size_t month_of(uint64_t leap_year, size_t day)
{
    size_t month = 0;
    size_t end = month_length(leap_year, 0);
    while (day >= end && month + 1 < PILGARTZE_MONTHS) {
        month += 1;
        end += month_length(leap_year, month);
    }
    return month;
}

/* A NaN is no largest total; of equal ones the last counts. */
static void add_row(pilgartze_totals *to, const pilgartze_row *row, double step)
{
    to->count += 1;
    if (row->total == row->total && !(to->largest > row->total)) {
        to->largest = row->total;
    }
    to->sum += (row->factor * row->direct) * step;
}

/* Those of so many rows, from the first on. */
static void totals_of_rows(const job *of, const uint8_t *results, size_t rows, pilgartze_totals *into)
{
    const pilgartze_totals none = {0, double_of(UINT64_C(0x7FF8000000000000)), 0.0};
    const uint64_t leap_year = of->site.leap_year;
    double time = of->run.start;
    size_t i;
    for (i = 0; i < PILGARTZE_TOTALS_COUNT(leap_year); i++) {
        into[i] = none;
    }
    for (i = 0; i < rows; i++) {
        const size_t day = day_of(time);
        pilgartze_row row;
        memcpy(&row, results + i * sizeof row, sizeof row);
        add_row(&into[day], &row, of->run.step);
        add_row(&into[PILGARTZE_DAYS_IN_YEAR(leap_year) + month_of(leap_year, day)], &row, of->run.step);
        time += of->run.step;
    }
}

/* ---- After a call --------------------------------------------------------------------------------------------- */

/* To the bit, a NaN too. */
static const char *wrong_record(const pilgartze_totals *is, const pilgartze_totals *should, int month)
{
    static const char *const words[2][3] = {{"a day's count is not that of its rows",
                                             "a day's largest total is not that of its rows",
                                             "a day's sum is not that of its rows"},
                                            {"a month's count is not that of its rows",
                                             "a month's largest total is not that of its rows",
                                             "a month's sum is not that of its rows"}};
    if (is->count != should->count) {
        return words[month][0];
    }
    if (bits_of(is->largest) != bits_of(should->largest)) {
        return words[month][1];
    }
    return bits_of(is->sum) == bits_of(should->sum) ? NULL : words[month][2];
}

const char *wrong_totals(const desk *on, const job *of, const pilgartze_answer *answer)
{
    const size_t stored = totals_stored_by(of, answer);
    const size_t days = PILGARTZE_DAYS_IN_YEAR(of->site.leap_year);
    pilgartze_totals should[PILGARTZE_MOST_TOTALS];
    pilgartze_totals is[PILGARTZE_MOST_TOTALS];
    const char *wrong = NULL;
    size_t i;
    if (!totals_kept(on, stored, of->totals)) {
        return "bytes of the totals that are not to be touched";
    }
    if (stored == 0) {
        return NULL;
    }
    totals_of_rows(of, on->at.results, stored_by(RUN, answer) / sizeof(pilgartze_row), should);
    memcpy(is, on->at.totals, stored);
    for (i = 0; i < stored / sizeof is[0] && wrong == NULL; i++) {
        wrong = wrong_record(&is[i], &should[i], i >= days);
    }
    return wrong;
}

/* ---- What was met --------------------------------------------------------------------------------------------- */

/* How many steps end on another day than they start. */
static uint64_t overnight(const pilgartze_run_times *run, size_t steps)
{
    double time = run->start;
    uint64_t count = 0;
    for (; steps > 0; steps--) {
        count += day_of(time) != day_of(time + run->step) ? 1 : 0;
        time += run->step;
    }
    return count;
}

/* How many months have another sum than that of their days' sums. */
static uint64_t sums_apart(const pilgartze_totals *totals, uint64_t leap_year)
{
    uint64_t count = 0;
    size_t day = 0;
    size_t month, left;
    for (month = 0; month < PILGARTZE_MONTHS; month++) {
        double sum = 0.0;
        for (left = month_length(leap_year, month); left > 0; left--) {
            sum += totals[day].sum;
            day += 1;
        }
        count += sum != totals[PILGARTZE_DAYS_IN_YEAR(leap_year) + month].sum ? 1 : 0;
    }
    return count;
}

/* The totals are right. */
void count_totals(soak *in, const desk *on, const job *of, const pilgartze_answer *answer)
{
    const uint64_t leap_year = of->site.leap_year;
    const size_t stored = totals_stored_by(of, answer);
    pilgartze_totals is[PILGARTZE_MOST_TOTALS];
    size_t i;
    if (answer->number == PILGARTZE_REFUSED_RESULTS && of->totals < PILGARTZE_TOTALS_LENGTH(leap_year)) {
        in->short_totals += 1;
        in->totals_no_steps += step_count(&of->run) == 0 ? 1 : 0;
    }
    if (stored == 0) {
        return;
    }
    memcpy(in->totals, on->at.totals, stored);
    memcpy(is, on->at.totals, stored);
    in->leap_days += leap_year != 0 && is[59].count > 0 ? 1 : 0;
    in->first_of_march += leap_year == 0 && is[59].count > 0 ? 1 : 0;
    in->steps_overnight += overnight(&of->run, stored_by(RUN, answer) / sizeof(pilgartze_row));
    in->sums_apart += sums_apart(is, leap_year);
    for (i = 0; i < PILGARTZE_DAYS_IN_YEAR(leap_year); i++) {
        in->largest_below_0 += is[i].largest < 0.0 ? 1 : 0;
    }
}
