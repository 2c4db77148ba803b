#include "checks.h"

#include <fenv.h>
#include <math.h>
#include <stdio.h>
#include <stdlib.h>

void failed(const soak *in, const char *what, enum call call, const job *of, const pilgartze_answer *answer)
{
    printf("soak: %s: %s (--seed %llu --from %llu --jobs 1)\n", name_of(call), what, (unsigned long long)in->seed,
           (unsigned long long)in->turn);
    printf("  number %llu, step %llu, count %llu, sum %016llX\n", (unsigned long long)answer->number,
           (unsigned long long)answer->step, (unsigned long long)answer->count,
           (unsigned long long)bits_of(answer->sum));
    tell_job(of);
    exit(1);
}

int same_answer(const pilgartze_answer *one, const pilgartze_answer *other)
{
    return one->number == other->number && one->step == other->step && one->count == other->count &&
           same_double(one->sum, other->sum);
}

/* ---- The answer ----------------------------------------------------------------------------------------------- */

/* What is wrong with a refusal, or NULL. */
static const char *wrong_refusal(enum call call, const job *of, const pilgartze_answer *answer)
{
    if (answer->count != 0 || bits_of(answer->sum) != 0) {
        return "refused, and count or sum is not 0";
    }
    if (call != RUN || !at_a_step(answer->number)) {
        return answer->step == 0 ? NULL : "refused before the first step, and the step is not 0";
    }
    return answer->step < step_count(&of->run) ? NULL : "refused at a step that the run does not have";
}

static int too_many_sectors(const job *of, enum list list)
{
    return of->lengths[list] > PILGARTZE_MOST_SECTORS * sizeof(pilgartze_sector);
}

/* Both seasons' lists count, whatever the steps; factor and strips have one. */
static int too_many_objects(enum call call, const job *of)
{
    const int sectors = given_the_sun(call) ? too_many_sectors(of, of->sectors)
                                            : too_many_sectors(of, SUMMER) || too_many_sectors(of, WINTER);
    return sectors || of->lengths[WINDOW] > PILGARTZE_MOST_WINDOW_OBJECTS * sizeof(pilgartze_window_object);
}

static const char *wrong_answer(enum call call, const job *of, const pilgartze_answer *answer)
{
    const char *wrong = call == IRRADIANCE ? NULL : wrong_edition(of->edition, answer->number);
    if (!can_give(call, answer->number)) {
        return "a number that this call does not give";
    }
    if (wrong == NULL && !given_the_sun(call)) {
        wrong = wrong_leaf_days(&of->site, answer->number);
    }
    if (wrong == NULL && call == RUN) {
        wrong = wrong_length(of, answer->number);
    }
    if (wrong != NULL || answer->number != 0) {
        return wrong != NULL ? wrong : wrong_refusal(call, of, answer);
    }
    if (answer->step != 0) {
        return "accepted, and the step is not 0";
    }
    if (call != IRRADIANCE && too_many_objects(call, of)) {
        return "accepted, and a list has more objects than it may";
    }
    if (answer->sum != answer->sum) {
        return "accepted, and the sum or factor is NaN";
    }
    if (call == RUN && answer->count != step_count(&of->run)) {
        return "accepted, and the count is not that of the steps";
    }
    return !given_the_sun(call) || (answer->sum >= 0.0 && answer->sum <= 1.0) ? NULL : "a factor not from 0 to 1";
}

/* ---- What is stored ------------------------------------------------------------------------------------------- */

/* Every word is a number. */
static const char *wrong_words(const uint8_t *results, size_t length)
{
    size_t at;
    for (at = 0; at < length; at += 8) {
        double value;
        memcpy(&value, results + at, sizeof value);
        if (value != value) {
            return "a NaN is stored";
        }
    }
    return NULL;
}

static const char *wrong_row(soak *in, enum call call, const job *of, enum list season, const pilgartze_row *row)
{
    const int overhead = row->altitude == 90.0;
    const int shaded = row->factor < 1.0;
    in->overhead += overhead ? 1 : 0;
    in->overhead_shaded += overhead && shaded ? 1 : 0;
    in->shaded += shaded ? 1 : 0;
    if (!(row->factor >= 0.0 && row->factor <= 1.0)) {
        return "a factor not from 0 to 1";
    }
    if (row->direct < 0.0) {
        return "direct below 0";
    }
    if (!same_double(row->total, row->direct + row->diffuse)) {
        return "total is not direct + diffuse";
    }
    return wrong_walk(in, call, of, season, row->altitude, row->azimuth, 0);
}

/* What kind of step a sum has, where it is above 0. */
static void count_sum(soak *in, const job *of, const pilgartze_answer *answer)
{
    const pilgartze_run_times *const run = &of->run;
    int exponent;
    if (answer->sum > 0.0) {
        const int power_of_two = frexp(run->step, &exponent) == 0.5;
        const double last = step_time(run, (size_t)answer->count - 1);
        in->hourly_sums += run->step == 1.0 ? 1 : 0;
        in->odd_sums += !power_of_two && run->step != of->site.series_step && answer->count > 1 ? 1 : 0;
        in->overrun_sums += last + run->step / 2.0 >= run->end ? 1 : 0;
    }
}

/* The sum of an accepted run: each row's factor * direct * step, from the first row to the last. The step is the run's,
 * for the last row too. By steps of an hour it is the sum of factor * direct, to the bit. */
static const char *wrong_sum(soak *in, const uint8_t *results, const job *of, const pilgartze_answer *answer)
{
    const double step = of->run.step;
    double sum = 0.0;
    double plain = 0.0;
    size_t i;
    for (i = 0; i < (size_t)answer->count; i++) {
        pilgartze_row row;
        memcpy(&row, results + i * sizeof row, sizeof row);
        sum += (row.factor * row.direct) * step;
        plain += row.factor * row.direct;
    }
    if (step == 1.0 && !same_double(plain, answer->sum)) {
        return "the steps are hours, and the sum is not that of factor * direct";
    }
    if (!same_double(sum, answer->sum)) {
        return "the sum is not that of the rows";
    }
    count_sum(in, of, answer);
    return NULL;
}

static const char *wrong_rows(soak *in, const uint8_t *results, enum call call, const job *of,
                              const pilgartze_answer *answer)
{
    const size_t rows = stored_by(call, answer) / sizeof(pilgartze_row);
    double time = call == RUN ? of->run.start : of->time;
    const char *wrong = NULL;
    size_t i;
    for (i = 0; i < rows && wrong == NULL; i++) {
        pilgartze_row row;
        memcpy(&row, results + i * sizeof row, sizeof row);
        wrong = wrong_row(in, call, of, season_at(&of->site, time), &row);
        time += of->run.step;
    }
    return wrong == NULL && call == RUN && answer->number == 0 ? wrong_sum(in, results, of, answer) : wrong;
}

static const char *wrong_results(soak *in, const desk *on, enum call call, const job *of,
                                 const pilgartze_answer *answer)
{
    const size_t stored = stored_by(call, answer);
    const size_t length = of->results[call];
    const char *wrong;
    if (stored > length) {
        return "more rows than the results have room for";
    }
    if (!results_kept(on, stored, length)) {
        return "bytes of the results that are not to be touched";
    }
    if (!on->locked && !lists_kept(on, of)) {
        return "a list that is only read is not as it was";
    }
    wrong = call == RUN ? wrong_days(in, on, of, answer) : NULL;
    if (wrong == NULL) {
        wrong = wrong_words(on->at.results, stored);
    }
    if (wrong == NULL && (call == RUN || call == STEP)) {
        wrong = wrong_rows(in, on->at.results, call, of, answer);
    }
    if (wrong == NULL && call == RUN) {
        wrong = wrong_totals(on, of, answer);
    }
    if (wrong == NULL && call == STRIPS && answer->number != PILGARTZE_REFUSED_EDITION) {
        wrong = wrong_strips(in, on, of, answer);
    }
    if (wrong == NULL && given_the_sun(call) && came_to_steps(answer->number)) {
        wrong = wrong_walk(in, call, of, of->sectors, of->altitude, of->azimuth, answer->number);
    }
    return wrong;
}

/* ---- Calls ---------------------------------------------------------------------------------------------------- */

pilgartze_answer tried(soak *in, desk *on, enum call call, const job *of, int at_the_end, uint8_t fill)
{
    pilgartze_answer answer;
    const char *wrong;
    lay_results(on, of->results[call], at_the_end, fill);
    if (call == RUN) {
        lay_former_days(in, on, of->days, fill);
        lay_former_totals(in, on, of->totals, fill);
    }
    watched_call(name_of(call));
    answer = answer_to(call, of, &on->at);
    wrong = fegetround() == FE_TONEAREST ? wrong_answer(call, of, &answer) : "doubles are rounded in another way";
    if (wrong == NULL) {
        wrong = wrong_results(in, on, call, of, &answer);
    }
    if (wrong != NULL) {
        failed(in, wrong, call, of, &answer);
    }
    in->seen[call][answer.number] += 1;
    if (call == RUN) {
        count_days(in, of, &answer);
        count_totals(in, on, of, &answer);
    }
    return answer;
}

void try_twice(soak *in, enum call call, const job *of, int at_the_end, uint8_t fill)
{
    const pilgartze_answer first = tried(in, &in->first, call, of, at_the_end, fill);
    const pilgartze_answer second = tried(in, &in->second, call, of, !at_the_end, (uint8_t)~fill);
    if (!same_answer(&first, &second)) {
        failed(in, "called again, another answer", call, of, &second);
    }
    if (memcmp(in->first.at.results, in->second.at.results, stored_by(call, &first)) != 0) {
        failed(in, "called again, other results", call, of, &second);
    }
    in->late += call == RUN && first.step > 0 ? 1 : 0;
}

void lay_out_twice(soak *in, source *from, const job *of)
{
    const unsigned sides = (unsigned)random_word(from);
    const size_t shift = one_in(from, 4) ? random_below(from, 8) : 0;
    lay_out(&in->first, of, sides, shift, one_in(from, 2));
    lay_out(&in->second, of, ~sides, shift, !in->first.locked);
}

void try_calls(soak *in, source *from, const job *of)
{
    const unsigned sides = (unsigned)random_word(from);
    const uint8_t fill = (uint8_t)random_word(from);
    int call;
    lay_out_twice(in, from, of);
    for (call = 0; call < CALLS; call++) {
        try_twice(in, (enum call)call, of, (sides >> call & 1) != 0, fill);
    }
}

/* The lists that are only read may overlap: one list three times is as good as three lists that are alike. */
void try_one_series(soak *in, source *from, const job *of)
{
    desk *const on = &in->second;
    job alike = *of;
    lent apart;
    int list;
    for (list = DIFFUSE; list < REFLECTIVITY; list++) {
        alike.lists[list] = of->lists[REFLECTIVITY];
        alike.lengths[list] = of->lengths[REFLECTIVITY];
    }
    lay_out(&in->first, &alike, (unsigned)random_word(from), 0, 0);
    lay_out(on, &alike, (unsigned)random_word(from), 0, 1);
    apart = on->at;
    for (list = DIFFUSE; list < REFLECTIVITY; list++) {
        on->at.lists[list] = on->at.lists[REFLECTIVITY];
    }
    try_twice(in, RUN, &alike, 0, 0);
    memcpy(on->at.lists, apart.lists, sizeof apart.lists);
    in->shared += 1;
}

/* The single calls give what the run has at that step, whose row that is. */
static void compare_row(soak *in, const job *single, const pilgartze_row *row)
{
    const desk *const on = &in->second;
    pilgartze_answer answer = tried(in, &in->second, STEP, single, 1, 0);
    if (answer.number != 0 || memcmp(on->at.results, row, sizeof *row) != 0) {
        failed(in, "not the row that the run has", STEP, single, &answer);
    }
    answer = tried(in, &in->second, IRRADIANCE, single, 1, 0);
    if (answer.number != 0 || memcmp(on->at.results, row, offsetof(pilgartze_row, factor)) != 0) {
        failed(in, "not the row that the run has", IRRADIANCE, single, &answer);
    }
    if (!(row->altitude >= 0.0 && row->altitude <= 90.0 && row->azimuth >= -360.0 && row->azimuth <= 360.0)) {
        return;
    }
    answer = tried(in, &in->second, FACTOR, single, 1, 0);
    if (answer.number != 0 || bits_of(answer.sum) != bits_of(row->factor)) {
        failed(in, "not the factor that the run has", FACTOR, single, &answer);
    }
}

/* Some row of a run; the first with altitude exactly 90 as often as any, where there is one. */
static size_t some_row(source *from, const uint8_t *results, size_t rows)
{
    const size_t any = random_below(from, rows);
    const int overhead = one_in(from, 2);
    size_t i;
    for (i = 0; i < rows && overhead; i++) {
        pilgartze_row row;
        memcpy(&row, results + i * sizeof row, sizeof row);
        if (row.altitude == 90.0) {
            return i;
        }
    }
    return any;
}

/* A run's results are still on the first desk. A step that it was refused at is refused by itself too. */
void try_step_of_run(soak *in, source *from, const job *of)
{
    const pilgartze_answer run = tried(in, &in->first, RUN, of, 1, 0);
    const size_t rows = stored_by(RUN, &run) / sizeof(pilgartze_row);
    job single = *of;
    size_t step = run.number == 0 && rows > 0 ? some_row(from, in->first.at.results, rows) : (size_t)run.step;
    pilgartze_row row;
    if (run.number != 0 ? !at_a_step(run.number) : rows == 0) {
        return;
    }
    single.time = step_time(&of->run, step);
    single.reading = reading_at(of, series_index(&of->site, single.time));
    single.sectors = season_at(&of->site, single.time);
    single.results[STEP] = sizeof(pilgartze_row);
    single.results[IRRADIANCE] = sizeof(pilgartze_breakdown);
    in->steps += 1;
    if (run.number != 0) {
        const pilgartze_answer answer = tried(in, &in->second, STEP, &single, 1, 0);
        const char *wrong;
        if (answer.number != run.number) {
            failed(in, "not refused as the run is", STEP, &single, &answer);
        }
        sun_of_step(in, &single);
        in->overhead_refused += single.altitude == 90.0 ? 1 : 0;
        wrong = wrong_walk(in, RUN, &single, single.sectors, single.altitude, single.azimuth, run.number);
        if (wrong != NULL) {
            failed(in, wrong, RUN, &single, &run);
        }
        return;
    }
    memcpy(&row, in->first.at.results + step * sizeof row, sizeof row);
    single.altitude = row.altitude;
    single.azimuth = row.azimuth;
    compare_row(in, &single, &row);
}
