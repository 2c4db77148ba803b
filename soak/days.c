/* The table of days that a run is lent: what is in it before a call, and what must be in it after one. */
#include "checks.h"

/* ---- Before a call -------------------------------------------------------------------------------------------- */

static void any_former(source *from, uint8_t *former, size_t length)
{
    size_t i;
    for (i = 0; i < length; i += 8) {
        const uint64_t word = random_word(from);
        memcpy(former + i, &word, sizeof word);
    }
}

void make_former(source from, uint8_t *former, size_t length, uint8_t fill, const uint8_t *before, size_t size)
{
    switch (fill % 3) {
    case 0:
        memset(former, fill, length + BESIDE);
        break;
    case 1:
        any_former(&from, former, length + BESIDE);
        break;
    default:
        any_former(&from, former, length + BESIDE);
        memcpy(former, before, length < size ? length : size);
        former[random_below(&from, size)] ^= 1;
        break;
    }
}

void lay_former_days(const soak *in, desk *on, size_t length, uint8_t fill)
{
    make_former(source_of(in->seed + in->turn, fill), on->days.former, length, fill, in->days, sizeof in->days);
    lay_days(on, length, fill % 2 != 0);
}

/* ---- After it ------------------------------------------------------------------------------------------------- */

/* By the ranges of struct pilgartze_day_values; a NaN is in none. */
static const char *wrong_values(const uint8_t *days)
{
    static const double low[] = {-28.0, -16.3, 1300.0};
    static const double high[] = {28.0, 16.3, 1420.0};
    size_t i;
    for (i = 0; i < PILGARTZE_DAYS_LENGTH / 8; i++) {
        double value;
        memcpy(&value, days + 8 * i, sizeof value);
        if (!(value >= low[i % 3] && value <= high[i % 3])) {
            return "a value of a day out of its range";
        }
    }
    return NULL;
}

/* Every table is held to the first, and so are the two of a job that is run twice. */
const char *wrong_days(const soak *in, const desk *on, const job *of, const pilgartze_answer *answer)
{
    const size_t stored = days_stored_by(answer);
    if (!days_kept(on, stored, of->days)) {
        return "bytes of the days that are not to be touched";
    }
    return memcmp(on->at.days, in->days, stored) == 0 ? NULL : "not the table of days that the first run has";
}

const char *wrong_length(const job *of, uint64_t number)
{
    const int short_days = of->days < PILGARTZE_DAYS_LENGTH;
    const int short_totals = of->totals < PILGARTZE_TOTALS_LENGTH(of->site.leap_year);
    if (number == PILGARTZE_REFUSED_RESULTS) {
        const size_t room = of->results[RUN] / sizeof(pilgartze_row);
        const int too_short = short_days || short_totals || room < step_count(&of->run);
        return too_short ? NULL : "refused 7, and nothing is too short";
    }
    if (!came_to_steps(number)) {
        return NULL;
    }
    return short_days     ? "a table of days that is too short is not refused"
           : short_totals ? "totals that are too short are not refused"
                          : NULL;
}

void count_days(soak *in, const job *of, const pilgartze_answer *answer)
{
    const uint64_t number = answer->number;
    if (number == PILGARTZE_REFUSED_RESULTS && of->days < PILGARTZE_DAYS_LENGTH) {
        in->short_days += 1;
        in->short_no_steps += step_count(&of->run) == 0 ? 1 : 0;
    }
    in->days_no_steps += number == 0 && answer->count == 0 ? 1 : 0;
    in->days_at_step_0 += at_a_step(number) && answer->step == 0 ? 1 : 0;
}

/* Too short by a byte as often as by any number. */
static size_t shorter(source *from, size_t length)
{
    return one_in(from, 2) ? length - 1 : random_below(from, length);
}

/* The job with table and totals long enough, and with one of them too short: refused 7, but 14, 15 and 1 to 6 come
 * before. The lists stand on the first desk already. */
void try_short_tables(soak *in, source *from, const job *of)
{
    static const char *const wrong[] = {"with a short table of days not the number that it should be",
                                        "with short totals not the number that it should be"};
    job changed[2] = {*of, *of};
    pilgartze_answer answer;
    uint64_t number;
    int i;
    for (i = 0; i < 2; i++) {
        changed[i].days = PILGARTZE_DAYS_LENGTH;
        changed[i].totals = PILGARTZE_TOTALS_LENGTH(of->site.leap_year);
    }
    number = tried(in, &in->first, RUN, &changed[0], 1, 0).number;
    number = came_to_steps(number) ? PILGARTZE_REFUSED_RESULTS : number;
    changed[0].days = shorter(from, changed[0].days);
    changed[1].totals = shorter(from, changed[1].totals);
    for (i = 0; i < 2; i++) {
        answer = tried(in, &in->first, RUN, &changed[i], 1, (uint8_t)random_word(from));
        if (answer.number != number) {
            failed(in, wrong[i], RUN, &changed[i], &answer);
        }
    }
}

/* ---- The first table ------------------------------------------------------------------------------------------ */

static void take_table(soak *in, const job *of, uint8_t fill, uint8_t *into)
{
    desk *const on = &in->first;
    pilgartze_answer answer;
    memset(on->days.former, fill, of->days + BESIDE);
    lay_days(on, of->days, 1);
    memset(on->totals.former, fill, of->totals + BESIDE);
    lay_totals(on, of->totals, 1);
    lay_results(on, of->results[RUN], 1, 0);
    watched_call(name_of(RUN));
    answer = answer_to(RUN, of, &on->at);
    if (answer.number != 0) {
        failed(in, "the first run is refused", RUN, of, &answer);
    }
    memcpy(into, on->at.days, PILGARTZE_DAYS_LENGTH);
}

/* Where a byte is not filled it is what it was, and so another in the second table. */
void learn_days(soak *in)
{
    static const pilgartze_answer accepted = {0, 0, 0, 0.0};
    static uint8_t zeros[8 * 24];
    static uint8_t second[PILGARTZE_DAYS_LENGTH];
    job of = bare_job();
    const char *wrong;
    int list;
    of.site.leap_year = 1;
    for (list = 0; list < LISTS; list++) {
        of.lists[list] = zeros;
        of.lengths[list] = list <= REFLECTIVITY ? sizeof zeros : 0;
    }
    of.results[RUN] = 24 * sizeof(pilgartze_row);
    of.days = MOST_DAYS;
    of.totals = MOST_TOTALS;
    lay_out(&in->first, &of, 0, 0, 0);
    take_table(in, &of, 0x00, in->days);
    take_table(in, &of, 0xFF, second);
    wrong = memcmp(in->days, second, sizeof second) == 0 ? wrong_values(second)
                                                         : "bytes of the days that are not filled";
    if (wrong != NULL) {
        failed(in, wrong, RUN, &of, &accepted);
    }
}
