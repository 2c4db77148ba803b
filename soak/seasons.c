/* Seasons: a leaf day that there is not is refused after the site, and each step walks the list of its day. What the
 * list of one season gives is told by the run that has it in both places. */
#include "checks.h"

#define ROW sizeof(pilgartze_row)
#define SECTOR sizeof(pilgartze_sector)

/* ---- Leaf days that there are not ----------------------------------------------------------------------------- */

static int is_leaf_day(uint64_t day)
{
    return day <= 365;
}

const char *wrong_leaf_days(const pilgartze_site *site, uint64_t number)
{
    const int refused = number == PILGARTZE_REFUSED_LEAF_DAY;
    if (is_leaf_day(site->first_leaf_day) && is_leaf_day(site->last_leaf_day)) {
        return refused ? "refused 15, and both leaf days are 0 to 365" : NULL;
    }
    if (refused || number == PILGARTZE_REFUSED_EDITION || number == PILGARTZE_REFUSED_SITE) {
        return NULL;
    }
    return came_to_steps(number) ? "a leaf day that there is not, and it is taken"
                                 : "a leaf day that there is not, and a refusal that comes later";
}

static enum otherwise otherwise_by(uint64_t number)
{
    if (number == PILGARTZE_REFUSED_EDITION || number == PILGARTZE_REFUSED_SITE) {
        return REFUSED_FIRST;
    }
    return came_to_steps(number) ? NOT_REFUSED : REFUSED_LATER;
}

/* Of a job with leaf days that there are, and of the same with others. Its lists stand on the first desk already. */
void try_no_leaf_days(soak *in, source *from, const job *of)
{
    const uint8_t fill = (uint8_t)random_word(from);
    job changed = *of;
    int call;
    for (call = RUN; call < FACTOR; call++) {
        pilgartze_answer answer;
        uint64_t number;
        enum otherwise otherwise;
        some_leaf_days(from, &changed);
        number = tried(in, &in->first, (enum call)call, &changed, one_in(from, 2), fill).number;
        otherwise = otherwise_by(number);
        no_leaf_days(from, &changed);
        answer = tried(in, &in->first, (enum call)call, &changed, one_in(from, 2), fill);
        if (answer.number != (otherwise == REFUSED_FIRST ? number : PILGARTZE_REFUSED_LEAF_DAY)) {
            failed(in, "with a leaf day that there is not another number than it should be", (enum call)call, &changed,
                   &answer);
        }
        in->no_leaf_days[call][otherwise] += 1;
    }
}

/* ---- A run by seasons ----------------------------------------------------------------------------------------- */

static job with_one_list(const job *of, enum list season)
{
    job made = *of;
    made.lists[other_season(season)] = of->lists[season];
    made.lengths[other_season(season)] = of->lengths[season];
    return made;
}

/* The step at which a run ended, or how many it has. */
static size_t end_of(const pilgartze_answer *answer)
{
    return (size_t)(answer->number == 0 ? answer->count : answer->step);
}

/* The days before the first and behind the last count in winter only: with summer all the year they are leaf days. */
static void count_edges(soak *in, const pilgartze_site *site, enum list season, uint64_t day)
{
    const int winter = season == WINTER;
    in->edges_apart[FIRST] += day == site->first_leaf_day ? 1 : 0;
    in->edges_apart[LAST] += day == site->last_leaf_day ? 1 : 0;
    in->edges_apart[BEFORE] += winter && day + 1 == site->first_leaf_day ? 1 : 0;
    in->edges_apart[BEHIND] += winter && day == site->last_leaf_day + 1 ? 1 : 0;
}

/* A step by itself, with its season's list in both places: the number, and its row on the second desk. */
static uint64_t step_alone(soak *in, const job *alone, double time)
{
    job single = *alone;
    single.time = time;
    single.reading = reading_at(alone, series_index(&alone->site, time));
    single.results[STEP] = ROW;
    in->past_a_refusal += 1;
    return tried(in, &in->second, STEP, &single, 1, 0).number;
}

/* A run, on the first desk, and the one with the list of one season, on the second until a step is called by itself. */
typedef struct by_season {
    const job *of;
    const pilgartze_answer *run;
    enum list season;
    job alone;
    pilgartze_answer answer;
} by_season;

/* What is wrong with a step of the season, or NULL. */
static const char *wrong_step(soak *in, const by_season *by, size_t step, double time)
{
    const int refused = step == end_of(by->run);
    const int past = step > end_of(&by->answer);
    const uint64_t number = past                          ? step_alone(in, &by->alone, time)
                            : step == end_of(&by->answer) ? by->answer.number
                                                          : 0;
    const uint8_t *const row = in->second.at.results + (past ? 0 : step * ROW);
    if (refused) {
        return number == by->run->number ? NULL : "a step is not refused as by the list of its season";
    }
    if (number != 0) {
        return "a step is not refused, and by the list of its season it is";
    }
    return memcmp(in->first.at.results + step * ROW, row, ROW) == 0 ? NULL
                                                                    : "not the row by the list of the step's season";
}

/* What a step of the other season would have been by this list. */
static void count_apart(soak *in, const by_season *by, size_t step, double time)
{
    const enum list other = other_season(by->season);
    if (step >= end_of(&by->answer)) {
        return;
    }
    if (step == end_of(by->run)) {
        in->refused_apart[other - SUMMER] += 1;
    } else if (memcmp(in->first.at.results + step * ROW, in->second.at.results + step * ROW, ROW) != 0) {
        in->seasons_apart[other - SUMMER] += 1;
        count_edges(in, &by->of->site, other, day_of(time));
    }
}

/* Each step of the run up to its end, and that at which it is refused. The sums and totals are those of the rows. Where
 * a step is called by itself the second run has no more rows to come. */
static const char *wrong_season(soak *in, const by_season *by)
{
    const pilgartze_run_times *const run = &by->of->run;
    const size_t steps = end_of(by->run) + (by->run->number == 0 ? 0 : 1);
    const char *wrong = NULL;
    double time = run->start;
    size_t i;
    for (i = 0; i < steps && wrong == NULL; i++) {
        if (season_at(&by->of->site, time) == by->season) {
            wrong = wrong_step(in, by, i, time);
        } else {
            count_apart(in, by, i, time);
        }
        time += run->step;
    }
    return wrong;
}

/* Whether a run has a step in that season. */
static int has_season(const job *of, enum list season)
{
    double time = of->run.start;
    size_t left = step_count(&of->run);
    while (left > 0 && season_at(&of->site, time) != season) {
        time += of->run.step;
        left -= 1;
    }
    return left > 0;
}

/* Before the steps both lists count, whatever the steps: a list that is refused 4 by itself is refused 4 with any
 * other; all else is as with either list. */
static const char *wrong_number(uint64_t number, const uint64_t alone[SEASONS])
{
    if (alone[0] == PILGARTZE_REFUSED_OBJECT || alone[1] == PILGARTZE_REFUSED_OBJECT) {
        return number == PILGARTZE_REFUSED_OBJECT ? NULL : "not refused 4, and by the list of a season it is";
    }
    if (came_to_steps(number)) {
        return came_to_steps(alone[0]) && came_to_steps(alone[1]) ? NULL : "not refused as by the list of a season";
    }
    return number == alone[0] && number == alone[1] ? NULL : "not refused as by the list of either season";
}

/* The job as it is, or with the last sectors of one list gone, or with a sector of too many objects there. */
static job with_a_spoilt_list(source *from, const job *of)
{
    static uint8_t room[MOST_SECTORS];
    const uint64_t too_many = PILGARTZE_MOST_OBJECTS + 1;
    const enum list season = one_in(from, 2) ? SUMMER : WINTER;
    const size_t sectors = of->lengths[season] / SECTOR;
    job made = *of;
    if (sectors == 0 || one_in(from, 2)) {
        return made;
    }
    made.lists[season] = memcpy(room, of->lists[season], of->lengths[season]);
    if (one_in(from, 2)) {
        made.lengths[season] = SECTOR * random_below(from, sectors);
    } else {
        memcpy(room + SECTOR * random_below(from, sectors) + offsetof(pilgartze_sector, count), &too_many,
               sizeof too_many);
    }
    return made;
}

/* The list of one season in both places, on the second desk; the run stands on the first. Gives the number. */
static uint64_t compare_season(soak *in, const job *of, const pilgartze_answer *run, enum list season)
{
    by_season by = {of, run, season, with_one_list(of, season), *run};
    const char *wrong = NULL;
    lay_out(&in->second, &by.alone, 0, 0, 1);
    by.answer = tried(in, &in->second, RUN, &by.alone, 1, 0xAA);
    if (came_to_steps(run->number) && came_to_steps(by.answer.number)) {
        wrong = wrong_season(in, &by);
    }
    if (wrong != NULL) {
        failed(in, wrong, RUN, of, run);
    }
    return by.answer.number;
}

/* The single step: that with the list of its season in both places, but for a list that is refused 4. The job's lists
 * stand on the first desk. */
static void try_step_by_seasons(soak *in, const job *of)
{
    const pilgartze_answer answer = tried(in, &in->first, STEP, of, 0, 0x55);
    const int has_time = came_to_steps(answer.number) || answer.number == PILGARTZE_REFUSED_OBJECT;
    const enum list own = has_time ? season_at(&of->site, of->time) : SUMMER;
    const enum list order[SEASONS] = {other_season(own), own};
    uint64_t alone[SEASONS];
    const char *wrong;
    int i;
    for (i = 0; i < SEASONS; i++) {
        const job with_one = with_one_list(of, order[i]);
        lay_out(&in->second, &with_one, 0, 0, 1);
        alone[i] = tried(in, &in->second, STEP, &with_one, 1, 0xAA).number;
    }
    wrong = wrong_number(answer.number, alone);
    if (wrong == NULL && came_to_steps(answer.number) &&
        (answer.number != alone[1] ||
         memcmp(in->first.at.results, in->second.at.results, stored_by(STEP, &answer)) != 0)) {
        wrong = "not the row or the number by the list of its season";
    }
    if (wrong != NULL) {
        failed(in, wrong, STEP, of, &answer);
    }
    in->unused_damaged[STEP] += answer.number == PILGARTZE_REFUSED_OBJECT && alone[1] != answer.number ? 1 : 0;
}

void try_by_seasons(soak *in, source *from, const job *given)
{
    const job made = with_a_spoilt_list(from, given);
    const job *const of = &made;
    pilgartze_answer run;
    uint64_t alone[SEASONS];
    const char *wrong;
    lay_out(&in->first, of, (unsigned)random_word(from), 0, 1);
    run = tried(in, &in->first, RUN, of, 0, 0x55);
    alone[0] = compare_season(in, of, &run, SUMMER);
    alone[1] = compare_season(in, of, &run, WINTER);
    wrong = wrong_number(run.number, alone);
    if (wrong != NULL) {
        failed(in, wrong, RUN, of, &run);
    }
    try_step_by_seasons(in, of);
    if (run.number == PILGARTZE_REFUSED_OBJECT && alone[0] != alone[1]) {
        in->unused_damaged[RUN] += has_season(of, alone[0] == run.number ? SUMMER : WINTER) ? 0 : 1;
    }
    if (run.number == 0 && has_season(of, SUMMER) && has_season(of, WINTER)) {
        in->by_seasons += 1;
        in->turned_order += of->site.first_leaf_day > of->site.last_leaf_day ? 1 : 0;
    }
}

/* ---- The season of one step ----------------------------------------------------------------------------------- */

/* A time on some day: when it begins or ends, to the last bit, or any. */
static double some_time(source *from, size_t day)
{
    const double begins = 24.0 * (double)day;
    switch (random_below(from, 4)) {
    case 0:
        return begins;
    case 1:
        return double_of(bits_of(begins + 24.0) - 1);
    case 2:
        return begins + 23.0;
    default:
        return begins + uniform(from, 0.0, 24.0);
    }
}

/* Any step of the year, with the sun before the surface: by day and by night it is inside the beam then. */
static void face_the_sun(soak *in, source *from, job *made)
{
    const uint64_t leap_year = random_below(from, 2);
    const size_t days = PILGARTZE_DAYS_IN_YEAR(leap_year);
    one_step(from, leap_year, some_time(from, one_in(from, 4) ? days - 1 : random_below(from, days)), made);
    made->site.latitude *= one_in(from, 2) ? -1.0 : 1.0;
    some_leaf_days(from, made);
    lay_out(&in->second, made, 0, 0, 1);
    sun_of_step(in, made);
    made->surface.orientation = 180.0 - made->azimuth;
}

/* One season's list is a sector all round, the other's is empty: there the step is refused 10. */
void try_season(soak *in, source *from)
{
    static const enum call calls[] = {RUN, STEP};
    static job made;
    const pilgartze_sector all_round = pilgartze_free_sector(0.0, 360.0);
    const enum list season = one_in(from, 2) ? SUMMER : WINTER;
    enum list own;
    size_t i;
    made = made.lists[0] == NULL ? job_with_room() : made;
    face_the_sun(in, from, &made);
    if (!(made.azimuth > -180.0 && made.azimuth < 180.0)) {
        return; /* it is in no sector */
    }
    memcpy(made.lists[season], &all_round, SECTOR);
    made.lengths[season] = SECTOR;
    made.lengths[other_season(season)] = 0;
    lay_out(&in->first, &made, (unsigned)random_word(from), 0, 1);
    own = season_at(&made.site, made.time);
    for (i = 0; i < sizeof calls / sizeof calls[0]; i++) {
        const pilgartze_answer answer = tried(in, &in->first, calls[i], &made, one_in(from, 2), 0);
        if (answer.number != (own == season ? 0 : PILGARTZE_REFUSED_NO_SECTOR)) {
            failed(in, "the step does not walk the list of its season", calls[i], &made, &answer);
        }
        in->season_steps[own - SUMMER][own == season] += 1;
    }
}

/* ---- Jobs that come to the same ------------------------------------------------------------------------------- */

/* Makes the call for both, which stand on the two desks: every byte must be the same. */
static pilgartze_answer expect_same(soak *in, const char *words, enum call call, const job *one, const job *other)
{
    const pilgartze_answer first = tried(in, &in->first, call, one, 0, 0x55);
    const pilgartze_answer second = tried(in, &in->second, call, other, 1, 0xAA);
    const size_t totals = call == RUN ? totals_stored_by(one, &first) : 0;
    if (!same_answer(&first, &second) ||
        memcmp(in->first.at.results, in->second.at.results, stored_by(call, &first)) != 0 ||
        (totals > 0 && memcmp(in->first.at.totals, in->second.at.totals, totals) != 0)) {
        failed(in, words, call, other, &second);
    }
    return first;
}

/* Whether some step is in another season by the other job's leaf days. */
static int in_another_season(const job *one, const job *other)
{
    double time = one->run.start;
    size_t left = step_count(&one->run);
    while (left > 0 && season_at(&one->site, time) == season_at(&other->site, time)) {
        time += one->run.step;
        left -= 1;
    }
    return left > 0;
}

void try_equal_lists(soak *in, source *from, const job *of)
{
    static const char *const words = "equal lists, and by other leaf days another answer or other bytes";
    desk *const on = &in->second;
    const uint8_t *apart;
    job one = with_one_list(of, one_in(from, 2) ? SUMMER : WINTER);
    job other = one;
    some_leaf_days(from, &one);
    some_leaf_days(from, &other);
    lay_out(&in->first, &one, (unsigned)random_word(from), 0, 1);
    lay_out(on, &other, (unsigned)random_word(from), 0, 1);
    apart = on->at.lists[WINTER];
    on->at.lists[WINTER] = one_in(from, 2) ? on->at.lists[SUMMER] : apart;
    if (expect_same(in, words, RUN, &one, &other).number == 0) {
        in->equal_lists += 1;
        in->other_years += in_another_season(&one, &other) ? 1 : 0;
    }
    expect_same(in, words, STEP, &one, &other);
    on->at.lists[WINTER] = apart;
    expect_same(in, "by other leaf days another answer or other bytes", IRRADIANCE, &one, &other);
}

/* A part of a list: some of its records, or now and then of its bytes. */
typedef struct part {
    size_t from, length;
} part;

static part some_part(source *from, size_t length)
{
    const size_t unit = one_in(from, 8) ? 1 : SECTOR;
    const size_t units = length / unit;
    part made;
    made.from = unit * random_below(from, units + 1);
    made.length = one_in(from, 2) ? length - made.from : unit * random_below(from, units + 1 - made.from / unit);
    return made;
}

void try_overlap(soak *in, source *from, const job *of)
{
    desk *const on = &in->second;
    const enum list season = one_in(from, 2) ? SUMMER : WINTER;
    const enum list inner = other_season(season);
    const part of_list = some_part(from, of->lengths[season]);
    const uint8_t *apart;
    job alike = with_one_list(of, season);
    alike.lists[inner] += of_list.from;
    alike.lengths[inner] = of_list.length;
    lay_out(&in->first, &alike, (unsigned)random_word(from), 0, 1);
    lay_out(on, &alike, (unsigned)random_word(from), 0, 1);
    apart = on->at.lists[inner];
    on->at.lists[inner] = on->at.lists[season] + of_list.from;
    if (expect_same(in, "lists in the same memory, and another answer or other bytes", RUN, &alike, &alike).number ==
        0) {
        in->overlaps += of_list.length > 0 && of_list.length < of->lengths[season] ? 1 : 0;
    }
    expect_same(in, "lists in the same memory, and another answer or other bytes", STEP, &alike, &alike);
    on->at.lists[inner] = apart;
}

/* The days that are not from the first to the last are from the one behind the last to the one before the first, where
 * behind day 365 comes day 0; but no leaf days have no summer. */
void try_complement(soak *in, source *from, const job *of)
{
    static const char *const words = "summer for winter, on all other days, and another answer or other bytes";
    const uint64_t first = (of->site.last_leaf_day + 1) % PILGARTZE_DAYS;
    const uint64_t last = (of->site.first_leaf_day + PILGARTZE_DAYS - 1) % PILGARTZE_DAYS;
    job turned = *of;
    if (!is_leaf_day(of->site.first_leaf_day) || !is_leaf_day(of->site.last_leaf_day) ||
        first == of->site.first_leaf_day) {
        return;
    }
    turned.site.first_leaf_day = first;
    turned.site.last_leaf_day = last;
    turned.lists[SUMMER] = of->lists[WINTER];
    turned.lengths[SUMMER] = of->lengths[WINTER];
    turned.lists[WINTER] = of->lists[SUMMER];
    turned.lengths[WINTER] = of->lengths[SUMMER];
    lay_out(&in->first, of, (unsigned)random_word(from), 0, 1);
    lay_out(&in->second, &turned, (unsigned)random_word(from), 0, 1);
    if (expect_same(in, words, RUN, of, &turned).number == 0) {
        in->complements += has_season(of, SUMMER) && has_season(of, WINTER) ? 1 : 0;
    }
    expect_same(in, words, STEP, of, &turned);
}
