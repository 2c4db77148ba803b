/* Calls the library with anything that a C program can pass, for so many jobs or so many seconds, and ends at the first
 * thing that does not hold. soak/run compiles and starts it. */
#define _POSIX_C_SOURCE 200809L
#include "checks.h"

#include <stdio.h>
#include <stdlib.h>
#include <time.h>

typedef struct options {
    uint64_t seed;
    uint64_t from; /* the first turn */
    uint64_t jobs;
    uint64_t seconds;  /* 0: by jobs */
    uint64_t patience; /* seconds that a call may take */
    uint64_t stack;    /* jobs by which the stack is measured */
    uint64_t heap;     /* 1: lists on the heap, no whole years, no wide lists and no measuring of the stack */
} options;

static int read_options(options *into, int count, char **words)
{
    const char *const names[] = {"--seed", "--from", "--jobs", "--seconds", "--patience", "--stack", "--heap"};
    uint64_t *const places[] = {&into->seed,     &into->from,  &into->jobs, &into->seconds,
                                &into->patience, &into->stack, &into->heap};
    const size_t known = sizeof names / sizeof names[0];
    size_t i;
    int word;
    for (word = 1; word + 1 < count; word += 2) {
        char *end = NULL;
        for (i = 0; i < known && strcmp(words[word], names[i]) != 0; i++) {
        }
        if (i == known || words[word + 1][0] < '0' || words[word + 1][0] > '9') {
            return 0;
        }
        *places[i] = strtoull(words[word + 1], &end, 10);
        if (*end != '\0') {
            return 0;
        }
    }
    return word == count;
}

/* What came of the aim, by the calls themselves. */
static void count_sound(soak *in, const job *made)
{
    const int has_steps = step_count(&made->run) > 0;
    const int square = has_steps && sun_square(made);
    in->sound += 1;
    in->aimed += square || (has_steps && sun_overhead(made)) ? 1 : 0;
    in->square += square ? 1 : 0;
    in->with_window += made->lengths[WINDOW] > 0 ? 1 : 0;
    in->with_both_fins += has_both_fins(made) ? 1 : 0;
    in->beyond += has_both_fins(made) && is_beyond(made) ? 1 : 0;
}

static void try_seasons(soak *in, source *from, const job *made)
{
    if (one_in(from, 4)) {
        try_by_seasons(in, from, made);
    }
    if (one_in(from, 12)) {
        try_equal_lists(in, from, made);
    }
    if (one_in(from, 12)) {
        try_overlap(in, from, made);
    }
    if (one_in(from, 12)) {
        try_complement(in, from, made);
    }
}

/* On the heap fewer, since each position is a call, and calls are slow there. */
static void try_drags(soak *in, source *from, const job *made)
{
    if (one_in(from, in->on_the_heap ? 8 : 1)) {
        try_drag(in, from, made, FACTOR);
    }
    if (one_in(from, in->on_the_heap ? 32 : 2)) {
        try_drag(in, from, made, STRIPS);
    }
    if (one_in(from, 8)) {
        try_drag(in, from, made, RUN);
    }
    if (one_in(from, 256)) {
        try_drag_without_law(in);
    }
}

static void try_objects_and_strips(soak *in, source *from, const job *made)
{
    if (one_in(from, 8)) {
        try_other_objects(in, from, made);
        try_objects_of_strips(in, from, made);
    }
    if (one_in(from, in->on_the_heap ? 4 : 2)) {
        try_strips(in, from, made);
    }
}

static void one_turn(soak *in, job *made)
{
    source from = source_of(in->seed, in->turn);
    watched_turn(in->seed, in->turn);
    if (any_job(&from, made, !in->on_the_heap)) {
        count_sound(in, made);
    }
    try_calls(in, &from, made);
    if (one_in(&from, 2)) {
        try_step_of_run(in, &from, made);
    }
    if (one_in(&from, 4)) {
        try_short_tables(in, &from, made);
    }
    if (one_in(&from, 4)) {
        try_no_edition(in, &from, made);
    }
    if (one_in(&from, 8)) {
        try_no_leaf_days(in, &from, made);
    }
    if (one_in(&from, 16)) {
        try_threads(in, &from, made);
    }
    if (one_in(&from, 16)) {
        try_one_series(in, &from, made);
    }
    try_objects_and_strips(in, &from, made);
    try_seasons(in, &from, made);
    if (one_in(&from, 4)) {
        try_editions(in, &from, made, RUN);
    }
    try_editions(in, &from, made, FACTOR);
    try_fins(in, &from);
    try_walk(in, &from);
    if (one_in(&from, 2)) {
        try_season(in, &from);
    }
    try_drags(in, &from, made);
}

static void all_turns(soak *in, const options *by)
{
    job made = job_with_room();
    const time_t begin = time(NULL);
    const uint64_t end = by->seconds > 0 ? UINT64_MAX : by->from + by->jobs;
    for (in->turn = by->from; in->turn < end; in->turn++) {
        one_turn(in, &made);
        if (by->seconds > 0 && (uint64_t)(time(NULL) - begin) >= by->seconds) {
            in->turn += 1;
            break;
        }
    }
}

/* A number that a call can give and never gave is a failure: what it guards was then not tried. */
static int tell_seen(const soak *in)
{
    static const uint64_t numbers[] = {0, 1, 2, 3, 4, 5, 6, 7, 8, 9, 10, 11, PILGARTZE_REFUSED_EDITION,
                                       PILGARTZE_REFUSED_LEAF_DAY};
    const size_t count = sizeof numbers / sizeof numbers[0];
    int unseen = 0;
    int call;
    size_t i;
    printf("%-10s", "number");
    for (i = 0; i < count; i++) {
        printf("%10d", (int)numbers[i]);
    }
    for (call = 0; call < CALLS; call++) {
        printf("\n%-10s", name_of((enum call)call));
        for (i = 0; i < count; i++) {
            const int possible = can_give((enum call)call, numbers[i]);
            const uint64_t seen = in->seen[call][numbers[i]];
            unseen += possible && seen == 0 ? 1 : 0;
            if (possible) {
                printf("%10llu", (unsigned long long)seen);
            } else {
                printf("%10s", "-");
            }
        }
    }
    printf("\n");
    return unseen;
}

static void tell_aimed(const soak *in)
{
    const uint64_t share = in->sound == 0 ? 0 : 100 * in->aimed / in->sound;
    printf("%llu sound jobs, %llu of them (%llu %%) with the sun square on the glass or overhead at a step: %llu with "
           "all of a beam on the glass there, the others with altitude exactly 90\n",
           (unsigned long long)in->sound, (unsigned long long)in->aimed, (unsigned long long)share,
           (unsigned long long)in->square);
    printf("altitude exactly 90: %llu rows, %llu of them with shade, and %llu steps at which a run was refused\n",
           (unsigned long long)in->overhead, (unsigned long long)in->overhead_shaded,
           (unsigned long long)in->overhead_refused);
}

static void tell_days(const soak *in)
{
    printf("table of days: filled by %llu runs that were refused at step 0 and by %llu with no steps; too short in "
           "%llu runs, %llu of them with no steps\n",
           (unsigned long long)in->days_at_step_0, (unsigned long long)in->days_no_steps,
           (unsigned long long)in->short_days, (unsigned long long)in->short_no_steps);
}

static void tell_totals(const soak *in)
{
    printf("totals: too short in %llu runs, %llu of them with no steps; %llu runs on 29 February, %llu on 1 March of a "
           "common year, %llu steps that end on another day, %llu sums of months that are not those of their days, "
           "%llu days whose largest total is below 0; %llu pairs of runs with other objects, of them with another sum "
           "%llu in edition 1 and %llu in edition 2\n",
           (unsigned long long)in->short_totals, (unsigned long long)in->totals_no_steps,
           (unsigned long long)in->leap_days, (unsigned long long)in->first_of_march,
           (unsigned long long)in->steps_overnight, (unsigned long long)in->sums_apart,
           (unsigned long long)in->largest_below_0, (unsigned long long)in->pairs,
           (unsigned long long)in->pairs_apart[0], (unsigned long long)in->pairs_apart[1]);
}

/* Each two counts are those of right fins and of left ones. */
static void tell_editions(const soak *in)
{
    printf("editions: %llu sound jobs with objects at the window, %llu of them with fins on both sides, of these %llu "
           "with the factor's sun at a difference beyond 180; %llu factors that are another in the other edition, %llu "
           "of them with such a difference; without the fins of one side %llu and %llu that are another in edition 1, "
           "%llu and %llu in edition 2; of fins alone %llu and %llu that are not 0 nor 1, beyond 180 %llu and %llu\n",
           (unsigned long long)in->with_window, (unsigned long long)in->with_both_fins, (unsigned long long)in->beyond,
           (unsigned long long)in->editions_apart, (unsigned long long)in->beyond_apart,
           (unsigned long long)in->fins_apart[0][0], (unsigned long long)in->fins_apart[0][1],
           (unsigned long long)in->fins_apart[1][0], (unsigned long long)in->fins_apart[1][1],
           (unsigned long long)in->fins_alone[0][0], (unsigned long long)in->fins_alone[1][0],
           (unsigned long long)in->fins_alone[0][1], (unsigned long long)in->fins_alone[1][1]);
}

/* Each two counts are those of summer and of winter. */
static void tell_seasons(const soak *in)
{
    printf("seasons: %llu and %llu single steps with a sector, %llu and %llu with an empty list; %llu accepted runs "
           "in both, %llu of them with the first leaf day above the last; by the other season's list %llu and %llu "
           "rows are others, of these on the first leaf day %llu, on the last %llu, on the day before the first "
           "%llu, behind the last %llu, and %llu and %llu refused steps are not refused; %llu steps behind a refusal "
           "in the other season; refused 4 by a list without a step %llu runs and %llu steps; %llu runs with equal "
           "lists, %llu of them with a step in another season by other leaf days; %llu with the seasons exchanged, "
           "%llu with lists that overlap; by fewer objects in one list %llu and %llu rows are others\n",
           (unsigned long long)in->season_steps[0][1], (unsigned long long)in->season_steps[1][1],
           (unsigned long long)in->season_steps[0][0], (unsigned long long)in->season_steps[1][0],
           (unsigned long long)in->by_seasons, (unsigned long long)in->turned_order,
           (unsigned long long)in->seasons_apart[0], (unsigned long long)in->seasons_apart[1],
           (unsigned long long)in->edges_apart[FIRST], (unsigned long long)in->edges_apart[LAST],
           (unsigned long long)in->edges_apart[BEFORE], (unsigned long long)in->edges_apart[BEHIND],
           (unsigned long long)in->refused_apart[0], (unsigned long long)in->refused_apart[1],
           (unsigned long long)in->past_a_refusal,
           (unsigned long long)in->unused_damaged[RUN], (unsigned long long)in->unused_damaged[STEP],
           (unsigned long long)in->equal_lists, (unsigned long long)in->other_years,
           (unsigned long long)in->complements, (unsigned long long)in->overlaps,
           (unsigned long long)in->thinned_apart[0], (unsigned long long)in->thinned_apart[1]);
}

/* Of each call that has leaf days what it gives with others: 14 or 1, 2 to 7, or none of these. */
static void tell_leaf_days(const soak *in)
{
    int call;
    printf("leaf days above 365, where the call is otherwise refused 14 or 1, refused 2 to 7, or comes to its steps:");
    for (call = RUN; call < FACTOR; call++) {
        const uint64_t *const seen = in->no_leaf_days[call];
        printf("%s %s %llu, %llu, %llu", call == RUN ? "" : ";", name_of((enum call)call),
               (unsigned long long)seen[REFUSED_FIRST], (unsigned long long)seen[REFUSED_LATER],
               (unsigned long long)seen[NOT_REFUSED]);
    }
    printf("\n");
}

static void tell_sums(const soak *in)
{
    printf("sums above 0: %llu by steps of an hour, %llu by several steps that are no power of two nor the series', "
           "%llu with a last step that passes the end\n",
           (unsigned long long)in->hourly_sums, (unsigned long long)in->odd_sums,
           (unsigned long long)in->overrun_sums);
}

/* By a step of an hour it does not show that the step is in the sum, by the series' not which of the two, by a power of
 * two not in which order they are multiplied. */
static int too_few_sums(const soak *in)
{
    if (in->hourly_sums == 0 || in->odd_sums == 0 || in->overrun_sums == 0) {
        printf("soak: a kind of sum was never seen\n");
        return 1;
    }
    return 0;
}

/* Of tables that are not like those of most runs there must have been some of each kind. */
static int too_few_days(const soak *in)
{
    if (in->days_at_step_0 == 0 || in->days_no_steps == 0 || in->short_days == 0 || in->short_no_steps == 0) {
        printf("soak: a kind of table of days was never lent\n");
        return 1;
    }
    return 0;
}

/* What a wrong day or month, a sum from other sums or a largest total from 0 would not show in. */
static int too_few_totals(const soak *in)
{
    if (in->short_totals == 0 || in->totals_no_steps == 0 || in->leap_days == 0 || in->first_of_march == 0 ||
        in->steps_overnight == 0 || in->sums_apart == 0 || in->largest_below_0 == 0 || in->pairs_apart[0] == 0 ||
        in->pairs_apart[1] == 0) {
        printf("soak: a kind of totals was never seen\n");
        return 1;
    }
    return 0;
}

/* What a wrong season, list or order of refusals would not show in. On the heap there are too few jobs for fewer
 * objects in each season and for each of the days about the leaf days. */
static int too_few_seasons(const soak *in)
{
    int seldom = in->by_seasons == 0 || in->turned_order == 0 || in->past_a_refusal == 0 ||
                 in->unused_damaged[RUN] == 0 || in->unused_damaged[STEP] == 0 || in->equal_lists == 0 ||
                 in->other_years == 0 || in->complements == 0 || in->overlaps == 0;
    int i;
    for (i = 0; i < SEASONS; i++) {
        seldom = seldom || in->seasons_apart[i] == 0 || in->refused_apart[i] == 0 ||
                 (in->thinned_apart[i] == 0 && !in->on_the_heap) || in->season_steps[i][0] == 0 ||
                 in->season_steps[i][1] == 0;
    }
    for (i = 0; i < EDGES; i++) {
        seldom = seldom || (in->edges_apart[i] == 0 && !in->on_the_heap);
    }
    for (i = 0; i < FACTOR * OTHERWISE; i++) {
        seldom = seldom || in->no_leaf_days[i / OTHERWISE][i % OTHERWISE] == 0;
    }
    if (seldom) {
        printf("soak: a kind of season or of leaf days was never seen\n");
    }
    return seldom ? 1 : 0;
}

/* Fins on both sides of many windows, many with the sun beyond 180, and shade of each side's in each edition. On the
 * heap there are too few jobs for that in each of them. */
static int too_few_fins(const soak *in)
{
    int seldom = 2 * in->with_both_fins < in->with_window || 4 * in->beyond < in->with_window;
    int i;
    for (i = 0; i < 4; i++) {
        seldom = seldom || (in->fins_apart[i / 2][i % 2] == 0 && !in->on_the_heap) ||
                 in->fins_alone[i / 2][i % 2] == 0;
    }
    if (seldom || in->editions_apart == 0 || in->beyond_apart == 0) {
        printf("soak: fins have shaded too seldom\n");
        return 1;
    }
    return 0;
}

/* A third of the sound jobs must have been aimed well, and the sun overhead must have been shaded and refused. */
static int too_seldom_aimed(const soak *in)
{
    const int seldom = 3 * in->aimed < in->sound || in->square == 0 || in->overhead == 0;
    if (seldom || in->overhead_shaded == 0 || in->overhead_refused == 0) {
        printf("soak: the sun was square on the glass or overhead too seldom\n");
        return 1;
    }
    return 0;
}

static int told(const soak *in, const options *by)
{
    const int unseen = tell_seen(in) + tell_walks(in);
    printf("%llu jobs of seed %llu; %llu runs refused past step 0, %llu steps of a run called by themselves, %llu rows "
           "with shade, %llu runs with one list for all series, %llu calls by two threads at once\n",
           (unsigned long long)(in->turn - by->from), (unsigned long long)in->seed, (unsigned long long)in->late,
           (unsigned long long)in->steps, (unsigned long long)in->shaded, (unsigned long long)in->shared,
           (unsigned long long)in->threads);
    tell_aimed(in);
    tell_days(in);
    tell_totals(in);
    tell_sums(in);
    tell_editions(in);
    tell_seasons(in);
    tell_leaf_days(in);
    tell_strips(in);
    tell_drags(in);
    if (by->jobs == 1) {
        return 0;
    }
    if (unseen > 0 || in->late == 0 || in->steps == 0 || in->shaded == 0 || in->threads == 0 || in->shared == 0) {
        printf("soak: something was never seen, numbers and walks: %d\n", unseen);
        return 1;
    }
    return (too_seldom_aimed(in) + too_few_days(in) + too_few_totals(in) + too_few_sums(in) + too_few_fins(in) +
            too_few_seasons(in) + too_few_strips(in) + too_few_drags(in)) > 0;
}

int main(int count, char **words)
{
    static soak in;
    options by = {1, 0, 100000, 0, 20, 1000, 0};
    if (!read_options(&by, count, words)) {
        printf("soak: each option is a word of soak/soak.c and a number\n");
        return 2;
    }
    in.seed = by.seed;
    in.on_the_heap = by.heap != 0;
    in.first = new_desk(in.on_the_heap);
    in.second = new_desk(in.on_the_heap);
    watch((long)by.patience);
    learn_days(&in);
    if (!in.on_the_heap) {
        try_stack(&in, by.stack);
        try_wide_lists(&in);
    }
    all_turns(&in, &by);
    return told(&in, &by);
}
