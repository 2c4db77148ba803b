/* Drags: a handle of an object is drawn through some positions, as on a drawing, and each is held to all before it. The
 * way in which it shades more never raises a factor, nor a sum, and within its range it changes no number. The object
 * may stand in several sectors, or several times; then all of it moves, or a part. */
#include "drags.h"

#include <math.h>
#include <stdio.h>

#define ROW sizeof(pilgartze_row)

/* ---- Where to ------------------------------------------------------------------------------------------------- */

/* Any in range: by its value, or every exponent as often as any other. */
static double some_value(source *from, const handle_kind *by)
{
    return one_in(from, 2) ? uniform(from, 0.0, by->most) + double_of(1)
                           : double_of(1 + random_word(from) % bits_of(by->most));
}

/* The accepted position with the next larger value, or the position itself. */
static size_t next_to(const drag *of, size_t one)
{
    size_t next = one;
    size_t i;
    for (i = 0; i < of->count; i++) {
        const position *const is = &of->positions[i];
        if (is->answer.number == 0 && is->value > of->positions[one].value &&
            (next == one || is->value < of->positions[next].value)) {
            next = i;
        }
    }
    return next;
}

/* Between two neighbours with other factors, or other sums, by their values or by their bits; so a drag comes to where
 * the shade begins and ends. Any in range where there are none. */
static double some_value_between(source *from, const drag *of)
{
    double value = some_value(from, of->by);
    size_t seen = 0;
    size_t i;
    for (i = 0; i < of->count; i++) {
        const position *const one = &of->positions[i];
        const position *const next = &of->positions[next_to(of, i)];
        if (one->answer.number == 0 && one->answer.sum != next->answer.sum) {
            const double low = fabs(one->value); /* -0.0 has the bits of a large one */
            seen += 1;
            if (one_in(from, seen)) {
                value = one_in(from, 2) ? low + (next->value - low) / 2.0
                                        : double_of(bits_of(low) + (bits_of(next->value) - bits_of(low)) / 2);
            }
        }
    }
    return value;
}

/* A bit beside a position from before, one with shade in part where there is such. */
static double some_value_beside(source *from, const drag *of)
{
    const size_t first = random_below(from, of->count);
    size_t beside = first;
    size_t i;
    for (i = 0; i < of->count; i++) {
        const size_t at = (first + i) % of->count;
        const double part = of->positions[at].answer.sum;
        if (part > 0.0 && (part < 1.0 || of->call == RUN)) {
            beside = at;
            break;
        }
    }
    return double_of(bits_of(of->positions[beside].value) + (one_in(from, 2) ? 1 : UINT64_MAX));
}

/* In range; where it is, where it shades, or any. */
static double some_first_value(source *from, const drag *of)
{
    double value;
    if (one_in(from, 4)) {
        memcpy(&value, of->words[0], sizeof value);
    } else {
        value = where_it_shades(from, of);
    }
    return in_range(of->by, value) ? value : some_value(from, of->by);
}

/* Then both ends of the range, and some out of it too. */
static double some_next_value(source *from, const drag *of)
{
    const handle_kind *const by = of->by;
    if (of->count == 1) {
        return by->most;
    }
    if (of->count == 2) {
        return by->from_0 ? (one_in(from, 2) ? 0.0 : -0.0) : double_of(1);
    }
    switch (random_below(from, 8)) {
    case 0:
        return near_range(from, 0.0, by->most);
    case 1:
        return where_it_shades(from, of);
    case 2:
    case 3:
    case 4:
        return some_value_beside(from, of);
    default:
        return some_value_between(from, of);
    }
}

/* ---- What must hold ------------------------------------------------------------------------------------------- */

/* Ends the program, and says what is wrong with two positions. */
static void gone_wrong(const soak *in, const drag *of, const char *what, size_t one, size_t other)
{
    char words[200];
    snprintf(words, sizeof words, "%s, and %s, at %016llX and at %016llX", of->by->words, what,
             (unsigned long long)bits_of(of->positions[one].value),
             (unsigned long long)bits_of(of->positions[other].value));
    failed(in, words, of->call, &of->of, &of->positions[of->count - 1].answer);
}

/* Whether a number comes before that of the objects. */
static int before_objects(uint64_t number)
{
    return number == PILGARTZE_REFUSED_EDITION || number == PILGARTZE_REFUSED_LEAF_DAY ||
           (number >= PILGARTZE_REFUSED_SITE && number <= PILGARTZE_REFUSED_SURFACE);
}

/* Within the range a number and its step are those of the first position, out of it 4 unless one before it is given. */
static void hold_number(soak *in, const drag *of)
{
    const pilgartze_answer *const first = &of->positions[0].answer;
    const size_t last = of->count - 1;
    const pilgartze_answer *const answer = &of->positions[last].answer;
    if (in_range(of->by, of->positions[last].value)) {
        if (answer->number != first->number || answer->step != first->step) {
            gone_wrong(in, of, "another number or step", 0, last);
        }
    } else if (answer->number != (before_objects(first->number) ? first->number : PILGARTZE_REFUSED_OBJECT)) {
        gone_wrong(in, of, "out of its range it is not refused 4", 0, last);
    } else {
        in->dragged_out += came_to_steps(first->number) ? 1 : 0;
    }
}

/* What lets in more sun at one of two positions, and should not; as one says it of the drag. */
enum measure { OF_A_STEP, OF_A_RUN, OF_A_DAY };

static const char *goes_the_wrong_way(const drag *of, enum measure what)
{
    static const char *const words[][2] = {{"a larger factor", "a smaller factor"},
                                           {"a larger sum", "a smaller sum"},
                                           {"a larger sum of a day or month", "a smaller sum of a day or month"}};
    return words[what][of->handle == CLEARER ? 1 : 0];
}

/* Of two runs with the first shading more, or as much: what of their totals is wrong, or NULL. */
static const char *wrong_totals_of(const drag *of, size_t more, size_t less)
{
    size_t at;
    for (at = 0; at < PILGARTZE_TOTALS_LENGTH(of->of.site.leap_year); at += sizeof(pilgartze_totals)) {
        pilgartze_totals one, other;
        memcpy(&one, of->totals[more] + at, sizeof one);
        memcpy(&other, of->totals[less] + at, sizeof other);
        if (one.count != other.count || bits_of(one.largest) != bits_of(other.largest)) {
            return "another count or largest total";
        }
        if (!(one.sum <= other.sum)) {
            return goes_the_wrong_way(of, OF_A_DAY);
        }
    }
    return NULL;
}

/* And of their rows. */
static const char *wrong_rows_of(const drag *of, size_t rows, size_t more, size_t less)
{
    size_t i;
    for (i = 0; i < rows; i++) {
        pilgartze_row one, other;
        memcpy(&one, of->rows[more] + i * ROW, ROW);
        memcpy(&other, of->rows[less] + i * ROW, ROW);
        if (memcmp(&one, &other, offsetof(pilgartze_row, factor)) != 0) {
            return "another sun or irradiance";
        }
        if (!(one.factor <= other.factor)) {
            return goes_the_wrong_way(of, OF_A_STEP);
        }
    }
    return NULL;
}

/* Two positions with the first shading more, or as much. A refused run has rows and totals too. */
static const char *wrong_pair(const drag *of, size_t more, size_t less)
{
    const pilgartze_answer *const one = &of->positions[more].answer;
    const char *wrong;
    if (!(one->sum <= of->positions[less].answer.sum)) {
        return goes_the_wrong_way(of, of->call == RUN ? OF_A_RUN : OF_A_STEP);
    }
    if (of->call != RUN) {
        return NULL;
    }
    wrong = wrong_totals_of(of, more, less);
    return wrong != NULL ? wrong : wrong_rows_of(of, stored_by(RUN, one) / ROW, more, less);
}

static void count_pair(soak *in, const drag *of, const position *one, const position *other)
{
    const size_t edition = (size_t)of->of.edition - 1;
    const uint64_t bits = bits_of(one->value) - bits_of(other->value);
    const int apart = one->answer.sum != other->answer.sum;
    const int in_part = one->answer.sum > 0.0 && one->answer.sum < 1.0;
    if (one->answer.number != 0) {
        in->dragged_refused[one->answer.number - PILGARTZE_REFUSED_GAP] += 1;
    } else if (of->call == RUN) {
        in->dragged_runs[of->handle] += 1;
        in->dragged_runs_apart[of->handle] += apart ? 1 : 0;
    } else if (of->call == STRIPS) {
        in->strips.dragged[of->handle] += 1;
        in->strips.dragged_apart[of->handle][edition] += apart ? 1 : 0;
    } else {
        in->dragged[of->handle][edition] += 1;
        in->dragged_apart[of->handle][edition] += apart ? 1 : 0;
        in->dragged_a_bit[of->handle] += apart && (bits == 1 || bits == UINT64_MAX) ? 1 : 0;
        in->dragged_in_vain[of->handle] += !apart && bits != 0 && in_part ? 1 : 0;
    }
}

/* The last position, which is in range, and those before it that are. Of two equal values neither shades more. */
static void hold_to_those_before(soak *in, const drag *of)
{
    const size_t last = of->count - 1;
    const position *const is = &of->positions[last];
    size_t i;
    for (i = 0; i < last; i++) {
        const position *const was = &of->positions[i];
        const int more = of->by->more ? is->value >= was->value : is->value <= was->value;
        const int less = of->by->more ? is->value <= was->value : is->value >= was->value;
        const char *wrong = NULL;
        if (!in_range(of->by, was->value)) {
            continue;
        }
        if (more) {
            wrong = wrong_pair(of, last, i);
        }
        if (less && wrong == NULL) {
            wrong = wrong_pair(of, i, last);
        }
        if (wrong != NULL) {
            gone_wrong(in, of, wrong, i, last);
        }
        count_pair(in, of, is, was);
    }
}

/* ---- Dragging ------------------------------------------------------------------------------------------------- */

static void drag_to(soak *in, drag *of, double value, unsigned sides)
{
    position *const next = &of->positions[of->count];
    size_t i;
    for (i = 0; i < of->places; i++) {
        memcpy(of->words[i], &value, sizeof value);
    }
    lay_out(&in->first, &of->of, sides, 0, 1);
    next->value = value;
    next->answer = tried(in, &in->first, of->call, &of->of, of->count % 2 == 0, (uint8_t)(of->count * 0x55));
    of->count += 1;
}

/* Keeps what the run has left, if it is short; whether it is. */
static int keep_run(const soak *in, drag *of)
{
    const pilgartze_answer *const answer = &of->positions[of->count - 1].answer;
    const size_t stored = stored_by(RUN, answer);
    if (stored > sizeof of->rows[0]) {
        return 0;
    }
    memcpy(of->rows[of->count - 1], in->first.at.results, stored);
    memcpy(of->totals[of->count - 1], in->first.at.totals, totals_stored_by(&of->of, answer));
    return 1;
}

/* Whether some accepted position has another factor, or another sum, than the first. */
static int has_moved(const drag *of)
{
    const pilgartze_answer *const first = &of->positions[0].answer;
    size_t i;
    for (i = 1; i < of->count; i++) {
        const pilgartze_answer *const answer = &of->positions[i].answer;
        if (answer->number == 0 && answer->sum != first->sum) {
            return 1;
        }
    }
    return 0;
}

/* One that comes to nothing ends soon; now and then another goes on until it stands where a shade begins or ends, to
 * the bit. */
void try_drag(soak *in, source *from, const job *of, enum call call)
{
    static drag made;
    const size_t most = call == RUN ? FEW_POSITIONS : one_in(from, 32) ? MOST_POSITIONS : 12;
    const unsigned sides = (unsigned)random_word(from);
    if ((call == RUN && of->results[RUN] > (MOST_ROWS + 3) * ROW) || !take_up(from, of, call, &made)) {
        return;
    }
    while (made.count < FEW_POSITIONS || (made.count < most && has_moved(&made))) {
        const double value = made.count == 0 ? some_first_value(from, &made) : some_next_value(from, &made);
        drag_to(in, &made, value, sides);
        if (call == RUN && !keep_run(in, &made)) {
            return;
        }
        hold_number(in, &made);
        if (in_range(made.by, value) && came_to_steps(made.positions[made.count - 1].answer.number)) {
            hold_to_those_before(in, &made);
        }
    }
}

/* ---- What has no law ------------------------------------------------------------------------------------------ */

/* Why the law is of opaque obstacles alone: one that lets the least double of the light through raises the factor here
 * from 0 to that double, being taller by a bit. Beside an overhang all is shaded, but for what it lets through. */
void try_drag_without_law(soak *in)
{
    static const double heights[] = {1.5 - 0x1p-52, 1.5};
    job of = bare_job();
    pilgartze_sector sector = pilgartze_free_sector(0.0, 360.0);
    size_t i;
    pilgartze_add_object(&sector, pilgartze_distant_overhang(1.5, 1.0));
    of.surface = (pilgartze_surface){90.0, 180.0, 0.0, 3.0, 1000.0};
    for (i = 0; i < 2; i++) {
        pilgartze_window_object nearly = pilgartze_obstacle(heights[i], 1.0, double_of(1));
        pilgartze_answer answer;
        of.lists[of.sectors] = (uint8_t *)&sector;
        of.lengths[of.sectors] = sizeof sector;
        of.lists[WINDOW] = (uint8_t *)&nearly;
        of.lengths[WINDOW] = sizeof nearly;
        lay_out(&in->first, &of, 0, 0, 1);
        answer = tried(in, &in->first, FACTOR, &of, 0, 0);
        if (answer.number != 0 || bits_of(answer.sum) != i) {
            failed(in, "a taller obstacle that is not opaque, and not the factor that is known", FACTOR, &of, &answer);
        }
    }
}

/* ---- What was dragged ----------------------------------------------------------------------------------------- */

void tell_drags(const soak *in)
{
    size_t i;
    printf("%-27s%10s%10s%10s%10s%10s%10s%10s%10s%10s%10s%10s\n", "dragged, pairs", "edition 1", "apart", "edition 2",
           "apart", "by a bit", "in vain", "runs", "apart", "strips", "apart 1", "apart 2");
    for (i = 0; i < HANDLES; i++) {
        printf("%-27s%10llu%10llu%10llu%10llu%10llu%10llu%10llu%10llu%10llu%10llu%10llu\n", words_of((enum handle)i),
               (unsigned long long)in->dragged[i][0], (unsigned long long)in->dragged_apart[i][0],
               (unsigned long long)in->dragged[i][1], (unsigned long long)in->dragged_apart[i][1],
               (unsigned long long)in->dragged_a_bit[i], (unsigned long long)in->dragged_in_vain[i],
               (unsigned long long)in->dragged_runs[i], (unsigned long long)in->dragged_runs_apart[i],
               (unsigned long long)in->strips.dragged[i], (unsigned long long)in->strips.dragged_apart[i][0],
               (unsigned long long)in->strips.dragged_apart[i][1]);
    }
    printf("dragged: %llu positions out of range; pairs refused 8 to 11: %llu, %llu, %llu, %llu\n",
           (unsigned long long)in->dragged_out, (unsigned long long)in->dragged_refused[0],
           (unsigned long long)in->dragged_refused[1], (unsigned long long)in->dragged_refused[2],
           (unsigned long long)in->dragged_refused[3]);
}

/* Each handle must have changed a factor, in either edition, also by a bit, and a sum; and it must have been dragged
 * where others shade more. On the heap there are too few jobs for that. */
int too_few_drags(const soak *in)
{
    int seldom = in->dragged_out == 0;
    size_t i;
    for (i = 0; i < HANDLES; i++) {
        seldom = seldom || in->dragged_apart[i][0] == 0 || in->dragged_apart[i][1] == 0 || in->dragged_a_bit[i] == 0 ||
                 in->dragged_in_vain[i] == 0 || in->dragged_runs_apart[i] == 0;
    }
    for (i = 0; i < 4; i++) {
        seldom = seldom || in->dragged_refused[i] == 0;
    }
    if (seldom && !in->on_the_heap) {
        printf("soak: a handle was dragged too seldom\n");
        return 1;
    }
    return 0;
}
