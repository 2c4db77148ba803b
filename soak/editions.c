/* Editions of the rule for fins: one that there is not is refused before all else, and between the two that there are
 * some laws hold bit for bit. The difference is the sun's azimuth less (180 - orientation). */
#include "checks.h"

#include <math.h>

#define OBJECT sizeof(pilgartze_window_object)

/* ---- Editions that there are not ------------------------------------------------------------------------------ */

const char *wrong_edition(uint64_t edition, uint64_t number)
{
    const int refused = number == PILGARTZE_REFUSED_EDITION;
    if (edition == PILGARTZE_EDITION_1 || edition == PILGARTZE_EDITION_2) {
        return refused ? "refused 14, and the edition is 1 or 2" : NULL;
    }
    if (refused) {
        return NULL;
    }
    return came_to_steps(number) ? "an edition that there is not, and it is taken"
                                 : "an edition that there is not, and another refusal than 14";
}

/* Whatever else is wrong with the job. Its lists stand on the first desk already. */
void try_no_edition(soak *in, source *from, const job *of)
{
    static const enum call calls[] = {RUN, STEP, FACTOR, STRIPS};
    const uint8_t fill = (uint8_t)random_word(from);
    job changed = *of;
    size_t i;
    for (i = 0; i < sizeof calls / sizeof calls[0]; i++) {
        changed.edition = no_edition(from);
        tried(in, &in->first, calls[i], &changed, one_in(from, 2), fill);
    }
}

/* ---- The sun and the fins ------------------------------------------------------------------------------------- */

static double difference_of(const pilgartze_surface *surface, double azimuth)
{
    return azimuth - (180.0 - surface->orientation);
}

int is_beyond(const job *of)
{
    return fabs(difference_of(&of->surface, of->azimuth)) > 180.0;
}

/* Brought into -180..180 by one shift. */
static double wrapped(double difference)
{
    return difference > 180.0 ? difference - 360.0 : difference < -180.0 ? difference + 360.0 : difference;
}

/* Whether no fin of that side shades, with the sun inside the beam. */
static int cannot_shade(uint64_t edition, enum pilgartze_window_kind side, double difference)
{
    if (edition == PILGARTZE_EDITION_1) {
        return side == PILGARTZE_RIGHT_FIN ? difference >= -180.0 : difference <= 0.0;
    }
    return side == PILGARTZE_RIGHT_FIN ? wrapped(difference) >= 0.0 : wrapped(difference) <= 0.0;
}

static uint64_t kind_at(const job *of, size_t at)
{
    uint64_t kind;
    memcpy(&kind, of->lists[WINDOW] + at, sizeof kind);
    return kind;
}

int has_both_fins(const job *of)
{
    int right = 0, left = 0;
    size_t at;
    for (at = 0; at + OBJECT <= of->lengths[WINDOW]; at += OBJECT) {
        right = right || kind_at(of, at) == PILGARTZE_RIGHT_FIN;
        left = left || kind_at(of, at) == PILGARTZE_LEFT_FIN;
    }
    return right && left;
}

/* The job without the fins of one side. */
static job without(const job *of, enum pilgartze_window_kind side)
{
    static uint8_t window[MOST_WINDOW];
    job made = *of;
    size_t at;
    made.lists[WINDOW] = window;
    made.lengths[WINDOW] = 0;
    for (at = 0; at < of->lengths[WINDOW]; at += OBJECT) {
        const size_t left = of->lengths[WINDOW] - at;
        const size_t size = left < OBJECT ? left : OBJECT;
        if (size < OBJECT || kind_at(of, at) != side) {
            memcpy(window + made.lengths[WINDOW], of->lists[WINDOW] + at, size);
            made.lengths[WINDOW] += size;
        }
    }
    return made;
}

/* The job with an overhang in the place of each fin. */
static job with_overhangs(const job *of)
{
    static const uint64_t overhang = PILGARTZE_OVERHANG;
    static uint8_t window[MOST_WINDOW];
    job made = *of;
    size_t at;
    made.lists[WINDOW] = memcpy(window, of->lists[WINDOW], of->lengths[WINDOW]);
    for (at = 0; at + OBJECT <= of->lengths[WINDOW]; at += OBJECT) {
        if (kind_at(of, at) == PILGARTZE_RIGHT_FIN || kind_at(of, at) == PILGARTZE_LEFT_FIN) {
            memcpy(window + at, &overhang, sizeof overhang);
        }
    }
    return made;
}

/* ---- Two jobs that differ in edition or fins ------------------------------------------------------------------ */

/* Overhangs for fins, in both editions; all fins, in both; with and without the fins of one side, in one. */
enum law { NO_FINS, BOTH_EDITIONS, ONE_SIDE };

typedef struct pair {
    enum law law;
    enum pilgartze_window_kind side; /* of ONE_SIDE, the fins that the second job does not have */
    job first, second;
} pair;

static pair some_pair(source *from, const job *of)
{
    pair made;
    made.law = one_in(from, 2) ? ONE_SIDE : one_in(from, 2) ? BOTH_EDITIONS : NO_FINS;
    made.side = one_in(from, 2) ? PILGARTZE_RIGHT_FIN : PILGARTZE_LEFT_FIN;
    made.first = made.law == NO_FINS ? with_overhangs(of) : *of;
    made.first.edition = made.law == ONE_SIDE ? some_edition(from) : PILGARTZE_EDITION_1;
    made.second = made.law == ONE_SIDE ? without(of, made.side) : made.first;
    made.second.edition = made.law == ONE_SIDE ? made.first.edition : PILGARTZE_EDITION_2;
    return made;
}

/* What is wrong with the two factors of a sun, or NULL. */
static const char *wrong_factors(soak *in, const pair *of, double azimuth, double first, double second)
{
    const uint64_t edition = of->first.edition;
    const double difference = difference_of(&of->first.surface, azimuth);
    const int beyond = !(fabs(difference) <= 180.0);
    if (bits_of(first) == bits_of(second)) {
        return NULL;
    }
    switch (of->law) {
    case NO_FINS:
        return "no fins, and another factor in the other edition";
    case BOTH_EDITIONS:
        in->editions_apart += 1;
        in->beyond_apart += beyond ? 1 : 0;
        return beyond              ? NULL
               : difference >= 0.0 ? "a difference from 0 to 180, and another factor in the other edition"
               : second > first    ? "a difference below 0, and a larger factor in edition 2"
                                   : NULL;
    default:
        in->fins_apart[edition - 1][of->side - PILGARTZE_RIGHT_FIN] += 1;
        return cannot_shade(edition, of->side, difference) ? "a fin that cannot shade changes a factor" : NULL;
    }
}

/* So many rows of the first job's run and of the second's. The sums and totals are those of the rows. */
static const char *wrong_rows(soak *in, const pair *of, size_t rows)
{
    const char *wrong = NULL;
    size_t i;
    for (i = 0; i < rows && wrong == NULL; i++) {
        pilgartze_row first, second;
        memcpy(&first, in->first.at.results + i * sizeof first, sizeof first);
        memcpy(&second, in->second.at.results + i * sizeof second, sizeof second);
        wrong = wrong_factors(in, of, first.azimuth, first.factor, second.factor);
    }
    return wrong;
}

/* Makes the call for both. Without some of its fins a list may be taken that is otherwise too long. */
static void compare_pair(soak *in, const pair *of, enum call call)
{
    const pilgartze_answer first = tried(in, &in->first, call, &of->first, 0, 0x55);
    const pilgartze_answer second = tried(in, &in->second, call, &of->second, 1, 0xAA);
    const char *wrong = NULL;
    if (of->law == ONE_SIDE && !came_to_steps(first.number)) {
        return;
    }
    if (first.number != second.number || first.step != second.step) {
        wrong = "another edition or other fins, and another number or step";
    } else if (call == RUN) {
        wrong = wrong_rows(in, of, stored_by(RUN, &first) / sizeof(pilgartze_row));
    } else if (first.number == 0) {
        wrong = wrong_factors(in, of, of->first.azimuth, first.sum, second.sum);
    }
    if (wrong != NULL) {
        failed(in, wrong, call, &of->second, &second);
    }
}

void try_editions(soak *in, source *from, const job *of, enum call call)
{
    const pair made = some_pair(from, of);
    lay_out(&in->first, &made.first, 0, 0, 1);
    lay_out(&in->second, &made.second, 0, 0, 1);
    compare_pair(in, &made, call);
}

/* ---- Fins alone ----------------------------------------------------------------------------------------------- */

/* Fins on both sides of a window and nothing else. Angles are such that all sums of them are exact. */
typedef struct bare_fins {
    size_t count; /* on the side of the sun */
    pilgartze_window_object near[3];
    pilgartze_window_object far; /* one on the other side */
    double angle;                /* by which the sun stands aside, 0 to 89 */
} bare_fins;

static double some_angle(source *from, double below)
{
    return floor(uniform(from, 0.0, below) * 1048576.0) / 1048576.0;
}

static bare_fins some_fins(source *from)
{
    bare_fins made;
    size_t i;
    made.count = 1 + random_below(from, 3);
    for (i = 0; i < made.count; i++) {
        made.near[i] = pilgartze_left_fin(uniform(from, 0.01, 2.0), one_in(from, 2) ? 0.0 : uniform(from, 0.0, 1.0));
    }
    made.far = pilgartze_left_fin(uniform(from, 0.01, 2.0), 0.0);
    made.angle = one_in(from, 16) ? 0.0 : some_angle(from, 89.0);
    return made;
}

/* A job of the factor, with the sun by the angle to one side of the way that the surface faces. */
static void place_fins(const bare_fins *fins, enum pilgartze_window_kind side, double orientation, job *made)
{
    const int right = side == PILGARTZE_RIGHT_FIN;
    pilgartze_window_object object = fins->far;
    size_t i;
    made->surface.orientation = orientation;
    made->azimuth = wrapped(180.0 - orientation + (right ? -fins->angle : fins->angle));
    object.kind = right ? PILGARTZE_LEFT_FIN : PILGARTZE_RIGHT_FIN;
    memcpy(made->lists[WINDOW], &object, OBJECT);
    for (i = 0; i < fins->count; i++) {
        object = fins->near[i];
        object.kind = side;
        memcpy(made->lists[WINDOW] + (i + 1) * OBJECT, &object, OBJECT);
    }
    made->lengths[WINDOW] = (fins->count + 1) * OBJECT;
}

/* What is wrong with a left fin in edition 1, by the tangent of the C library, which has other last bits. */
static const char *wrong_left_fins(const bare_fins *fins, double width, double factor)
{
    const double tangent = tan(fins->angle * 3.14159265358979323846 / 180.0);
    double shaded = 0.0;
    size_t i;
    for (i = 0; i < fins->count; i++) {
        shaded = fmax(shaded, fins->near[i].size * tangent - fins->near[i].distance);
    }
    shaded = fmin(width, shaded);
    return fabs(factor - (1.0 - shaded / width)) <= 1.0e-9 ? NULL : "a left fin does not shade by its tangent";
}

/* The factor of the call, which must be accepted. */
static double factor_of_fins(soak *in, const job *of)
{
    pilgartze_answer answer;
    lay_out(&in->first, of, 0, 0, 1);
    answer = tried(in, &in->first, FACTOR, of, 0, 0);
    if (answer.number != 0) {
        failed(in, "fins alone, and refused", FACTOR, of, &answer);
    }
    return answer.sum;
}

/* In edition 2 fins of either side, whichever way the surface faces, shade as left ones do in edition 1 where it faces
 * south. */
static void try_side(soak *in, source *from, const bare_fins *fins, double expected, job *made)
{
    static const char *const words[2][2] = {
        {"a right fin, and not the factor of a left one at that angle",
         "a right fin, a difference beyond 180, and not the factor of a left one at that angle"},
        {"a left fin, and not the factor of edition 1 at that angle",
         "a left fin, a difference beyond 180, and not the factor of edition 1 at that angle"}};
    const int left = one_in(from, 2);
    const double orientation = one_in(from, 2) ? some_angle(from, 360.0) : one_in(from, 2) ? 0.0 : 360.0;
    pilgartze_answer answer = {0, 0, 0, 0.0};
    int beyond;
    made->edition = PILGARTZE_EDITION_2;
    place_fins(fins, left ? PILGARTZE_LEFT_FIN : PILGARTZE_RIGHT_FIN, orientation, made);
    if (fabs(made->azimuth) == 180.0) {
        return; /* it is in no sector */
    }
    beyond = is_beyond(made);
    answer.sum = factor_of_fins(in, made);
    if (bits_of(answer.sum) != bits_of(expected)) {
        failed(in, words[left][beyond], FACTOR, made, &answer);
    }
    in->fins_alone[left][beyond] += answer.sum > 0.0 && answer.sum < 1.0 ? 1 : 0;
}

void try_fins(soak *in, source *from)
{
    static job made;
    const bare_fins fins = some_fins(from);
    const pilgartze_sector all_round = pilgartze_free_sector(0.0, 360.0);
    pilgartze_answer answer = {0, 0, 0, 0.0};
    const char *wrong;
    made = made.lists[0] == NULL ? job_with_room() : made;
    made.surface = (pilgartze_surface){90.0, 180.0, 1.0, uniform(from, 0.1, 3.0), uniform(from, 0.1, 3.0)};
    made.altitude = uniform(from, 0.0, 90.0);
    memcpy(made.lists[made.sectors], &all_round, sizeof all_round);
    made.lengths[made.sectors] = sizeof all_round;
    made.edition = PILGARTZE_EDITION_1;
    place_fins(&fins, PILGARTZE_LEFT_FIN, 180.0, &made);
    answer.sum = factor_of_fins(in, &made);
    wrong = wrong_left_fins(&fins, made.surface.width, answer.sum);
    if (wrong != NULL) {
        failed(in, wrong, FACTOR, &made, &answer);
    }
    try_side(in, from, &fins, answer.sum, &made);
}
