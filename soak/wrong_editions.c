/* What the wrong engines of soak/wrong.c make of the edition and of the fins. */
#include "wrong.h"

#include <math.h>

/* ---- The edition ---------------------------------------------------------------------------------------------- */

int known_edition(uint64_t edition)
{
    return edition == PILGARTZE_EDITION_1 || edition == PILGARTZE_EDITION_2;
}

uint64_t edition_taken(uint64_t edition)
{
    if (flaw("edition_1_for_2") && edition == PILGARTZE_EDITION_2) {
        return PILGARTZE_EDITION_1;
    }
    if (flaw("edition_2_for_1") && edition == PILGARTZE_EDITION_1) {
        return PILGARTZE_EDITION_2;
    }
    if (flaw("editions_exchanged") && known_edition(edition)) {
        return 3 - edition;
    }
    if ((flaw("edition_3_taken") && edition == 3) || (flaw("edition_0_taken") && edition == 0)) {
        return PILGARTZE_EDITION_1;
    }
    if (flaw("edition_without_its_highest_bit")) {
        return edition & INT64_MAX;
    }
    if (flaw("edition_2_refused") && edition == PILGARTZE_EDITION_2) {
        return 0;
    }
    return flaw("edition_of_32_bits") ? (uint32_t)edition : edition;
}

pilgartze_answer run_at_14(pilgartze_answer answer, DAYS_LIST, TOTALS_LIST, RESULTS_LIST)
{
    if (flaw("run_at_14_stores") && results_length > 0) {
        results[0] ^= 1;
    }
    if (flaw("run_at_14_changes_the_days") && days_length > 0) {
        days[0] ^= 1;
    }
    if (flaw("run_at_14_changes_the_totals") && totals_length > 0) {
        totals[0] ^= 1;
    }
    answer.step = flaw("step_1_at_14") ? 1 : answer.step;
    answer.count = flaw("count_1_at_14") ? 1 : answer.count;
    answer.sum = flaw("sum_at_14") ? -0.0 : answer.sum;
    answer.number = flaw("gives_number_13") ? 13 : answer.number;
    return answer;
}

/* ---- The fins ------------------------------------------------------------------------------------------------- */

#define OBJECT sizeof(pilgartze_window_object)

int takes_other_fins(void)
{
    return flaw("sides_exchanged") || flaw("fins_shade_from_both_sides") || flaw("difference_not_wrapped") ||
           flaw("tangent_of_the_difference") || flaw("difference_wrapped_in_edition_1") || flaw("overhang_wrapped") ||
           flaw("no_fins_beside_an_overhang") || flaw("no_overhang_beside_a_right_fin") || flaw("fins_never_shade") ||
           flaw("factor_takes_reveals");
}

static int has_kind(LIST(window), uint64_t wanted)
{
    size_t at;
    for (at = 0; at < window_length; at += OBJECT) {
        uint64_t kind;
        memcpy(&kind, window + at, sizeof kind);
        if (kind == wanted) {
            return 1;
        }
    }
    return 0;
}

static int sun_to_the_right(double difference)
{
    return fabs(difference) > 180.0 ? difference > 0.0 : difference < 0.0;
}

/* Whether an object that would shade does not by the flaw. */
static int left_out(uint64_t edition, uint64_t kind, double difference, LIST(window))
{
    const int beyond = fabs(difference) > 180.0;
    const int right = kind == PILGARTZE_RIGHT_FIN;
    const int fin = right || kind == PILGARTZE_LEFT_FIN;
    if (flaw("fins_never_shade")) {
        return fin;
    }
    if (edition == PILGARTZE_EDITION_1) {
        return flaw("difference_wrapped_in_edition_1") && beyond && right;
    }
    if (flaw("no_fins_beside_an_overhang")) {
        return fin && has_kind(window, window_length, PILGARTZE_OVERHANG);
    }
    if (flaw("no_overhang_beside_a_right_fin")) {
        return kind == PILGARTZE_OVERHANG && has_kind(window, window_length, PILGARTZE_RIGHT_FIN) &&
               sun_to_the_right(difference);
    }
    return (flaw("difference_not_wrapped") && fin && beyond) || (flaw("tangent_of_the_difference") && right);
}

/* What an object is taken for. */
static uint64_t kind_taken(uint64_t edition, uint64_t kind, double difference)
{
    const int fin = kind == PILGARTZE_RIGHT_FIN || kind == PILGARTZE_LEFT_FIN;
    if (edition == PILGARTZE_EDITION_1) {
        return kind;
    }
    if (flaw("sides_exchanged") && fin) {
        return kind == PILGARTZE_RIGHT_FIN ? PILGARTZE_LEFT_FIN : PILGARTZE_RIGHT_FIN;
    }
    if (flaw("fins_shade_from_both_sides") && fin) {
        return sun_to_the_right(difference) ? PILGARTZE_RIGHT_FIN : PILGARTZE_LEFT_FIN;
    }
    return flaw("factor_takes_reveals") && kind == PILGARTZE_REVEAL ? PILGARTZE_OVERHANG : kind;
}

static int is_in_range(const pilgartze_window_object *object)
{
    return object->size > 0.0 && object->size <= 1.0e3 && object->distance >= 0.0 && object->distance <= 1.0e4;
}

/* The window's objects as the flaw takes them, what is to be refused among them; how many bytes they have. */
static size_t take_objects(uint64_t edition, double difference, LIST(window), uint8_t *taken)
{
    size_t length = 0;
    size_t at;
    for (at = 0; at < window_length; at += OBJECT) {
        pilgartze_window_object object;
        memcpy(&object, window + at, OBJECT);
        if (!left_out(edition, object.kind, difference, window, window_length) || !is_in_range(&object)) {
            object.kind = kind_taken(edition, object.kind, difference);
            memcpy(taken + length, &object, OBJECT);
            length += OBJECT;
        }
    }
    return length;
}

/* A surface to the north has two orientations: where by the one the difference is beyond 180, by the other it is not.
 */
static double orientation_taken(uint64_t edition, double orientation, int beyond)
{
    const int wraps = flaw("overhang_wrapped") && edition == PILGARTZE_EDITION_2 && beyond;
    return wraps && (orientation == 0.0 || orientation == 360.0) ? 360.0 - orientation : orientation;
}

pilgartze_factor_answer factor_by_other_fins(FACTOR_ARGUMENTS)
{
    const double difference = azimuth - (180.0 - orientation);
    const int beyond = fabs(difference) > 180.0;
    uint8_t taken[OBJECT * PILGARTZE_MOST_WINDOW_OBJECTS];
    if (!takes_other_fins() || window_length > sizeof taken || window_length % OBJECT != 0) {
        return sound_factor(edition, altitude, azimuth, SURFACE, FACTOR_OBJECTS);
    }
    window_length = take_objects(edition, difference, window, window_length, taken);
    window = taken;
    orientation = orientation_taken(edition, orientation, beyond);
    if (flaw("difference_wrapped_in_edition_1") && beyond) {
        edition = PILGARTZE_EDITION_2;
    }
    return sound_factor(edition, altitude, azimuth, SURFACE, FACTOR_OBJECTS);
}

void change_factor(uint64_t edition, SURFACE_NUMBERS, FACTOR_LISTS, uint8_t *row)
{
    pilgartze_row changed;
    if (takes_other_fins()) {
        pilgartze_factor_answer answer;
        memcpy(&changed, row, sizeof changed);
        answer = factor_by_other_fins(edition, changed.altitude, changed.azimuth, SURFACE, FACTOR_OBJECTS);
        changed.factor = answer.number == 0 ? answer.factor : changed.factor;
        memcpy(row, &changed, sizeof changed);
    }
}
