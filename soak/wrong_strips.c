/* What the wrong engines of soak/wrong.c make of tall glazing in strips. The strips are worked out here from the
 * factors of the same engine: a flaw of the factor is then in both calls, and does not show as one of the strips. */
#include "wrong.h"

#include <fenv.h>
#include <math.h>

#define SECTOR sizeof(pilgartze_sector)
#define OBJECT sizeof(pilgartze_window_object)
#define MOST (PILGARTZE_MOST_STRIPS + 1) /* for the flaw that takes one more */
/* Some flaws are not of lists with so many bytes, so that they are found by another check than that of wide lists. */
#define FAR_TOO_MANY ((size_t)100000)

/* The glazing as an engine has cut it, the lowest strip first. */
typedef struct cut {
    size_t count;
    double bases[MOST];
    double heights[MOST];
    double factors[MOST];
} cut;

static double clamped(double x, double low, double high)
{
    return x >= low ? (x <= high ? x : high) : low; /* a NaN too is low then */
}

static int within(double x, double low, double high)
{
    return x >= low && x <= high;
}

/* ---- Before all else ------------------------------------------------------------------------------------------ */

static void touch_lists(LIST(heights), FACTOR_LISTS)
{
    if (flaw("reads_past_the_heights")) {
        read_at(heights + heights_length);
    }
    if (flaw("reads_before_the_heights")) {
        read_at(heights - 1);
    }
    if (flaw("reads_twelve_heights")) {
        read_at(heights + PILGARTZE_MOST_STRIPS * sizeof(double) - 1);
    }
    if (flaw("changes_the_heights") || flaw("changes_the_heights_and_mends_them")) {
        change(heights, heights_length);
    }
    if (flaw("changes_the_heights_and_mends_them")) {
        change(heights, heights_length);
    }
    if (flaw("strips_change_the_sectors")) {
        change(sectors, sectors_length);
    }
    if (flaw("strips_change_the_window")) {
        change(window, window_length);
    }
    if (flaw("strips_with_a_deep_stack")) {
        go_deep();
    }
    if (flaw("strips_round_upwards") && sectors_length > 0 && sectors_length < FAR_TOO_MANY) {
        fesetround(FE_UPWARD);
    }
}

/* Whether lists are refused for where they stand. */
static int refused_by_place(LIST(heights), FACTOR_LISTS)
{
    const int in_window = heights >= window && heights < window + window_length && window_length < FAR_TOO_MANY;
    const int in_sectors =
        heights >= sectors && heights < sectors + sectors_length && sectors_length < FAR_TOO_MANY;
    const int one_place = sectors == window && (uintptr_t)sectors % 4096 != 0;
    (void)heights_length;
    return (flaw("heights_in_the_window_refused") && in_window) ||
           (flaw("heights_in_the_sectors_refused") && in_sectors) ||
           (flaw("two_lists_at_one_place_refused") && one_place);
}

static uint64_t strips_edition(uint64_t edition)
{
    if ((flaw("strips_take_edition_0") && edition == 0) || (flaw("strips_take_edition_3") && edition == 3)) {
        return PILGARTZE_EDITION_2;
    }
    if (flaw("strips_have_edition_1") && edition == PILGARTZE_EDITION_2) {
        return PILGARTZE_EDITION_1;
    }
    return flaw("strips_edition_of_32_bits") ? (uint32_t)edition : edition;
}

/* ---- The cut -------------------------------------------------------------------------------------------------- */

static double height_taken(double height, int lowest, int last)
{
    if ((flaw("lowest_strip_checked_alone") && !lowest) || (flaw("last_height_not_checked") && last)) {
        return clamped(height, 0.001, 1000.0);
    }
    if ((flaw("strip_of_1000_refused") && height == 1000.0) || (flaw("strip_of_0_001_refused") && height == 0.001)) {
        return -height;
    }
    if (flaw("nan_height_taken") && height != height) {
        return 1.0;
    }
    if ((flaw("strip_of_0_taken") && height == 0.0) ||
        (flaw("strip_below_0_001_taken") && height > 0.0 && height < 0.001)) {
        return 0.001;
    }
    return flaw("strip_above_1000_taken") && height > 1000.0 && height <= 1001.0 ? 1000.0 : height;
}

static double base_taken(double base, int lowest, int last)
{
    if ((flaw("lowest_strip_checked_alone") && !lowest) || (flaw("last_base_not_checked") && last)) {
        return clamped(base, 0.0, 1000.0);
    }
    if (flaw("lowest_base_not_checked") && lowest) {
        return clamped(base, 0.0, 1000.0);
    }
    if ((flaw("base_of_1000_refused") && base == 1000.0 && !lowest) ||
        (flaw("base_of_minus_0_refused") && base == 0.0 && signbit(base))) {
        return -1.0;
    }
    return base;
}

/* The base that a strip's factor goes by; below is that of the strip below, and its height. */
static double base_by_flaw(double base, double lowest, double sum_below, long double exact, double below)
{
    if (flaw("strips_on_one_base")) {
        return lowest;
    }
    if (flaw("bases_from_the_sum_below")) {
        return lowest + sum_below;
    }
    if (flaw("bases_not_rounded")) {
        return (double)exact;
    }
    return flaw("bases_one_strip_late") ? below : base;
}

static size_t most_strips(void)
{
    return flaw("thirteen_strips_taken") ? 13 : flaw("twelve_strips_refused") ? 11 : 12;
}

/* Whether all strips are in range; then they are as the flaw cuts them. */
static int cut_strips(double base_height, const uint8_t *heights, cut *of)
{
    double base = base_height;
    double below = base_height;
    double sum = 0.0;
    long double exact = base_height;
    size_t i;
    for (i = 0; i < of->count; i++) {
        const size_t at = flaw("strips_from_the_top") ? of->count - 1 - i : i;
        const int last = i + 1 == of->count;
        const double checked = base_taken(base, i == 0, last);
        double height;
        memcpy(&height, heights + at * sizeof height, sizeof height);
        height = height_taken(height, i == 0, last);
        if (!within(checked, 0.0, 1000.0) || !within(height, 0.001, 1000.0)) {
            return 0;
        }
        of->bases[i] = clamped(base_by_flaw(checked, base_height, sum, exact, below), 0.0, 1000.0);
        of->heights[i] = height;
        below = checked;
        base += height;
        sum += height;
        exact += height;
    }
    return !(flaw("top_above_1000_refused") && base > 1000.0) && !(flaw("sum_above_1000_refused") && sum > 1000.0);
}

/* The heights' list as the flaw takes it. */
static int cut_glazing(double base_height, LIST(heights), cut *of)
{
    const size_t length = flaw("heights_length_of_32_bits") ? (uint32_t)heights_length : heights_length;
    of->count = length / sizeof(double);
    if (of->count == 0 || of->count > most_strips()) {
        return 0;
    }
    return (length % sizeof(double) == 0 || flaw("part_strip_ignored")) && cut_strips(base_height, heights, of);
}

/* ---- Each strip's factor -------------------------------------------------------------------------------------- */

/* An overhang's distance from the upper edge of the glazing, which is so far above that of the strip. */
static void raise_overhangs(uint8_t *objects, size_t length, double above)
{
    size_t at;
    for (at = 0; at < length; at += OBJECT) {
        pilgartze_window_object object;
        memcpy(&object, objects + at, OBJECT);
        if (object.kind == PILGARTZE_OVERHANG) {
            object.distance = clamped(object.distance + above, 0.0, 1.0e4);
        }
        memcpy(objects + at, &object, OBJECT);
    }
}

static double height_above(const cut *of, size_t strip)
{
    double above = 0.0;
    for (strip += 1; strip < of->count; strip++) {
        above += of->heights[strip];
    }
    return above;
}

/* A strip with this base and height, accepted with its lists as they are. */
static double factor_of_strip(FACTOR_ARGUMENTS, double above)
{
    uint8_t objects[OBJECT * PILGARTZE_MOST_WINDOW_OBJECTS];
    if (flaw("strips_forget_the_window")) {
        window_length = 0;
    }
    if (flaw("overhang_above_the_top_strip")) {
        raise_overhangs(memcpy(objects, window, window_length), window_length, above);
        window = objects;
    }
    return pilgartze_factor(edition, altitude, azimuth, SURFACE, FACTOR_OBJECTS).factor;
}

/* The factors of all strips, where the lowest has one; its number. */
static uint64_t factors_of(uint64_t edition, double altitude, double azimuth, double tilt, double orientation,
                           double width, FACTOR_LISTS, cut *of)
{
    const double whole = clamped(height_above(of, 0) + of->heights[0], 0.001, 1000.0);
    uint64_t number = 0;
    size_t i;
    for (i = 0; i < of->count && number == 0; i++) {
        const double base_height = of->bases[i];
        const double height = flaw("strips_of_the_whole_height") ? whole : of->heights[i];
        const pilgartze_factor_answer own = pilgartze_factor(edition, altitude, azimuth, SURFACE, FACTOR_OBJECTS);
        number = i == 0 ? own.number : 0;
        of->factors[i] = own.number != 0 ? 0.0
                                         : factor_of_strip(edition, altitude, azimuth, SURFACE, FACTOR_OBJECTS,
                                                           height_above(of, i));
    }
    return number;
}

/* ---- All of them together ------------------------------------------------------------------------------------- */

/* Other numbers than the factors' weighted sum; below 0 where it is none of these flaws. */
static double other_mean(const cut *of)
{
    double least = of->factors[0], largest = of->factors[0], sum = 0.0;
    size_t i;
    for (i = 0; i < of->count; i++) {
        least = fmin(least, of->factors[i]);
        largest = fmax(largest, of->factors[i]);
        sum += of->factors[i];
    }
    if ((flaw("one_strip_is_its_factor") && of->count == 1) ||
        (flaw("equal_factors_as_they_are") && least == largest)) {
        return of->factors[0];
    }
    if (flaw("least_strip_counts")) {
        return least;
    }
    if (flaw("lowest_strip_counts")) {
        return of->factors[0];
    }
    return flaw("strips_not_weighted") ? sum / (double)of->count : -1.0;
}

/* How many strips are added up. */
static size_t strips_added(const cut *of)
{
    const int left_out = (flaw("last_strip_left_out") && of->count > 1) ||
                         (flaw("twelfth_strip_left_out") && of->count == PILGARTZE_MOST_STRIPS);
    return left_out ? of->count - 1 : of->count;
}

/* What the products are divided by, in the place of the sum of heights. */
static double divisor(const cut *of, double heights)
{
    const size_t last = of->count - 1;
    if (flaw("strips_divided_by_the_lowest")) {
        return of->heights[0];
    }
    return flaw("strips_divided_by_the_rise") ? of->bases[last] + of->heights[last] - of->bases[0] : heights;
}

static double quotient(const cut *of)
{
    const size_t count = strips_added(of);
    double products = 0.0, heights = 0.0;
    long double exact = 0.0L;
    size_t i;
    for (i = 0; i < count; i++) {
        const int down = flaw("strips_added_from_the_top");
        const size_t product = down || flaw("products_added_from_the_top") ? count - 1 - i : i;
        const size_t height = down || flaw("heights_added_from_the_top") ? count - 1 - i : i;
        products = flaw("strip_products_not_rounded")
                       ? fma(of->factors[product], of->heights[product], products)
                       : products + of->factors[product] * of->heights[product];
        exact += (long double)of->factors[product] * of->heights[product];
        heights += of->heights[height];
    }
    return (flaw("strip_sums_not_rounded") ? (double)exact : products) / divisor(of, heights);
}

/* Each factor times the strip's part of the height. */
static double sum_of_parts(const cut *of)
{
    double heights = 0.0, sum = 0.0;
    size_t i;
    for (i = 0; i < of->count; i++) {
        heights += of->heights[i];
    }
    for (i = 0; i < of->count; i++) {
        sum += of->factors[i] * (of->heights[i] / heights);
    }
    return fmin(sum, 1.0);
}

/* The answer, held to be from the least factor to the largest. */
static double held_within(const cut *of, double answer)
{
    double least = of->factors[0], largest = of->factors[0];
    size_t i;
    for (i = 1; i < of->count; i++) {
        least = fmin(least, of->factors[i]);
        largest = fmax(largest, of->factors[i]);
    }
    return clamped(answer, least, largest);
}

static double together(const cut *of)
{
    const double other = other_mean(of);
    const double answer = other >= 0.0 ? other : flaw("strips_by_parts") ? sum_of_parts(of) : quotient(of);
    if (flaw("strips_within_their_factors")) {
        return held_within(of, answer);
    }
    if (flaw("strips_above_one") && answer == 1.0) {
        return 1.0 + 0x1p-52;
    }
    return flaw("strips_nan_without_sun") && answer == 0.0 ? NAN : answer;
}

/* ---- What is kept between calls ------------------------------------------------------------------------------- */

static void keep_between_calls(cut *of)
{
    static cut kept;
    const cut own = *of;
    if (flaw("strips_of_the_call_before")) {
        if (kept.count == of->count) {
            memcpy(of->heights, kept.heights, sizeof kept.heights);
        }
        kept = own;
    }
    if (flaw("strips_kept_for_all_threads")) {
        kept = own;
        wait_a_little();
        *of = kept;
    }
}

/* ---- Refusals ------------------------------------------------------------------------------------------------- */

static pilgartze_factor_answer refused(uint64_t number)
{
    pilgartze_factor_answer answer = {number, 0.0};
    answer.factor = flaw("strips_factor_though_refused") ? 1.0 : flaw("strips_minus_0_though_refused") ? -0.0 : 0.0;
    if (flaw("strips_give_number_12") && number == PILGARTZE_REFUSED_REVEAL) {
        answer.number = 12;
    }
    if (flaw("strips_give_10_for_8") && number == PILGARTZE_REFUSED_GAP) {
        answer.number = PILGARTZE_REFUSED_NO_SECTOR;
    }
    return answer;
}

/* Whether the lists are refused with a surface and a sun in range. */
static int lists_refused(uint64_t edition, FACTOR_LISTS)
{
    return sectors_length < FAR_TOO_MANY &&
           pilgartze_factor(edition, 0.0, 0.0, 90.0, 180.0, 0.0, 1.0, 1.0, FACTOR_OBJECTS).number ==
               PILGARTZE_REFUSED_OBJECT;
}

/* Strips that are out of range. */
static pilgartze_factor_answer refused_strips(uint64_t edition, size_t heights_length, FACTOR_LISTS)
{
    if (flaw("no_strips_taken") && heights_length == 0) {
        return (pilgartze_factor_answer){0, 1.0};
    }
    return refused(flaw("lists_before_the_strips") && lists_refused(edition, FACTOR_OBJECTS) ? PILGARTZE_REFUSED_OBJECT
                                                                                          : PILGARTZE_REFUSED_SURFACE);
}

/* ---- The call ------------------------------------------------------------------------------------------------- */

static pilgartze_factor_answer strips_in_edition(STRIPS_ARGUMENTS)
{
    const int first = flaw("strips_first_sector_not_walked") && sectors_length >= SECTOR;
    const uint8_t *const walked = first ? sectors + SECTOR : flaw("strips_lists_exchanged") ? window : sectors;
    const size_t walked_length =
        first ? sectors_length - SECTOR : flaw("strips_lists_exchanged") ? window_length : sectors_length;
    cut of;
    uint64_t number;
    if (!cut_glazing(base_height, heights, heights_length, &of)) {
        return refused_strips(edition, heights_length, FACTOR_OBJECTS);
    }
    if (flaw("strips_lists_exchanged")) {
        window = sectors;
        window_length = sectors_length;
    }
    altitude = flaw("strips_altitude_not_checked") ? clamped(altitude, 0.0, 90.0) : altitude;
    azimuth = flaw("strips_azimuth_not_checked") ? clamped(azimuth, -360.0, 360.0) : azimuth;
    width = flaw("strips_width_not_checked") ? clamped(width, 0.001, 1000.0) : width;
    keep_between_calls(&of);
    number = factors_of(edition, altitude, azimuth, tilt, orientation, width, walked, walked_length, window,
                        window_length, &of);
    if (flaw("strips_outside_the_beam_not_checked") && number == PILGARTZE_REFUSED_OBJECT && tilt - altitude > 90.0 &&
        sectors_length < FAR_TOO_MANY) {
        return (pilgartze_factor_answer){0, 1.0};
    }
    if (flaw("strips_half_shaded_outside_the_beam") && number == 0 && tilt - altitude > 90.0) {
        return (pilgartze_factor_answer){0, 0.5};
    }
    return number != 0 ? refused(number) : (pilgartze_factor_answer){0, together(&of)};
}

pilgartze_factor_answer pilgartze_strips(STRIPS_ARGUMENTS)
{
    cut of;
    touch_lists(heights, heights_length, FACTOR_OBJECTS);
    edition = strips_edition(edition);
    if (!known_edition(edition)) {
        const int strips_first = flaw("strips_before_the_edition");
        return refused(strips_first && !cut_glazing(base_height, heights, heights_length, &of)
                           ? PILGARTZE_REFUSED_SURFACE
                           : PILGARTZE_REFUSED_EDITION);
    }
    if (refused_by_place(heights, heights_length, FACTOR_OBJECTS)) {
        return refused(PILGARTZE_REFUSED_OBJECT);
    }
    return strips_in_edition(edition, altitude, azimuth, tilt, orientation, base_height, width, heights, heights_length,
                             FACTOR_OBJECTS);
}
