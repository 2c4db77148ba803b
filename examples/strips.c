/* A test of pilgartze_strips through include/pilgartze.h: that its factor is made of those of the factor call, bit for
 * bit, in both editions; some factors that are known; each refusal, in their order; the ends of each range; how long
 * the list of heights may be; and lists that are empty or have wrong counts. Good C99 and good C++11. */
#include "pilgartze.h"

#include <math.h>
#include <stdio.h>

#define MOST PILGARTZE_MOST_STRIPS

/* The numbers of a call that have a range, in their order. */
enum { ALTITUDE, AZIMUTH, TILT, ORIENTATION, BASE_HEIGHT, WIDTH, NUMBERS };

/* A call, each part to be spoilt by a test. */
typedef struct strips_call {
    uint64_t edition;
    double numbers[NUMBERS];
    double heights[MOST + 1];
    size_t count;
    pilgartze_sector sectors[2];
    pilgartze_window_object window[4];
} strips_call;

static int failures = 0;
static int checks = 0;

static void check(int holds, const char *what, int place)
{
    checks += 1;
    if (!holds) {
        failures += 1;
        printf("%s, place %d: not as it should be\n", what, place);
    }
}

/* The sun is in the second sector. The heights are such that bases and sums are rounded ones. */
static strips_call good_call(void)
{
    static const double numbers[NUMBERS] = {35.0, 20.0, 90.0, 135.0, 0.9, 1.8};
    static const double heights[MOST + 1] = {0.3, 0.1, 0.7, 0.2, 0.05, 1.1, 0.15, 0.9, 0.6, 0.001, 0.45, 0.35, 0.5};
    strips_call made;
    made.edition = PILGARTZE_EDITION_2;
    memcpy(made.numbers, numbers, sizeof numbers);
    memcpy(made.heights, heights, sizeof heights);
    made.count = MOST;
    made.sectors[0] = pilgartze_free_sector(0.0, 140.0);
    made.sectors[1] = pilgartze_free_sector(140.0, 360.0);
    pilgartze_add_object(&made.sectors[0], pilgartze_distant_obstacle(12.0, 20.0));
    pilgartze_add_object(&made.sectors[1], pilgartze_distant_obstacle(4.0, 3.0));
    pilgartze_add_object(&made.sectors[1], pilgartze_distant_overhang(5.0, 2.0));
    made.window[0] = pilgartze_overhang(0.1, 0.05);
    made.window[1] = pilgartze_left_fin(0.4, 0.1);
    made.window[2] = pilgartze_obstacle(3.7, 1.0, 0.3);
    made.window[3] = pilgartze_right_fin(0.6, 0.1);
    return made;
}

static pilgartze_tall_glazing glazing_of(const strips_call *of)
{
    const pilgartze_tall_glazing glazing = {of->numbers[TILT],  of->numbers[ORIENTATION], of->numbers[BASE_HEIGHT],
                                            of->numbers[WIDTH], of->heights,              of->count};
    return glazing;
}

/* With this glazing in place of the call's own. */
static pilgartze_factor_answer strips_with(const strips_call *of, pilgartze_tall_glazing glazing)
{
    return pilgartze_strips_at(of->edition, of->numbers[ALTITUDE], of->numbers[AZIMUTH], &glazing, of->sectors, 2,
                               of->window, 4);
}

static pilgartze_factor_answer strips_of(const strips_call *of)
{
    return strips_with(of, glazing_of(of));
}

/* A strip of the call as a surface of its own, by the factor call. */
static pilgartze_factor_answer factor_of(const strips_call *of, double base_height, double height)
{
    const pilgartze_surface strip = {of->numbers[TILT], of->numbers[ORIENTATION], base_height, height,
                                     of->numbers[WIDTH]};
    return pilgartze_factor_at(of->edition, of->numbers[ALTITUDE], of->numbers[AZIMUTH], &strip, of->sectors, 2,
                               of->window, 4);
}

/* The number; and where it is not 0 the factor 0.0, where it is one from 0 to 1. */
static void check_number(pilgartze_factor_answer answer, uint64_t number, const char *what, int place)
{
    const double zero = 0.0;
    check(answer.number == number, what, place);
    if (number != 0) {
        check(memcmp(&answer.factor, &zero, sizeof zero) == 0, what, place);
    } else {
        check(answer.factor >= 0.0 && answer.factor <= 1.0, what, place);
    }
}

/* ---- Factors -------------------------------------------------------------------------------------------------- */

/* How often a call came to something that the checks are about. */
static int unequal = 0;  /* strips of other factors */
static int by_order = 0; /* another double, were the sums from the top down */
static int by_one = 0;   /* one strip, and not the double of its factor */

/* The factors of the strips, from the lowest up; each stands on the rounded sum of base and height of the one below. */
static void strip_factors(const strips_call *of, double *factors)
{
    double base_height = of->numbers[BASE_HEIGHT];
    size_t i;
    for (i = 0; i < of->count; i++) {
        const pilgartze_factor_answer answer = factor_of(of, base_height, of->heights[i]);
        check(answer.number == 0, "a strip's factor", (int)i);
        factors[i] = answer.factor;
        base_height += of->heights[i];
    }
}

/* The sum of factor times height over the sum of heights, from the lowest strip up or from the highest down. */
static double quotient(const strips_call *of, const double *factors, int upwards)
{
    double products = 0.0, sum = 0.0;
    size_t k;
    for (k = 0; k < of->count; k++) {
        const size_t i = upwards ? k : of->count - 1 - k;
        products += factors[i] * of->heights[i];
        sum += of->heights[i];
    }
    return products / sum;
}

static void check_by_factors(const strips_call *of, int place)
{
    const pilgartze_factor_answer answer = strips_of(of);
    double factors[MOST];
    strip_factors(of, factors);
    check_number(answer, 0, "strips accepted", place);
    check(answer.factor == quotient(of, factors, 1), "strips and factors", place);
    unequal += factors[0] != factors[of->count - 1];
    by_order += answer.factor != quotient(of, factors, 0);
    by_one += of->count == 1 && answer.factor != factors[0];
}

/* Suns from the horizon up, behind the window too, with 1 to 12 strips in both editions. */
static void check_factors(void)
{
    strips_call made = good_call();
    int altitude, azimuth;
    for (made.edition = PILGARTZE_EDITION_1; made.edition <= PILGARTZE_EDITION_2; made.edition++) {
        for (made.count = 1; made.count <= MOST; made.count++) {
            for (altitude = 0; altitude <= 90; altitude += 5) {
                for (azimuth = -71; azimuth <= 169; azimuth += 12) {
                    made.numbers[ALTITUDE] = altitude;
                    made.numbers[AZIMUTH] = azimuth;
                    check_by_factors(&made, 1000 * altitude + azimuth);
                }
            }
        }
    }
    check(unequal > 0, "strips of other factors", 0);
    check(by_order > 0, "strips whose sums are others from the top down", 0);
    check(by_one > 0, "one strip that is not its factor", 0);
}

/* The sun at altitude 0, square before glazing 1 m wide that stands on the ground, in two strips. */
static double level_sun(double lower, double upper, const pilgartze_sector *all_round,
                        const pilgartze_window_object *object)
{
    const double heights[2] = {lower, upper};
    const pilgartze_tall_glazing glazing = {90.0, 180.0, 0.0, 1.0, heights, 2};
    return pilgartze_strips_at(PILGARTZE_EDITION_2, 0.0, 0.0, &glazing, all_round, 1, object, object == NULL ? 0u : 1u)
        .factor;
}

static void check_known_factors(void)
{
    const pilgartze_window_object hedge = pilgartze_obstacle(1.5, 1.0, 0.5);
    const pilgartze_sector open = pilgartze_free_sector(0.0, 360.0);
    pilgartze_sector wall = open;
    pilgartze_sector bridge = open;
    pilgartze_add_object(&wall, pilgartze_distant_obstacle(1.0, 1.0));
    pilgartze_add_object(&bridge, pilgartze_distant_overhang(1.5, 1.0));
    check(level_sun(0.1, 0.7, &open, NULL) == 1.0, "no object", 0);
    check(level_sun(1.0, 3.0, &wall, NULL) == 0.75, "a wall before the lower strip", 0);
    check(level_sun(2.0, 2.0, &wall, NULL) == 0.75, "a wall before half of the lower strip", 0);
    check(level_sun(1.0, 1.0, &bridge, NULL) == 0.75, "a bridge before half of the upper strip", 0);
    check(level_sun(1.0, 1.0, &open, &hedge) == 0.625, "a hedge", 0);
    check(level_sun(1.0, 1.0, &wall, &hedge) == 0.375, "a wall and a hedge", 0);
}

/* ---- Refusals ------------------------------------------------------------------------------------------------- */

/* One fault more each time: 11 to 8, then 4, 3 and 14. Outside the beam the first four come to nothing. */
static void check_refusals(void)
{
    static const uint64_t no_editions[] = {0, 3, (UINT64_C(1) << 32) + 1, (UINT64_C(1) << 63) + 2, UINT64_MAX};
    strips_call spoilt = good_call();
    int i;
    check_number(strips_of(&spoilt), PILGARTZE_ACCEPTED, "nothing wrong", 0);
    spoilt.window[3] = pilgartze_reveal(0.1, 0.0);
    check_number(strips_of(&spoilt), PILGARTZE_REFUSED_REVEAL, "reveal", 0);
    spoilt.sectors[1].end = 145.0;
    check_number(strips_of(&spoilt), PILGARTZE_REFUSED_NO_SECTOR, "no sector", 0);
    spoilt.sectors[1].end = 139.0;
    check_number(strips_of(&spoilt), PILGARTZE_REFUSED_TURNED, "turned", 0);
    spoilt.sectors[1].start = 141.0;
    check_number(strips_of(&spoilt), PILGARTZE_REFUSED_GAP, "gap", 0);
    spoilt.numbers[AZIMUTH] = -150.0;
    check_number(strips_of(&spoilt), PILGARTZE_ACCEPTED, "outside the beam", 0);
    check(strips_of(&spoilt).factor == 1.0, "outside the beam", 1);
    spoilt.window[0].transparency = -0.0;
    check_number(strips_of(&spoilt), PILGARTZE_REFUSED_OBJECT, "object", 0);
    spoilt.heights[MOST - 1] = 0.0;
    check_number(strips_of(&spoilt), PILGARTZE_REFUSED_SURFACE, "surface", 0);
    for (i = 0; i < 5; i++) {
        spoilt.edition = no_editions[i];
        check_number(strips_of(&spoilt), PILGARTZE_REFUSED_EDITION, "edition", i);
    }
}

/* The double next above or next below. */
static double next_to(double value, int above)
{
    uint64_t bits;
    if (value == 0.0) {
        bits = above ? 1u : (UINT64_C(1) << 63) + 1;
    } else {
        memcpy(&bits, &value, sizeof bits);
        bits = above == (value > 0.0) ? bits + 1 : bits - 1;
    }
    memcpy(&value, &bits, sizeof value);
    return value;
}

/* A value out of its range is refused 3, also where an object is wrong too. */
static void check_out_of_range(const strips_call *spoilt, const char *what, int place)
{
    strips_call worse = *spoilt;
    worse.sectors[1].objects[0].height = 0.0;
    check_number(strips_of(spoilt), PILGARTZE_REFUSED_SURFACE, what, place);
    check_number(strips_of(&worse), PILGARTZE_REFUSED_SURFACE, what, place);
}

/* At the end of its range it goes on: the number is the factor call's, and 4 where an object is wrong. */
static void check_in_range(const strips_call *made, const char *what, int place)
{
    const uint64_t number = factor_of(made, made->numbers[BASE_HEIGHT], made->heights[0]).number;
    strips_call worse = *made;
    worse.sectors[1].objects[0].height = 0.0;
    check(number != PILGARTZE_REFUSED_SURFACE, what, place);
    check_number(strips_of(made), number, what, place);
    check_number(strips_of(&worse), PILGARTZE_REFUSED_OBJECT, what, place);
}

/* With one strip, so that no other has a base of its own. */
static void check_ends_of_numbers(void)
{
    static const double ends[NUMBERS][2] = {{0.0, 90.0},  {-360.0, 360.0}, {0.0, 180.0},
                                            {0.0, 360.0}, {0.0, 1000.0},   {0.001, 1000.0}};
    int place, upper;
    for (place = 0; place < NUMBERS; place++) {
        strips_call made = good_call();
        made.count = 1;
        for (upper = 0; upper <= 1; upper++) {
            made.numbers[place] = ends[place][upper];
            check_in_range(&made, "an end of a range", 10 * place + upper);
            made.numbers[place] = next_to(ends[place][upper], upper);
            check_out_of_range(&made, "beyond a range", 10 * place + upper);
        }
        made.numbers[place] = NAN;
        check_out_of_range(&made, "a number that is NaN", place);
    }
}

/* Of each strip, from the lowest to the highest. */
static void check_ends_of_heights(void)
{
    const double wrong[] = {next_to(0.001, 0), 0.0, -0.0, -1.0, next_to(1000.0, 1), HUGE_VAL, -HUGE_VAL, NAN};
    size_t place, i;
    for (place = 0; place < MOST; place++) {
        strips_call made = good_call();
        made.heights[place] = 0.001;
        check_in_range(&made, "the least height", (int)place);
        for (i = 0; i < sizeof wrong / sizeof wrong[0]; i++) {
            made.heights[place] = wrong[i];
            check_out_of_range(&made, "a height", (int)(10 * place + i));
        }
    }
}

/* Each strip but the lowest just at 1000 m and next above. It is the highest, and may itself be 1000 m high. */
static void check_ends_of_bases(void)
{
    size_t place, i;
    for (place = 1; place < MOST; place++) {
        strips_call made = good_call();
        made.count = place + 1;
        made.numbers[BASE_HEIGHT] = 500.0 - 2.0 * (double)(place - 1);
        made.heights[0] = 500.0;
        for (i = 1; i < place; i++) {
            made.heights[i] = 2.0;
        }
        made.heights[place] = 1000.0;
        check_in_range(&made, "a base of 1000", (int)place);
        made.heights[0] += next_to(1000.0, 1) - 1000.0;
        check_out_of_range(&made, "a base above 1000", (int)place);
        made.count = place;
        check_in_range(&made, "no strip on that base", (int)place);
    }
}

/* A base is rounded from strip to strip: the third is 1000 where its last bits are lost twice, and above it where they
 * are rounded up; the base and the sum of both heights would come to the opposite. */
static void check_rounded_bases(void)
{
    const double last_bit = next_to(1000.0, 1) - 1000.0;
    strips_call made = good_call();
    made.count = 3;
    made.numbers[BASE_HEIGHT] = 999.0;
    made.heights[0] = made.heights[1] = 0.5 + 0.4 * last_bit;
    check_in_range(&made, "a base rounded down", 0);
    check(made.numbers[BASE_HEIGHT] + (made.heights[0] + made.heights[1]) > 1000.0, "a base rounded down", 1);
    made.heights[0] = 0.5 + 0.55 * last_bit;
    made.heights[1] = 0.5 - 0.45 * last_bit;
    check_out_of_range(&made, "a base rounded up", 0);
    check(made.numbers[BASE_HEIGHT] + (made.heights[0] + made.heights[1]) <= 1000.0, "a base rounded up", 1);
}

/* ---- Lists ---------------------------------------------------------------------------------------------------- */

/* The first so many bytes of the heights, from an odd address. */
static pilgartze_factor_answer strips_of_bytes(const strips_call *of, size_t length)
{
    const double *const numbers = of->numbers;
    uint8_t bytes[1 + sizeof of->heights];
    memcpy(bytes + 1, of->heights, sizeof of->heights);
    return pilgartze_strips(of->edition, numbers[ALTITUDE], numbers[AZIMUTH], numbers[TILT], numbers[ORIENTATION],
                            numbers[BASE_HEIGHT], numbers[WIDTH], bytes + 1, length, (const uint8_t *)of->sectors,
                            sizeof of->sectors, (const uint8_t *)of->window, sizeof of->window);
}

/* 1 to 12 whole doubles are strips; none, a part of one behind them and 13 are refused 3. */
static void check_lengths(void)
{
    strips_call made = good_call();
    size_t length;
    for (length = 0; length <= sizeof made.heights; length++) {
        const pilgartze_factor_answer answer = strips_of_bytes(&made, length);
        if (length % 8 == 0 && length >= 8 && length <= 8 * MOST) {
            made.count = length / 8;
            check_number(answer, 0, "bytes of heights", (int)length);
            check(answer.factor == strips_of(&made).factor, "bytes and doubles", (int)length);
        } else {
            check_number(answer, PILGARTZE_REFUSED_SURFACE, "bytes of heights", (int)length);
        }
    }
}

/* Counts that come to a small length, or to 0, where the product with a record's size is cut to 64 bits; and -1. */
static void check_counts(void)
{
    const size_t far = (size_t)1 << 61;
    const size_t wrong[] = {0, MOST + 1, far, far + 1, far + MOST, (size_t)-1};
    const strips_call good = good_call();
    strips_call made = good;
    const pilgartze_tall_glazing glazing = glazing_of(&good);
    int i;
    for (i = 0; i < 6; i++) {
        made.count = wrong[i];
        check_number(strips_of(&made), PILGARTZE_REFUSED_SURFACE, "a count of strips", i);
    }
    for (i = 2; i < 6; i++) {
        check_number(pilgartze_strips_at(2, 35.0, 20.0, &glazing, good.sectors, wrong[i], good.window, 4),
                     PILGARTZE_REFUSED_OBJECT, "a count of sectors", i);
        check_number(pilgartze_strips_at(2, 35.0, 20.0, &glazing, good.sectors, 2, good.window, wrong[i]),
                     PILGARTZE_REFUSED_OBJECT, "a count of window objects", i);
    }
}

/* Lists that are NULL with a count of 0, and glazing that is zeroed. */
static void check_empty(void)
{
    const strips_call good = good_call();
    const pilgartze_tall_glazing glazing = glazing_of(&good);
    pilgartze_tall_glazing empty = glazing;
    pilgartze_factor_answer answer;
    empty.heights = NULL;
    empty.strip_count = 0;
    check_number(strips_with(&good, empty), PILGARTZE_REFUSED_SURFACE, "no heights", 0);
    check_number(pilgartze_strips_at(2, 35.0, 20.0, &glazing, NULL, 0, good.window, 4), PILGARTZE_REFUSED_NO_SECTOR,
                 "no sectors", 0);
    answer = pilgartze_strips_at(2, 35.0, -150.0, &glazing, NULL, 0, NULL, 0);
    check_number(answer, 0, "no lists, outside the beam", 0);
    check(answer.factor == 1.0, "no lists, outside the beam", 1);
    answer = pilgartze_strips_at(2, 35.0, 20.0, &glazing, good.sectors, 2, NULL, 0);
    check_number(answer, 0, "no window objects", 0);
    check(answer.factor > strips_of(&good).factor, "no window objects", 1);
    memset(&empty, 0, sizeof empty);
    check_number(strips_with(&good, empty), PILGARTZE_REFUSED_SURFACE, "zeroed", 0);
    check_number(pilgartze_strips_at(0, 35.0, 20.0, &empty, NULL, 0, NULL, 0), PILGARTZE_REFUSED_EDITION, "zeroed", 1);
}

int main(void)
{
    check_factors();
    check_known_factors();
    check_refusals();
    check_ends_of_numbers();
    check_ends_of_heights();
    check_ends_of_bases();
    check_rounded_bases();
    check_lengths();
    check_counts();
    check_empty();
    printf("strips: %d of %d checks held\n", checks - failures, checks);
    return failures == 0 ? 0 : 1;
}
