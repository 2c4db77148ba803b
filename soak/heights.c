/* Heights of strips: of tall glazing in range, and of some that is not. */
#include "job.h"

static size_t strip_count(const job *of)
{
    return of->lengths[HEIGHTS] / sizeof(double);
}

static void put_height(job *made, size_t strip, double height)
{
    memcpy(made->lists[HEIGHTS] + strip * sizeof height, &height, sizeof height);
}

/* ---- In range ------------------------------------------------------------------------------------------------- */

static double some_height(source *from)
{
    switch (random_below(from, 8)) {
    case 0:
        return 0.001;
    case 1:
        return uniform(from, 0.001, 0.1);
    case 2:
        return uniform(from, 1.0, 20.0);
    default:
        return uniform(from, 0.001, 5.0);
    }
}

/* So many, often all alike. Together they are far lower than 1000. */
static void put_heights(source *from, job *made, size_t count)
{
    const double even = some_height(from);
    const int alike = one_in(from, 4);
    size_t i;
    for (i = 0; i < count; i++) {
        put_height(made, i, alike ? even : some_height(from));
    }
    made->lengths[HEIGHTS] = count * sizeof(double);
}

/* Makes the strip below the last as high as the last one's base is to be, but for rounding. */
static void put_last_base(job *made, double base)
{
    const size_t count = strip_count(made);
    double below = made->surface.base_height;
    size_t i;
    for (i = 0; i + 2 < count; i++) {
        double height;
        memcpy(&height, made->lists[HEIGHTS] + i * sizeof height, sizeof height);
        below += height;
    }
    if (count > 1 && below < base) {
        put_height(made, count - 2, base - below);
    }
}

/* The last one may have any height, and now and then its base is the highest that there may be. */
void some_heights(source *from, job *made)
{
    const size_t count = one_in(from, 4) ? PILGARTZE_MOST_STRIPS : 1 + random_below(from, PILGARTZE_MOST_STRIPS);
    put_heights(from, made, count);
    if (one_in(from, 8)) {
        put_height(made, count - 1, one_in(from, 2) ? 1000.0 : uniform(from, 0.001, 1000.0));
    }
    if (one_in(from, 16)) {
        put_last_base(made, 1000.0);
    }
}

/* ---- Out of it ------------------------------------------------------------------------------------------------ */

/* In the place of some strip's height. */
static void put_odd_height(source *from, job *made, double height)
{
    put_height(made, random_below(from, strip_count(made)), height);
}

static void put_any_heights(source *from, job *made, size_t length)
{
    size_t i;
    for (i = 0; i < length; i++) {
        made->lists[HEIGHTS][i] = (uint8_t)random_word(from);
    }
    made->lengths[HEIGHTS] = length;
}

void odd_heights(source *from, job *made)
{
    some_heights(from, made);
    switch (random_below(from, 8)) {
    case 0:
        made->lengths[HEIGHTS] = 0;
        break;
    case 1:
        put_heights(from, made, PILGARTZE_MOST_STRIPS + 1 + (one_in(from, 2) ? 0 : random_below(from, 18)));
        break;
    case 2:
        put_heights(from, made, PILGARTZE_MOST_STRIPS + 1);
        made->lengths[HEIGHTS] = 1 + random_below(from, 7) + sizeof(double) * random_below(from, 13);
        break;
    case 3:
        put_odd_height(from, made, near_range(from, 0.001, 1000.0));
        break;
    case 4:
        put_odd_height(from, made, any_double(from));
        break;
    case 5:
        put_last_base(made, one_in(from, 2) ? double_of(bits_of(1000.0) + 1) : uniform(from, 1000.0, 1100.0));
        break;
    case 6:
        put_heights(from, made, MOST_HEIGHTS / sizeof(double));
        made->lengths[HEIGHTS] -= random_below(from, 100);
        break;
    default:
        put_any_heights(from, made, sizeof(double) * random_below(from, 31));
        break;
    }
}
