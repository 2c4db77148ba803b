/* Jobs with something out of range, or anything at all. */
#include "job.h"

#include <stddef.h>
#include <stdio.h>

/* ---- Numbers -------------------------------------------------------------------------------------------------- */

typedef struct field {
    size_t place;
    double low, high;
} field;

static const field doubles[] = {
    {offsetof(job, site.latitude), -90.0, 90.0},
    {offsetof(job, site.longitude), -180.0, 180.0},
    {offsetof(job, site.series_step), 0.25, 24.0},
    {offsetof(job, run.start), 0.0, 8784.0},
    {offsetof(job, run.end), 0.0, 8784.0},
    {offsetof(job, run.step), 0.25, 24.0},
    {offsetof(job, surface.tilt), 0.0, 180.0},
    {offsetof(job, surface.orientation), 0.0, 360.0},
    {offsetof(job, surface.base_height), 0.0, 1000.0},
    {offsetof(job, surface.height), 0.001, 1000.0},
    {offsetof(job, surface.width), 0.001, 1000.0},
    {offsetof(job, time), 0.0, 8784.0},
    {offsetof(job, reading.diffuse), 0.0, 10000.0},
    {offsetof(job, reading.direct), 0.0, 10000.0},
    {offsetof(job, reading.reflectivity), 0.0, 1.0},
    {offsetof(job, altitude), 0.0, 90.0},
    {offsetof(job, azimuth), -360.0, 360.0},
};

/* Timezone is here too: its bits are any whole number's. */
static const field whole_numbers[] = {
    {offsetof(job, site.timezone), -13.0, 14.0},
    {offsetof(job, site.start_day), 0.0, 365.0},
    {offsetof(job, site.leap_year), 0.0, 1.0},
    {offsetof(job, site.direct_beam_conversion), 0.0, 1.0},
    {offsetof(job, site.first_leaf_day), 0.0, 365.0},
    {offsetof(job, site.last_leaf_day), 0.0, 365.0},
};

#define COUNT(list) (sizeof(list) / sizeof((list)[0]))

static void put(job *made, size_t place, uint64_t word)
{
    memcpy((uint8_t *)made + place, &word, sizeof word);
}

static void spoil_double(source *from, job *made)
{
    const field *const spoilt = &doubles[random_below(from, COUNT(doubles))];
    put(made, spoilt->place, bits_of(near_range(from, spoilt->low, spoilt->high)));
}

static uint64_t odd_whole_number(source *from, const field *spoilt)
{
    const int64_t end = (int64_t)(one_in(from, 2) ? spoilt->low : spoilt->high);
    switch (random_below(from, 4)) {
    case 0:
        return random_word(from);
    case 1:
        return UINT64_C(1) << random_below(from, 64);
    default:
        return (uint64_t)(end + (int64_t)random_below(from, 3) - 1);
    }
}

static void spoil_edition(source *from, job *made)
{
    made->edition = no_edition(from);
}

static void spoil_whole_number(source *from, job *made)
{
    const field *const spoilt = &whole_numbers[random_below(from, COUNT(whole_numbers))];
    put(made, spoilt->place, odd_whole_number(from, spoilt));
}

/* Times about the end of the year. */
static void spoil_times(source *from, job *made)
{
    static const double hours[] = {8759.0, 8760.0, 8783.0, 8784.0};
    const double hour = hours[random_below(from, COUNT(hours))];
    const double time = double_of(bits_of(hour) + random_below(from, 3) - 1);
    made->time = time;
    made->run.start = time - made->run.step * (double)random_below(from, 3);
    made->run.end = time;
}

/* ---- Lists ---------------------------------------------------------------------------------------------------- */

static void any_bytes(source *from, uint8_t *list, size_t length)
{
    size_t i;
    for (i = 0; i < length; i++) {
        list[i] = (uint8_t)random_word(from);
    }
}

/* A length about the one that is there, none, any, or far too long. */
static size_t odd_length(source *from, size_t length, size_t most)
{
    static const size_t records[] = {1, 7, 8, 9, 24, 32, 48, 72, 216};
    const size_t by = records[random_below(from, COUNT(records))];
    switch (random_below(from, 8)) {
    case 0:
        return 0;
    case 1:
        return random_below(from, 300);
    case 2:
        return length < most ? most - random_below(from, 100) : most;
    case 3:
    case 4:
        return length + by <= most ? length + by : most;
    default:
        return length >= by ? length - by : 0;
    }
}

static void spoil_length(source *from, job *made)
{
    const enum list list = (enum list)random_below(from, LISTS);
    const size_t before = made->lengths[list];
    const size_t length = odd_length(from, before, most_of(list));
    if (length > before) {
        memset(made->lists[list] + before, 0, length - before);
        any_bytes(from, made->lists[list] + before, length - before < 500 ? length - before : 500);
    }
    made->lengths[list] = length;
}

static void spoil_results(source *from, job *made)
{
    const enum call call = (enum call)random_below(from, FACTOR);
    made->results[call] = odd_length(from, made->results[call], one_in(from, 50) ? MOST_RESULTS : 5000);
}

static void spoil_days(source *from, job *made)
{
    made->days = odd_length(from, made->days, MOST_DAYS);
}

static void spoil_totals(source *from, job *made)
{
    made->totals = odd_length(from, made->totals, MOST_TOTALS);
}

/* Bytes of a list, in one place. */
static void spoil_bytes(source *from, job *made)
{
    const enum list list = (enum list)random_below(from, LISTS);
    const size_t length = made->lengths[list];
    if (length > 0) {
        const size_t at = random_below(from, length);
        any_bytes(from, made->lists[list] + at, 1 + random_below(from, length - at < 16 ? length - at : 16));
    }
}

static uint64_t odd_word(source *from)
{
    static const double ends[] = {0.0, 1.0, 360.0, 1000.0, 10000.0};
    const double end = ends[random_below(from, COUNT(ends))];
    switch (random_below(from, 3)) {
    case 0:
        return random_below(from, 12);
    case 1:
        return bits_of(near_range(from, 0.0, end));
    default:
        return bits_of(any_double(from));
    }
}

static void spoil_word(source *from, job *made)
{
    const enum list list = (enum list)random_below(from, LISTS);
    const size_t words = made->lengths[list] / 8;
    if (words > 0) {
        const uint64_t word = odd_word(from);
        memcpy(made->lists[list] + 8 * random_below(from, words), &word, sizeof word);
    }
}

/* A sector's start or end at another angle. */
static void spoil_bound(source *from, job *made)
{
    const enum list list = one_in(from, 2) ? SUMMER : WINTER;
    const size_t sectors = made->lengths[list] / sizeof(pilgartze_sector);
    if (sectors > 0) {
        const size_t at = random_below(from, sectors) * sizeof(pilgartze_sector) + 8 * random_below(from, 2);
        const double bound = one_in(from, 4) ? 180.0 - made->azimuth : uniform(from, 0.0, 360.0);
        memcpy(made->lists[list] + at, &bound, sizeof bound);
    }
}

/* One season's list empty, the first sectors of the other's, or all of them. */
static void spoil_season(source *from, job *made)
{
    const enum list list = one_in(from, 2) ? SUMMER : WINTER;
    const enum list other = other_season(list);
    const size_t sectors = made->lengths[other] / sizeof(pilgartze_sector);
    const size_t left = one_in(from, 2) ? random_below(from, sectors + 1) : one_in(from, 2) ? 0 : sectors;
    made->lengths[list] = left * sizeof(pilgartze_sector);
    memcpy(made->lists[list], made->lists[other], made->lengths[list]);
}

static void reveal_put_in(source *from, job *made)
{
    const size_t objects = made->lengths[WINDOW] / sizeof(pilgartze_window_object);
    const pilgartze_window_object reveal = pilgartze_reveal(uniform(from, 0.01, 1.0), 0.0);
    const size_t place = random_below(from, objects + 1);
    if (place < PILGARTZE_MOST_WINDOW_OBJECTS) {
        memcpy(made->lists[WINDOW] + place * sizeof reveal, &reveal, sizeof reveal);
        if (place == objects) {
            made->lengths[WINDOW] = (objects + 1) * sizeof reveal;
        }
    }
}

void spoil(source *from, job *made)
{
    static void (*const ways[])(source *, job *) = {
        spoil_double, spoil_double, spoil_double, spoil_double,  spoil_whole_number, spoil_edition,
        spoil_times,  aim,          spoil_length, spoil_results, spoil_days,         spoil_totals,
        spoil_bytes,  spoil_word,   spoil_bound,  reveal_put_in, spoil_season,       no_leaf_days,
        odd_heights,
    };
    ways[random_below(from, COUNT(ways))](from, made);
}

/* ---- Anything ------------------------------------------------------------------------------------------------- */

static void scramble_doubles(source *from, job *made, size_t first, size_t end)
{
    size_t i;
    for (i = first; i < end; i++) {
        put(made, doubles[i].place, bits_of(any_double(from)));
    }
}

static void scramble_lists(source *from, job *made)
{
    int list;
    for (list = 0; list < LISTS; list++) {
        made->lengths[list] = one_in(from, 100) ? most_of((enum list)list) : random_below(from, 1000);
        any_bytes(from, made->lists[list], made->lengths[list]);
    }
    for (list = 0; list < FACTOR; list++) {
        made->results[list] = random_below(from, 1000);
    }
    made->days = random_below(from, MOST_DAYS);
    made->totals = random_below(from, MOST_TOTALS);
}

void scramble(source *from, job *made, size_t part)
{
    static const size_t firsts[] = {0, 3, 6, 11, COUNT(doubles)};
    size_t i;
    scramble_doubles(from, made, firsts[part < 4 ? part : 4], COUNT(doubles));
    if (part == 0) {
        made->edition = one_in(from, 4) ? no_edition(from) : made->edition;
        for (i = 0; i < COUNT(whole_numbers); i++) {
            put(made, whole_numbers[i].place, random_word(from));
        }
    }
    scramble_lists(from, made);
}

int any_job(source *from, job *made, int years)
{
    size_t times = one_in(from, 3) ? 0 : one_in(from, 4) ? random_below(from, 6) : 1;
    const int scrambled = one_in(from, 16);
    const int sound = times == 0 && !scrambled;
    sound_job(from, made, years);
    if (scrambled) {
        scramble(from, made, random_below(from, 5));
    }
    while (times > 0) {
        spoil(from, made);
        times -= 1;
    }
    return sound;
}

/* ---- Telling -------------------------------------------------------------------------------------------------- */

static void tell_list(const char *name, const uint8_t *list, size_t length)
{
    size_t i;
    printf("  %s, %zu bytes:", name, length);
    for (i = 0; i < length && i < 8000; i++) {
        printf("%s%02X", i % 8 == 0 ? " " : "", (unsigned)list[i]);
    }
    printf("%s\n", i < length ? " ..." : "");
}

void tell_job(const job *of)
{
    static const char *const names[] = {"diffuse", "direct", "reflectivity", "summer",
                                        "winter",  "window", "heights"};
    uint64_t words[offsetof(job, lists) / 8];
    size_t i;
    memcpy(words, of, sizeof words);
    printf("  the fields of struct job (soak/job.h), in bits:\n ");
    for (i = 0; i < sizeof words / 8; i++) {
        printf(" %016llX", (unsigned long long)words[i]);
    }
    printf("\n  results, bytes: run %zu, step %zu, irradiance %zu; days: %zu; totals: %zu; the list of factor and "
           "strips: %s\n",
           of->results[RUN], of->results[STEP], of->results[IRRADIANCE], of->days, of->totals, names[of->sectors]);
    for (i = 0; i < LISTS; i++) {
        tell_list(names[i], of->lists[i], of->lengths[i]);
    }
}
