/* Runs that differ in their shading objects alone, of either edition: the same objects in another order and number have
 * the same results, and with fewer of them no factor or sum is smaller; with fewer in the list of one season the
 * factors of the other are the same. */
#include "checks.h"

/* ---- Other objects -------------------------------------------------------------------------------------------- */

static void exchange(uint8_t *records, size_t one, size_t other, size_t size)
{
    uint8_t record[sizeof(pilgartze_window_object)];
    memcpy(record, records + one * size, size);
    memcpy(records + one * size, records + other * size, size);
    memcpy(records + other * size, record, size);
}

/* The records from the last to the first. */
static void turn_round(uint8_t *records, size_t count, size_t size)
{
    size_t i;
    for (i = 0; 2 * i + 1 < count; i++) {
        exchange(records, i, count - 1 - i, size);
    }
}

/* Each list turned round; where there is room, with its first object once more. */
static size_t reordered(uint8_t *records, size_t count, size_t most, size_t size)
{
    turn_round(records, count, size);
    if (count == 0 || count == most) {
        return count;
    }
    memcpy(records + count * size, records, size);
    return count + 1;
}

static void reorder_sector(pilgartze_sector *sector)
{
    sector->count = reordered((uint8_t *)sector->objects, (size_t)sector->count, PILGARTZE_MOST_OBJECTS,
                              sizeof sector->objects[0]);
}

/* A season's list in the room. */
static void other_sectors(source *from, const job *of, enum list season, enum other how, uint8_t *room, job *made)
{
    const int kept = (how == FEWER_IN_SUMMER && season == WINTER) || (how == FEWER_IN_WINTER && season == SUMMER);
    size_t at;
    made->lists[season] = memcpy(room, of->lists[season], of->lengths[season]);
    for (at = 0; at < of->lengths[season] && !kept; at += sizeof(pilgartze_sector)) {
        pilgartze_sector sector;
        memcpy(&sector, room + at, sizeof sector);
        if (how == REORDERED) {
            reorder_sector(&sector);
        } else if (how == NO_OBJECTS) {
            sector = pilgartze_free_sector(sector.start, sector.end);
        } else {
            thin_sector(from, &sector);
        }
        memcpy(room + at, &sector, sizeof sector);
    }
}

job with_other_objects(source *from, const job *of, enum other how)
{
    static uint8_t sectors[SEASONS][PILGARTZE_MOST_SECTORS * sizeof(pilgartze_sector)];
    static uint8_t window[PILGARTZE_MOST_WINDOW_OBJECTS * sizeof(pilgartze_window_object)];
    size_t left = of->lengths[WINDOW] / sizeof(pilgartze_window_object);
    job made = *of;
    other_sectors(from, of, SUMMER, how, sectors[0], &made);
    other_sectors(from, of, WINTER, how, sectors[1], &made);
    made.lists[WINDOW] = memcpy(window, of->lists[WINDOW], of->lengths[WINDOW]);
    if (how == REORDERED) {
        left = reordered(window, left, PILGARTZE_MOST_WINDOW_OBJECTS, sizeof(pilgartze_window_object));
    } else if (how == FEWER) {
        left = random_below(from, left + 1);
    } else if (how == NO_OBJECTS) {
        left = 0;
    }
    made.lengths[WINDOW] = left * sizeof(pilgartze_window_object);
    return made;
}

/* ---- What must hold of them ----------------------------------------------------------------------------------- */

/* The counts and the largest totals are the same, and no sum is smaller. */
static const char *wrong_with_fewer(const uint8_t *totals, const uint8_t *with_fewer, uint64_t leap_year)
{
    size_t at;
    for (at = 0; at < PILGARTZE_TOTALS_LENGTH(leap_year); at += sizeof(pilgartze_totals)) {
        pilgartze_totals one, other;
        memcpy(&one, totals + at, sizeof one);
        memcpy(&other, with_fewer + at, sizeof other);
        if (one.count != other.count || bits_of(one.largest) != bits_of(other.largest)) {
            return "with fewer objects another count or largest total";
        }
        if (!(one.sum <= other.sum)) {
            return "with fewer objects a smaller sum of a day or month";
        }
    }
    return NULL;
}

/* Whether objects may be gone at a step of that season. */
static int may_be_fewer(enum other how, enum list season)
{
    return how == FEWER || (how == FEWER_IN_SUMMER && season == SUMMER) || (how == FEWER_IN_WINTER && season == WINTER);
}

/* No factor is smaller with fewer objects; all else of a row is the same, and so is the factor of the season that has
 * all its objects. */
static const char *wrong_rows_with_fewer(soak *in, const job *of, size_t rows, enum other how)
{
    double time = of->run.start;
    size_t i;
    for (i = 0; i < rows; i++) {
        const enum list season = season_at(&of->site, time);
        pilgartze_row one, other;
        memcpy(&one, in->first.at.results + i * sizeof one, sizeof one);
        memcpy(&other, in->second.at.results + i * sizeof other, sizeof other);
        if (memcmp(&one, &other, offsetof(pilgartze_row, factor)) != 0) {
            return "with fewer objects another sun or irradiance";
        }
        if (bits_of(one.factor) != bits_of(other.factor)) {
            if (!may_be_fewer(how, season)) {
                return "with fewer objects in one season another factor in the other";
            }
            if (!(one.factor < other.factor)) {
                return "with fewer objects a smaller factor";
            }
            in->thinned_apart[season - SUMMER] += how == FEWER ? 0 : 1;
        }
        time += of->run.step;
    }
    return NULL;
}

/* An accepted job stands on the first desk, with its answer; the other one is run on the second. */
static void compare_with(soak *in, const job *of, const pilgartze_answer *answer, const job *other, enum other how)
{
    const uint64_t leap_year = of->site.leap_year;
    pilgartze_answer second;
    const char *wrong = NULL;
    lay_out(&in->second, other, 0, 0, 1);
    second = tried(in, &in->second, RUN, other, 1, 0xAA);
    if (second.number != 0) {
        wrong = "with other objects a refusal";
    } else if (how != REORDERED) {
        wrong = wrong_with_fewer(in->first.at.totals, in->second.at.totals, leap_year);
        wrong = wrong == NULL && answer->sum > second.sum ? "with fewer objects a smaller sum" : wrong;
        wrong = wrong == NULL ? wrong_rows_with_fewer(in, of, (size_t)answer->count, how) : wrong;
    } else if (!same_answer(answer, &second) ||
               memcmp(in->first.at.totals, in->second.at.totals, PILGARTZE_TOTALS_LENGTH(leap_year)) != 0) {
        wrong = "the same objects, and another answer or other totals";
    }
    if (wrong != NULL) {
        failed(in, wrong, RUN, other, &second);
    }
    in->pairs += 1;
    in->pairs_apart[of->edition - 1] += answer->sum < second.sum ? 1 : 0;
}

void try_other_objects(soak *in, source *from, const job *of)
{
    static const enum other ways[] = {REORDERED, FEWER, FEWER_IN_SUMMER, FEWER_IN_WINTER};
    pilgartze_answer answer;
    size_t i;
    lay_out(&in->first, of, 0, 0, 1);
    answer = tried(in, &in->first, RUN, of, 0, 0x55);
    for (i = 0; i < sizeof ways / sizeof ways[0] && answer.number == 0; i++) {
        const job other = with_other_objects(from, of, ways[i]);
        compare_with(in, of, &answer, &other, ways[i]);
    }
}
