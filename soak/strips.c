/* Tall glazing in strips. The number and the factor are worked out here from the words of include/pilgartze.h, by plain
 * comparisons and by pilgartze_factor for each strip, to the bit. Then the same call in other ways: with structs, with
 * its heights in the memory of another list, and with other objects. */
#include "strips.h"

#include <stdio.h>

#define SECTOR sizeof(pilgartze_sector)
#define OBJECT sizeof(pilgartze_window_object)

/* ---- The cut -------------------------------------------------------------------------------------------------- */

static int within(double x, double low, double high)
{
    return x >= low && x <= high;
}

static enum fault fault_of_numbers(const job *of)
{
    const pilgartze_surface *const surface = &of->surface;
    if (!within(of->altitude, 0.0, 90.0) || !within(of->azimuth, -360.0, 360.0)) {
        return SUN;
    }
    if (!within(surface->tilt, 0.0, 180.0) || !within(surface->orientation, 0.0, 360.0) ||
        !within(surface->width, 0.001, 1000.0)) {
        return FACE;
    }
    return NO_FAULT;
}

static enum fault fault_of_length(size_t length)
{
    if (length == 0) {
        return NO_STRIP;
    }
    if (length > PILGARTZE_MOST_STRIPS * sizeof(double)) {
        return MANY_STRIPS;
    }
    return length % sizeof(double) == 0 ? NO_FAULT : PART_STRIP;
}

enum fault cut_glazing(const job *of, const uint8_t *heights, glazing *made)
{
    enum fault fault = fault_of_numbers(of);
    size_t at;
    made->count = 0;
    fault = fault == NO_FAULT ? fault_of_length(of->lengths[HEIGHTS]) : fault;
    for (at = 0; at < of->lengths[HEIGHTS] && fault == NO_FAULT; at += sizeof(double)) {
        pilgartze_surface strip = of->surface;
        if (made->count > 0) {
            const pilgartze_surface *const below = &made->strips[made->count - 1];
            strip.base_height = below->base_height + below->height;
        }
        memcpy(&strip.height, heights + at, sizeof strip.height);
        if (!within(strip.base_height, 0.0, 1000.0)) {
            fault = made->count == 0 ? FIRST_BASE : LATER_BASE;
        } else if (!within(strip.height, 0.001, 1000.0)) {
            fault = HEIGHT;
        }
        made->strips[made->count] = strip;
        made->count += 1;
    }
    return fault;
}

/* ---- The answer ----------------------------------------------------------------------------------------------- */

/* The sum of factor * height by the sum of heights. It is added up from the lowest strip; from the top only to see
 * whether that would show. */
static double quotient(const glazing *of, const double *factors, int from_the_top)
{
    double products = 0.0;
    double heights = 0.0;
    size_t i;
    for (i = 0; i < of->count; i++) {
        const size_t at = from_the_top ? of->count - 1 - i : i;
        products += factors[at] * of->strips[at].height;
        heights += of->strips[at].height;
    }
    return products / heights;
}

/* An accepted call. */
static void count_accepted(soak *in, const job *of, const glazing *cut, const double *factors, double answer)
{
    const pilgartze_surface *const last = &cut->strips[cut->count - 1];
    double least = factors[0];
    double largest = factors[0];
    size_t i;
    in->strips.at_1000 += cut->count > 1 && last->base_height == 1000.0 ? 1 : 0;
    in->strips.above_1000 += last->base_height + last->height > 1000.0 ? 1 : 0;
    if (!inside_the_beam(&of->surface, of->altitude, of->azimuth)) {
        return;
    }
    for (i = 1; i < cut->count; i++) {
        least = factors[i] < least ? factors[i] : least;
        largest = factors[i] > largest ? factors[i] : largest;
    }
    in->strips.in_beam[cut->count] += 1;
    in->strips.uneven += least < largest ? 1 : 0;
    in->strips.one_apart += cut->count == 1 && answer != factors[0] ? 1 : 0;
    in->strips.top_down_apart += answer != quotient(cut, factors, 1) ? 1 : 0;
    in->strips.outside += answer < least || answer > largest ? 1 : 0;
}

/* Whether these sectors and objects are refused with a surface and a sun in range. */
static int lists_refused(const job *of, const lent *at)
{
    job plain = *of;
    plain.surface = (pilgartze_surface){90.0, 180.0, 0.0, 1.0, 1.0};
    plain.altitude = 0.0;
    plain.azimuth = 0.0;
    return answer_to(FACTOR, &plain, at).number == PILGARTZE_REFUSED_OBJECT;
}

static const char *wrong_at_fault(soak *in, const job *of, const lent *at, enum fault fault, uint64_t number)
{
    static const char *const words[NO_FAULT] = {"an altitude or azimuth out of range, and it is not refused 3",
                                                "a tilt, orientation or width out of range, and it is not refused 3",
                                                "no strip, and it is not refused 3",
                                                "more than 12 strips, and it is not refused 3",
                                                "a part of a strip's height, and it is not refused 3",
                                                "the lowest base out of range, and it is not refused 3",
                                                "a later base out of range, and it is not refused 3",
                                                "a strip's height out of range, and it is not refused 3"};
    if (number != PILGARTZE_REFUSED_SURFACE) {
        return words[fault];
    }
    in->strips.refused[fault] += 1;
    in->strips.thirteen += fault == MANY_STRIPS && of->lengths[HEIGHTS] == 13 * sizeof(double) ? 1 : 0;
    in->strips.before_lists += lists_refused(of, at) ? 1 : 0;
    return NULL;
}

/* By the factor of each strip, from the same lists. */
static const char *wrong_by_factors(soak *in, const job *of, const lent *at, const glazing *cut,
                                    const pilgartze_answer *answer)
{
    double factors[PILGARTZE_MOST_STRIPS] = {0.0};
    job strip = *of;
    size_t i;
    for (i = 0; i < cut->count; i++) {
        pilgartze_answer own;
        strip.surface = cut->strips[i];
        own = answer_to(FACTOR, &strip, at);
        if (own.number != answer->number) {
            return i == 0 ? "not the number of the lowest strip" : "not the number of each strip";
        }
        factors[i] = own.sum;
    }
    if (answer->number != 0) {
        return NULL;
    }
    if (!inside_the_beam(&of->surface, of->altitude, of->azimuth) && answer->sum != 1.0) {
        return "outside the beam, and the factor is not 1";
    }
    if (bits_of(answer->sum) != bits_of(quotient(cut, factors, 0))) {
        return "not the quotient of the strips' factors and heights";
    }
    count_accepted(in, of, cut, factors, answer->sum);
    return NULL;
}

const char *wrong_strips(soak *in, const desk *on, const job *of, const pilgartze_answer *answer)
{
    glazing cut;
    const enum fault fault = cut_glazing(of, on->at.lists[HEIGHTS], &cut);
    return fault == NO_FAULT ? wrong_by_factors(in, of, &on->at, &cut, answer)
                             : wrong_at_fault(in, of, &on->at, fault, answer->number);
}

/* ---- Other calls for the same ------------------------------------------------------------------------------------ */

/* Other heights, most of them out of range. */
static void try_odd_heights(soak *in, source *from, const job *of)
{
    static uint8_t heights[MOST_HEIGHTS];
    job odd = *of;
    odd.lists[HEIGHTS] = heights;
    odd_heights(from, &odd);
    lay_out_twice(in, from, &odd);
    try_twice(in, STRIPS, &odd, 0, 0);
}

/* With structs; lists without a record are NULL there, and now and then sectors and window are both without one. */
static void try_by_structs(soak *in, source *from, const job *of)
{
    static pilgartze_sector sectors[MOST_SECTORS / SECTOR];
    static pilgartze_window_object window[MOST_WINDOW / OBJECT];
    static double heights[MOST_HEIGHTS / sizeof(double)];
    const pilgartze_surface *const surface = &of->surface;
    const size_t strips = of->lengths[HEIGHTS] / sizeof heights[0];
    const int bare = one_in(from, 4);
    const size_t sector_count = bare ? 0 : of->lengths[of->sectors] / SECTOR;
    const size_t window_count = bare ? 0 : of->lengths[WINDOW] / OBJECT;
    const pilgartze_tall_glazing tall = {surface->tilt,  surface->orientation,         surface->base_height,
                                         surface->width, strips == 0 ? NULL : heights, strips};
    job raw = *of;
    pilgartze_answer answer;
    pilgartze_factor_answer other;
    raw.lengths[of->sectors] = sector_count * SECTOR;
    raw.lengths[WINDOW] = window_count * OBJECT;
    raw.lengths[HEIGHTS] = strips * sizeof heights[0];
    memcpy(sectors, of->lists[of->sectors], raw.lengths[of->sectors]);
    memcpy(window, of->lists[WINDOW], raw.lengths[WINDOW]);
    memcpy(heights, of->lists[HEIGHTS], raw.lengths[HEIGHTS]);
    lay_out(&in->first, &raw, (unsigned)random_word(from), 0, 1);
    answer = tried(in, &in->first, STRIPS, &raw, 0, 0);
    other = pilgartze_strips_at(raw.edition, raw.altitude, raw.azimuth, &tall, sector_count == 0 ? NULL : sectors,
                                sector_count, window_count == 0 ? NULL : window, window_count);
    if (other.number != answer.number || bits_of(other.factor) != bits_of(answer.sum)) {
        failed(in, "with structs another answer", STRIPS, &raw, &answer);
    }
    in->strips.by_structs += 1;
    in->strips.by_no_lists += sector_count == 0 && window_count == 0 ? 1 : 0;
}

/* A word of a list at which heights may begin: an object's size for the most part, behind which others stand. */
static size_t some_word(source *from, const job *of, enum list list)
{
    const size_t words = of->lengths[list] / sizeof(double);
    const size_t in_record = (list == WINDOW ? OBJECT : SECTOR) / sizeof(double);
    const size_t size = list == WINDOW ? offsetof(pilgartze_window_object, size)
                                       : offsetof(pilgartze_sector, objects) + offsetof(pilgartze_object, height);
    const size_t at = random_below(from, words / in_record + 1) * in_record + size / sizeof(double);
    return at < words && !one_in(from, 8) ? at : random_below(from, words + 1);
}

/* Heights that are a part of another list give what a copy of them gives: all lists are only read. */
static void try_heights_in_a_list(soak *in, source *from, const job *of)
{
    desk *const on = &in->second;
    const enum list list = one_in(from, 2) ? of->sectors : WINDOW;
    const size_t word = some_word(from, of, list);
    const size_t left = of->lengths[list] / sizeof(double) - word;
    const size_t strips = one_in(from, 8) ? left : 1 + random_below(from, 3);
    job copied = *of;
    lent apart;
    copied.lists[HEIGHTS] = of->lists[list] + word * sizeof(double);
    copied.lengths[HEIGHTS] = sizeof(double) * (strips < left ? strips : left);
    if (copied.lengths[HEIGHTS] > MOST_HEIGHTS) {
        copied.lengths[HEIGHTS] = MOST_HEIGHTS;
    }
    lay_out_twice(in, from, &copied);
    apart = on->at;
    on->at.lists[HEIGHTS] = on->at.lists[list] + word * sizeof(double);
    try_twice(in, STRIPS, &copied, 0, 0);
    in->strips.overlaps += answer_to(STRIPS, &copied, &on->at).number == 0 ? 1 : 0;
    memcpy(on->at.lists, apart.lists, sizeof apart.lists);
}

/* ---- Other objects ----------------------------------------------------------------------------------------------- */

/* Of two accepted calls with the same edition, sun and glazing, the second with other objects. */
static const char *wrong_pair(const pilgartze_answer *answer, const pilgartze_answer *other, enum other how)
{
    if (other->number != 0) {
        return "with other objects a refusal";
    }
    if (how == REORDERED && bits_of(answer->sum) != bits_of(other->sum)) {
        return "the same objects, and another factor";
    }
    if (how == NO_OBJECTS && other->sum != 1.0) {
        return "no objects, and the factor is not 1";
    }
    return answer->sum <= other->sum ? NULL : "with fewer objects a smaller factor";
}

/* In both seasons' places stands the list that is walked: the other may be damaged. */
void try_objects_of_strips(soak *in, source *from, const job *of)
{
    static const enum other ways[] = {REORDERED, FEWER, NO_OBJECTS};
    job one = *of;
    pilgartze_answer answer;
    size_t i;
    one.lists[other_season(of->sectors)] = of->lists[of->sectors];
    one.lengths[other_season(of->sectors)] = of->lengths[of->sectors];
    lay_out(&in->first, &one, (unsigned)random_word(from), 0, 1);
    answer = tried(in, &in->first, STRIPS, &one, 0, 0);
    for (i = 0; i < sizeof ways / sizeof ways[0] && answer.number == 0; i++) {
        const job other = with_other_objects(from, &one, ways[i]);
        pilgartze_answer second;
        const char *wrong;
        lay_out(&in->second, &other, (unsigned)random_word(from), 0, 1);
        second = tried(in, &in->second, STRIPS, &other, 0, 0);
        wrong = wrong_pair(&answer, &second, ways[i]);
        if (wrong != NULL) {
            failed(in, wrong, STRIPS, &other, &second);
        }
        in->strips.pairs += 1;
        in->strips.pairs_apart[of->edition - 1] += answer.sum < second.sum ? 1 : 0;
    }
}

/* Series are not lent, nor are results. */
void try_strips(soak *in, source *from, const job *of)
{
    job tall = *of;
    int list;
    for (list = DIFFUSE; list <= REFLECTIVITY; list++) {
        tall.lengths[list] = 0;
    }
    try_odd_heights(in, from, &tall);
    if (one_in(from, 2)) {
        try_by_structs(in, from, &tall);
    }
    if (one_in(from, 2)) {
        try_heights_in_a_list(in, from, &tall);
    }
}

/* ---- What was seen --------------------------------------------------------------------------------------------- */

static void tell_accepted_strips(const strips_seen *seen)
{
    size_t count;
    printf("strips: accepted inside the beam, by 1 to 12 of them");
    for (count = 1; count <= PILGARTZE_MOST_STRIPS; count++) {
        printf("%s %llu", count == 1 ? "" : ",", (unsigned long long)seen->in_beam[count]);
    }
    printf("; of these %llu with other factors for some strips, %llu with one strip and not its factor, %llu that "
           "would be others from the top down, %llu below the least factor or above the largest; accepted with the "
           "last base at 1000 %llu, with an upper edge above it %llu\n",
           (unsigned long long)seen->uneven, (unsigned long long)seen->one_apart,
           (unsigned long long)seen->top_down_apart, (unsigned long long)seen->outside,
           (unsigned long long)seen->at_1000, (unsigned long long)seen->above_1000);
}

void tell_strips(const soak *in)
{
    const strips_seen *const seen = &in->strips;
    tell_accepted_strips(seen);
    printf("strips, refused 3: the sun %llu, the surface %llu, no strip %llu, more than 12 %llu (13 of them %llu), "
           "a part of one %llu, the lowest base %llu, a later base %llu, a height %llu; of these %llu with lists that "
           "are refused 4 otherwise\n",
           (unsigned long long)seen->refused[SUN], (unsigned long long)seen->refused[FACE],
           (unsigned long long)seen->refused[NO_STRIP], (unsigned long long)seen->refused[MANY_STRIPS],
           (unsigned long long)seen->thirteen, (unsigned long long)seen->refused[PART_STRIP],
           (unsigned long long)seen->refused[FIRST_BASE], (unsigned long long)seen->refused[LATER_BASE],
           (unsigned long long)seen->refused[HEIGHT], (unsigned long long)seen->before_lists);
    printf("strips: %llu calls with structs, %llu of them with neither sectors nor objects; %llu accepted calls with "
           "heights that are a part of another list; %llu pairs of calls with other objects, of them with another "
           "factor %llu in edition 1 and %llu in edition 2\n",
           (unsigned long long)seen->by_structs, (unsigned long long)seen->by_no_lists,
           (unsigned long long)seen->overlaps, (unsigned long long)seen->pairs,
           (unsigned long long)seen->pairs_apart[0], (unsigned long long)seen->pairs_apart[1]);
}

/* What a wrong base, weight, order or refusal would not show in. On the heap there are too few jobs for each handle
 * and for what is seldom. */
int too_few_strips(const soak *in)
{
    const strips_seen *const seen = &in->strips;
    int seldom = seen->thirteen == 0 || seen->before_lists == 0 || seen->uneven == 0 || seen->top_down_apart == 0 ||
                 seen->outside == 0 || seen->at_1000 == 0 || seen->above_1000 == 0 || seen->by_structs == 0 ||
                 seen->by_no_lists == 0 || seen->overlaps == 0 || seen->pairs_apart[0] == 0 ||
                 seen->pairs_apart[1] == 0 || (seen->one_apart == 0 && !in->on_the_heap);
    size_t i;
    for (i = 0; i < NO_FAULT; i++) {
        seldom = seldom || (seen->refused[i] == 0 && (i != FIRST_BASE || !in->on_the_heap));
    }
    for (i = 1; i <= PILGARTZE_MOST_STRIPS; i++) {
        seldom = seldom || seen->in_beam[i] == 0;
    }
    for (i = 0; i < 2 * HANDLES && !in->on_the_heap; i++) {
        seldom = seldom || seen->dragged_apart[i / 2][i % 2] == 0;
    }
    if (seldom) {
        printf("soak: a kind of strips was never seen\n");
    }
    return seldom ? 1 : 0;
}
