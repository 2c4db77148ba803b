/* Lists that are longer than 32 bits can tell. They are there, all zeros, and take hardly any memory. */
#include "checks.h"

#define WIDE ((((size_t)1) << 32) + 216)

static void expect(const soak *in, const job *of, const lent *at, enum call call, uint64_t number)
{
    pilgartze_answer answer;
    watched_call(name_of(call));
    answer = answer_to(call, of, at);
    if (answer.number != number) {
        failed(in, "a list of more than 2^32 bytes, and not the number that it should be", call, of, &answer);
    }
}

/* Of heights that are wide the first is one, so that a length of 32 bits would be that of one strip. */
static void try_wide_heights(const soak *in, job of, lent at)
{
    const pages heights = wide_pages(WIDE, 0);
    const double one = 1.0;
    memcpy(heights.writable, &one, sizeof one);
    at.lists[HEIGHTS] = heights.readable;
    of.lists[HEIGHTS] = heights.writable;
    of.lengths[HEIGHTS] = sizeof one;
    expect(in, &of, &at, STRIPS, 0);
    of.lengths[SUMMER] = WIDE - 216;
    expect(in, &of, &at, STRIPS, PILGARTZE_REFUSED_OBJECT);
    of.lengths[HEIGHTS] = WIDE - 216 + sizeof one;
    expect(in, &of, &at, STRIPS, PILGARTZE_REFUSED_SURFACE);
    of.lengths[SUMMER] = 0;
    expect(in, &of, &at, STRIPS, PILGARTZE_REFUSED_SURFACE);
}

/* Series, table of days, totals and results may be as long as they like; sectors, window objects and strips are too
 * many then. */
void try_wide_lists(soak *in)
{
    const pages zeros = wide_pages(WIDE, 1);
    const pages room = wide_pages(WIDE, 0);
    const pages days = wide_pages(WIDE, 0);
    const pages totals = wide_pages(WIDE, 0);
    job of = bare_job();
    lent at;
    int list;
    for (list = 0; list < LISTS; list++) {
        at.lists[list] = zeros.readable;
        of.lists[list] = zeros.readable;
        of.lengths[list] = list <= REFLECTIVITY ? WIDE - 216 + (size_t)list : 0;
    }
    at.days = days.writable;
    of.days = WIDE - 216;
    at.totals = totals.writable;
    of.totals = WIDE - 216;
    at.results = room.writable;
    for (list = 0; list < FACTOR; list++) {
        of.results[list] = WIDE - 216;
    }
    expect(in, &of, &at, RUN, 0);
    expect(in, &of, &at, STEP, 0);
    expect(in, &of, &at, IRRADIANCE, 0);
    expect(in, &of, &at, FACTOR, 0);
    try_wide_heights(in, of, at);
    for (list = SUMMER; list <= WINDOW; list++) {
        of.sectors = list == WINTER ? WINTER : SUMMER;
        of.lengths[list] = WIDE - 216;
        expect(in, &of, &at, RUN, PILGARTZE_REFUSED_OBJECT);
        expect(in, &of, &at, STEP, PILGARTZE_REFUSED_OBJECT);
        expect(in, &of, &at, FACTOR, PILGARTZE_REFUSED_OBJECT);
        of.lengths[list] = 0;
    }
}
