#include "desk.h"

#include <stdio.h>
#include <stdlib.h>

/* A new block in the place of an old one. */
static uint8_t *block(const uint8_t *old, size_t length)
{
    uint8_t *made;
    free((void *)(uintptr_t)old);
    made = malloc(length == 0 ? 1 : length);
    if (made == NULL) {
        perror("soak: no memory for the lists");
        exit(2);
    }
    return made;
}

static table new_table(int on_the_heap, size_t most)
{
    table made;
    memset(&made, 0, sizeof made);
    if (!on_the_heap) {
        made.room = pages_for(most + BESIDE);
    }
    made.former = block(NULL, most + BESIDE + 7);
    return made;
}

desk new_desk(int on_the_heap)
{
    desk made;
    int list;
    memset(&made, 0, sizeof made);
    made.on_the_heap = on_the_heap;
    for (list = 0; list < LISTS && !on_the_heap; list++) {
        made.lists[list] = pages_for(most_of((enum list)list) + 7);
    }
    if (!on_the_heap) {
        made.results = pages_for(MOST_RESULTS + BESIDE);
    }
    made.days = new_table(on_the_heap, MOST_DAYS);
    made.totals = new_table(on_the_heap, MOST_TOTALS);
    return made;
}

void lay_out(desk *on, const job *of, unsigned sides, size_t shift, int locked)
{
    int list;
    on->locked = locked;
    for (list = 0; list < LISTS; list++) {
        const size_t length = of->lengths[list];
        const int at_the_end = (sides >> list & 1) != 0;
        const size_t offset = offset_in(&on->lists[list], at_the_end, length) + (at_the_end ? 0 : shift);
        if (on->on_the_heap) {
            uint8_t *const made = block(on->at.lists[list], length);
            memcpy(made, of->lists[list], length);
            on->at.lists[list] = made;
        } else {
            memcpy(on->lists[list].writable + offset, of->lists[list], length);
            on->at.lists[list] = (locked ? on->lists[list].readable : on->lists[list].writable) + offset;
        }
    }
}

void lay_results(desk *on, size_t length, int at_the_end, uint8_t fill)
{
    on->fill = fill;
    on->at_the_end = at_the_end;
    if (on->on_the_heap) {
        on->at.results = block(on->at.results, length);
        memset(on->at.results, fill, length);
        return;
    }
    on->at.results = on->results.writable + offset_in(&on->results, at_the_end, length);
    memset(on->at.results - (at_the_end ? BESIDE : 0), fill, length + BESIDE);
}

/* Before a table that stands against the end of its pages, else behind it. */
static uint8_t *beside(const table *of, uint8_t *at, size_t length)
{
    return of->at_the_end ? at - BESIDE : at + length;
}

/* Where the table is then; old is where it was. */
static uint8_t *laid(const desk *on, table *of, const uint8_t *old, size_t length, int at_the_end)
{
    uint8_t *at;
    of->at_the_end = at_the_end;
    if (on->on_the_heap) {
        at = block(old, length);
    } else {
        at = of->room.writable + offset_in(&of->room, at_the_end, length);
        memcpy(beside(of, at, length), of->former + length, BESIDE);
    }
    memcpy(at, of->former, length);
    return at;
}

void lay_days(desk *on, size_t length, int at_the_end)
{
    on->at.days = laid(on, &on->days, on->at.days, length, at_the_end);
}

void lay_totals(desk *on, size_t length, int at_the_end)
{
    on->at.totals = laid(on, &on->totals, on->at.totals, length, at_the_end);
}

int lists_kept(const desk *on, const job *of)
{
    int list;
    for (list = 0; list < LISTS; list++) {
        if (memcmp(on->at.lists[list], of->lists[list], of->lengths[list]) != 0) {
            return 0;
        }
    }
    return 1;
}

static int all_are(const uint8_t *bytes, size_t length, uint8_t fill)
{
    return length == 0 || (bytes[0] == fill && memcmp(bytes, bytes + 1, length - 1) == 0);
}

int results_kept(const desk *on, size_t from, size_t length)
{
    const size_t before = on->on_the_heap || !on->at_the_end ? 0 : BESIDE;
    const size_t behind = on->on_the_heap || on->at_the_end ? 0 : BESIDE;
    return all_are(on->at.results - before, before, on->fill) &&
           all_are(on->at.results + from, length - from + behind, on->fill);
}

static int table_kept(const desk *on, const table *of, uint8_t *at, size_t from, size_t length)
{
    return memcmp(at + from, of->former + from, length - from) == 0 &&
           (on->on_the_heap || memcmp(beside(of, at, length), of->former + length, BESIDE) == 0);
}

int days_kept(const desk *on, size_t from, size_t length)
{
    return table_kept(on, &on->days, on->at.days, from, length);
}

int totals_kept(const desk *on, size_t from, size_t length)
{
    return table_kept(on, &on->totals, on->at.totals, from, length);
}
