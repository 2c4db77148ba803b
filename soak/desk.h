/* Where lists are lent from. */
#ifndef SOAK_DESK_H
#define SOAK_DESK_H

#include "calls.h"
#include "memory.h"

/* So many bytes are looked at beside results, days and totals that have no guard there. */
#define BESIDE ((size_t)64)

/* What a run fills beside its results: the table of days, or the totals. */
typedef struct table {
    pages room;
    uint8_t *former; /* what it held before the call, then the bytes beside it; room for 7 more */
    int at_the_end;  /* whether it stands against the end of its pages */
} table;

typedef struct desk {
    pages lists[LISTS];
    pages results;
    table days;
    table totals;
    int on_the_heap; /* each list in a block of its own of exactly its length, for a tool that watches the heap */
    lent at;         /* where they are */
    uint8_t fill;    /* what the results held before the call */
    int at_the_end;  /* whether the results stand against the end of their pages */
    int locked;      /* whether the lists are lent through the view that can be read only */
} desk;

desk new_desk(int on_the_heap);
/* Puts a job's lists there. Of the sides a bit for each list is set where it stands against the end of its pages; the
 * others stand against the start, or so many bytes behind it, up to 7. */
void lay_out(desk *on, const job *of, unsigned sides, size_t shift, int locked);
/* Makes results of that length, all fill. */
void lay_results(desk *on, size_t length, int at_the_end, uint8_t fill);
/* Makes a table of days, or totals, of that length, with the former bytes in it and beside it. */
void lay_days(desk *on, size_t length, int at_the_end);
void lay_totals(desk *on, size_t length, int at_the_end);
/* Whether the lists still are the job's. */
int lists_kept(const desk *on, const job *of);
/* Whether the results are as they were from that byte on, and beside them. */
int results_kept(const desk *on, size_t from, size_t length);
/* The same of the table of days and of the totals. */
int days_kept(const desk *on, size_t from, size_t length);
int totals_kept(const desk *on, size_t from, size_t length);

#endif
