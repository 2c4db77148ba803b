/* The five calls on one job. */
#ifndef SOAK_CALLS_H
#define SOAK_CALLS_H

#include "job.h"

/* Where the lists are for one call. */
typedef struct lent {
    const uint8_t *lists[LISTS];
    uint8_t *days;
    uint8_t *totals;
    uint8_t *results;
} lent;

/* Of the single calls an answer has the number alone, of factor and strips the factor as its sum too. */
pilgartze_answer answer_to(enum call call, const job *of, const lent *lists);
const char *name_of(enum call call);

/* No number that a call gives is as large. */
#define NUMBERS (PILGARTZE_REFUSED_LEAF_DAY + 1)

/* Whether a call is given the sun itself, and so has no day, one list of sectors, and a factor for its answer. */
int given_the_sun(enum call call);
/* Whether a call can give that number at all. */
int can_give(enum call call, uint64_t number);
/* Whether it is one by which a run is refused at a step: 8 to 11. */
int at_a_step(uint64_t number);
/* Whether a run that gives it came as far as its steps. */
int came_to_steps(uint64_t number);
/* How many bytes of the results a call stores that gave this answer. */
size_t stored_by(enum call call, const pilgartze_answer *answer);
/* How many bytes of the table of days a run stores that gave this answer. */
size_t days_stored_by(const pilgartze_answer *answer);
/* And of the totals. */
size_t totals_stored_by(const job *of, const pilgartze_answer *answer);

#endif
