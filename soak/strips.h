/* Tall glazing as it is cut into strips. */
#ifndef SOAK_STRIPS_H
#define SOAK_STRIPS_H

#include "checks.h"

typedef struct glazing {
    size_t count;
    pilgartze_surface strips[PILGARTZE_MOST_STRIPS]; /* the lowest first */
} glazing;

/* Cuts a job's glazing with these heights, up to the first strip that is out of range. What is refused 3, by plain
 * comparisons, or NO_FAULT. */
enum fault cut_glazing(const job *of, const uint8_t *heights, glazing *made);

#endif
