/* Random numbers that are the same at every run with the same seed. */
#ifndef SOAK_RANDOM_H
#define SOAK_RANDOM_H

#include <stddef.h>
#include <stdint.h>

typedef struct source {
    uint64_t state;
} source;

/* Each turn of each seed has numbers of its own. */
source source_of(uint64_t seed, uint64_t turn);
uint64_t random_word(source *from);
/* 0 to below - 1; below is not 0. */
size_t random_below(source *from, size_t below);
/* Whether a chance of one in so many comes true. */
int one_in(source *from, size_t many);
double uniform(source *from, double low, double high);

uint64_t bits_of(double x);
double double_of(uint64_t bits);
/* The same bits, or both NaN. */
int same_double(double one, double other);

/* Any double at all: every exponent as often as any other, both zeros, infinities, all kinds of NaN. */
double any_double(source *from);
/* At an end of the range, beside it, within, or beyond. */
double near_range(source *from, double low, double high);

#endif
