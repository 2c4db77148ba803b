#include "random.h"

#include <string.h>

/* The steps of splitmix64. */
uint64_t random_word(source *from)
{
    uint64_t word;
    from->state += UINT64_C(0x9E3779B97F4A7C15);
    word = from->state;
    word = (word ^ (word >> 30)) * UINT64_C(0xBF58476D1CE4E5B9);
    word = (word ^ (word >> 27)) * UINT64_C(0x94D049BB133111EB);
    return word ^ (word >> 31);
}

source source_of(uint64_t seed, uint64_t turn)
{
    source from;
    from.state = seed;
    from.state = random_word(&from) + turn;
    from.state = random_word(&from);
    return from;
}

size_t random_below(source *from, size_t below)
{
    return (size_t)(random_word(from) % below);
}

int one_in(source *from, size_t many)
{
    return random_below(from, many) == 0;
}

double uniform(source *from, double low, double high)
{
    const double part = (double)(random_word(from) >> 11) / 9007199254740992.0;
    return low + (high - low) * part;
}

uint64_t bits_of(double x)
{
    uint64_t bits;
    memcpy(&bits, &x, sizeof bits);
    return bits;
}

double double_of(uint64_t bits)
{
    double x;
    memcpy(&x, &bits, sizeof x);
    return x;
}

int same_double(double one, double other)
{
    return bits_of(one) == bits_of(other) || (one != one && other != other);
}

double any_double(source *from)
{
    static const uint64_t odd[] = {
        UINT64_C(0x0000000000000000), UINT64_C(0x8000000000000000), UINT64_C(0x7FF0000000000000),
        UINT64_C(0xFFF0000000000000), UINT64_C(0x7FF8000000000000), UINT64_C(0xFFF8000000000000),
        UINT64_C(0x7FF0000000000001), UINT64_C(0xFFFFFFFFFFFFFFFF), UINT64_C(0x0000000000000001),
        UINT64_C(0x7FEFFFFFFFFFFFFF), UINT64_C(0x3FF0000000000000), UINT64_C(0x0010000000000000)};
    if (one_in(from, 4)) {
        return double_of(odd[random_below(from, sizeof odd / sizeof odd[0])]);
    }
    return double_of(random_word(from));
}

double near_range(source *from, double low, double high)
{
    const double end = one_in(from, 2) ? low : high;
    switch (random_below(from, 8)) {
    case 0:
        return end;
    case 1:
        return double_of(bits_of(end) + 1);
    case 2:
        return double_of(bits_of(end) - 1);
    case 3:
        return end == low ? low - 1.0 : high + 1.0;
    case 4:
        return -0.0;
    case 5:
        return any_double(from);
    default:
        return uniform(from, low, high);
    }
}
