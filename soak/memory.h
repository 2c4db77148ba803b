/* Lists with pages behind and before them that may not be touched. An access there ends the program with status 3. */
#ifndef SOAK_MEMORY_H
#define SOAK_MEMORY_H

#include <stddef.h>
#include <stdint.h>

/* The same memory seen twice: through one view it can be read only. */
typedef struct pages {
    uint8_t *writable;
    uint8_t *readable;
    size_t size;
} pages;

/* Room for so many bytes, and one at least. */
pages pages_for(size_t room);
/* Pages of zeros that take no memory until they are written to, and cannot be written to where they are read_only. */
pages wide_pages(size_t room, int read_only);
/* Where in the pages a list of that length begins: against their end, or against their start. */
size_t offset_in(const pages *where, int at_the_end, size_t length);

/* Says what happens in case of an access outside, or of a call that does not return in so many seconds of the
 * processor's time. */
void watch(long patience);
/* A new call begins: its time counts from now on, and a report will have these words. */
void watched_call(const char *name);
void watched_turn(uint64_t seed, uint64_t turn);

#endif
