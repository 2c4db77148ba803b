#define _DEFAULT_SOURCE
#include "memory.h"

#include <signal.h>
#include <stdio.h>
#include <stdlib.h>
#include <string.h>
#include <sys/mman.h>
#include <sys/time.h>
#include <unistd.h>

#define PAGE ((size_t)4096)

static size_t whole_pages(size_t room)
{
    return (room / PAGE + 1) * PAGE;
}

static void *mapped(void *at, size_t size, int access, int flags, int file)
{
    void *where = mmap(at, size, access, flags, file, 0);
    if (where == MAP_FAILED) {
        perror("soak: no memory for the lists");
        exit(2);
    }
    return where;
}

/* Room between two pages that may not be touched. */
static uint8_t *between_guards(size_t size, int access, int flags, int file)
{
    uint8_t *all = mapped(NULL, size + 2 * PAGE, PROT_NONE, MAP_PRIVATE | MAP_ANONYMOUS | MAP_NORESERVE, -1);
    mapped(all + PAGE, size, access, flags | MAP_FIXED, file);
    return all + PAGE;
}

pages pages_for(size_t room)
{
    pages made;
    FILE *file = tmpfile();
    made.size = whole_pages(room);
    if (file == NULL || ftruncate(fileno(file), (off_t)made.size) != 0) {
        perror("soak: no file for the lists");
        exit(2);
    }
    made.writable = between_guards(made.size, PROT_READ | PROT_WRITE, MAP_SHARED, fileno(file));
    made.readable = between_guards(made.size, PROT_READ, MAP_SHARED, fileno(file));
    fclose(file);
    return made;
}

pages wide_pages(size_t room, int read_only)
{
    pages made;
    made.size = whole_pages(room);
    made.writable = between_guards(made.size, read_only ? PROT_READ : PROT_READ | PROT_WRITE,
                                   MAP_PRIVATE | MAP_ANONYMOUS | MAP_NORESERVE, -1);
    made.readable = made.writable;
    return made;
}

size_t offset_in(const pages *where, int at_the_end, size_t length)
{
    return at_the_end ? where->size - length : 0;
}

/* ---- What may happen in a call -------------------------------------------------------------------------------- */

static char call_words[64] = "no call";
static char turn_words[96] = "";
static long call_patience = 0;

static void say(const char *words)
{
    const ssize_t written = write(STDOUT_FILENO, words, strlen(words));
    (void)written;
}

static void stopped(int number)
{
    say("soak: ");
    say(number == SIGPROF ? "a call that does not return: " : "an access outside the lists: ");
    say(call_words);
    say(turn_words);
    say("\n");
    _exit(number == SIGPROF ? 1 : 3);
}

void watch(long patience)
{
    call_patience = patience;
    signal(SIGSEGV, stopped);
    signal(SIGBUS, stopped);
    signal(SIGPROF, stopped);
}

void watched_call(const char *name)
{
    const struct itimerval left = {{0, 0}, {call_patience, 0}};
    snprintf(call_words, sizeof call_words, "%s", name);
    setitimer(ITIMER_PROF, &left, NULL);
}

void watched_turn(uint64_t seed, uint64_t turn)
{
    snprintf(turn_words, sizeof turn_words, " (--seed %llu --from %llu --jobs 1)", (unsigned long long)seed,
             (unsigned long long)turn);
}
