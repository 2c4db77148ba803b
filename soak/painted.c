/* How much stack the calls take: each is made by a thread whose stack was painted, and what paint is gone is measured.
 * It includes what the caller lays down as arguments. */
#define _DEFAULT_SOURCE
#include "checks.h"

#include <pthread.h>
#include <stdio.h>
#include <stdlib.h>
#include <sys/mman.h>

#define STACK ((size_t)1 << 20)
/* Far more than a call may take, so that one that takes too much is measured. */
typedef char painted_enough[STACK >= 8 * (size_t)PILGARTZE_STACK_BYTES ? 1 : -1];
#define PAINT UINT64_C(0x5A17ED57AC4BED0D)

typedef struct errand {
    enum call call;
    const job *of;
    const lent *at;
    uintptr_t top; /* the stack pointer's place before the call, about */
} errand;

static void *run_errand(void *given)
{
    errand *const me = given;
    volatile uint8_t here = 0;
    me->top = (uintptr_t)&here;
    if (me->call != CALLS) {
        answer_to(me->call, me->of, me->at);
    }
    return NULL;
}

static uint64_t *painted_stack(void)
{
    static uint64_t *stack = NULL;
    size_t i;
    if (stack == NULL) {
        void *made = mmap(NULL, STACK, PROT_READ | PROT_WRITE, MAP_PRIVATE | MAP_ANONYMOUS, -1, 0);
        if (made == MAP_FAILED) {
            perror("soak: no memory for a stack");
            exit(2);
        }
        stack = made;
    }
    for (i = 0; i < STACK / 8; i++) {
        stack[i] = PAINT;
    }
    return stack;
}

static void on_stack(errand *of, uint64_t *stack)
{
    pthread_t thread;
    pthread_attr_t with;
    pthread_attr_init(&with);
    if (pthread_attr_setstack(&with, stack, STACK) != 0 || pthread_create(&thread, &with, run_errand, of) != 0) {
        printf("soak: no thread with a stack of its own\n");
        exit(2);
    }
    pthread_join(thread, NULL);
    pthread_attr_destroy(&with);
}

static size_t bytes_without_paint(const uint64_t *stack, uintptr_t top)
{
    size_t i = 0;
    while (i < STACK / 8 && stack[i] == PAINT) {
        i += 1;
    }
    return top - (uintptr_t)&stack[i];
}

/* The most that a call takes over so many jobs; CALLS: what a thread takes without any. */
static size_t stack_of(soak *in, enum call call, uint64_t jobs, job *made)
{
    const char *const name = call == CALLS ? "no call" : name_of(call);
    uint64_t *const stack = painted_stack();
    errand given = {call, made, &in->first.at, 0};
    for (in->turn = 0; in->turn < jobs; in->turn++) {
        source from = source_of(in->seed ^ PAINT, in->turn);
        any_job(&from, made, 0);
        lay_out(&in->first, made, (unsigned)random_word(&from), 0, 1);
        lay_results(&in->first, made->results[call == CALLS ? FACTOR : call], 1, 0);
        lay_former_days(in, &in->first, made->days, 0);
        lay_former_totals(in, &in->first, made->totals, 0);
        watched_call(name);
        on_stack(&given, stack);
    }
    return bytes_without_paint(stack, given.top);
}

void try_stack(soak *in, uint64_t jobs)
{
    job made = job_with_room();
    int call;
    printf("bytes of stack over %lu jobs, of %lu at most: ", (unsigned long)jobs, (unsigned long)PILGARTZE_STACK_BYTES);
    for (call = CALLS; call >= 0; call--) {
        const char *const name = call == CALLS ? "no call" : name_of((enum call)call);
        const size_t bytes = stack_of(in, (enum call)call, jobs, &made);
        printf("%s%s %zu", call == CALLS ? "" : ", ", name, bytes);
        if (bytes > PILGARTZE_STACK_BYTES) {
            printf("\nsoak: %s: more stack than PILGARTZE_STACK_BYTES\n", name);
            exit(1);
        }
    }
    printf("\n");
}
