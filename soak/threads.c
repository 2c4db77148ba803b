/* Two threads that call at once: the same lists, results, a table of days and totals of their own. */
#define _POSIX_C_SOURCE 200809L
#include "checks.h"

#include <pthread.h>
#include <stdio.h>
#include <stdlib.h>

/* A call with what one thread alone makes of it. */
typedef struct known {
    job of;
    pilgartze_answer answer;
    const desk *left;
} known;

typedef struct worker {
    const soak *in;
    enum call call;
    const known *calls; /* two */
    size_t first;       /* with which it begins */
    size_t times;
    desk *on;
    pthread_barrier_t *start;
    int wrong; /* 1 + which of the two came out otherwise; 0 none */
} worker;

static int as_known(const worker *me, const known *which, const pilgartze_answer *answer)
{
    const size_t stored = stored_by(me->call, &which->answer);
    return same_answer(answer, &which->answer) && memcmp(me->on->at.results, which->left->at.results, stored) == 0 &&
           results_kept(me->on, stored, which->of.results[me->call]) &&
           (me->call != RUN || (wrong_days(me->in, me->on, &which->of, answer) == NULL &&
                                wrong_totals(me->on, &which->of, answer) == NULL));
}

static void *work(void *given)
{
    worker *const me = given;
    size_t i;
    pthread_barrier_wait(me->start);
    for (i = 0; i < me->times && me->wrong == 0; i++) {
        const size_t place = (me->first + i) % 2;
        const known *const which = &me->calls[place];
        const uint8_t fill = (uint8_t)(37 * i + 101 * me->first); /* another in each thread */
        pilgartze_answer answer;
        lay_results(me->on, which->of.results[me->call], me->first == 0, fill);
        if (me->call == RUN) {
            lay_former_days(me->in, me->on, which->of.days, fill);
            lay_former_totals(me->in, me->on, which->of.totals, fill);
        }
        answer = answer_to(me->call, &which->of, &me->on->at);
        me->wrong = as_known(me, which, &answer) ? 0 : 1 + (int)place;
    }
    return NULL;
}

static void started(int error)
{
    if (error != 0) {
        printf("soak: no thread: error %d\n", error);
        exit(2);
    }
}

/* Both begin at once, each with another of the two calls. */
static void work_at_once(worker both[2])
{
    pthread_t threads[2];
    pthread_barrier_t start;
    int i;
    started(pthread_barrier_init(&start, NULL, 2));
    for (i = 0; i < 2; i++) {
        both[i].start = &start;
        started(pthread_create(&threads[i], NULL, work, &both[i]));
    }
    for (i = 0; i < 2; i++) {
        pthread_join(threads[i], NULL);
    }
    pthread_barrier_destroy(&start);
}

static void try_call(soak *in, enum call call, known calls[2], size_t times)
{
    static desk desks[2];
    static int made = 0;
    worker both[2];
    int i;
    for (i = 0; i < 2; i++) {
        desks[i] = made ? desks[i] : new_desk(in->on_the_heap);
        memcpy(desks[i].at.lists, in->first.at.lists, sizeof desks[i].at.lists);
        both[i] = (worker){in, call, calls, (size_t)i, times, &desks[i], NULL, 0};
        calls[i].answer = tried(in, i == 0 ? &in->first : &in->second, call, &calls[i].of, 1, 0);
        calls[i].left = i == 0 ? &in->first : &in->second;
    }
    made = 1;
    work_at_once(both);
    in->threads += 2 * times;
    for (i = 0; i < 2; i++) {
        if (both[i].wrong != 0) {
            const known *const which = &calls[both[i].wrong - 1];
            failed(in, "two threads at once, and another answer or other results", call, &which->of, &which->answer);
        }
    }
}

/* The lists stand on the first desk already. */
void try_threads(soak *in, source *from, const job *of)
{
    known calls[2];
    int call;
    calls[0].of = *of;
    calls[1].of = *of;
    other_numbers(from, &calls[1].of);
    for (call = 0; call < CALLS; call++) {
        const size_t few = call == RUN ? 2 : call == STRIPS ? 20 : 100; /* each strip takes as long as a factor */
        const size_t times = few + random_below(from, call == RUN ? 6 : 2 * few);
        try_call(in, (enum call)call, calls, in->on_the_heap ? 2 : times);
    }
}
