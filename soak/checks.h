/* What must hold of a call. */
#ifndef SOAK_CHECKS_H
#define SOAK_CHECKS_H

#include "desk.h"

/* What becomes of a job's objects: all reordered, some of them gone, or gone from the list of one season alone, or all
 * gone. */
enum other { REORDERED, FEWER, FEWER_IN_SUMMER, FEWER_IN_WINTER, NO_OBJECTS };

/* How a walk along the sectors ends, and at which of them. */
enum end { GAP, TURNED, MATCH, NO_SECTOR };

typedef struct walk {
    enum end end;
    size_t place;
} walk;

/* The lists of sectors, from SUMMER on. */
#define SEASONS 2

/* What a call with a leaf day above 365 gives with others: 14 or 1, which come first, 2 to 7, or none of these. */
enum otherwise { REFUSED_FIRST, REFUSED_LATER, NOT_REFUSED, OTHERWISE };

/* The first and the last leaf day, the days before the first and behind the last. */
enum edge { FIRST, LAST, BEFORE, BEHIND, EDGES };

/* What is refused 3 in a call for strips: the sun's angles; the surface's angles or its width; no strip, more than 12,
 * or a part of one; the lowest strip's base, a later one's, or a height. */
enum fault { SUN, FACE, NO_STRIP, MANY_STRIPS, PART_STRIP, FIRST_BASE, LATER_BASE, HEIGHT, NO_FAULT };

/* What of an object can be dragged: one word of it, in the way that is named. The first four are of distant objects,
 * the others of those at the window. */
enum handle {
    TALLER_OBSTACLE,
    NEARER_OBSTACLE,
    LOWER_OVERHANG,
    FARTHER_OVERHANG,
    DEEPER_OVERHANG,
    NEARER_OVERHANG,
    DEEPER_RIGHT_FIN,
    NEARER_RIGHT_FIN,
    DEEPER_LEFT_FIN,
    NEARER_LEFT_FIN,
    TALLER_OPAQUE,
    NEARER_OPAQUE,
    CLEARER,
    HANDLES
};

/* What has been seen of calls for strips. */
typedef struct strips_seen {
    uint64_t refused[NO_FAULT];                  /* 3, by what is out of range */
    uint64_t thirteen;                           /* of these, by one strip too many */
    uint64_t before_lists;                       /* of these, with lists that are refused 4 otherwise */
    uint64_t in_beam[PILGARTZE_MOST_STRIPS + 1]; /* accepted calls inside the beam, by how many strips they have */
    uint64_t uneven;                             /* of these, with other factors for some strips than for others */
    uint64_t one_apart;                          /* of these, with one strip and another double than its factor */
    uint64_t top_down_apart;                     /* of these, with another double where it is added from the top */
    uint64_t outside;                            /* of these, below the least factor of a strip or above the largest */
    uint64_t at_1000;                            /* accepted, with the last base exactly 1000 */
    uint64_t above_1000;                         /* accepted, with an upper edge above 1000 */
    uint64_t by_structs;                         /* calls that were made with structs too, with whole records */
    uint64_t by_no_lists;                        /* of these, with neither sectors nor objects at the window */
    uint64_t overlaps;                           /* accepted calls whose heights are a part of another list */
    uint64_t pairs;                              /* pairs of accepted calls with other objects */
    uint64_t pairs_apart[2];                     /* of these, with another factor, by edition */
    uint64_t dragged[HANDLES];                   /* pairs of accepted positions of a handle */
    uint64_t dragged_apart[HANDLES][2];          /* of these, with another factor, by edition */
} strips_seen;

/* Where a run of the program stands. */
typedef struct soak {
    uint64_t seed;
    uint64_t turn;
    int on_the_heap;
    desk first, second;
    uint8_t days[PILGARTZE_DAYS_LENGTH];        /* the table of the first run */
    uint8_t totals[PILGARTZE_TOTALS_LENGTH(1)]; /* the totals of the last that came to its steps */
    uint64_t seen[CALLS][NUMBERS];
    uint64_t walks[CALLS][SEASONS][NO_SECTOR][PILGARTZE_MOST_SECTORS]; /* inside the beam, by place */
    uint64_t sound;            /* sound jobs */
    uint64_t aimed;            /* of these, with the sun square on the glass or overhead at a step */
    uint64_t square;           /* of these, with it square on the glass */
    uint64_t late;             /* runs refused past step 0 */
    uint64_t overhead;         /* rows with altitude exactly 90 */
    uint64_t overhead_shaded;  /* of these, with a factor below 1 */
    uint64_t overhead_refused; /* steps with that altitude at which a run was refused */
    uint64_t shaded;           /* rows with a factor below 1 */
    uint64_t steps;            /* steps of a run that were called by themselves */
    uint64_t shared;           /* runs that were lent one list for all series */
    uint64_t threads;          /* calls that two threads made at once */
    uint64_t hourly_sums;      /* sums above 0, of runs with steps of an hour */
    uint64_t odd_sums;         /* such of runs with several steps, each no power of two nor the series' step */
    uint64_t overrun_sums;     /* such of runs whose last step passes the end by half of it or more */
    uint64_t days_at_step_0;   /* runs refused at step 0, with the table of days filled */
    uint64_t days_no_steps;    /* accepted runs with no steps, with the same */
    uint64_t short_days;       /* runs refused with a table that was too short */
    uint64_t short_no_steps;   /* of these, with no steps */
    uint64_t short_totals;     /* runs refused with totals that were too short */
    uint64_t totals_no_steps;  /* of these, with no steps */
    uint64_t leap_days;        /* runs with steps on 29 February */
    uint64_t first_of_march;   /* runs with steps on 1 March of a common year */
    uint64_t steps_overnight;  /* steps that end on another day than they start */
    uint64_t sums_apart;       /* sums of months that are not those of their days' sums */
    uint64_t largest_below_0;  /* days whose largest total is below 0 */
    uint64_t pairs;            /* pairs of accepted runs with other objects */
    uint64_t pairs_apart[2];   /* of these, with another sum, by edition */
    uint64_t with_window;      /* sound jobs with objects at the window */
    uint64_t with_both_fins;   /* of these, with fins on both sides */
    uint64_t beyond;           /* of these, with the factor's sun at a difference beyond 180 */
    uint64_t editions_apart;   /* factors that are another in the other edition */
    uint64_t beyond_apart;     /* of these, with a difference beyond 180 */
    uint64_t fins_apart[2][2]; /* factors that are another without the fins of one side: by edition, right and left */
    uint64_t fins_alone[2][2]; /* factors of fins alone, not 0 nor 1: right and left, within 180 and beyond */
    uint64_t season_steps[SEASONS][2];       /* steps by themselves, in a season without and with a sector */
    uint64_t no_leaf_days[CALLS][OTHERWISE]; /* calls with a leaf day above 365, by what they give otherwise */
    uint64_t by_seasons;                     /* accepted runs with steps in both seasons, held to each season's list */
    uint64_t turned_order;                   /* of these, with the first leaf day above the last */
    uint64_t seasons_apart[SEASONS];         /* rows with another factor by the other season's list */
    uint64_t edges_apart[EDGES];             /* of these, on the days about the first and the last leaf day */
    uint64_t refused_apart[SEASONS];         /* refused steps that have a row by the other season's list */
    uint64_t past_a_refusal;                 /* steps behind that at which the run by their season's list ends */
    uint64_t unused_damaged[STEP + 1];       /* runs and steps refused 4 by the list of a season without a step */
    uint64_t equal_lists;                    /* accepted runs with equal lists, with other leaf days too */
    uint64_t other_years;                    /* of these, with steps that are in another season then */
    uint64_t complements;                    /* accepted runs in both seasons, with the seasons exchanged */
    uint64_t overlaps;                       /* accepted runs with lists that overlap, but are not equal */
    uint64_t thinned_apart[SEASONS];         /* rows with another factor by fewer objects in one season's list */
    uint64_t dragged[HANDLES][2];            /* pairs of accepted positions of a handle, by edition, of the factor */
    uint64_t dragged_apart[HANDLES][2];      /* of these, with another factor */
    uint64_t dragged_a_bit[HANDLES];         /* of these, with positions that are neighbours */
    uint64_t dragged_in_vain[HANDLES];       /* pairs with the same factor, not 0 nor 1: other objects shade more */
    uint64_t dragged_runs[HANDLES];          /* pairs of accepted runs */
    uint64_t dragged_runs_apart[HANDLES];    /* of these, with another sum */
    uint64_t dragged_refused[4];             /* pairs that are refused alike, 8 to 11 */
    uint64_t dragged_out;                    /* positions out of range, of calls that come to their steps otherwise */
    strips_seen strips;
} soak;

/* Ends the program, after it has told what does not hold of which call of which job. */
void failed(const soak *in, const char *what, enum call call, const job *of, const pilgartze_answer *answer);

/* Makes the call from that desk, and looks at the answer and at every byte. */
pilgartze_answer tried(soak *in, desk *on, enum call call, const job *of, int at_the_end, uint8_t fill);
/* Takes the table of days of the first run, to which all later ones are held. */
void learn_days(soak *in);
/* What is in a table of that length before a call. A fill and its complement make other bytes: each the byte itself
 * throughout, or one of them any bytes and the other a table from before, of that size, in which one byte is not right,
 * as in one that is lent again and was written to. */
void make_former(source from, uint8_t *former, size_t length, uint8_t fill, const uint8_t *before, size_t size);
/* Makes a table of days of that length, with former bytes by the fill; and totals. */
void lay_former_days(const soak *in, desk *on, size_t length, uint8_t fill);
void lay_former_totals(const soak *in, desk *on, size_t length, uint8_t fill);
/* What is wrong with the table after a run, or NULL. */
const char *wrong_days(const soak *in, const desk *on, const job *of, const pilgartze_answer *answer);
/* What is wrong with the totals after it, or NULL; the results are still there. */
const char *wrong_totals(const desk *on, const job *of, const pilgartze_answer *answer);
/* What is wrong with a run's number by the lengths of the table, the totals and the results, or NULL. */
const char *wrong_length(const job *of, uint64_t number);
/* Counts what became of the table, and of the totals. */
void count_days(soak *in, const job *of, const pilgartze_answer *answer);
void count_totals(soak *in, const desk *on, const job *of, const pilgartze_answer *answer);
/* Lays the job out on both desks, with all lists against other ends. */
void lay_out_twice(soak *in, source *from, const job *of);
/* Makes the call once on each desk, with other bytes in results, days and totals. */
void try_twice(soak *in, enum call call, const job *of, int at_the_end, uint8_t fill);
/* All five calls, each twice. */
void try_calls(soak *in, source *from, const job *of);
/* Some step of a run by itself. */
void try_step_of_run(soak *in, source *from, const job *of);
/* One step whose walk ends in the way and at the place of this turn, as a run, by itself, and for factor and strips. */
void try_walk(soak *in, source *from);
/* Counts the walk of a step with that sun, and says what is wrong with its number, or NULL. */
const char *wrong_walk(soak *in, enum call call, const job *of, enum list season, double altitude, double azimuth,
                       uint64_t number);
/* How a walk along that list ends, by the sectors alone. */
walk walk_along(const job *of, enum list season, double azimuth);
int inside_the_beam(const pilgartze_surface *surface, double altitude, double azimuth);
/* A job of one step at that time, all readings 0.5. */
void one_step(source *from, uint64_t leap_year, double time, job *made);
/* Prints how many walks ended in each way at each place; how many of these there were none of. */
int tell_walks(const soak *in);
/* Puts the sun of the single step into the job, for the factor. */
void sun_of_step(soak *in, job *of);
/* A table of days and totals that are too short. */
void try_short_tables(soak *in, source *from, const job *of);
/* The job with other objects; its lists of both seasons have whole records, and not too many. */
job with_other_objects(source *from, const job *of, enum other how);
/* The same job with its objects in another order, and with fewer of them. */
void try_other_objects(soak *in, source *from, const job *of);
/* What is wrong with a number by the edition alone, or NULL. */
const char *wrong_edition(uint64_t edition, uint64_t number);
/* The job with an edition that there is not. */
void try_no_edition(soak *in, source *from, const job *of);
/* The job in both editions, or without some of its fins, by its run or by its factor. */
void try_editions(soak *in, source *from, const job *of, enum call call);
/* Fins and nothing else, by factor calls. */
void try_fins(soak *in, source *from);
/* Whether there are fins on both sides of the window; whether the factor's sun is at a difference beyond 180. */
int has_both_fins(const job *of);
int is_beyond(const job *of);
/* What is wrong with a number by the leaf days alone, or NULL. */
const char *wrong_leaf_days(const pilgartze_site *site, uint64_t number);
/* The job with a leaf day that there is not. */
void try_no_leaf_days(soak *in, source *from, const job *of);
/* One step of any time, by itself and as a run, with an empty list in one season. */
void try_season(soak *in, source *from);
/* The run and the single step, and those with the list of one season in both places. */
void try_by_seasons(soak *in, source *from, const job *of);
/* The job with equal lists, or with the same memory twice, by other leaf days. */
void try_equal_lists(soak *in, source *from, const job *of);
/* The job with the one season's list a part of the other's, and with it in the same memory. */
void try_overlap(soak *in, source *from, const job *of);
/* The job with lists exchanged, and with the leaf days of the other season. */
void try_complement(soak *in, source *from, const job *of);
/* The job with a handle of some object, there or put there, through some positions, by its run, factor or strips. */
void try_drag(soak *in, source *from, const job *of, enum call call);
/* A drag that has no law. */
void try_drag_without_law(soak *in);
/* Prints what was dragged, and whether some of it too seldom. */
void tell_drags(const soak *in);
int too_few_drags(const soak *in);
/* What is wrong with the answer to a call for strips, in an edition that there is, or NULL; counts it. */
const char *wrong_strips(soak *in, const desk *on, const job *of, const pilgartze_answer *answer);
/* The job's glazing with other heights, by structs, and with heights in the memory of another list. */
void try_strips(soak *in, source *from, const job *of);
/* With its objects in another order, with fewer of them, and with none. */
void try_objects_of_strips(soak *in, source *from, const job *of);
/* Prints what was seen of strips, and whether some of it too seldom. */
void tell_strips(const soak *in);
int too_few_strips(const soak *in);
/* Two threads at once, with the same lists. */
void try_threads(soak *in, source *from, const job *of);
/* One list lent for all three series. */
void try_one_series(soak *in, source *from, const job *of);
/* Lists of more bytes than 32 bits can tell. */
void try_wide_lists(soak *in);
/* How many bytes of stack the calls take, over so many jobs; prints it, and holds it to PILGARTZE_STACK_BYTES. */
void try_stack(soak *in, uint64_t jobs);

int same_answer(const pilgartze_answer *one, const pilgartze_answer *other);

#endif
