/* A handle of an object, and where it has been dragged to. */
#ifndef SOAK_DRAGS_H
#define SOAK_DRAGS_H

#include "checks.h"

typedef struct handle_kind {
    const char *words; /* the drag, as one says it */
    int at_the_window;
    uint64_t kind; /* of the object */
    size_t word;   /* its place in the object's record */
    double most;   /* the end of its range */
    int from_0;    /* whether 0 is in the range */
    int more;      /* whether more of it shades more; otherwise less does */
} handle_kind;

/* A drag by runs has few positions, since it keeps the rows of each, of short runs, and the totals. */
#define FEW_POSITIONS 5
#define MOST_POSITIONS 72
#define MOST_ROWS ((size_t)48)
/* An object in each sector of both seasons, and once more. */
#define MOST_PLACES (4 * PILGARTZE_MOST_SECTORS)

typedef struct position {
    double value;
    pilgartze_answer answer; /* of factor and strips the factor as its sum */
} position;

typedef struct drag {
    enum handle handle;
    const handle_kind *by;
    enum call call; /* RUN, FACTOR or STRIPS */
    job of;         /* with lists of its own */
    size_t places;
    uint8_t *words[MOST_PLACES]; /* that are moved, in these lists */
    size_t count;
    position positions[MOST_POSITIONS];                             /* the first is in range */
    uint8_t rows[FEW_POSITIONS][MOST_ROWS * sizeof(pilgartze_row)]; /* of the runs */
    uint8_t totals[FEW_POSITIONS][PILGARTZE_TOTALS_LENGTH(1)];
} drag;

const char *words_of(enum handle handle);
int in_range(const handle_kind *by, double value);
/* Takes some handle of an object in a copy of the job, for that call; the object is there or is put
 * there. Whether there is any. */
int take_up(source *from, const job *of, enum call call, drag *made);
/* About where it begins to shade under the factor's sun, where it shades all, or between; it may be out of range. */
double where_it_shades(source *from, const drag *of);

#endif
