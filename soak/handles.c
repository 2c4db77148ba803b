/* Handles of a job's objects, and the sun under which they shade. */
#include "drags.h"
#include "strips.h"

#include <math.h>

#define SECTOR sizeof(pilgartze_sector)
#define OBJECT sizeof(pilgartze_window_object)

/* ---- Handles -------------------------------------------------------------------------------------------------- */

static const handle_kind handles[HANDLES] = {
    {"a taller distant obstacle", 0, PILGARTZE_DISTANT_OBSTACLE, offsetof(pilgartze_object, height), 1.0e3, 0, 1},
    {"a nearer distant obstacle", 0, PILGARTZE_DISTANT_OBSTACLE, offsetof(pilgartze_object, distance), 1.0e4, 0, 0},
    {"a lower distant overhang", 0, PILGARTZE_DISTANT_OVERHANG, offsetof(pilgartze_object, height), 1.0e3, 0, 0},
    {"a farther distant overhang", 0, PILGARTZE_DISTANT_OVERHANG, offsetof(pilgartze_object, distance), 1.0e4, 0, 1},
    {"a deeper overhang", 1, PILGARTZE_OVERHANG, offsetof(pilgartze_window_object, size), 1.0e3, 0, 1},
    {"a nearer overhang", 1, PILGARTZE_OVERHANG, offsetof(pilgartze_window_object, distance), 1.0e4, 1, 0},
    {"a deeper right fin", 1, PILGARTZE_RIGHT_FIN, offsetof(pilgartze_window_object, size), 1.0e3, 0, 1},
    {"a nearer right fin", 1, PILGARTZE_RIGHT_FIN, offsetof(pilgartze_window_object, distance), 1.0e4, 1, 0},
    {"a deeper left fin", 1, PILGARTZE_LEFT_FIN, offsetof(pilgartze_window_object, size), 1.0e3, 0, 1},
    {"a nearer left fin", 1, PILGARTZE_LEFT_FIN, offsetof(pilgartze_window_object, distance), 1.0e4, 1, 0},
    {"a taller opaque obstacle", 1, PILGARTZE_OBSTACLE, offsetof(pilgartze_window_object, size), 1.0e3, 0, 1},
    {"a nearer opaque obstacle", 1, PILGARTZE_OBSTACLE, offsetof(pilgartze_window_object, distance), 1.0e4, 1, 0},
    {"a clearer obstacle", 1, PILGARTZE_OBSTACLE, offsetof(pilgartze_window_object, transparency), 1.0, 1, 0},
};

const char *words_of(enum handle handle)
{
    return handles[handle].words;
}

int in_range(const handle_kind *by, double value)
{
    return (by->from_0 ? value >= 0.0 : value > 0.0) && value <= by->most;
}

/* ---- What is dragged ------------------------------------------------------------------------------------------ */

static double some_size(source *from)
{
    switch (random_below(from, 4)) {
    case 0:
        return uniform(from, 0.01, 10.0);
    case 1:
        return uniform(from, 0.1, 40.0);
    case 2:
        return uniform(from, 10.0, 1000.0);
    default:
        return one_in(from, 2) ? 1000.0 : double_of(1 + random_below(from, 3));
    }
}

/* Above 0, where 0 is not in the range. */
static double some_distance(source *from, int from_0)
{
    switch (random_below(from, 4)) {
    case 0:
        return from_0 ? (one_in(from, 2) ? 0.0 : -0.0) : double_of(1 + random_below(from, 3));
    case 1:
        return uniform(from, 0.001, 5.0);
    case 2:
        return uniform(from, 0.1, 60.0);
    default:
        return one_in(from, 2) ? 10000.0 : uniform(from, 1.0, 10000.0);
    }
}

/* The place of one of that kind among so many objects, or where one is to be put: behind them or over another. */
static size_t some_object(source *from, const uint8_t *objects, size_t count, size_t size, size_t most, uint64_t kind)
{
    const size_t first = count == 0 ? 0 : random_below(from, count);
    size_t i;
    for (i = 0; i < count && !one_in(from, 16); i++) {
        uint64_t is;
        memcpy(&is, objects + (first + i) % count * size, sizeof is);
        if (is == kind) {
            return (first + i) % count;
        }
    }
    return count < most && one_in(from, 2) ? count : first;
}

static void move_with(drag *made, uint8_t *object)
{
    if (made->places < MOST_PLACES) {
        made->words[made->places] = object + made->by->word;
        made->places += 1;
    }
}

/* An object of that sector. Now and then it stands there once more, and the other moves with it or stays. */
static void drag_in_sector(source *from, drag *made, enum list list, size_t place)
{
    uint8_t *const record = made->of.lists[list] + place * SECTOR;
    uint8_t *const objects = record + offsetof(pilgartze_sector, objects);
    pilgartze_sector sector;
    size_t at;
    memcpy(&sector, record, SECTOR);
    if (sector.count > PILGARTZE_MOST_OBJECTS) {
        return;
    }
    at = some_object(from, objects, (size_t)sector.count, sizeof sector.objects[0], PILGARTZE_MOST_OBJECTS,
                     made->by->kind);
    if (at == sector.count || sector.objects[at].kind != made->by->kind) {
        const pilgartze_object object = {made->by->kind, some_size(from), some_distance(from, 0)};
        sector.count += at == sector.count ? 1 : 0;
        sector.objects[at] = object;
    }
    move_with(made, objects + at * sizeof sector.objects[0]);
    if (one_in(from, 4) && pilgartze_add_object(&sector, sector.objects[at]) && one_in(from, 2)) {
        move_with(made, objects + ((size_t)sector.count - 1) * sizeof sector.objects[0]);
    }
    memcpy(record, &sector, SECTOR);
}

/* In the sector with the sun for the most part; in all of them, which a run needs, since its sun moves on. */
static void drag_in_list(source *from, drag *made, enum list list)
{
    const size_t all = made->of.lengths[list] / SECTOR;
    const size_t count = all < PILGARTZE_MOST_SECTORS ? all : PILGARTZE_MOST_SECTORS;
    size_t place = 0;
    if (count == 0) {
        return;
    }
    if (made->call != RUN && !one_in(from, 4)) {
        const walk met = walk_along(&made->of, list, made->of.azimuth);
        place = met.end == MATCH && met.place < count ? met.place : random_below(from, count);
        drag_in_sector(from, made, list, place);
        return;
    }
    for (; place < count; place++) {
        drag_in_sector(from, made, list, place);
    }
}

/* A taller or nearer obstacle is opaque: its law is of these alone. */
static void drag_at_the_window(source *from, drag *made)
{
    uint8_t *const objects = made->of.lists[WINDOW];
    size_t count = made->of.lengths[WINDOW] / OBJECT;
    pilgartze_window_object object;
    size_t at;
    if (count > PILGARTZE_MOST_WINDOW_OBJECTS) {
        return;
    }
    at = some_object(from, objects, count, OBJECT, PILGARTZE_MOST_WINDOW_OBJECTS, made->by->kind);
    memcpy(&object, objects + at * OBJECT, OBJECT);
    if (at == count || object.kind != made->by->kind) {
        object =
            pilgartze_window_part((enum pilgartze_window_kind)made->by->kind, some_size(from), some_distance(from, 1));
        object.transparency = made->handle == CLEARER ? uniform(from, 0.0, 1.0) : 0.0;
        count += at == count ? 1 : 0;
    }
    if (made->handle == TALLER_OPAQUE || made->handle == NEARER_OPAQUE) {
        object.transparency = one_in(from, 2) ? 0.0 : -0.0;
    }
    memcpy(objects + at * OBJECT, &object, OBJECT);
    move_with(made, objects + at * OBJECT);
    if (one_in(from, 4) && count < PILGARTZE_MOST_WINDOW_OBJECTS) {
        memcpy(objects + count * OBJECT, &object, OBJECT);
        if (one_in(from, 2)) {
            move_with(made, objects + count * OBJECT);
        }
        count += 1;
    }
    made->of.lengths[WINDOW] = count * OBJECT;
}

/* ---- Under which sun ------------------------------------------------------------------------------------------ */

static double some_altitude(source *from)
{
    switch (random_below(from, 16)) {
    case 0:
        return 0.0;
    case 1:
        return double_of(random_word(from) % bits_of(0.01));
    case 2:
        return double_of(bits_of(90.0) - random_below(from, 4));
    case 3:
        return uniform(from, 89.0, 90.0);
    default:
        return uniform(from, 0.0, 80.0);
    }
}

/* How far the sun stands aside; now and then about the edge of the beam. */
static double some_aside(source *from)
{
    const double edge = double_of(bits_of(90.0) - random_below(from, 4));
    if (!one_in(from, 8)) {
        return uniform(from, -90.0, 90.0);
    }
    return (one_in(from, 2) ? edge : uniform(from, 89.0, 90.0)) * (one_in(from, 2) ? 1.0 : -1.0);
}

/* Turns the surface so that the factor's sun is inside the beam. To the north its difference is often beyond 180; in
 * edition 1 a right fin shades only there, with the sun in the north-west. */
static void face_the_factors_sun(source *from, int right_fin, job *made)
{
    pilgartze_surface *const surface = &made->surface;
    const int north_west = right_fin && made->edition == PILGARTZE_EDITION_1 && !one_in(from, 4);
    const double north = uniform(from, 90.0, 180.0);
    const double aside = some_aside(from);
    double facing;
    made->altitude = some_altitude(from);
    made->azimuth = !one_in(from, 4) ? uniform(from, -180.0, 180.0) : one_in(from, 2) ? north : -north;
    made->azimuth = north_west ? -north : made->azimuth;
    facing = made->azimuth - (north_west ? fabs(aside) : aside);
    facing += facing > 180.0 ? -360.0 : facing < -180.0 ? 360.0 : 0.0;
    surface->orientation = 180.0 - facing;
    surface->tilt = one_in(from, 2) ? 90.0 : made->altitude + uniform(from, 0.0, 90.0);
    if (one_in(from, 4)) {
        surface->base_height = one_in(from, 4) ? 1000.0 : 0.0;
        surface->height = one_in(from, 2) ? 0.001 : uniform(from, 1.0, 1000.0);
        surface->width = one_in(from, 2) ? 1000.0 : uniform(from, 0.001, 1.0);
    }
}

/* Some objects gone, so that those that are left do not shade all; each list by itself. */
static void thin_out(source *from, job *made)
{
    const size_t window = made->lengths[WINDOW] / OBJECT;
    int list;
    size_t at;
    for (list = SUMMER; list <= WINTER; list++) {
        const int none = one_in(from, 2);
        for (at = 0; at + SECTOR <= made->lengths[list]; at += SECTOR) {
            pilgartze_sector sector;
            memcpy(&sector, made->lists[list] + at, SECTOR);
            if (sector.count <= PILGARTZE_MOST_OBJECTS) {
                thin_sector(from, &sector);
                sector = none ? pilgartze_free_sector(sector.start, sector.end) : sector;
            }
            memcpy(made->lists[list] + at, &sector, SECTOR);
        }
    }
    if (window <= PILGARTZE_MOST_WINDOW_OBJECTS) {
        made->lengths[WINDOW] = one_in(from, 2) ? 0 : OBJECT * random_below(from, window + 1);
    }
}

/* ---- Taking it up --------------------------------------------------------------------------------------------- */

static void take_job(source *from, const job *of, drag *made)
{
    static job own;
    int list;
    own = own.lists[0] == NULL ? job_with_room() : own;
    made->of = *of;
    for (list = SUMMER; list <= WINDOW; list++) {
        made->of.lists[list] = memcpy(own.lists[list], of->lists[list], of->lengths[list]);
    }
    for (list = DIFFUSE; list <= REFLECTIVITY && made->call != RUN; list++) {
        made->of.lengths[list] = 0; /* factor and strips have none */
    }
    if (made->call != RUN && !one_in(from, 4)) {
        face_the_factors_sun(from, made->by->kind == PILGARTZE_RIGHT_FIN, &made->of);
    }
    if (!one_in(from, 4)) {
        thin_out(from, &made->of);
    }
}

int take_up(source *from, const job *of, enum call call, drag *made)
{
    const size_t seasons = random_below(from, 4);
    made->handle = (enum handle)random_below(from, HANDLES);
    made->by = &handles[made->handle];
    made->call = call;
    made->places = 0;
    made->count = 0;
    take_job(from, of, made);
    if (made->by->at_the_window) {
        drag_at_the_window(from, made);
    } else if (call != RUN) {
        drag_in_list(from, made, made->of.sectors);
    } else {
        if (seasons != 0) {
            drag_in_list(from, made, SUMMER);
        }
        if (seasons != 1) {
            drag_in_list(from, made, WINTER);
        }
    }
    return made->places > 0;
}

/* ---- Where it shades ------------------------------------------------------------------------------------------ */

/* What a handle at x shades, of a height or a width, is gain * x + rest. */
typedef struct line {
    double gain, rest;
} line;

/* By the C library's sines and the object's other word; a is the sun's altitude, b how far it stands aside. */
static line shade_of(const drag *of, const pilgartze_surface *on, double a, double b)
{
    const uint8_t *const object = of->words[0] - of->by->word;
    double size, distance;
    memcpy(&size, object + offsetof(pilgartze_window_object, size), sizeof size);
    memcpy(&distance, object + offsetof(pilgartze_window_object, distance), sizeof distance);
    switch (of->handle) {
    case NEARER_OBSTACLE:
    case NEARER_OPAQUE:
        return (line){-tan(a), size - on->base_height};
    case LOWER_OVERHANG:
        return (line){-1.0, on->height + on->base_height + distance * tan(a)};
    case FARTHER_OVERHANG:
        return (line){tan(a), on->height + on->base_height - size};
    case DEEPER_OVERHANG:
        return (line){tan(a) / cos(b), -distance};
    case NEARER_OVERHANG:
        return (line){-1.0, size * tan(a) / cos(b)};
    case DEEPER_RIGHT_FIN:
    case DEEPER_LEFT_FIN:
        return (line){fabs(tan(b)), -distance};
    case NEARER_RIGHT_FIN:
    case NEARER_LEFT_FIN:
        return (line){-1.0, size * fabs(tan(b))};
    default:
        return (line){1.0, -on->base_height - distance * tan(a)};
    }
}

/* What it shades: the surface, or some strip of it. */
static pilgartze_surface some_surface(source *from, const drag *of)
{
    glazing cut;
    if (of->call != STRIPS || cut_glazing(&of->of, of->of.lists[HEIGHTS], &cut) != NO_FAULT) {
        return of->of.surface;
    }
    return cut.strips[random_below(from, cut.count)];
}

double where_it_shades(source *from, const drag *of)
{
    static const double radians = 3.14159265358979323846 / 180.0;
    const pilgartze_surface on = some_surface(from, of);
    const int fin = of->by->kind == PILGARTZE_RIGHT_FIN || of->by->kind == PILGARTZE_LEFT_FIN;
    const double part = one_in(from, 2) ? uniform(from, 0.0, 1.0) : (double)random_below(from, 2);
    const line shade =
        shade_of(of, &on, of->of.altitude * radians, (of->of.azimuth - 180.0 + on.orientation) * radians);
    if (of->handle == CLEARER) {
        return uniform(from, 0.0, 1.0);
    }
    return (part * (fin ? on.width : on.height) - shade.rest) / shade.gain;
}
