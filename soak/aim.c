/* Jobs with the sun square on the glass or overhead at the single step, which in a sound job is one of the run's. There
 * a sum of products is 1 but for its rounding, which may take it above 1. */
#include "job.h"

#include <math.h>

#define DEGREES (180.0 / 3.14159265358979323846)

/* ---- Where the sun is ----------------------------------------------------------------------------------------- */

/* Its direction at the single step, by day or night; all 0 where the site or the time is out of range. */
typedef struct direction {
    double up, south, east;
} direction;

/* The part of a beam at normal incidence that comes to a surface so turned. The beam is a power of two, so that this is
 * the cosine of incidence to the bit, or 0 where that is below 0. */
static double part_of_beam(const job *made, double tilt, double orientation)
{
    const pilgartze_surface surface = {tilt, orientation, 0.0, 1.0, 1.0};
    const pilgartze_reading beam = {0.0, 1024.0, 0.0};
    pilgartze_site site = made->site;
    pilgartze_breakdown there;
    site.direct_beam_conversion = 0;
    return pilgartze_irradiance_at(&site, made->time, &surface, &beam, &there) == 0 ? there.direct / 1024.0 : 0.0;
}

/* The azimuth that is stored does not do here: it is the sun's direction only about noon. */
static direction sun_of(const job *made)
{
    direction sun;
    sun.up = part_of_beam(made, 0.0, 0.0) - part_of_beam(made, 180.0, 0.0);
    sun.south = part_of_beam(made, 90.0, 180.0) - part_of_beam(made, 90.0, 0.0);
    sun.east = part_of_beam(made, 90.0, 90.0) - part_of_beam(made, 90.0, 270.0);
    return sun;
}

int sun_square(const job *of)
{
    return part_of_beam(of, of->surface.tilt, of->surface.orientation) == 1.0;
}

int sun_overhead(const job *of)
{
    const pilgartze_reading none = {0.0, 0.0, 0.0};
    pilgartze_breakdown there;
    return pilgartze_irradiance_at(&of->site, of->time, &of->surface, &none, &there) == 0 && there.altitude == 90.0;
}

/* ---- Aiming --------------------------------------------------------------------------------------------------- */

/* A few bits beside x, or x where that is out of range. */
static double beside(source *from, double x, double low, double high)
{
    const double moved = double_of(bits_of(x) + random_below(from, 9) - 4);
    return moved >= low && moved <= high ? moved : x;
}

/* Turns the surface to the sun. Where the cosine of incidence does not come to 1, other bits beside the right angles
 * are tried. */
static void face_the_sun(source *from, job *made, const direction *sun)
{
    const double tilt = DEGREES * atan2(hypot(sun->south, sun->east), sun->up);
    const double orientation = 180.0 - DEGREES * atan2(sun->east, sun->south);
    int tries = 5;
    do {
        made->surface.tilt = beside(from, tilt, 0.0, 180.0);
        made->surface.orientation = beside(from, orientation, 0.0, 360.0);
        tries -= 1;
    } while (tries > 0 && part_of_beam(made, made->surface.tilt, made->surface.orientation) < 1.0);
}

/* Moves the site to where the sun is overhead, or a millimetre or two from there. */
static void move_under_the_sun(source *from, job *made, const direction *sun)
{
    const double sine = sin(made->site.latitude / DEGREES);
    const double cosine = cos(made->site.latitude / DEGREES);
    const double away = one_in(from, 4) ? 1.0e-8 : 0.0;
    const double north = DEGREES * asin(sine * sun->up - cosine * sun->south);
    double east = made->site.longitude + DEGREES * atan2(sun->east, cosine * sun->up + sine * sun->south);
    east += east > 180.0 ? -360.0 : east < -180.0 ? 360.0 : 0.0;
    made->site.latitude = beside(from, north + uniform(from, -away, away), -90.0, 90.0);
    made->site.longitude = beside(from, east + uniform(from, -away, away), -180.0, 180.0);
    made->surface.tilt = one_in(from, 4) ? 0.0 : made->surface.tilt; /* flat, so that it is square too */
}

void aim(source *from, job *made)
{
    const direction sun = sun_of(made);
    if (sun.up > 0.0 && !one_in(from, 4)) {
        face_the_sun(from, made, &sun);
    } else if (sun.up != 0.0) {
        move_under_the_sun(from, made, &sun);
    }
}
