/* A stair window whose lower half a wall shades, at one sun: its factor in strips beside that of one plain surface. A
 * trellis before the glass reaches higher than the wall's shade and lets half of the light through; on one surface it
 * counts for nothing. (An overhang above the window would go into the sector too, see docs/DIFFERENCES.md, 41.) A first
 * program: it needs the header and the library alone. */
#include "pilgartze.h"

#include <stdio.h>
#include <stdlib.h>

#define STRIPS 6

/* An upright window to the south, 0.5 m above the ground and 6 m high; the same in strips of a metre. */
static const pilgartze_surface window = {90.0, 180.0, 0.5, 6.0, 1.2};
static const double heights[STRIPS] = {1.0, 1.0, 1.0, 1.0, 1.0, 1.0};
static const pilgartze_tall_glazing glazing = {90.0, 180.0, 0.5, 1.2, heights, STRIPS};

/* Noon: the sun stands in the south, straight before the window. */
static const double altitude = 45.0;
static const double azimuth = 0.0;

/* The factor, where the call is accepted. One that is turned down ends the program. */
static double accepted(pilgartze_factor_answer answer)
{
    if (answer.number != PILGARTZE_ACCEPTED) {
        fprintf(stderr, "turned down: %s (%u)\n", pilgartze_refusal_word(answer.number), (unsigned)answer.number);
        exit(EXIT_FAILURE);
    }
    return answer.factor;
}

/* With so many of the objects before the glass: 1 or none. */
static double on_one_surface(const pilgartze_surface *surface, const pilgartze_sector *yard,
                             const pilgartze_window_object *trellis, size_t count)
{
    return accepted(pilgartze_factor_at(PILGARTZE_EDITION_2, altitude, azimuth, surface, yard, 1, trellis, count));
}

static double in_strips(const pilgartze_sector *yard, const pilgartze_window_object *trellis, size_t count)
{
    return accepted(pilgartze_strips_at(PILGARTZE_EDITION_2, altitude, azimuth, &glazing, yard, 1, trellis, count));
}

/* A strip as a surface of its own, from 0, the lowest: it stands on those below. */
static pilgartze_surface strip(int number)
{
    pilgartze_surface made = window;
    int i;
    for (i = 0; i < number; i++) {
        made.base_height += heights[i];
    }
    made.height = heights[number];
    return made;
}

/* The highest first, as they stand in the wall. */
static void print_strips(const pilgartze_sector *yard, const pilgartze_window_object *trellis)
{
    int i;
    printf("%5s %9s %11s %9s\n", "strip", "base, m", "height, m", "factor");
    for (i = STRIPS - 1; i >= 0; i--) {
        const pilgartze_surface one = strip(i);
        printf("%5d %9.1f %11.1f %9.3f\n", i + 1, one.base_height, one.height, on_one_surface(&one, yard, trellis, 1));
    }
}

static void print_window(const char *name, const pilgartze_sector *yard, const pilgartze_window_object *trellis,
                         size_t count)
{
    printf("%-16s %10.3f %12.3f\n", name, in_strips(yard, trellis, count),
           on_one_surface(&window, yard, trellis, count));
}

int main(void)
{
    const pilgartze_object wall = pilgartze_distant_obstacle(8.5, 5.0);
    const pilgartze_window_object trellis = pilgartze_obstacle(6.0, 1.0, 0.5);
    pilgartze_sector yard = pilgartze_free_sector(0.0, 360.0);
    pilgartze_add_object(&yard, wall);

    printf("A stair window to the south, %.0f m high, and the sun before it at altitude %.0f;\n", window.height,
           altitude);
    printf("across the yard a wall %.1f m high and %.0f m away, whose shade covers the lower half;\n", wall.height,
           wall.distance);
    printf("%.0f m before the glass a trellis %.0f m high, which lets half of the light through.\n\n",
           trellis.distance, trellis.size);
    print_strips(&yard, &trellis);
    printf("\n%-16s %10s %12s\n", "whole window", "in strips", "one surface");
    print_window("wall", &yard, NULL, 0);
    print_window("wall and trellis", &yard, &trellis, 1);
    printf("\nOn one surface either the wall or the trellis counts, whichever leaves less: the wall, as if there\n");
    printf("were no trellis. Strips tell them apart: the wall darkens the lower ones, the trellis dims those above.\n");
    return EXIT_SUCCESS;
}
