/* Quotes a sample window for a year: what of the direct sun gets past a terrace of houses, an overhang and a fin, month
 * by month, and how that changes as the overhang is drawn out. The window, its weather, its street and the call of the
 * library are in sample.h. */
#include "sample.h"

/* The objects at the window, in their places in the list. */
enum { OVERHANG, FIN, WINDOW_OBJECTS };

static const double overhang_gap = 0.15;

/* The mean factor is that of the direct sun: shaded over unshaded. */
static void print_line(const char *name, double direct, double shaded)
{
    printf("%-10s %10.1f %10.1f %12.3f\n", name, direct / WH_PER_KWH, shaded / WH_PER_KWH,
           direct > 0.0 ? shaded / direct : 1.0);
}

/* All of the direct sun is what a window without any shade is quoted. So there are two runs of the year, without shade
 * and with it; their totals have the months. */
static void print_months(const pilgartze_weather *weather, const pilgartze_shading *shading)
{
    const pilgartze_sector sky = pilgartze_free_sector(0.0, 360.0);
    const pilgartze_shading nothing = pilgartze_all_year(PILGARTZE_EDITION_2, &sky, 1, NULL, 0);
    pilgartze_year_totals direct, shaded;
    const double year_direct = quote(&site, weather, &nothing, &direct);
    const double year_shaded = quote(&site, weather, shading, &shaded);
    uint64_t month;
    printf("%-10s %10s %10s %12s\n", "kWh/m2", "direct", "shaded", "mean factor");
    for (month = 1; month <= PILGARTZE_MONTHS; month++) {
        print_line(month_names[month - 1], pilgartze_month_totals(&direct, site.leap_year, month)->sum,
                   pilgartze_month_totals(&shaded, site.leap_year, month)->sum);
    }
    print_line("Year", year_direct, year_shaded);
}

/* The overhang from 0.2 m to 2 m: a run of the year for each, whose months are not shown. */
static void drag_overhang(const pilgartze_weather *weather, const pilgartze_shading *shading,
                          pilgartze_window_object *overhang)
{
    pilgartze_year_totals totals;
    int i;
    printf("%-10s %21s\n", "overhang", "shaded, kWh/m2");
    for (i = 1; i <= 10; i++) {
        const double depth = 0.2 * i;
        *overhang = pilgartze_overhang(depth, overhang_gap);
        printf("%8.2f m %21.1f\n", depth, quote(&site, weather, shading, &totals) / WH_PER_KWH);
    }
}

int main(void)
{
    const pilgartze_weather weather = make_weather();
    pilgartze_sector sectors[SECTORS];
    pilgartze_window_object objects[WINDOW_OBJECTS];
    const pilgartze_shading shading =
        pilgartze_all_year(PILGARTZE_EDITION_2, sectors, SECTORS, objects, WINDOW_OBJECTS);

    make_street(sectors);
    objects[OVERHANG] = pilgartze_overhang(0.6, overhang_gap);
    objects[FIN] = pilgartze_left_fin(0.4, 0.1);

    printf("A window %.1f m wide and %.1f m high, facing south-east, in southern England;\n", window.width,
           window.height);
    printf("a terrace across the street, an overhang of %.1f m, a fin of %.1f m on the left.\n\n",
           objects[OVERHANG].size, objects[FIN].size);
    print_months(&weather, &shading);
    printf("\n");
    drag_overhang(&weather, &shading, &objects[OVERHANG]);
    return EXIT_SUCCESS;
}
