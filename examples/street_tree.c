/* A street tree before the sample window of quote.c, in leaf from 20 April to 31 October: what of the direct sun gets
 * past it and the houses, month by month, beside the same tree bare all the year. The window, its weather, its street
 * and the call of the library are in sample.h. */
#include "sample.h"

/* A tree in the street, nearer and higher than the houses across it. */
static const double tree_height = 11.0;
static const double tree_distance = 7.0;
static const double tree_aside = 15.0; /* degrees from the middle of its crown to either edge: it is 3.8 m wide */

/* The crown of the tree, in the sectors that it fills. A distant object is opaque, as wide as its sector, and shades
 * from below, all the way down from its top: take a dense tree, and its height where it is dense. A trunk by itself is
 * much narrower than a sector, so the bare tree is left out: winter is the street alone. */
static void add_tree(pilgartze_sector *sectors)
{
    int i;
    for (i = 0; i < SECTORS; i++) {
        const double aside = (sectors[i].start + sectors[i].end) / 2.0 - window.orientation;
        if (fabs(aside) < tree_aside) {
            pilgartze_add_object(&sectors[i], pilgartze_distant_obstacle(tree_height, tree_distance));
        }
    }
}

static void print_line(const char *name, double direct, double in_leaf, double bare)
{
    printf("%-10s %10.1f %10.1f %10.1f\n", name, direct / WH_PER_KWH, in_leaf / WH_PER_KWH, bare / WH_PER_KWH);
}

/* Three runs of the year: without any shade, with the tree in leaf in its season, and with the bare one throughout. */
static void print_months(const pilgartze_site *leafy, const pilgartze_shading *tree)
{
    const pilgartze_weather weather = make_weather();
    const pilgartze_sector sky = pilgartze_free_sector(0.0, 360.0);
    const pilgartze_shading nothing = pilgartze_all_year(tree->edition, &sky, 1, NULL, 0);
    const pilgartze_shading bare = pilgartze_all_year(tree->edition, tree->winter, tree->winter_count, NULL, 0);
    pilgartze_year_totals direct, in_leaf, leafless;
    const double year_direct = quote(leafy, &weather, &nothing, &direct);
    const double year_in_leaf = quote(leafy, &weather, tree, &in_leaf);
    const double year_bare = quote(leafy, &weather, &bare, &leafless);
    uint64_t month;
    printf("%-10s %10s %10s %10s\n", "kWh/m2", "direct", "in leaf", "bare");
    for (month = 1; month <= PILGARTZE_MONTHS; month++) {
        print_line(month_names[month - 1], pilgartze_month_totals(&direct, leafy->leap_year, month)->sum,
                   pilgartze_month_totals(&in_leaf, leafy->leap_year, month)->sum,
                   pilgartze_month_totals(&leafless, leafy->leap_year, month)->sum);
    }
    print_line("Year", year_direct, year_in_leaf, year_bare);
}

int main(void)
{
    pilgartze_sector summer[SECTORS], winter[SECTORS];
    const pilgartze_shading tree = {PILGARTZE_EDITION_2, summer, SECTORS, winter, SECTORS, NULL, 0};
    pilgartze_site leafy = site;

    leafy.first_leaf_day = pilgartze_day_of(leafy.leap_year, 4, 20);
    leafy.last_leaf_day = pilgartze_day_of(leafy.leap_year, 10, 31);
    make_street(winter);
    make_street(summer); /* the houses stand there in both seasons */
    add_tree(summer);

    printf("A window %.1f m wide and %.1f m high, facing south-east, in southern England;\n", window.width,
           window.height);
    printf("a terrace across the street, and a tree %.0f m high and %.0f m away,\n", tree_height, tree_distance);
    printf("in leaf from 20 April (day %u of the year, from 0) to 31 October (day %u).\n\n",
           (unsigned)leafy.first_leaf_day, (unsigned)leafy.last_leaf_day);
    print_months(&leafy, &tree);
    return EXIT_SUCCESS;
}
