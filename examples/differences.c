/* Tries the inputs that docs/DIFFERENCES.md names, entry by entry, so that what it says stays so. Good C99. */
#include "pilgartze.h"

#include <math.h>
#include <stdio.h>

#define HOURS 8760

static double hundred[HOURS];
static double fifth[HOURS];
static pilgartze_row rows[HOURS];
static pilgartze_day_table days;
static pilgartze_year_totals totals;
static const pilgartze_weather weather = {hundred, hundred, fifth, HOURS};
static const pilgartze_run_times year = {0.0, HOURS, 1.0};
static const pilgartze_reading reading = {100.0, 600.0, 0.2};
static pilgartze_sector free_sector;
static pilgartze_sector walled_sector;
static const pilgartze_shading bare = {PILGARTZE_EDITION_1, &free_sector, 1, &free_sector, 1, NULL, 0};
static const pilgartze_shading walled = {PILGARTZE_EDITION_1, &walled_sector, 1, &walled_sector, 1, NULL, 0};
static int checks = 0;
static int failures = 0;

static void check(int holds, int entry, const char *what)
{
    checks += 1;
    if (!holds) {
        failures += 1;
        printf("entry %d: %s: not as it should be\n", entry, what);
    }
}

static int about(double value, double wanted)
{
    return fabs(value - wanted) <= 0.5e-5 * fabs(wanted);
}

static pilgartze_site site_at(double latitude, double longitude, int64_t timezone)
{
    pilgartze_site site = {0.0, 0.0, 0, 0, 1.0, 0, 0, 0, 0};
    site.latitude = latitude;
    site.longitude = longitude;
    site.timezone = timezone;
    return site;
}

static pilgartze_surface facing(double tilt, double orientation, double base_height, double height)
{
    pilgartze_surface surface = {0.0, 0.0, 0.0, 0.0, 1.0};
    surface.tilt = tilt;
    surface.orientation = orientation;
    surface.base_height = base_height;
    surface.height = height;
    return surface;
}

static pilgartze_breakdown irradiance(pilgartze_site site, double time, pilgartze_surface surface,
                                      pilgartze_reading values)
{
    pilgartze_breakdown breakdown;
    check(pilgartze_irradiance_at(&site, time, &surface, &values, &breakdown) == 0, 0, "an irradiance is refused");
    return breakdown;
}

/* The factor with these objects at the window, and nothing in the distance. */
static pilgartze_factor_answer behind_in(uint64_t edition, const pilgartze_window_object *objects, size_t count,
                                         double altitude, double azimuth, pilgartze_surface surface)
{
    return pilgartze_factor_at(edition, altitude, azimuth, &surface, &free_sector, 1, objects, count);
}

/* The factor with these sectors and nothing at the window, which no edition changes. */
static pilgartze_factor_answer among(const pilgartze_sector *horizon, size_t count, double altitude, double azimuth,
                                     pilgartze_surface surface)
{
    return pilgartze_factor_at(PILGARTZE_EDITION_1, altitude, azimuth, &surface, horizon, count, NULL, 0);
}

/* By the rule for fins that the Rust has. */
static pilgartze_factor_answer behind(const pilgartze_window_object *objects, size_t count, double altitude,
                                      double azimuth, pilgartze_surface surface)
{
    return behind_in(PILGARTZE_EDITION_1, objects, count, altitude, azimuth, surface);
}

static void sun_and_sky(void)
{
    const pilgartze_surface upright = facing(90.0, 180.0, 1.0, 1.0);
    const pilgartze_reading grazing = {0.0, 10.0, 0.2};
    const pilgartze_reading no_light = {-0.0, 0.0, 0.2};
    pilgartze_site converted = site_at(50.31, 0.0, 0);
    pilgartze_breakdown sun;
    sun = irradiance(site_at(0.37476825552591986, -110.72173407338755, -10), 1929.0, upright, reading);
    check(sun.altitude == 90.0 && sun.azimuth == -16326106363.67939, 2, "the sun overhead");
    converted.direct_beam_conversion = 1;
    sun = irradiance(converted, 2309.0, facing(90.0, 90.0, 1.0, 1.0), grazing);
    check(about(sun.direct, 4597031.0), 4, "a beam near the horizon");
    sun = irradiance(site_at(51.06, -1.31, 0), 12.0, facing(90.0, 0.0, 1.0, 1.0), no_light);
    check(sun.direct == 0.0 && signbit(sun.direct), 19, "no light that is -0.0");
}

static int all_numbers(const pilgartze_row *row)
{
    return isfinite(row->altitude) && isfinite(row->azimuth) && isfinite(row->direct) && isfinite(row->diffuse) &&
           isfinite(row->total) && isfinite(row->factor);
}

/* The altitude's sum of products rounds above 1: the altitude is 90, and the sectors are walked. */
static void overhead(void)
{
    pilgartze_site site = site_at(-21.43550546822772, 24.689999999999987, 0);
    pilgartze_surface flat = facing(0.0, 316.0, 1.0, 1.0);
    const pilgartze_run_times noon = {322.0, 323.0, 1.0};
    pilgartze_answer answer = pilgartze_run_job(&site, &noon, &flat, &weather, &bare, &days, &totals, rows, HOURS);
    check(answer.number == PILGARTZE_REFUSED_NO_SECTOR && answer.step == 0, 18, "the sun overhead, in no sector");
    answer = pilgartze_run_job(&site, &year, &flat, &weather, &bare, &days, &totals, rows, HOURS);
    check(answer.number == PILGARTZE_REFUSED_NO_SECTOR && answer.step == 322, 18, "a year with that hour");
    flat.orientation = 136.0;
    answer = pilgartze_run_job(&site, &noon, &flat, &weather, &bare, &days, &totals, rows, HOURS);
    check(answer.number == 0 && answer.count == 1 && all_numbers(rows), 18, "turned round, outside the beam");
    check(rows[0].altitude == 90.0 && rows[0].azimuth == 313.4613623615226, 18, "the sun overhead");
    check(about(rows[0].direct, 117.8412) && rows[0].total == 200.0 && rows[0].factor == 1.0, 18, "its light");
    flat.orientation = 316.0;
    site.longitude = 24.69;
    check(pilgartze_run_job(&site, &year, &flat, &weather, &bare, &days, &totals, rows, HOURS).count == HOURS, 18,
          "the same some bits further east");
    check(all_numbers(&rows[322]) && rows[322].altitude == 90.0 && rows[322].azimuth == 73.3347932457816, 18,
          "the sun overhead, in a sector");
}

/* So it is here, and an awning shades all that there is. */
static void overhead_and_awning(void)
{
    const pilgartze_site site = site_at(-21.4355057, 24.69, 0);
    const pilgartze_surface roof = facing(30.0, 180.0, 1.0, 1.0);
    const pilgartze_window_object awning = pilgartze_overhang(0.5, 0.0);
    const pilgartze_surface upright = facing(90.0, 180.0, 1.0, 1.0);
    const pilgartze_shading shading = pilgartze_all_year(PILGARTZE_EDITION_1, &free_sector, 1, &awning, 1);
    pilgartze_breakdown sun;
    pilgartze_row row;
    check(pilgartze_step_at(&site, 322.0, &roof, &reading, &shading, &row) == 0, 18, "a roof with an awning");
    check(row.altitude == 90.0 && row.azimuth == 73.3347932457816, 18, "the sun over the roof");
    check(about(row.direct, 592.81296) && row.factor == 0.0, 18, "the shade of the awning");
    sun = irradiance(site_at(-7.854071, 10.648195, 0), 1427.0, upright, reading);
    check(sun.altitude == 90.0 && sun.azimuth == -1247745161.0944161, 18, "an azimuth that is far beyond 180");
}

/* The incidence's sum rounds above 1: the angle is 0, and all of the beam comes to the glass. */
static void square(void)
{
    const pilgartze_site site = site_at(-8.067087, 8.26, 0);
    const pilgartze_surface glass = facing(15.0, 180.0, 1.0, 1.0);
    const pilgartze_run_times day = {0.0, 24.0, 1.0};
    const pilgartze_reading no_light = {-0.0, 0.0, 0.2};
    pilgartze_breakdown sun = irradiance(site, 11.0, glass, reading);
    pilgartze_answer answer;
    check(sun.direct == reading.direct + sun.circumsolar, 18, "all of the beam on the glass");
    check(about(sun.direct, 696.63772) && about(sun.diffuse, 15.129055) && about(sun.total, 711.76678), 18,
          "the sun square on the glass");
    sun = irradiance(site, 11.0, glass, no_light);
    check(sun.direct == 0.0 && sun.diffuse == 0.0 && sun.total == 0.0, 18, "the same with no light");
    answer = pilgartze_run_job(&site, &day, &glass, &weather, &bare, &days, &totals, rows, HOURS);
    check(answer.number == 0 && about(answer.sum, 1207.448), 18, "the sum of such a day");
}

static void clocks(void)
{
    const pilgartze_surface upright = facing(90.0, 180.0, 1.0, 1.0);
    const pilgartze_run_times odd = {0.0, 3.0, 0.3};
    const pilgartze_run_times early = {2352.0, 2402.0, 1.0};
    const double diffuse[] = {100.0, 50.0};
    const double direct[] = {400.0, 300.0};
    pilgartze_weather short_series = {diffuse, direct, fifth, 2};
    pilgartze_site site = site_at(19.0, 72.75 + 7.5, 6);
    pilgartze_breakdown above = irradiance(site, 4116.0, upright, reading);
    pilgartze_breakdown below = irradiance(site_at(19.0, 72.75 - 7.5, 5), 4116.0, upright, reading);
    pilgartze_row first;
    check(above.altitude == below.altitude && above.azimuth == below.azimuth, 23, "a half-hour zone from both sides");
    check(pilgartze_run_job(&site, &odd, &upright, &weather, &bare, &days, &totals, rows, HOURS).count == 11, 12,
          "steps of 0.3");
    site.start_day = 100;
    check(pilgartze_run_job(&site, &early, &upright, &short_series, &bare, &days, &totals, rows, HOURS).count == 50, 24,
          "a run that starts before its series");
    check(pilgartze_step_at(&site, 2364.0, &upright, &reading, &bare, &first) == 0, 24, "a step by itself");
    check(rows[12].altitude == first.altitude && rows[12].direct > 0.0, 24, "the first value for an earlier day");
}

/* The sum of direct times hours over so many rows, from the first on. */
static double over_rows(size_t count, double step)
{
    double sum = 0.0;
    size_t i;
    for (i = 0; i < count; i++) {
        sum += rows[i].direct * step;
    }
    return sum;
}

/* Where the last step passes the end of the run it counts whole, and so does the one step of a run that starts above
 * its end. By a clock of UTC the sun shines on Sydney at these hours. */
static void last_step(void)
{
    const pilgartze_site sydney = site_at(-33.87, 151.21, 0);
    const pilgartze_surface upright = facing(90.0, 0.0, 1.0, 1.2);
    const pilgartze_run_times three_hours = {0.0, 3.0, 0.3};
    const pilgartze_run_times one_hour = {1.0, 2.0, 0.3};
    const pilgartze_run_times backwards = {2.0, 1.0, 0.3};
    pilgartze_answer answer =
        pilgartze_run_job(&sydney, &three_hours, &upright, &weather, &bare, &days, &totals, rows, HOURS);
    check(answer.count == 11 && rows[10].direct > 0.0, 25, "3 hours in 11 steps of 0.3");
    check(answer.sum == over_rows(11, 0.3), 25, "the sum of 3.3 hours");
    check(about(answer.sum - over_rows(10, 0.3), rows[10].direct * 0.3), 25, "0.3 hours more than the run has");
    answer = pilgartze_run_job(&sydney, &one_hour, &upright, &weather, &bare, &days, &totals, rows, HOURS);
    check(answer.count == 4 && rows[3].direct == rows[0].direct, 25, "an hour in 4 steps of 0.3");
    check(answer.sum == over_rows(4, 0.3) && about(answer.sum, 1.2 * rows[0].direct), 25, "the sum of 1.2 hours");
    answer = pilgartze_run_job(&sydney, &backwards, &upright, &weather, &bare, &days, &totals, rows, HOURS);
    check(answer.count == 1 && rows[0].direct > 0.0, 25, "a start above the end");
    check(answer.sum == rows[0].direct * 0.3, 25, "the sum of its one step");
}

static void midnight(void)
{
    const pilgartze_surface north = facing(90.0, 0.0, 1.0, 1.2);
    pilgartze_site site = site_at(47.5, 7.5, 1);
    pilgartze_answer answer = pilgartze_run_job(&site, &year, &north, &weather, &bare, &days, &totals, rows, HOURS);
    check(answer.number == PILGARTZE_REFUSED_NO_SECTOR && answer.step == 8592, 9, "midnight exactly in the north");
    site.longitude = 7.5001;
    check(pilgartze_run_job(&site, &year, &north, &weather, &bare, &days, &totals, rows, HOURS).count == HOURS, 9,
          "the same a few metres further east");
}

static void beam(void)
{
    const pilgartze_site site = site_at(51.06, -1.31, 0);
    const pilgartze_surface pitched = facing(10.0, 0.0, 3.0, 0.3);
    pilgartze_surface flat = facing(0.0, 0.0, 3.0, 1.0);
    pilgartze_row row;
    check(among(&walled_sector, 1, 30.0, 0.0, flat).factor == 1.0, 10, "a rooflight turned to the north");
    flat.orientation = 180.0;
    check(among(&walled_sector, 1, 30.0, 0.0, flat).factor == 0.0, 10, "a rooflight turned to the south");
    check(pilgartze_step_at(&site, 4116.0, &pitched, &reading, &walled, &row) == 0, 10, "a pitched roof");
    check(row.factor == 1.0 && about(row.direct, 547.70654), 10, "light from behind on a pitched roof");
}

static void objects(void)
{
    const pilgartze_surface roof = facing(30.0, 180.0, 1.0, 1.0);
    const pilgartze_surface slant = facing(30.0, 180.0, 1.0, 2.0);
    const pilgartze_surface upright = facing(90.0, 180.0, 0.0, 2.0);
    const pilgartze_window_object awning = pilgartze_overhang(0.5, 0.0);
    const pilgartze_window_object hedges[] = {pilgartze_obstacle(1.0, 1.0, 0.5), pilgartze_obstacle(1.0, 1.0, 0.5)};
    const pilgartze_window_object wall = pilgartze_obstacle(1.0, 1.0, 0.0);
    const pilgartze_window_object glass = pilgartze_obstacle(1.0, 1.0, 1.0);
    pilgartze_sector distant = pilgartze_free_sector(0.0, 360.0);
    pilgartze_add_object(&distant, pilgartze_distant_obstacle(1.0, 10.0));
    check(behind(&awning, 1, 45.0, 0.0, roof).factor == 0.5, 21, "a roof's vertical projection");
    check(behind(&awning, 1, 45.0, 0.0, slant).factor == 0.75, 21, "a roof's slant height");
    check(behind(hedges, 1, 0.0, 0.0, upright).factor == 0.75, 11, "one hedge");
    check(behind(hedges, 2, 0.0, 0.0, upright).factor == 0.75, 11, "two hedges");
    check(pilgartze_factor_at(PILGARTZE_EDITION_1, 0.0, 0.0, &upright, &distant, 1, hedges, 1).factor == 0.5, 11,
          "a distant wall and a hedge");
    check(behind(&wall, 1, 0.0, 0.0, upright).factor == 0.5, 22, "transparency 0");
    check(behind(&glass, 1, 0.0, 0.0, upright).factor == 1.0, 22, "transparency 1");
}

static void fins(void)
{
    const pilgartze_surface upright = facing(90.0, 180.0, 0.0, 1.2);
    const pilgartze_surface east = facing(90.0, 45.0, 0.0, 1.2);
    const pilgartze_window_object right = pilgartze_right_fin(0.5, 0.0);
    const pilgartze_window_object left = pilgartze_left_fin(0.5, 0.0);
    const pilgartze_window_object reveal = pilgartze_reveal(0.2, 0.05);
    const pilgartze_window_object parts[] = {pilgartze_overhang(0.2, 0.05), pilgartze_left_fin(0.2, 0.05),
                                             pilgartze_right_fin(0.2, 0.05)};
    check(behind(&right, 1, 30.0, -45.0, upright).factor == 1.0, 7, "a right fin, the sun to the right");
    check(about(behind(&left, 1, 30.0, 45.0, upright).factor, 0.5), 7, "a left fin, the sun to the left");
    check(about(behind_in(PILGARTZE_EDITION_2, &right, 1, 30.0, -45.0, upright).factor, 0.5), 7, "it in edition 2");
    check(behind(&right, 1, 30.0, -150.0, east).factor < 1.0, 7, "a right fin, a difference below -270");
    check(behind(&reveal, 1, 30.0, 20.0, upright).number == PILGARTZE_REFUSED_REVEAL, 29, "a reveal");
    check(about(behind(parts, 3, 30.0, 20.0, upright).factor, 0.9178564), 29, "an overhang and fins in its place");
    check(about(behind_in(PILGARTZE_EDITION_2, parts, 3, 30.0, 20.0, upright).factor, 0.9178564), 29, "in edition 2");
    check(about(behind_in(PILGARTZE_EDITION_2, parts, 3, 30.0, -20.0, upright).factor, 0.9178564), 29, "the other way");
    check(about(behind(parts, 3, 30.0, -20.0, upright).factor, 0.9392661), 29, "the right fin does not shade");
}

/* One fin, the sun at altitude 0 before a window 1 m wide and 1 m high: the factors of both editions, to the bit. */
static void check_fin(pilgartze_window_object fin, double azimuth, double orientation, double first, double second,
                      const char *what)
{
    const pilgartze_surface window = facing(90.0, orientation, 0.0, 1.0);
    check(behind_in(PILGARTZE_EDITION_1, &fin, 1, 0.0, azimuth, window).factor == first, 38, what);
    check(behind_in(PILGARTZE_EDITION_2, &fin, 1, 0.0, azimuth, window).factor == second, 38, what);
}

/* About north, a sun 30 degrees to the left has the difference -330, by which right fins shade in edition 1; the
 * tangent's last bits are others there. */
static void mended_fins(void)
{
    const double shaded = 0.7113248654051871;
    const pilgartze_window_object right = pilgartze_right_fin(0.5, 0.0);
    const pilgartze_window_object left = pilgartze_left_fin(0.5, 0.0);
    check_fin(right, -30.0, 180.0, 1.0, shaded, "a right fin, a difference of -30");
    check_fin(left, 30.0, 180.0, shaded, shaded, "a left fin, a difference of 30");
    check_fin(right, 30.0, 180.0, 1.0, 1.0, "a right fin, a difference of 30");
    check_fin(right, 0.0, 180.0, 1.0, 1.0, "a right fin, no difference");
    check_fin(right, -160.0, 10.0, 0.7113248654051867, 1.0, "a right fin, a difference of -330");
    check_fin(left, -160.0, 10.0, 1.0, shaded, "a left fin, a difference of -330");
    check_fin(right, 160.0, 350.0, 1.0, shaded, "a right fin, a difference of 330");
    check_fin(left, 160.0, 350.0, 1.0, 1.0, "a left fin, a difference of 330");
}

/* The overhang's cosine is that of the difference as it is, also in edition 2: at -270 it is just below 0, at -90 just
 * above. */
static void overhang_not_wrapped(void)
{
    const pilgartze_window_object overhang = pilgartze_overhang(0.5, 0.0);
    const pilgartze_surface north = facing(90.0, 0.0, 0.0, 1.0);
    const pilgartze_surface flat = facing(0.0, 0.0, 0.0, 1.0);
    uint64_t edition;
    for (edition = PILGARTZE_EDITION_1; edition <= PILGARTZE_EDITION_2; edition++) {
        check(behind_in(edition, &overhang, 1, 30.0, -90.0, north).factor == 1.0, 38, "an overhang at -270");
        check(behind_in(edition, &overhang, 1, 30.0, 90.0, north).factor == 0.0, 38, "an overhang at -90");
        check(behind_in(edition, &overhang, 1, 90.0, -90.0, flat).factor == 1.0, 38, "an overhang over a rooflight");
        check(behind_in(edition, &overhang, 1, 90.0, 90.0, flat).factor == 0.0, 38, "the same, the sun in the east");
    }
}

/* Noon of a day, a tree being in leaf from 20 April to 31 October and left out in winter: the factor of the step, and
 * that of the factor call with the tree; without it that is 1. */
static void check_noon(uint64_t day, double factor, double with_tree, const char *what)
{
    const pilgartze_surface upright = facing(90.0, 180.0, 1.0, 1.2);
    const double noon = 24.0 * (double)day + 12.0;
    pilgartze_sector tree = free_sector;
    pilgartze_shading shading = bare;
    pilgartze_site site = site_at(51.06, -1.31, 0);
    pilgartze_row row;
    pilgartze_add_object(&tree, pilgartze_distant_obstacle(10.0, 7.0));
    shading.summer = &tree;
    site.first_leaf_day = pilgartze_day_of(site.leap_year, 4, 20);
    site.last_leaf_day = pilgartze_day_of(site.leap_year, 10, 31);
    check(pilgartze_step_at(&site, noon, &upright, &reading, &shading, &row) == 0, 39, what);
    check(about(row.factor, factor), 39, what);
    check(about(among(&tree, 1, row.altitude, row.azimuth, upright).factor, with_tree), 39, what);
    check(among(&free_sector, 1, row.altitude, row.azimuth, upright).factor == 1.0, 39, what);
}

static void seasons(void)
{
    check_noon(108, 1.0, 0.34507897, "19 April, bare");
    check_noon(109, 0.42763712, 0.42763712, "20 April, in leaf");
    check_noon(303, 0.0, 0.0, "31 October, in leaf");
    check_noon(304, 1.0, 0.0, "1 November, bare");
}

static void sectors(void)
{
    const pilgartze_surface upright = facing(90.0, 180.0, 0.0, 1.2);
    pilgartze_sector halves[] = {pilgartze_free_sector(0.0, 180.0), pilgartze_free_sector(190.0, 360.0)};
    check(among(halves, 2, 10.0, 10.0, upright).number == 0, 15, "a gap behind the sun");
    check(among(halves, 2, 10.0, -20.0, upright).number == PILGARTZE_REFUSED_GAP, 15, "a gap before it");
    halves[1].start = 180.0;
    check(among(halves, 2, 10.0, 0.0, upright).number == PILGARTZE_REFUSED_NO_SECTOR, 9, "a border");
}

static void shaded_light(void)
{
    const pilgartze_site site = site_at(51.06, -1.31, 0);
    const pilgartze_surface upright = facing(90.0, 180.0, 1.0, 1.2);
    pilgartze_row with, without;
    check(pilgartze_step_at(&site, 4116.0, &upright, &reading, &walled, &with) == 0, 30, "a step behind a wall");
    check(pilgartze_step_at(&site, 4116.0, &upright, &reading, &bare, &without) == 0, 30, "the same without it");
    check(with.factor == 0.0 && with.diffuse == without.diffuse && with.total == without.total, 30, "diffuse light");
}

/* The factor of upright glazing to the south on the ground, 1 m wide, in strips; no edition changes it. */
static double in_strips(const double *heights, size_t count, double altitude, double azimuth,
                        const pilgartze_sector *horizon, const pilgartze_window_object *objects, size_t object_count)
{
    const pilgartze_tall_glazing glazing = {90.0, 180.0, 0.0, 1.0, heights, count};
    const pilgartze_factor_answer answer =
        pilgartze_strips_at(PILGARTZE_EDITION_2, altitude, azimuth, &glazing, horizon, 1, objects, object_count);
    check(answer.number == 0, 41, "strips are refused");
    return answer.factor;
}

/* An overhang over the top of a window 4 m high whose shade is half a metre deep: in strips it hangs over each of them.
 * As a distant one it has its height above the ground, and shades the uppermost alone. */
static void overhang_over_strips(void)
{
    static const double metres[4] = {1.0, 1.0, 1.0, 1.0};
    const pilgartze_surface whole = facing(90.0, 180.0, 0.0, 4.0);
    const pilgartze_window_object overhang = pilgartze_overhang(0.5, 0.0);
    pilgartze_sector above = free_sector;
    int i;
    pilgartze_add_object(&above, pilgartze_distant_overhang(4.0, 0.5));
    check(behind(&overhang, 1, 45.0, 0.0, whole).factor == 0.875, 41, "an overhang over one surface");
    check(in_strips(metres, 4, 45.0, 0.0, &free_sector, &overhang, 1) == 0.5, 41, "an overhang over strips");
    for (i = 0; i < 4; i++) {
        const pilgartze_surface strip = facing(90.0, 180.0, i, 1.0);
        check(behind(&overhang, 1, 45.0, 0.0, strip).factor == 0.5, 41, "an overhang over each strip");
        check(among(&above, 1, 45.0, 0.0, strip).factor == (i < 3 ? 1.0 : 0.5), 41, "a distant one over each strip");
    }
    check(among(&above, 1, 45.0, 0.0, whole).factor == 0.875, 41, "a distant overhang over one surface");
    check(in_strips(metres, 4, 45.0, 0.0, &above, NULL, 0) == 0.875, 41, "a distant overhang over strips");
}

/* With the sun to the side a distant overhang has to be farther than the depth of that at the window, by the cosine. */
static void overhang_to_the_side(void)
{
    static const double metres[4] = {1.0, 1.0, 1.0, 1.0};
    const pilgartze_surface whole = facing(90.0, 180.0, 0.0, 4.0);
    const pilgartze_window_object overhang = pilgartze_overhang(0.5, 0.0);
    pilgartze_sector near = free_sector, far = free_sector;
    pilgartze_add_object(&near, pilgartze_distant_overhang(4.0, 0.5));
    pilgartze_add_object(&far, pilgartze_distant_overhang(4.0, 1.0));
    check(behind(&overhang, 1, 45.0, 60.0, whole).factor == 0.7500000000000001, 41, "at the window, azimuth 60");
    check(among(&near, 1, 45.0, 60.0, whole).factor == 0.875, 41, "distant, at its depth");
    check(in_strips(metres, 4, 45.0, 60.0, &near, NULL, 0) == 0.875, 41, "the same in strips");
    check(among(&far, 1, 45.0, 60.0, whole).factor == 0.75, 41, "distant, at its depth over the cosine");
    check(in_strips(metres, 4, 45.0, 60.0, &far, NULL, 0) == 0.75, 41, "the same in strips");
}

/* One strip is multiplied by its height and divided by it again. */
static void one_strip(void)
{
    const double height = 0.05;
    const pilgartze_tall_glazing glazing = {90.0, 180.0, 0.0, 0.7, &height, 1};
    const pilgartze_surface surface = {90.0, 180.0, 0.0, 0.05, 0.7};
    pilgartze_sector kerb = free_sector;
    pilgartze_add_object(&kerb, pilgartze_distant_obstacle(0.01, 10.0));
    check(among(&kerb, 1, 0.0, 0.0, surface).factor == 0.8, 41, "one surface");
    check(pilgartze_strips_at(PILGARTZE_EDITION_2, 0.0, 0.0, &glazing, &kerb, 1, NULL, 0).factor == 0.8000000000000002,
          41, "the same as one strip");
}

/* Two strips behind a hedge that lets a tenth through, of which each rounds for itself: the factor of both together is
 * above either, or below either. */
static void beyond_the_strips(void)
{
    static const double above[2] = {1.5, 1.8};
    static const double below[2] = {0.4, 1.2};
    const pilgartze_window_object hedge = pilgartze_obstacle(10.0, 1.0, 0.1);
    check(behind(&hedge, 1, 0.0, 0.0, facing(90.0, 180.0, 0.0, 1.5)).factor == 0.10000000000000002, 41, "1.5 m");
    check(behind(&hedge, 1, 0.0, 0.0, facing(90.0, 180.0, 1.5, 1.8)).factor == 0.1, 41, "1.8 m on top of it");
    check(in_strips(above, 2, 0.0, 0.0, &free_sector, &hedge, 1) == 0.10000000000000003, 41, "above either");
    check(behind(&hedge, 1, 0.0, 0.0, facing(90.0, 180.0, 0.0, 0.4)).factor == 0.10000000000000002, 41, "0.4 m");
    check(behind(&hedge, 1, 0.0, 0.0, facing(90.0, 180.0, 0.4, 1.2)).factor == 0.1, 41, "1.2 m on top of it");
    check(in_strips(below, 2, 0.0, 0.0, &free_sector, &hedge, 1) == 0.09999999999999999, 41, "below either");
}

int main(void)
{
    int hour;
    for (hour = 0; hour < HOURS; hour++) {
        hundred[hour] = 100.0;
        fifth[hour] = 0.2;
    }
    free_sector = pilgartze_free_sector(0.0, 360.0);
    walled_sector = free_sector;
    pilgartze_add_object(&walled_sector, pilgartze_distant_obstacle(100.0, 10.0));
    sun_and_sky();
    overhead();
    overhead_and_awning();
    square();
    clocks();
    last_step();
    midnight();
    beam();
    objects();
    fins();
    mended_fins();
    overhang_not_wrapped();
    sectors();
    seasons();
    shaded_light();
    overhang_over_strips();
    overhang_to_the_side();
    one_strip();
    beyond_the_strips();
    printf("docs/DIFFERENCES.md: %d checks of its inputs, %d failed\n", checks, failures);
    return failures == 0 ? 0 : 1;
}
