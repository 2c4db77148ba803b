// That include/pilgartze.h is good C++: included alone, and three calls.
#include "pilgartze.h"

#include <cstdio>

static double factor_with_no_objects(double altitude, double azimuth)
{
    const pilgartze_surface surface = {90.0, 180.0, 0.0, 2.0, 1.0};
    const pilgartze_sector all_round = pilgartze_free_sector(0.0, 360.0);
    return pilgartze_factor_at(PILGARTZE_EDITION_2, altitude, azimuth, &surface, &all_round, 1, nullptr, 0).factor;
}

static double strips_with_no_objects(double altitude, double azimuth)
{
    const double heights[] = {0.7, 1.3};
    const pilgartze_tall_glazing glazing = {90.0, 180.0, 0.0, 1.0, heights, 2};
    const pilgartze_sector all_round = pilgartze_free_sector(0.0, 360.0);
    return pilgartze_strips_at(PILGARTZE_EDITION_2, altitude, azimuth, &glazing, &all_round, 1, nullptr, 0).factor;
}

int main()
{
    const unsigned long long version = pilgartze_version();
    std::printf("pilgartze %llu.%llu.%llu: with no objects the factor is %g, and %g in strips\n", version / 1000000,
                version / 1000 % 1000, version % 1000, factor_with_no_objects(30.0, 0.0),
                strips_with_no_objects(30.0, 0.0));
    return version == PILGARTZE_VERSION ? 0 : 1;
}
