#include "calls.h"

static pilgartze_answer run_of(const job *of, const lent *at)
{
    const pilgartze_site *const site = &of->site;
    const pilgartze_surface *const surface = &of->surface;
    return pilgartze_run(
        of->edition, site->latitude, site->longitude, site->timezone, site->start_day, site->series_step,
        site->leap_year, site->direct_beam_conversion, site->first_leaf_day, site->last_leaf_day, of->run.start,
        of->run.end, of->run.step, surface->tilt, surface->orientation, surface->base_height, surface->height,
        surface->width, at->lists[DIFFUSE], of->lengths[DIFFUSE], at->lists[DIRECT], of->lengths[DIRECT],
        at->lists[REFLECTIVITY], of->lengths[REFLECTIVITY], at->lists[SUMMER], of->lengths[SUMMER],
        at->lists[WINTER], of->lengths[WINTER], at->lists[WINDOW], of->lengths[WINDOW], at->days, of->days,
        at->totals, of->totals, at->results, of->results[RUN]);
}

static uint64_t step_of(const job *of, const lent *at)
{
    const pilgartze_site *const site = &of->site;
    const pilgartze_surface *const surface = &of->surface;
    return pilgartze_step(
        of->edition, site->latitude, site->longitude, site->timezone, site->start_day, site->series_step,
        site->leap_year, site->direct_beam_conversion, site->first_leaf_day, site->last_leaf_day, of->time,
        surface->tilt, surface->orientation, surface->base_height, surface->height, surface->width,
        of->reading.diffuse, of->reading.direct, of->reading.reflectivity, at->lists[SUMMER], of->lengths[SUMMER],
        at->lists[WINTER], of->lengths[WINTER], at->lists[WINDOW], of->lengths[WINDOW], at->results, of->results[STEP]);
}

static uint64_t irradiance_of(const job *of, const lent *at)
{
    const pilgartze_site *const site = &of->site;
    const pilgartze_surface *const surface = &of->surface;
    return pilgartze_irradiance(
        site->latitude, site->longitude, site->timezone, site->start_day, site->series_step, site->leap_year,
        site->direct_beam_conversion, site->first_leaf_day, site->last_leaf_day, of->time, surface->tilt,
        surface->orientation, surface->base_height, surface->height, surface->width, of->reading.diffuse,
        of->reading.direct, of->reading.reflectivity, at->results, of->results[IRRADIANCE]);
}

static pilgartze_factor_answer factor_of(const job *of, const lent *at)
{
    const pilgartze_surface *const surface = &of->surface;
    return pilgartze_factor(of->edition, of->altitude, of->azimuth, surface->tilt, surface->orientation,
                            surface->base_height, surface->height, surface->width, at->lists[of->sectors],
                            of->lengths[of->sectors], at->lists[WINDOW], of->lengths[WINDOW]);
}

static pilgartze_factor_answer strips_of(const job *of, const lent *at)
{
    const pilgartze_surface *const surface = &of->surface;
    return pilgartze_strips(of->edition, of->altitude, of->azimuth, surface->tilt, surface->orientation,
                            surface->base_height, surface->width, at->lists[HEIGHTS], of->lengths[HEIGHTS],
                            at->lists[of->sectors], of->lengths[of->sectors], at->lists[WINDOW], of->lengths[WINDOW]);
}

pilgartze_answer answer_to(enum call call, const job *of, const lent *lists)
{
    pilgartze_answer answer = {0, 0, 0, 0.0};
    pilgartze_factor_answer factor;
    switch (call) {
    case RUN:
        return run_of(of, lists);
    case STEP:
        answer.number = step_of(of, lists);
        return answer;
    case IRRADIANCE:
        answer.number = irradiance_of(of, lists);
        return answer;
    default:
        factor = call == FACTOR ? factor_of(of, lists) : strips_of(of, lists);
        answer.number = factor.number;
        answer.sum = factor.factor;
        return answer;
    }
}

const char *name_of(enum call call)
{
    static const char *const names[CALLS] = {"run", "step", "irradiance", "factor", "strips"};
    return names[call];
}

int given_the_sun(enum call call)
{
    return call == FACTOR || call == STRIPS;
}

int can_give(enum call call, uint64_t number)
{
    static const char *const marks[CALLS] = {"xxxxxxxxxxxx..xx", "xxxxx.xxxxxx..xx", "xxxx..xx.......x",
                                             "x..xx...xxxx..x.", "x..xx...xxxx..x."};
    return number < NUMBERS && marks[call][number] == 'x';
}

int at_a_step(uint64_t number)
{
    return number >= PILGARTZE_REFUSED_GAP && number <= PILGARTZE_REFUSED_REVEAL;
}

int came_to_steps(uint64_t number)
{
    return number == 0 || at_a_step(number);
}

size_t days_stored_by(const pilgartze_answer *answer)
{
    return came_to_steps(answer->number) ? PILGARTZE_DAYS_LENGTH : 0;
}

size_t totals_stored_by(const job *of, const pilgartze_answer *answer)
{
    return came_to_steps(answer->number) ? PILGARTZE_TOTALS_LENGTH(of->site.leap_year) : 0;
}

size_t stored_by(enum call call, const pilgartze_answer *answer)
{
    if (call == RUN) {
        const uint64_t rows = answer->number == 0 ? answer->count : answer->step;
        return came_to_steps(answer->number) ? (size_t)rows * sizeof(pilgartze_row) : 0;
    }
    if (answer->number != 0 || given_the_sun(call)) {
        return 0;
    }
    return call == STEP ? sizeof(pilgartze_row) : sizeof(pilgartze_breakdown);
}
