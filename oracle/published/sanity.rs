//! The published Rust on a few inputs whose answers are known beforehand: the specification's
//! values at the edges. It shows that the items were cut and put together rightly.

use super::conditions::{
    angle, hours_of_a_year, sector, sun_at, whole_year, OneHour, Series, Site, FIRST_STEP,
};
use super::days::{day_in, day_table};
use super::shading::factor_by;
use super::totals::{days_of, month_of};
use super::*;
use crate::comparison::{same, shown, Outcome, Settings};
use crate::pilgartze::{EDITION_1, EDITION_2};
use crate::random::{ulps_from, Random, NAN_PATTERNS};
use crate::stand_ins::{self, beyond_in};
use crate::support::refusal_number;

/// Counts the checks; the first that fails ends the section.
struct Checks<'a> {
    settings: &'a Settings,
    made: usize,
}

impl Checks<'_> {
    fn holds(&mut self, what: &str, holds: bool) -> Outcome {
        self.made += 1;
        match holds {
            true => Ok(()),
            false => Err(format!("the published Rust: {what} does not hold")),
        }
    }

    fn equal(&mut self, what: &str, got: f64, expected: f64) -> Outcome {
        self.made += 1;
        match same(got, expected) {
            true => Ok(()),
            false => Err(format!(
                "the published Rust: {what} gives {}, not {}",
                shown(got),
                shown(expected)
            )),
        }
    }

    fn done(&mut self, part: &str) -> Outcome {
        let made = std::mem::take(&mut self.made);
        if made == 0 {
            return Err(format!("{part}: nothing was checked"));
        }
        if self.settings.print {
            println!("  {part:<44} {made:>12} checks");
        }
        Ok(())
    }
}

pub fn section(settings: &Settings) -> Outcome {
    settings.heading("the published Rust with the stand-ins, on inputs with known answers");
    let checks = &mut Checks { settings, made: 0 };
    stand_ins_are_close(checks)?;
    beyond_one(checks)?;
    sun(checks)?;
    sky(checks)?;
    factor(checks)?;
    sectors(checks)?;
    times(checks)?;
    months(checks)?;
    whole_years(checks)
}

/// The stand-ins lie next to the machine's functions, so none was written down wrongly. How close
/// is no promise; a wrong coefficient would be much further off.
fn stand_ins_are_close(checks: &mut Checks) -> Outcome {
    let mut random = Random::new(1, "close");
    for _ in 0..10_000 {
        let mut close = |what: &str, x: f64, got: f64, machine: f64, room: f64| {
            let near = (got - machine).abs() <= room * machine.abs().max(1.0);
            checks.holds(
                &format!(
                    "{what} of {} is {}, near {}",
                    shown(x),
                    shown(got),
                    shown(machine)
                ),
                near,
            )
        };
        let a = random.uniform(-64.0, 64.0);
        close("sine", a, stand_ins::sin(a), a.sin(), 1e-14)?;
        close("cosine", a, stand_ins::cos(a), a.cos(), 1e-14)?;
        let a = random.uniform(-1.5, 1.5);
        close("tangent", a, stand_ins::tan(a), a.tan(), 1e-14)?;
        let a = random.uniform(-1.0, 1.0);
        close("arcsine", a, stand_ins::asin(a), a.asin(), 1e-14)?;
        close("arccosine", a, stand_ins::acos(a), a.acos(), 1e-14)?;
        let u = random.uniform(3.0, 14.0);
        close(
            "power",
            u,
            stand_ins::pow_minus_1_253(u),
            u.powf(-1.253),
            1e-14,
        )?;
        let x = random.any_size().abs();
        checks.equal("root", stand_ins::sqrt_by_whole_numbers(x), x.sqrt())?;
    }
    checks.done("stand-ins")
}

/// "Any number above 1 as 1 and below −1 as −1; NaN remains NaN."
fn beyond_one(checks: &mut Checks) -> Outcome {
    let pi = f64::from_bits(0x4009_21FB_5444_2D18);
    for a in [1.0, ulps_from(1.0, 1), 1.5, 1e300, f64::INFINITY] {
        checks.equal("arcsine of 1 and above", stand_ins::asin(a), pi / 2.0)?;
        checks.equal("arcsine of -1 and below", stand_ins::asin(-a), -pi / 2.0)?;
        checks.equal("arccosine of 1 and above", stand_ins::acos(a), 0.0)?;
        checks.equal("arccosine of -1 and below", stand_ins::acos(-a), pi)?;
    }
    for bits in NAN_PATTERNS {
        let nan = f64::from_bits(bits);
        checks.holds("arcsine of a NaN", stand_ins::asin(nan).is_nan())?;
        checks.holds("arccosine of a NaN", stand_ins::acos(nan).is_nan())?;
    }
    checks.done("arcsine and arccosine beyond 1")
}

fn sun(checks: &mut Checks) -> Outcome {
    checks.equal(
        "orbit deviation of day 1",
        init_earth_orbit_deviation(0),
        360.0 / 365.0,
    )?;

    // day numbers count from 1, the functions' days from 0
    checks.equal("equation of time, n = 359", init_equation_of_time(358), 0.0)?;
    checks.equal(
        "equation of time, n = 366, in the table",
        day_in(day_table(), 365)[1],
        0.45 * 7.0,
    )?;
    checks.equal(
        "equation of time, n = 20",
        init_equation_of_time(19),
        2.6 + 0.44 * 20.0,
    )?;
    checks.equal(
        "equation of time, n = 43",
        init_equation_of_time(42),
        5.2 + 9.0,
    )?;
    checks.equal(
        "equation of time, n = 366",
        init_equation_of_time(365),
        0.45 * 7.0,
    )?;

    sun_of_an_hour(checks)?;
    (0..366).try_for_each(|day| sun_at_noon(checks, day))?;
    checks.done("sun")
}

fn sun_of_an_hour(checks: &mut Checks) -> Outcome {
    checks.equal("time shift at 0, 0", init_time_shift(0, 0.0), 0.0)?;
    checks.holds(
        "longitude -0.5 gives a positive shift",
        init_time_shift(0, -0.5) > 0.0,
    )?;
    checks.equal("time shift at 1, 15", init_time_shift(1, 15.0), 0.0)?;

    checks.equal(
        "solar time of the first hour",
        init_solar_time(0, 0.0, 0.0, 0),
        1.0,
    )?;
    checks.equal("hour angle of 0.5", init_solar_hour_angle(0.5), 180.0)?;
    checks.equal("hour angle of 0", init_solar_hour_angle(0.0), -172.5)?;
    checks.equal("hour angle of 24.5", init_solar_hour_angle(24.5), -180.0)?;
    checks.equal("hour angle of 12.5", init_solar_hour_angle(12.5), 0.0)?;

    checks.equal(
        "altitude below the horizon",
        init_solar_altitude(50.0, -23.0, 180.0),
        0.0,
    )?;
    checks.holds(
        "a NaN altitude stays",
        init_solar_altitude(f64::NAN, 0.0, 0.0).is_nan(),
    )?;
    checks.equal("zenith of 90", init_solar_zenith_angle(90.0), 0.0)
}

/// At latitude 50, and two hours from noon.
fn sun_at_noon(checks: &mut Checks, day: u32) -> Outcome {
    let declination = init_solar_declination(init_earth_orbit_deviation(day));
    checks.holds("the declination lies in -24..24", declination.abs() < 24.0)?;
    let noon = init_solar_altitude(50.0, declination, 0.0);
    checks.holds(
        "noon's altitude is 40 and the declination",
        (noon - 40.0 - declination).abs() < 1e-9,
    )?;
    let azimuth = init_solar_azimuth_angle(50.0, declination, 0.0, noon);
    checks.holds("noon's azimuth is 0", azimuth.abs() < 1e-9)?;
    let east = init_solar_azimuth_angle(
        50.0,
        declination,
        30.0,
        init_solar_altitude(50.0, declination, 30.0),
    );
    checks.holds("a positive hour angle is in the east", east > 0.0)
}

fn sky(checks: &mut Checks) -> Outcome {
    direct_beam(checks)?;
    air_mass_and_radiation(checks)?;
    clearness(checks)?;
    brightness(checks)?;

    let oriented = |angle| Orientation360::new(angle).unwrap().transform_to_180();
    checks.equal("orientation 0", oriented(0.0), 180.0)?;
    checks.equal("orientation 360", oriented(360.0), -180.0)?;
    checks.done("sky")
}

fn direct_beam(checks: &mut Checks) -> Outcome {
    checks.equal(
        "beam as given",
        init_direct_beam_radiation(false, 100.0, 30.0),
        100.0,
    )?;
    checks.equal(
        "beam converted at altitude 0",
        init_direct_beam_radiation(true, 100.0, 0.0),
        100.0,
    )?;
    let converted = init_direct_beam_radiation(true, 100.0, 30.0);
    checks.holds(
        "beam converted at 30 degrees is doubled",
        (converted - 200.0).abs() < 1e-9,
    )
}

fn air_mass_and_radiation(checks: &mut Checks) -> Outcome {
    checks.holds(
        "air mass at the zenith is 1",
        (init_air_mass(90.0) - 1.0).abs() < 1e-12,
    )?;
    let low = 1.0 / (0.15 * 3.885f64.powf(-1.253));
    checks.holds(
        "air mass at the horizon",
        (init_air_mass(0.0) / low - 1.0).abs() < 1e-12,
    )?;
    let radiation = init_extra_terrestrial_radiation(90.0);
    checks.holds(
        "extra-terrestrial radiation at 90",
        (radiation - 1367.0).abs() < 1e-9,
    )
}

/// The clearness, and the row of the coefficients that goes with it.
fn clearness(checks: &mut Checks) -> Outcome {
    let f11 = |clearness| brightness_coefficient(clearness, BrightnessCoefficientName::F11);
    let clearness = init_dimensionless_clearness_parameter(100.0, 100.0, 0.0);
    checks.equal("clearness of 100, 100, 0", clearness, 2.0)?;
    checks.equal("clearness 2 is row 4", f11(clearness), 0.873)?;
    checks.equal("clearness 1.065 is row 1", f11(1.065), 0.13)?;
    checks.equal("clearness of a NaN is row 7", f11(f64::NAN), 0.678)?;
    checks.equal(
        "clearness without diffuse",
        init_dimensionless_clearness_parameter(0.0, 5.0, 9.0),
        999.0,
    )
}

/// The sky's brightness, F1 and F2.
fn brightness(checks: &mut Checks) -> Outcome {
    checks.equal(
        "brightness 2 · 3 / 4",
        init_dimensionless_sky_brightness_parameter(2.0, 3.0, 4.0),
        1.5,
    )?;
    checks.equal(
        "F1 below 0 becomes 0",
        init_f1_circumsolar_brightness_coefficient(1.0, 0.0, 0.0),
        0.0,
    )?;
    checks.equal(
        "F2 may be negative",
        init_f2_horizontal_brightness_coefficient(1.0, 0.0, 0.0),
        -0.06,
    )
}

/// The factor of a surface that faces south: base 0, height 2, width 1.
fn south_factor(
    conditions: &ExternalConditions,
    window: &[WindowShadingObject],
) -> anyhow::Result<f64> {
    let south = angle(180.0);
    conditions.direct_shading_reduction_factor(0.0, 2.0, 1.0, 90.0, south, Some(window), FIRST_STEP)
}

const DISTANT_OBSTACLE: ShadingObject = ShadingObject {
    object_type: ShadingObjectType::Obstacle,
    height: 1.0,
    distance: 1.0,
};
const DISTANT_OVERHANG: ShadingObject = ShadingObject {
    object_type: ShadingObjectType::Overhang,
    height: 1.5,
    distance: 1.0,
};
const NEAR_OBSTACLE: WindowShadingObject = WindowShadingObject::Obstacle {
    height: 1.0,
    distance: 1.0,
    transparency: 0.5,
};
const REVEAL: WindowShadingObject = WindowShadingObject::Reveal {
    depth: 1.0,
    distance: 1.0,
};

/// The sun in the south on the horizon, and one sector all around with these objects.
fn all_around(objects: Vec<ShadingObject>) -> ExternalConditions {
    sun_at(0.0, 0.0, vec![sector(0.0, 360.0, objects)])
}

fn factor(checks: &mut Checks) -> Outcome {
    obstacles_and_overhangs(checks)?;
    reveals(checks)?;
    checks.done("factor")?;
    fins(checks)?;
    overhang_across_the_north(checks)?;
    checks.done("fins, both editions")
}

const RIGHT_FIN: WindowShadingObject = WindowShadingObject::SideFinRight {
    depth: 0.5,
    distance: 0.0,
};
const LEFT_FIN: WindowShadingObject = WindowShadingObject::SideFinLeft {
    depth: 0.5,
    distance: 0.0,
};
const OVERHANG: WindowShadingObject = WindowShadingObject::Overhang {
    depth: 0.5,
    distance: 0.0,
};

/// The factors in both editions of a window 1 by 1 with one object, under a sun of that altitude and
/// azimuth, the window facing that way.
fn in_both_editions(
    [altitude, azimuth, orientation]: [f64; 3],
    object: WindowShadingObject,
) -> [f64; 2] {
    let conditions = sun_at(altitude, azimuth, vec![sector(0.0, 360.0, vec![])]);
    let surface = [90.0, orientation, 0.0, 1.0, 1.0];
    [EDITION_1, EDITION_2].map(|edition| {
        let factor = factor_by(
            &conditions,
            edition,
            &surface,
            &[object.clone()],
            FIRST_STEP,
        );
        factor.unwrap_or(f64::NAN)
    })
}

const SHADED: f64 = 0.711_324_865_405_187_1;

/// Half a metre of fin takes half the tangent of 30 degrees where the sun is on its side: azimuth,
/// orientation, the fin, and the factors in both editions.
#[rustfmt::skip] // a line for each
const FINS: [(&str, [f64; 2], WindowShadingObject, [f64; 2]); 9] = [
    ("difference -30, right fin", [-30.0, 180.0], RIGHT_FIN, [1.0, SHADED]),
    ("difference -30, left fin", [-30.0, 180.0], LEFT_FIN, [1.0, 1.0]),
    ("difference 30, right fin", [30.0, 180.0], RIGHT_FIN, [1.0, 1.0]),
    ("difference 30, left fin", [30.0, 180.0], LEFT_FIN, [SHADED, SHADED]),
    ("difference 330, right fin", [165.0, 345.0], RIGHT_FIN, [1.0, SHADED]),
    ("difference 330, left fin", [165.0, 345.0], LEFT_FIN, [1.0, 1.0]),
    ("difference -330, left fin", [-165.0, 15.0], LEFT_FIN, [1.0, SHADED]),
    ("difference 0, right fin", [0.0, 180.0], RIGHT_FIN, [1.0, 1.0]),
    ("difference 0, left fin", [0.0, 180.0], LEFT_FIN, [1.0, 1.0]),
];

fn fins(checks: &mut Checks) -> Outcome {
    for (what, [azimuth, orientation], fin, expected) in FINS {
        let got = in_both_editions([0.0, azimuth, orientation], fin);
        checks.equal(what, got[0], expected[0])?;
        checks.equal(what, got[1], expected[1])?;
    }
    // here the right fin of edition 1 shades, by another turn's tangent
    let [first, second] = in_both_editions([0.0, -165.0, 15.0], RIGHT_FIN);
    let about = (first - SHADED).abs() < 1e-12;
    checks.holds("difference -330, right fin, edition 1", about)?;
    checks.equal("difference -330, right fin, edition 2", second, 1.0)
}

/// The overhang's cosine is that of the difference as it is, in both editions: with the sun overhead it
/// is below 0 at 270, and above 0 at -90.
fn overhang_across_the_north(checks: &mut Checks) -> Outcome {
    for ([azimuth, orientation], expected) in [([90.0, 360.0], 1.0), ([-90.0, 180.0], 0.0)] {
        let got = in_both_editions([90.0, azimuth, orientation], OVERHANG);
        checks.equal("an overhang, edition 1", got[0], expected)?;
        checks.equal("an overhang, edition 2", got[1], expected)?;
    }
    Ok(())
}

fn obstacles_and_overhangs(checks: &mut Checks) -> Outcome {
    let (obstacle, overhang) = ([DISTANT_OBSTACLE], [DISTANT_OVERHANG]);
    let near = [NEAR_OBSTACLE];
    let mut gives =
        |what: &str, objects: &[ShadingObject], window: &[WindowShadingObject], expected: f64| {
            let got = south_factor(&all_around(objects.to_vec()), window);
            checks.equal(what, got.unwrap_or(f64::NAN), expected)
        };
    gives("no object", &[], &[], 1.0)?;
    gives("distant obstacle of 1 m", &obstacle, &[], 0.5)?;
    gives("near obstacle of 1 m", &[], &near, 0.75)?;
    gives("both obstacles", &obstacle, &near, 0.5)?;
    gives("distant overhang at 1.5 m", &overhang, &[], 0.75)?;
    gives("that and the near obstacle", &overhang, &near, 0.5)
}

/// Outside the beam the answer is 1, inside it is refused.
fn reveals(checks: &mut Checks) -> Outcome {
    let behind = sun_at(0.0, 170.0, vec![sector(0.0, 360.0, vec![])]);
    checks.equal(
        "a reveal outside the beam",
        south_factor(&behind, &[REVEAL]).unwrap(),
        1.0,
    )?;
    let refused =
        south_factor(&all_around(vec![]), &[REVEAL]).map_err(|error| refusal_number(&error));
    checks.holds("a reveal inside the beam is 11", refused == Err(11))
}

fn sectors(checks: &mut Checks) -> Outcome {
    let mut number = |what: &str, azimuth: f64, bounds: &[(f64, f64)], expected: u64| {
        let list = bounds
            .iter()
            .map(|&(start, end)| sector(start, end, vec![]))
            .collect();
        let number = match south_factor(&sun_at(0.0, azimuth, list), &[]) {
            Ok(_) => 0,
            Err(error) => refusal_number(&error),
        };
        checks.holds(
            &format!("{what}: {number} is {expected}"),
            number == expected,
        )
    };
    let gap = [(0.0, 180.0), (190.0, 360.0)];
    number("a gap that is not reached", 10.0, &gap, 0)?;
    number("a gap that is reached", -20.0, &gap, 8)?;
    number(
        "between two sectors",
        0.0,
        &[(0.0, 180.0), (180.0, 360.0)],
        10,
    )?;
    number("a turned sector", 0.0, &[(200.0, 100.0), (150.0, 360.0)], 9)?;
    number("no sectors", 0.0, &[], 10)?;
    sun_overhead(checks)?;
    checks.done("sectors")
}

/// A sun overhead whose altitude's sum is above 1: the altitude is 90, the azimuth above 180, and so
/// no sector holds it, though one goes all the way round.
fn sun_overhead(checks: &mut Checks) -> Outcome {
    let overhead = OneHour {
        site: Site {
            latitude: f64::from_bits(0xC035_6F7D_494F_4469),
            longitude: f64::from_bits(0x4038_B0A3_D70A_3D6D),
            timezone: 0,
            conversion_needed: false,
            tilt: 0.0,
            orientation: 316.0,
        },
        hour: 322,
        diffuse: 100.0,
        direct: 500.0,
        reflectivity: 0.2,
    };
    let (mut record, beyond) = beyond_in(|| overhead.record());
    record.shading_segments = Some(vec![sector(0.0, 360.0, vec![])]);
    checks.holds("the altitude's sum is above 1", beyond.arcsine_above)?;
    checks.equal("the altitude there", record.solar_altitudes[0], 90.0)?;
    let azimuth = record.solar_azimuth_angles[0];
    checks.holds("the azimuth there is above 180", azimuth > 180.0)?;
    let facing = angle(316.0);
    let factor =
        record.direct_shading_reduction_factor(0.0, 1.0, 1.0, 0.0, facing, Some(&[]), FIRST_STEP);
    let number = factor.map_err(|error| refusal_number(&error));
    checks.holds("no sector holds the sun there", number == Err(10))
}

fn times(checks: &mut Checks) -> Outcome {
    let steps = |start, end, step| SimulationTime::new(start, end, step).iter().count();
    checks.holds("0 to 3 by 1 is three steps", steps(0.0, 3.0, 1.0) == 3)?;
    checks.holds("start = end is no step", steps(5.0, 5.0, 1.0) == 0)?;
    checks.holds("start above end is one step", steps(5.0, 3.0, 1.0) == 1)?;
    checks.holds("0 to 3 by 0.3 is eleven steps", steps(0.0, 3.0, 0.3) == 11)?;

    let step = |time| Timestep {
        index: 0,
        time,
        step: 1.0,
    };
    checks.holds("hour 25.75 is 25", step(25.75).current_hour() == 25)?;
    checks.holds("its day is 1", step(25.75).current_day() == 1)?;
    checks.holds(
        "its index from day 1 by 0.25",
        step(25.75).time_series_idx(1, 0.25) == 7,
    )?;
    checks.holds(
        "a negative index becomes 0",
        step(25.75).time_series_idx(2, 1.0) == 0,
    )?;
    checks.done("times")
}

/// The judge's months against the published ones, which are those of a common year.
fn months(checks: &mut Checks) -> Outcome {
    for hour in 0..8760 {
        let step = Timestep {
            index: 0,
            time: hour as f64 + 0.75,
            step: 1.0,
        };
        let month = month_of(0, hour / 24) as u32;
        checks.holds("an hour's month", step.current_month() == Some(month))?;
    }
    let of = |day: usize| month_of(1, day);
    checks.holds("29 February", (of(59), of(60)) == (1, 2))?;
    checks.holds("a leap year's last day", of(365) == 11)?;
    let days = (days_of(0), days_of(1));
    checks.holds("the days of both years", days == (365, 366))?;
    checks.done("months")
}

/// The record that the published Rust makes of a whole year, against its parts and against the
/// records of its single hours.
fn whole_years(checks: &mut Checks) -> Outcome {
    for leap in [false, true] {
        let run = hours_of_a_year(leap);
        let hours = run.end_time() as usize;
        let series = random_series(hours);
        let year = whole_year(&YEAR_SITE, series.clone(), leap);
        checks.holds(
            "an altitude for each hour",
            year.solar_altitudes.len() == hours,
        )?;
        days_of_a_year(checks, &year, hours / 24)?;
        let (mut steps, mut sunny) = (0, 0);
        for step in run.iter() {
            steps += 1;
            sunny += (year.solar_altitudes[step.current_hour() as usize] > 0.0) as usize;
            one_of_a_year(checks, &year, &series, step)?;
        }
        checks.holds("a step for each hour", steps == hours)?;
        checks.holds(
            "the sun is up for half of the year",
            (sunny * 2).abs_diff(hours) < hours / 10,
        )?;
    }
    checks.done("whole years")
}

/// The table of days against the declinations of a year's record, place by place.
fn days_of_a_year(checks: &mut Checks, year: &ExternalConditions, days: usize) -> Outcome {
    checks.holds(
        "a declination for each day",
        year.solar_declinations.len() == days,
    )?;
    for (day, &declination) in year.solar_declinations.iter().enumerate() {
        let [of_table, ..] = day_in(day_table(), day as u32);
        checks.equal("a day's declination", of_table, declination)?;
    }
    Ok(())
}

const YEAR_SITE: Site = Site {
    latitude: 51.5,
    longitude: -0.5,
    timezone: 0,
    conversion_needed: true,
    tilt: 40.0,
    orientation: 135.0,
};

fn random_series(hours: usize) -> Series {
    let mut random = Random::new(1, "year");
    let mut series =
        |high: f64| -> Vec<f64> { (0..hours).map(|_| random.uniform(0.0, high)).collect() };
    Series {
        diffuse: series(400.0),
        direct: series(900.0),
        reflectivity: series(1.0),
    }
}

/// One hour of a year's record: its parts, and the same by a record of that hour alone.
fn one_of_a_year(
    checks: &mut Checks,
    year: &ExternalConditions,
    series: &Series,
    step: Timestep,
) -> Outcome {
    let hour = step.current_hour() as usize;
    let CalculatedDirectDiffuseTotalIrradiance(direct, diffuse, total, breakdown) =
        year.calculated_direct_diffuse_total_irradiance(40.0, angle(135.0), true, step);
    let parts = breakdown.unwrap();
    let by_itself = year.calculated_direct_irradiance(40.0, angle(135.0), step);
    let sky = parts.sky + parts.circumsolar + parts.horiz;
    checks.equal("total", total, direct + diffuse)?;
    checks.equal("direct", direct, by_itself)?;
    checks.equal(
        "diffuse",
        diffuse,
        sky - parts.circumsolar + parts.ground_refl,
    )?;
    checks.holds("direct is no less than 0", direct >= 0.0)?;

    let single = OneHour {
        site: YEAR_SITE,
        hour: hour as u32,
        diffuse: series.diffuse[hour],
        direct: series.direct[hour],
        reflectivity: series.reflectivity[hour],
    };
    let single = single.answer(&single.record());
    let (altitude, azimuth) = (year.solar_altitudes[hour], year.solar_azimuth_angles[hour]);
    checks.equal("a single hour's altitude", single.altitude, altitude)?;
    checks.equal("a single hour's azimuth", single.azimuth, azimuth)?;
    checks.equal("a single hour's direct", single.direct, direct)?;
    checks.equal("a single hour's diffuse", single.diffuse, diffuse)?;
    checks.equal("a single hour's total", single.total, total)
}
