//! The sun's angles: the published `init_` functions against Rattle's.

use super::beyond::Sums;
use super::interface as rust;
use super::*;
use crate::arguments::{around, compare_function, Argument};
use crate::comparison::{Outcome, Settings};
use crate::probes::{OneDouble, Probes};
use crate::random::{edges, ulps_from, Random};
use crate::stand_ins::beyond_in;
use std::cell::Cell;
use std::f64::consts::PI;

/// The days of a leap year.
pub(super) const DAYS: u32 = 366;

/// The greatest day or hour to which the published Rust can add 1.
const GREATEST: i64 = u32::MAX as i64 - 1;

pub(super) fn declination_of(day: u32) -> f64 {
    init_solar_declination(init_earth_orbit_deviation(day))
}

// --- Arguments ---

fn latitude() -> Argument {
    let places = [
        -90.0, 90.0, 0.0, -0.0, 23.45, -23.45, 66.55, -66.55, 45.0, 51.5,
    ];
    Argument::double(-90.0, 90.0, &places)
}

fn declination() -> Argument {
    let mut places: Vec<f64> = (0..DAYS).map(declination_of).collect();
    places.extend(around(&[23.45, -23.45, 0.0001]));
    places.extend([0.0, -0.0]);
    Argument::double(-24.0, 24.0, &places)
}

fn hour_angle() -> Argument {
    let mut places = around(&[180.0, -180.0]);
    places.extend([
        0.0, -0.0, 7.5, 90.0, -90.0, 195.0, -195.0, 270.0, 360.0, -360.0,
    ]);
    Argument::double(-220.0, 220.0, &places)
}

/// Among the places: the horizon, the bound of the air mass, cosines and powers that take another
/// branch.
pub(super) fn altitude() -> Argument {
    let mut places = around(&[0.0001, 5.0, 10.0, 90.0, -0.885, 1.715, 7.315, 10.115]);
    places.extend([0.0, -0.0, 30.0, 45.0, 180.0, -90.0]);
    Argument::double(0.0, 90.0, &places)
}

fn orbit_deviation() -> Argument {
    let places: Vec<f64> = (0..DAYS).map(init_earth_orbit_deviation).collect();
    Argument::double(-360.0, 360.0, &places)
}

// --- Aimed cases: latitude, declination, hour angle ---

type Sky = [f64; 3];

/// The sun overhead, about: the sine of the altitude is about 1, and its sum in some cases a little
/// above it.
fn sun_overhead(random: &mut Random) -> Sky {
    let declination = match random.below(2) {
        0 => declination_of(random.below(DAYS as usize) as u32),
        _ => random.uniform(-23.5, 23.5),
    };
    let latitude = ulps_from(declination, random.below(9) as i64 - 4);
    let hour_angle = match random.below(4) {
        0 | 1 => 0.0,
        2 => -0.0,
        _ => random.uniform(-1e-7, 1e-7),
    };
    [latitude, declination, hour_angle]
}

/// The sun at the other end of the Earth, about: the sum is about −1, and in some cases a little
/// below it.
fn sun_underfoot(random: &mut Random) -> Sky {
    let [latitude, declination, hour_angle] = sun_overhead(random);
    let half_a_turn = [180.0, -180.0][random.below(2)];
    [-latitude, declination, half_a_turn - hour_angle]
}

/// Altitudes at which a formula takes another branch.
pub(super) const BRANCHES: [f64; 4] = [0.0, 0.0001, 5.0, 10.0];

/// The sun at one of them, about.
fn sun_at_a_branch(random: &mut Random) -> Sky {
    let altitude = BRANCHES[random.below(BRANCHES.len())];
    if random.below(4) == 0 {
        // at the pole the altitude is the declination, to the last bits
        let declination = ulps_from(altitude, random.below(65) as i64 - 32);
        return [90.0, declination, 90.0];
    }
    let latitude = random.uniform(-66.0, 66.0);
    let declination = random.uniform(-23.5, 23.5);
    let hour_angle = hour_angle_at(altitude, latitude, declination);
    let steps = random.below(9) as i64 - 4;
    [latitude, declination, ulps_from(hour_angle, steps)]
}

/// The hour angle, about, at which the sun has that altitude; NaN where it never has.
pub(super) fn hour_angle_at(altitude: f64, latitude: f64, declination: f64) -> f64 {
    let radians = |degrees: f64| degrees * PI / 180.0;
    let (sin_latitude, cos_latitude) = radians(latitude).sin_cos();
    let (sin_declination, cos_declination) = radians(declination).sin_cos();
    let level = radians(altitude).sin() - sin_latitude * sin_declination;
    (level / (cos_latitude * cos_declination)).acos() * 180.0 / PI
}

fn aimed(random: &mut Random, count: usize) -> impl Iterator<Item = Sky> + '_ {
    (0..count / 4).map(|turn| match turn % 4 {
        0 | 1 => sun_overhead(random),
        2 => sun_underfoot(random),
        _ => sun_at_a_branch(random),
    })
}

/// Each of them, and as many at random, with the altitude that goes with it.
fn with_altitude(random: &mut Random, count: usize) -> impl Iterator<Item = [f64; 4]> + '_ {
    let (latitude, declination, hour_angle) = (latitude(), declination(), hour_angle());
    (0..count / 2).map(move |turn| {
        let [l, d, w] = match turn % 4 {
            0 => sun_overhead(random),
            1 => sun_at_a_branch(random),
            _ => [
                latitude.draw(random),
                declination.draw(random),
                hour_angle.draw(random),
            ],
        };
        [l, d, w, init_solar_altitude(l, d, w)]
    })
}

/// Every day of two years, and days far beyond.
fn each_day(greatest: i64) -> impl Iterator<Item = [f64; 1]> {
    let far = (-2..=2).map(|n| i32::MAX as i64 + n);
    let days = (0..2 * DAYS as i64).chain(far).chain([greatest]);
    days.map(|day| [day as f64])
}

// --- The section ---

pub fn section(settings: &Settings, rattle: &Probes) -> Outcome {
    settings.heading("the sun's angles: published Rust against Rattle");
    days(settings, rattle)?;
    times(settings, rattle)?;
    angles(settings, rattle)
}

/// A function of one double, on all edges too.
pub(super) fn one(
    settings: &Settings,
    name: &str,
    argument: Argument,
    rust: OneDouble,
    rattle: OneDouble,
) -> Outcome {
    compare_function(
        settings,
        name,
        edges().into_iter().map(|x| [x]),
        [argument],
        |[x]| unsafe { rust(x) },
        |[x]| unsafe { rattle(x) },
    )
}

fn days(settings: &Settings, rattle: &Probes) -> Outcome {
    compare_function(
        settings,
        "init_earth_orbit_deviation",
        each_day(GREATEST),
        [Argument::whole(0, 365, 0, GREATEST)],
        |[day]| rust::init_earth_orbit_deviation(day as u32),
        |[day]| unsafe { (rattle.init_earth_orbit_deviation)(day as u32) },
    )?;
    one(
        settings,
        "init_solar_declination",
        orbit_deviation(),
        rust::init_solar_declination,
        rattle.init_solar_declination,
    )?;
    compare_function(
        settings,
        "init_equation_of_time",
        each_day(u32::MAX as i64),
        [Argument::whole(0, 365, 0, u32::MAX as i64)],
        |[day]| rust::init_equation_of_time(day as u32),
        |[day]| unsafe { (rattle.init_equation_of_time)(day as u32) },
    )?;
    one(
        settings,
        "init_extra_terrestrial_radiation",
        orbit_deviation(),
        rust::init_extra_terrestrial_radiation,
        rattle.init_extra_terrestrial_radiation,
    )
}

fn times(settings: &Settings, rattle: &Probes) -> Outcome {
    time_shifts(settings, rattle)?;
    solar_times(settings, rattle)?;
    hour_angles(settings, rattle)
}

fn time_shifts(settings: &Settings, rattle: &Probes) -> Outcome {
    let longitudes = [
        -180.0, 180.0, 0.0, -0.0, 15.0, -15.0, 7.5, -7.5, 0.5, -0.5, 8.26,
    ];
    compare_function(
        settings,
        "init_time_shift",
        std::iter::empty(),
        [
            Argument::whole(-13, 14, i32::MIN as i64, i32::MAX as i64),
            Argument::double(-180.0, 180.0, &longitudes),
        ],
        |[zone, longitude]| rust::init_time_shift(zone as i64, longitude),
        |[zone, longitude]| unsafe { (rattle.init_time_shift)(zone as i64, longitude) },
    )
}

fn solar_times(settings: &Settings, rattle: &Probes) -> Outcome {
    let minutes: Vec<f64> = (0..DAYS).map(init_equation_of_time).collect();
    let shifts = [0.0, -0.0, 26.0, -25.0, 1.0, 0.5, -0.5, 12.0, -12.0];
    compare_function(
        settings,
        "init_solar_time",
        std::iter::empty(),
        [
            Argument::whole(0, 23, 0, GREATEST),
            Argument::double(-17.0, 15.0, &minutes),
            Argument::double(-26.0, 26.0, &shifts),
        ],
        |[hour, minutes, shift]| rust::init_solar_time(hour as u32, minutes, shift),
        |[hour, minutes, shift]| unsafe { (rattle.init_solar_time)(hour as u32, minutes, shift) },
    )
}

fn hour_angles(settings: &Settings, rattle: &Probes) -> Outcome {
    // solar times whose angle is exactly 180, −180, 0, and those that stay beyond after the shift
    let mut times = around(&[0.5, 24.5, 12.5, 36.5, -11.5, 48.5, -23.5]);
    times.extend((-60..=120).map(|half| half as f64 * 0.5));
    one(
        settings,
        "init_solar_hour_angle",
        Argument::double(-27.0, 52.0, &times),
        rust::init_solar_hour_angle,
        rattle.init_solar_hour_angle,
    )
}

/// The altitude, and how many of the cases compared had its sum beyond ±1.
fn altitudes(settings: &Settings, rattle: &Probes) -> Outcome {
    let name = "init_solar_altitude";
    let sums = Cell::new(Sums::default());
    compare_function(
        settings,
        name,
        aimed(&mut settings.random("altitudes"), settings.count),
        [latitude(), declination(), hour_angle()],
        |[l, d, w]| {
            let (altitude, beyond) = beyond_in(|| rust::init_solar_altitude(l, d, w));
            let mut met = sums.get();
            met.note(beyond);
            sums.set(met);
            altitude
        },
        |[l, d, w]| unsafe { (rattle.init_solar_altitude)(l, d, w) },
    )?;
    sums.get().report_altitude(settings, name)
}

fn angles(settings: &Settings, rattle: &Probes) -> Outcome {
    altitudes(settings, rattle)?;
    one(
        settings,
        "init_solar_zenith_angle",
        altitude(),
        rust::init_solar_zenith_angle,
        rattle.init_solar_zenith_angle,
    )?;
    compare_function(
        settings,
        "init_solar_azimuth_angle",
        with_altitude(&mut settings.random("azimuths"), settings.count),
        [latitude(), declination(), hour_angle(), altitude()],
        |[l, d, w, a]| rust::init_solar_azimuth_angle(l, d, w, a),
        |[l, d, w, a]| unsafe { (rattle.init_solar_azimuth_angle)(l, d, w, a) },
    )?;
    one(
        settings,
        "init_air_mass",
        altitude(),
        rust::init_air_mass,
        rattle.init_air_mass,
    )
}
