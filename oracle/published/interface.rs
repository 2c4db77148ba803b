//! The published functions behind the C interface of the library `probes`, so that both sides of a
//! comparison are called alike.

use super::conditions::{year_results, OneHour, Series, Site};
use super::shading::Judge;
use super::strips::judge_strips;
use crate::pilgartze::FactorAnswer;
use crate::probes::{ProbeHour, YEAR};

macro_rules! behind_c {
    ($($name:ident($($argument:ident: $type:ty),*))*) => {
        $(pub extern "C" fn $name($($argument: $type),*) -> f64 {
            super::$name($($argument),*)
        })*
    };
}
behind_c! {
    init_earth_orbit_deviation(current_day: u32)
    init_solar_declination(earth_orbit_deviation: f64)
    init_solar_hour_angle(solar_time: f64)
    init_solar_altitude(latitude: f64, declination: f64, hour_angle: f64)
    init_solar_zenith_angle(altitude: f64)
    init_solar_azimuth_angle(latitude: f64, declination: f64, hour_angle: f64, altitude: f64)
    init_air_mass(altitude: f64)
    init_extra_terrestrial_radiation(earth_orbit_deviation: f64)
    init_dimensionless_clearness_parameter(diffuse: f64, beam: f64, altitude: f64)
    init_dimensionless_sky_brightness_parameter(air_mass: f64, diffuse: f64, radiation: f64)
    init_f1_circumsolar_brightness_coefficient(clearness: f64, delta: f64, zenith: f64)
    init_f2_horizontal_brightness_coefficient(clearness: f64, delta: f64, zenith: f64)
}

/// From day 366 on the published function panics, up to days whose number is no i32. We ask for NaN
/// on every day that is in no year.
pub extern "C" fn init_equation_of_time(current_day: u32) -> f64 {
    if current_day < 366 {
        super::init_equation_of_time(current_day)
    } else {
        f64::NAN
    }
}

/// The published timezone is an i32.
pub extern "C" fn init_time_shift(timezone: i64, longitude: f64) -> f64 {
    super::init_time_shift(timezone as i32, longitude)
}

/// The published function has a fourth argument that it does not read.
pub extern "C" fn init_solar_time(hour_of_day: u32, equation_of_time: f64, time_shift: f64) -> f64 {
    super::init_solar_time(hour_of_day, equation_of_time, time_shift, 0)
}

pub extern "C" fn init_direct_beam_radiation(
    conversion_needed: u64,
    raw_value: f64,
    altitude: f64,
) -> f64 {
    super::init_direct_beam_radiation(conversion_needed == 1, raw_value, altitude)
}

/// The row of Table 8. The published search has no name of its own: it stands in the look-up of a
/// single coefficient, so the row is told by the six numbers that six of these find.
pub extern "C" fn table_row(clearness: f64) -> usize {
    use super::BrightnessCoefficientName::*;
    let found =
        [F11, F12, F13, F21, F22, F23].map(|name| super::brightness_coefficient(clearness, name));
    super::BRIGHTNESS_COEFFICIENTS
        .iter()
        .position(|row| [row.f11, row.f12, row.f13, row.f21, row.f22, row.f23] == found)
        .expect("all six stand in one row")
}

/// The arguments of one hour, as the C interface has them.
pub fn one_hour(
    latitude: f64,
    longitude: f64,
    timezone: i64,
    hour: u32,
    conversion_needed: u64,
    tilt: f64,
    orientation: f64,
    diffuse: f64,
    direct: f64,
    reflectivity: f64,
) -> OneHour {
    let site = Site {
        latitude,
        longitude,
        timezone: timezone as i32,
        conversion_needed: conversion_needed == 1,
        tilt,
        orientation,
    };
    OneHour {
        site,
        hour,
        diffuse,
        direct,
        reflectivity,
    }
}

pub extern "C" fn hour(
    latitude: f64,
    longitude: f64,
    timezone: i64,
    hour: u32,
    conversion_needed: u64,
    tilt: f64,
    orientation: f64,
    diffuse: f64,
    direct: f64,
    reflectivity: f64,
) -> ProbeHour {
    let case = one_hour(
        latitude,
        longitude,
        timezone,
        hour,
        conversion_needed,
        tilt,
        orientation,
        diffuse,
        direct,
        reflectivity,
    );
    case.answer(&case.record())
}

unsafe fn doubles(start: *const u8, len: usize) -> Vec<f64> {
    let bytes = std::slice::from_raw_parts(start, len);
    let words = bytes.chunks_exact(8);
    words
        .map(|word| f64::from_le_bytes(word.try_into().unwrap()))
        .collect()
}

pub unsafe extern "C" fn year(
    latitude: f64,
    longitude: f64,
    timezone: i64,
    conversion_needed: u64,
    tilt: f64,
    orientation: f64,
    diffuse: *const u8,
    diffuse_len: usize,
    direct: *const u8,
    direct_len: usize,
    reflectivity: *const u8,
    reflectivity_len: usize,
    results: *mut u8,
    results_len: usize,
) -> u64 {
    let site = Site {
        latitude,
        longitude,
        timezone: timezone as i32,
        conversion_needed: conversion_needed == 1,
        tilt,
        orientation,
    };
    let series = Series {
        diffuse: doubles(diffuse, diffuse_len),
        direct: doubles(direct, direct_len),
        reflectivity: doubles(reflectivity, reflectivity_len),
    };
    let mut rows = vec![];
    year_results(&site, series, &mut rows);
    let places = std::slice::from_raw_parts_mut(results, results_len).chunks_exact_mut(8);
    for (place, value) in places.zip(rows.iter().flatten()) {
        place.copy_from_slice(&value.to_le_bytes());
    }
    YEAR as u64
}

pub unsafe extern "C" fn factor(
    edition: u64,
    altitude: f64,
    azimuth: f64,
    tilt: f64,
    orientation: f64,
    base_height: f64,
    height: f64,
    width: f64,
    sectors: *const u8,
    sectors_len: usize,
    window: *const u8,
    window_len: usize,
) -> FactorAnswer {
    let numbers = [
        altitude,
        azimuth,
        tilt,
        orientation,
        base_height,
        height,
        width,
    ];
    let sectors = std::slice::from_raw_parts(sectors, sectors_len);
    let window = std::slice::from_raw_parts(window, window_len);
    let judged = Judge::new().answer(edition, &numbers, sectors, window);
    judged.answer
}

pub unsafe extern "C" fn strips(
    edition: u64,
    altitude: f64,
    azimuth: f64,
    tilt: f64,
    orientation: f64,
    base_height: f64,
    width: f64,
    heights: *const u8,
    heights_len: usize,
    sectors: *const u8,
    sectors_len: usize,
    window: *const u8,
    window_len: usize,
) -> FactorAnswer {
    let numbers = [altitude, azimuth, tilt, orientation, base_height, width];
    let heights = std::slice::from_raw_parts(heights, heights_len);
    let sectors = std::slice::from_raw_parts(sectors, sectors_len);
    let window = std::slice::from_raw_parts(window, window_len);
    judge_strips(edition, &numbers, heights, sectors, window).answer
}
