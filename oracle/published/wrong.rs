//! Functions of the sun and of the irradiance that are wrong in one small way each, most of them in
//! few cases. The self-test has to find them all.

use super::conditions::OneHour;
use super::interface as right;
use super::irradiance::LIMITS;
use super::*;
use crate::probes::{ProbeHour, Probes, YEAR_COLUMNS};
use crate::random::ulps_from;
use crate::stand_ins::{beyond_in, Beyond};
use std::f64::consts::PI;

/// The field's name, what is wrong, and a side of the comparison that has it.
pub type Wrong = (&'static str, &'static str, Probes);

/// A list of them, each from the right side with one function replaced.
macro_rules! wrong_sides {
    ($right:ident; $($field:ident: $function:expr),* $(,)?) => {
        vec![$((
            stringify!($field),
            stringify!($function),
            Probes { $field: $function, ..$right },
        )),*]
    };
}
#[allow(unused_imports)] // programs without a self-test have no use for it
pub(crate) use wrong_sides;

// --- The sun's angles ---

extern "C" fn orbit_of_366_days(day: u32) -> f64 {
    (360.0 / 366.0) * (day + 1) as f64
}
extern "C" fn orbit_divided_last(day: u32) -> f64 {
    360.0 * (day + 1) as f64 / 365.0
}
extern "C" fn orbit_from_day_0(day: u32) -> f64 {
    (360.0 / 365.0) * day as f64
}
extern "C" fn declination_with_cosines_first_added(deviation: f64) -> f64 {
    let b = deviation.stand_in_to_radians();
    let cosines = 22.984 * b.stand_in_cos()
        + 0.3499 * (2.0 * b).stand_in_cos()
        + 0.1398 * (3.0 * b).stand_in_cos();
    0.33281 - cosines
        + 3.7872 * b.stand_in_sin()
        + 0.03205 * (2.0 * b).stand_in_sin()
        + 0.07187 * (3.0 * b).stand_in_sin()
}
extern "C" fn radiation_multiplied_out(deviation: f64) -> f64 {
    1367.0 + 1367.0 * 0.033 * deviation.stand_in_to_radians().stand_in_cos()
}
/// The range before takes one more day: the bounds below 21, 136, 241, 336 closed.
extern "C" fn equation_of_time_with_a_closed_bound<const NUMBER: u32>(day: u32) -> f64 {
    let n = (day + 1) as f64;
    match (NUMBER, day + 1 == NUMBER) {
        (21, true) => 2.6 + 0.44 * n,
        (136, true) => 5.2 + 9.0 * ((n - 43.0) * 0.0357).stand_in_cos(),
        (241, true) => 1.4 - 5.0 * ((n - 135.0) * 0.0449).stand_in_cos(),
        (336, true) => -6.3 - 10.0 * ((n - 306.0) * 0.036).stand_in_cos(),
        _ => right::init_equation_of_time(day),
    }
}
extern "C" fn equation_of_time_of_365_days(day: u32) -> f64 {
    if day == 365 {
        f64::NAN
    } else {
        right::init_equation_of_time(day)
    }
}
extern "C" fn equation_of_time_beyond_the_year(day: u32) -> f64 {
    if day == 366 {
        0.45 * 8.0
    } else {
        right::init_equation_of_time(day)
    }
}
extern "C" fn equation_of_time_of_a_signed_day(day: u32) -> f64 {
    if day > 0x7FFF_FFFF {
        2.6 + 0.44 * (day as i32) as f64
    } else {
        right::init_equation_of_time(day)
    }
}
extern "C" fn shift_by_a_fifteenth(timezone: i64, longitude: f64) -> f64 {
    timezone as f64 - longitude * (1.0 / 15.0)
}
extern "C" fn shift_without_sign_of_zero(timezone: i64, longitude: f64) -> f64 {
    -(longitude / 15.0 - timezone as f64)
}
extern "C" fn solar_time_less_a_sum(hour: u32, equation_of_time: f64, shift: f64) -> f64 {
    (hour + 1) as f64 - (equation_of_time / 60.0 + shift)
}
extern "C" fn hour_angle_closed_at_180(time: f64) -> f64 {
    let angle = 15.0 * (12.5 - time);
    if angle >= 180.0 {
        angle - 360.0
    } else {
        right::init_solar_hour_angle(time)
    }
}
extern "C" fn hour_angle_closed_at_minus_180(time: f64) -> f64 {
    let angle = 15.0 * (12.5 - time);
    if angle <= -180.0 {
        angle + 360.0
    } else {
        right::init_solar_hour_angle(time)
    }
}
extern "C" fn hour_angle_shifted_twice(time: f64) -> f64 {
    let angle = right::init_solar_hour_angle(time);
    if angle > 180.0 {
        angle - 360.0
    } else if angle < -180.0 {
        angle + 360.0
    } else {
        angle
    }
}
fn altitude_before_the_bound(latitude: f64, declination: f64, hour_angle: f64) -> f64 {
    let radians = |degrees: f64| degrees.stand_in_to_radians();
    let (l, d, w) = (radians(latitude), radians(declination), radians(hour_angle));
    (d.stand_in_sin() * l.stand_in_sin() + d.stand_in_cos() * l.stand_in_cos() * w.stand_in_cos())
        .stand_in_asin()
        .stand_in_to_degrees()
}
/// The altitude, with another one where its sum is above 1 or where it is below −1.
fn altitude_beyond(l: f64, d: f64, w: f64, above: Option<f64>, below: Option<f64>) -> f64 {
    let (altitude, beyond) = beyond_in(|| right::init_solar_altitude(l, d, w));
    match beyond {
        _ if beyond.arcsine_above => above.unwrap_or(altitude),
        _ if beyond.arcsine_below => below.unwrap_or(altitude),
        _ => altitude,
    }
}
extern "C" fn altitude_nan_above_1(l: f64, d: f64, w: f64) -> f64 {
    altitude_beyond(l, d, w, Some(f64::NAN), None)
}
extern "C" fn altitude_nan_below_minus_1(l: f64, d: f64, w: f64) -> f64 {
    altitude_beyond(l, d, w, None, Some(f64::NAN))
}
extern "C" fn altitude_0_above_1(l: f64, d: f64, w: f64) -> f64 {
    altitude_beyond(l, d, w, Some(0.0), None)
}
extern "C" fn altitude_90_below_minus_1(l: f64, d: f64, w: f64) -> f64 {
    altitude_beyond(l, d, w, None, Some(90.0))
}
extern "C" fn altitude_of_the_double_below_1(l: f64, d: f64, w: f64) -> f64 {
    // the sum above 1 brought back by one step too many
    let altitude = ulps_from(1.0, -1).stand_in_asin().stand_in_to_degrees();
    altitude_beyond(l, d, w, Some(altitude), None)
}
extern "C" fn altitude_that_drops_a_nan(l: f64, d: f64, w: f64) -> f64 {
    // a NaN latitude must not become a sun at the horizon
    let altitude = right::init_solar_altitude(l, d, w);
    if altitude.is_nan() {
        0.0
    } else {
        altitude
    }
}
extern "C" fn altitude_with_a_closed_bound(l: f64, d: f64, w: f64) -> f64 {
    let altitude = altitude_before_the_bound(l, d, w);
    if altitude <= 0.0001 {
        0.0
    } else {
        altitude
    }
}
extern "C" fn altitude_cut_at_0(l: f64, d: f64, w: f64) -> f64 {
    let altitude = altitude_before_the_bound(l, d, w);
    if altitude < 0.0 {
        0.0
    } else {
        altitude
    }
}
extern "C" fn altitude_in_another_order(l: f64, d: f64, w: f64) -> f64 {
    let radians = |degrees: f64| degrees.stand_in_to_radians();
    let (l, d, w) = (radians(l), radians(d), radians(w));
    let altitude = (d.stand_in_sin() * l.stand_in_sin()
        + d.stand_in_cos() * (l.stand_in_cos() * w.stand_in_cos()))
    .stand_in_asin()
    .stand_in_to_degrees();
    if altitude < 0.0001 {
        0.0
    } else {
        altitude
    }
}
extern "C" fn zenith_with_minus_zero(altitude: f64) -> f64 {
    -(altitude - 90.0)
}
/// The published azimuth, by a given denominator, with its last quotient by some other formula.
fn azimuth(l: f64, d: f64, w: f64, denominator: f64, quotient: fn(f64, f64) -> f64) -> f64 {
    let (l, d) = (l.stand_in_to_radians(), d.stand_in_to_radians());
    let w = (180.0 - w).stand_in_to_radians();
    let sine = d.stand_in_cos() * w.stand_in_sin();
    let cosine = l.stand_in_cos() * d.stand_in_sin()
        + l.stand_in_sin() * d.stand_in_cos() * w.stand_in_cos();
    let aux2 = quotient(sine, denominator).stand_in_to_degrees();
    if sine / denominator >= 0.0 && cosine / denominator > 0.0 {
        if aux2 > 180.0 {
            aux2 - 180.0
        } else {
            180.0 - aux2
        }
    } else if cosine / denominator < 0.0 {
        aux2
    } else {
        -(180.0 + aux2)
    }
}
fn published_denominator(altitude: f64) -> f64 {
    let sine = altitude.stand_in_to_radians().stand_in_sin();
    sine.stand_in_asin().stand_in_cos()
}
extern "C" fn azimuth_of_a_mended_formula(l: f64, d: f64, w: f64, a: f64) -> f64 {
    azimuth(l, d, w, published_denominator(a), |sine, denominator| {
        (sine / denominator).stand_in_asin()
    })
}
extern "C" fn azimuth_by_the_altitudes_cosine(l: f64, d: f64, w: f64, a: f64) -> f64 {
    // the cosine of the arcsine of the sine is not the cosine, to the last bit
    let cosine = a.stand_in_to_radians().stand_in_cos();
    azimuth(l, d, w, cosine, |sine, denominator| {
        sine.stand_in_asin() / denominator
    })
}
extern "C" fn azimuth_never_beyond_180(l: f64, d: f64, w: f64, a: f64) -> f64 {
    let azimuth = right::init_solar_azimuth_angle(l, d, w, a);
    if azimuth < -180.0 {
        azimuth + 360.0
    } else {
        azimuth
    }
}
extern "C" fn azimuth_of_a_strict_sine(l: f64, d: f64, w: f64, a: f64) -> f64 {
    // where the sine is 0 the first branch is still taken
    let azimuth = right::init_solar_azimuth_angle(l, d, w, a);
    if azimuth == 180.0 {
        -180.0
    } else {
        azimuth
    }
}
extern "C" fn azimuth_of_a_nan_latitude(l: f64, d: f64, w: f64, a: f64) -> f64 {
    // the last branch takes what cannot be compared, and its result need not be NaN
    if l.stand_in_to_radians().stand_in_cos().is_nan() {
        f64::NAN
    } else {
        right::init_solar_azimuth_angle(l, d, w, a)
    }
}
extern "C" fn air_mass_strict_at_10(altitude: f64) -> f64 {
    let sine = altitude.stand_in_to_radians().stand_in_sin();
    if altitude > 10.0 {
        1.0 / sine
    } else {
        1.0 / (sine + 0.15 * (altitude + 3.885).stand_in_powf(-1.253))
    }
}
extern "C" fn air_mass_that_takes_nan_above_10(altitude: f64) -> f64 {
    if altitude < 10.0 {
        right::init_air_mass(altitude)
    } else {
        let mass = 1.0 / altitude.stand_in_to_radians().stand_in_sin();
        if mass.is_nan() {
            1.0
        } else {
            mass
        }
    }
}

pub fn sun(right: Probes) -> Vec<Wrong> {
    wrong_sides! { right;
        init_earth_orbit_deviation: orbit_of_366_days,
        init_earth_orbit_deviation: orbit_divided_last,
        init_earth_orbit_deviation: orbit_from_day_0,
        init_solar_declination: declination_with_cosines_first_added,
        init_equation_of_time: equation_of_time_with_a_closed_bound::<21>,
        init_equation_of_time: equation_of_time_with_a_closed_bound::<136>,
        init_equation_of_time: equation_of_time_with_a_closed_bound::<241>,
        init_equation_of_time: equation_of_time_with_a_closed_bound::<336>,
        init_equation_of_time: equation_of_time_of_365_days,
        init_equation_of_time: equation_of_time_beyond_the_year,
        init_equation_of_time: equation_of_time_of_a_signed_day,
        init_extra_terrestrial_radiation: radiation_multiplied_out,
        init_time_shift: shift_by_a_fifteenth,
        init_time_shift: shift_without_sign_of_zero,
        init_solar_time: solar_time_less_a_sum,
        init_solar_hour_angle: hour_angle_closed_at_180,
        init_solar_hour_angle: hour_angle_closed_at_minus_180,
        init_solar_hour_angle: hour_angle_shifted_twice,
        init_solar_altitude: altitude_nan_above_1,
        init_solar_altitude: altitude_nan_below_minus_1,
        init_solar_altitude: altitude_0_above_1,
        init_solar_altitude: altitude_90_below_minus_1,
        init_solar_altitude: altitude_of_the_double_below_1,
        init_solar_altitude: altitude_that_drops_a_nan,
        init_solar_altitude: altitude_with_a_closed_bound,
        init_solar_altitude: altitude_cut_at_0,
        init_solar_altitude: altitude_in_another_order,
        init_solar_zenith_angle: zenith_with_minus_zero,
        init_solar_azimuth_angle: azimuth_of_a_mended_formula,
        init_solar_azimuth_angle: azimuth_by_the_altitudes_cosine,
        init_solar_azimuth_angle: azimuth_never_beyond_180,
        init_solar_azimuth_angle: azimuth_of_a_strict_sine,
        init_solar_azimuth_angle: azimuth_of_a_nan_latitude,
        init_air_mass: air_mass_strict_at_10,
        init_air_mass: air_mass_that_takes_nan_above_10,
    }
}

// --- The sky's state ---

extern "C" fn beam_converted_at_0(conversion: u64, raw: f64, altitude: f64) -> f64 {
    let sine = altitude.stand_in_to_radians().stand_in_sin();
    if conversion == 1 && sine >= 0.0 {
        raw / sine
    } else {
        raw
    }
}
extern "C" fn beam_converted_below_0(conversion: u64, raw: f64, altitude: f64) -> f64 {
    let sine = altitude.stand_in_to_radians().stand_in_sin();
    if conversion == 1 && sine != 0.0 {
        raw / sine
    } else {
        raw
    }
}
extern "C" fn beam_never_converted(_: u64, raw: f64, _: f64) -> f64 {
    raw
}
extern "C" fn clearness_of_a_tiny_diffuse(diffuse: f64, beam: f64, altitude: f64) -> f64 {
    if diffuse.is_subnormal() {
        999.0
    } else {
        right::init_dimensionless_clearness_parameter(diffuse, beam, altitude)
    }
}
extern "C" fn clearness_of_minus_zero(diffuse: f64, beam: f64, altitude: f64) -> f64 {
    if diffuse.to_bits() == 0.0f64.to_bits() || diffuse != 0.0 {
        right::init_dimensionless_clearness_parameter(diffuse, beam, altitude)
    } else {
        (diffuse + beam) / diffuse
    }
}
extern "C" fn clearness_by_one_plus_a_quotient(diffuse: f64, beam: f64, altitude: f64) -> f64 {
    if diffuse == 0.0 {
        return 999.0;
    }
    let term = CLEARNESS_FORMULA_K * (PI / 180.0 * altitude).stand_in_powi(3);
    ((1.0 + beam / diffuse) + term) / (1.0 + term)
}
extern "C" fn brightness_with_the_quotient_first(mass: f64, diffuse: f64, radiation: f64) -> f64 {
    mass * (diffuse / radiation)
}
/// The row before takes the limit itself too.
extern "C" fn row_with_a_closed_limit<const ROW: usize>(c: f64) -> usize {
    if c == LIMITS[ROW] {
        ROW
    } else {
        right::table_row(c)
    }
}
extern "C" fn last_row_one_early(c: f64) -> usize {
    match right::table_row(c) {
        6 => 7,
        row => row,
    }
}
extern "C" fn row_0_for_nan(c: f64) -> usize {
    if c.is_nan() {
        0
    } else {
        right::table_row(c)
    }
}
/// The row before takes the limit itself too.
extern "C" fn f1_with_a_closed_limit<const ROW: usize>(c: f64, delta: f64, zenith: f64) -> f64 {
    let clearness = if c == LIMITS[ROW] {
        ulps_from(c, -1)
    } else {
        c
    };
    right::init_f1_circumsolar_brightness_coefficient(clearness, delta, zenith)
}
extern "C" fn f2_with_a_closed_limit<const ROW: usize>(c: f64, delta: f64, zenith: f64) -> f64 {
    let clearness = if c == LIMITS[ROW] {
        ulps_from(c, -1)
    } else {
        c
    };
    right::init_f2_horizontal_brightness_coefficient(clearness, delta, zenith)
}
extern "C" fn f1_of_nan_in_the_first_row(c: f64, delta: f64, zenith: f64) -> f64 {
    let clearness = if c.is_nan() { 1.0 } else { c };
    right::init_f1_circumsolar_brightness_coefficient(clearness, delta, zenith)
}
extern "C" fn f1_that_drops_a_nan(c: f64, delta: f64, zenith: f64) -> f64 {
    right::init_f1_circumsolar_brightness_coefficient(c, delta, zenith).max(0.0)
}
extern "C" fn f2_from_the_row_before(c: f64, delta: f64, zenith: f64) -> f64 {
    let clearness = match right::table_row(c) {
        0 => c,
        row => ulps_from(LIMITS[row - 1], -1),
    };
    right::init_f2_horizontal_brightness_coefficient(clearness, delta, zenith)
}
extern "C" fn f2_cut_at_0(c: f64, delta: f64, zenith: f64) -> f64 {
    let f2 = right::init_f2_horizontal_brightness_coefficient(c, delta, zenith);
    if f2 < 0.0 {
        0.0
    } else {
        f2
    }
}
extern "C" fn f2_of_the_zenith_by_radians(c: f64, delta: f64, zenith: f64) -> f64 {
    // π · z / 180 is not z · (π / 180), to the last bit
    let zenith = zenith.stand_in_to_radians() * 180.0 / PI;
    right::init_f2_horizontal_brightness_coefficient(c, delta, zenith)
}

// --- One hour, and a year ---

macro_rules! wrong_hours {
    ($($name:ident($case:ident) $body:block)*) => {
        $(extern "C" fn $name(
            latitude: f64,
            longitude: f64,
            zone: i64,
            hour: u32,
            conversion: u64,
            tilt: f64,
            orientation: f64,
            diffuse: f64,
            direct: f64,
            reflectivity: f64,
        ) -> ProbeHour {
            let $case: OneHour = right::one_hour(
                latitude, longitude, zone, hour, conversion, tilt, orientation, diffuse, direct,
                reflectivity,
            );
            $body
        })*
    };
}

fn answer(case: OneHour) -> ProbeHour {
    case.answer(&case.record())
}

/// What an engine may wrongly make of a sum beyond ±1; NaN is what came of it before such sums were
/// taken as ±1.
#[derive(Clone, Copy, PartialEq)]
pub enum Otherwise {
    AltitudeNanAbove,
    AltitudeNanBelow,
    AltitudeZeroAbove,
    IncidenceNanAbove,
    IncidenceNanBelow,
}

impl Otherwise {
    /// Whether an hour with such sums is one of those that differ.
    fn differs(self, beyond: Beyond) -> bool {
        match self {
            Otherwise::AltitudeNanAbove | Otherwise::AltitudeZeroAbove => beyond.arcsine_above,
            Otherwise::AltitudeNanBelow => beyond.arcsine_below,
            Otherwise::IncidenceNanAbove => beyond.arccosine_above,
            Otherwise::IncidenceNanBelow => beyond.arccosine_below,
        }
    }
}

impl OneHour {
    /// Another altitude, and what follows from it, in a record that holds this hour.
    fn put_altitude(&self, record: &mut ExternalConditions, altitude: f64) {
        record.solar_altitudes[0] = altitude;
        record.solar_zenith_angles[0] = init_solar_zenith_angle(altitude);
        record.solar_azimuth_angles[0] = init_solar_azimuth_angle(
            self.site.latitude,
            record.solar_declinations[0],
            record.solar_hour_angles[0],
            altitude,
        );
        self.fill_sky(self.day(), record);
    }

    /// The irradiance in which a sum beyond ±1 is taken otherwise; the record then holds that hour.
    pub fn answer_otherwise(&self, record: &mut ExternalConditions, way: Otherwise) -> ProbeHour {
        let (right, beyond) = beyond_in(|| {
            self.fill(record);
            self.answer(record)
        });
        if !way.differs(beyond) {
            return right;
        }
        match way {
            Otherwise::AltitudeNanAbove | Otherwise::AltitudeNanBelow => {
                self.put_altitude(record, f64::NAN)
            }
            Otherwise::AltitudeZeroAbove => self.put_altitude(record, 0.0),
            // the record's latitude is read for the incidence alone
            Otherwise::IncidenceNanAbove | Otherwise::IncidenceNanBelow => {
                record.latitude = f64::NAN
            }
        }
        self.answer(record)
    }
}

fn otherwise(case: OneHour, way: Otherwise) -> ProbeHour {
    case.answer_otherwise(&mut case.record(), way)
}

wrong_hours! {
    clearness_by_the_raw_beam(case) {
        let mut record = case.record();
        let mut raw = case;
        raw.site.conversion_needed = false;
        let by_raw = raw.record();
        record.f1_circumsolar_brightness_coefficients =
            by_raw.f1_circumsolar_brightness_coefficients;
        record.f2_horizontal_brightness_coefficients =
            by_raw.f2_horizontal_brightness_coefficients;
        case.answer(&record)
    }
    ground_by_the_raw_beam(case) {
        let mut raw = case;
        raw.site.conversion_needed = false;
        ProbeHour { ground: answer(raw).ground, ..answer(case) }
    }
    conversion_forgotten(case) {
        let mut raw = case;
        raw.site.conversion_needed = false;
        answer(raw)
    }
    hour_altitude_nan_above_1(case) {
        otherwise(case, Otherwise::AltitudeNanAbove)
    }
    hour_altitude_nan_below_minus_1(case) {
        otherwise(case, Otherwise::AltitudeNanBelow)
    }
    hour_altitude_0_above_1(case) {
        otherwise(case, Otherwise::AltitudeZeroAbove)
    }
    incidence_nan_above_1(case) {
        otherwise(case, Otherwise::IncidenceNanAbove)
    }
    incidence_nan_below_minus_1(case) {
        otherwise(case, Otherwise::IncidenceNanBelow)
    }
    direct_0_above_1(case) {
        // a cosine that is no number, dropped
        let (right, beyond) = beyond_in(|| answer(case));
        match beyond.arccosine_above {
            true => ProbeHour { direct: 0.0, total: right.diffuse, ..right },
            false => right,
        }
    }
    ratio_that_drops_a_nan(case) {
        let (right, beyond) = beyond_in(|| answer(case));
        match beyond.arccosine_above {
            true => ProbeHour { circumsolar: 0.0, ..right },
            false => right,
        }
    }
    sky_and_horizontal_swapped(case) {
        let right = answer(case);
        ProbeHour { sky: right.horizontal, horizontal: right.sky, ..right }
    }
    circumsolar_and_ground_swapped(case) {
        let right = answer(case);
        ProbeHour { circumsolar: right.ground, ground: right.circumsolar, ..right }
    }
    diffuse_without_the_detour(case) {
        // adding the circumsolar part and taking it away again is rounded twice
        let right = answer(case);
        ProbeHour { diffuse: right.sky + right.horizontal + right.ground, ..right }
    }
    total_by_parts(case) {
        let right = answer(case);
        let total = right.direct + (right.sky + right.horizontal + right.ground);
        ProbeHour { total, ..right }
    }
    direct_without_minus_zero(case) {
        let right = answer(case);
        ProbeHour { direct: right.direct + 0.0, ..right }
    }
    azimuth_0_at_night(case) {
        let right = answer(case);
        let azimuth = if right.altitude == 0.0 { 0.0 } else { right.azimuth };
        ProbeHour { azimuth, ..right }
    }
    year_of_365_days(case) {
        answer(OneHour { hour: case.hour % 8760, ..case })
    }
    the_hour_before(case) {
        answer(OneHour { hour: case.hour.max(1) - 1, ..case })
    }
}

macro_rules! wrong_years {
    ($($name:ident($rows:ident, $count:ident) $body:block)*) => {
        $(unsafe extern "C" fn $name(
            latitude: f64,
            longitude: f64,
            zone: i64,
            conversion: u64,
            tilt: f64,
            orientation: f64,
            diffuse: *const u8,
            diffuse_len: usize,
            direct: *const u8,
            direct_len: usize,
            reflectivity: *const u8,
            reflectivity_len: usize,
            results: *mut u8,
            results_len: usize,
        ) -> u64 {
            let $count = right::year(
                latitude, longitude, zone, conversion, tilt, orientation, diffuse, diffuse_len,
                direct, direct_len, reflectivity, reflectivity_len, results, results_len,
            );
            let $rows = std::slice::from_raw_parts_mut(results, results_len);
            $body
        })*
    };
}

wrong_years! {
    year_of_its_first_hour(rows, count) {
        let row = YEAR_COLUMNS * 8;
        for hour in 1..count as usize {
            rows.copy_within(0..row, hour * row);
        }
        count
    }
    year_without_its_last_total(rows, count) {
        let last = rows.len() - 8;
        rows[last..].fill(0x55);
        count
    }
    year_of_one_hour_less(_rows, count) {
        count - 1
    }
}

pub fn irradiance(right: Probes) -> Vec<Wrong> {
    wrong_sides! { right;
        init_direct_beam_radiation: beam_converted_at_0,
        init_direct_beam_radiation: beam_converted_below_0,
        init_direct_beam_radiation: beam_never_converted,
        init_dimensionless_clearness_parameter: clearness_of_a_tiny_diffuse,
        init_dimensionless_clearness_parameter: clearness_of_minus_zero,
        init_dimensionless_clearness_parameter: clearness_by_one_plus_a_quotient,
        init_dimensionless_sky_brightness_parameter: brightness_with_the_quotient_first,
        table_row: row_with_a_closed_limit::<0>,
        table_row: row_with_a_closed_limit::<6>,
        table_row: last_row_one_early,
        table_row: row_0_for_nan,
        init_f1_circumsolar_brightness_coefficient: f1_with_a_closed_limit::<0>,
        init_f1_circumsolar_brightness_coefficient: f1_with_a_closed_limit::<1>,
        init_f1_circumsolar_brightness_coefficient: f1_with_a_closed_limit::<2>,
        init_f1_circumsolar_brightness_coefficient: f1_with_a_closed_limit::<3>,
        init_f1_circumsolar_brightness_coefficient: f1_with_a_closed_limit::<4>,
        init_f1_circumsolar_brightness_coefficient: f1_with_a_closed_limit::<5>,
        init_f1_circumsolar_brightness_coefficient: f1_with_a_closed_limit::<6>,
        init_f1_circumsolar_brightness_coefficient: f1_of_nan_in_the_first_row,
        init_f1_circumsolar_brightness_coefficient: f1_that_drops_a_nan,
        init_f2_horizontal_brightness_coefficient: f2_with_a_closed_limit::<0>,
        init_f2_horizontal_brightness_coefficient: f2_with_a_closed_limit::<6>,
        init_f2_horizontal_brightness_coefficient: f2_from_the_row_before,
        init_f2_horizontal_brightness_coefficient: f2_cut_at_0,
        init_f2_horizontal_brightness_coefficient: f2_of_the_zenith_by_radians,
        hour: clearness_by_the_raw_beam,
        hour: ground_by_the_raw_beam,
        hour: conversion_forgotten,
        hour: hour_altitude_nan_above_1,
        hour: hour_altitude_nan_below_minus_1,
        hour: hour_altitude_0_above_1,
        hour: incidence_nan_above_1,
        hour: incidence_nan_below_minus_1,
        hour: direct_0_above_1,
        hour: ratio_that_drops_a_nan,
        hour: sky_and_horizontal_swapped,
        hour: circumsolar_and_ground_swapped,
        hour: diffuse_without_the_detour,
        hour: total_by_parts,
        hour: direct_without_minus_zero,
        hour: azimuth_0_at_night,
        hour: year_of_365_days,
        hour: the_hour_before,
        year: year_of_its_first_hour,
        year: year_without_its_last_total,
        year: year_of_one_hour_less,
    }
}
