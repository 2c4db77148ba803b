//! The state of the sky and the irradiance on a surface: the published Rust against Rattle.

use super::beyond::{Aimed, Sums};
use super::conditions::{OneHour, Site, FIRST_STEP};
use super::interface as rust;
use super::sun::{altitude, declination_of, hour_angle_at, BRANCHES, DAYS};
use super::*;
use crate::arguments::{around, compare_function, Argument};
use crate::comparison::{all_shown, compare, same, shown, Outcome, Settings, Tally, With};
use crate::probes::{HourCall, ProbeHour, Probes, YEAR, YEAR_COLUMNS};
use crate::random::{ulps_from, Random};
use crate::stand_ins::{beyond_in, Beyond};
use std::cell::Cell;

/// The limits of clearness in Table 8.
pub(super) const LIMITS: [f64; 7] = [1.065, 1.23, 1.5, 1.95, 2.8, 4.5, 6.2];

const LEAST_SUBNORMAL: f64 = f64::from_bits(1);
const GREATEST_SUBNORMAL: f64 = f64::from_bits(0x000F_FFFF_FFFF_FFFF);

// --- The functions of the sky's state ---

/// A reading in W/m².
fn reading() -> Argument {
    let places = [
        0.0,
        -0.0,
        LEAST_SUBNORMAL,
        GREATEST_SUBNORMAL,
        f64::MIN_POSITIVE,
        1e-300,
        1.0,
        100.0,
        1367.0,
        10_000.0,
    ];
    Argument::double(0.0, 1000.0, &places)
}

fn clearness() -> Argument {
    let mut places = around(&LIMITS);
    places.extend([0.0, 1.0, 2.0, 999.0, f64::NAN, f64::INFINITY]);
    Argument::double(0.9, 7.0, &places)
}

fn delta() -> Argument {
    let places = [0.0, -0.0, 0.1, 1.0, LEAST_SUBNORMAL, f64::NAN];
    Argument::double(0.0, 2.0, &places)
}

fn zenith() -> Argument {
    let mut places = around(&[90.0, 80.0, 85.0]);
    places.extend([0.0, -0.0, 45.0, f64::NAN]);
    Argument::double(0.0, 90.0, &places)
}

/// Readings and altitudes whose clearness is about a limit.
fn at_the_limits(random: &mut Random, count: usize) -> impl Iterator<Item = [f64; 3]> + '_ {
    (0..count / 4).map(|_| {
        let altitude = random.uniform(0.0, 90.0);
        let diffuse = random.uniform(0.0, 500.0);
        [
            diffuse,
            beam_at_a_limit(random, diffuse, altitude),
            altitude,
        ]
    })
}

/// The beam, about, by which the clearness is one of the limits.
fn beam_at_a_limit(random: &mut Random, diffuse: f64, altitude: f64) -> f64 {
    let limit = LIMITS[random.below(LIMITS.len())];
    let radians = altitude.stand_in_to_radians();
    let term = CLEARNESS_FORMULA_K * radians * radians * radians;
    let beam = ((limit * (1.0 + term) - term) - 1.0) * diffuse;
    ulps_from(beam, random.below(9) as i64 - 4)
}

fn sky(settings: &Settings, rattle: &Probes) -> Outcome {
    sky_parameters(settings, rattle)?;
    brightness_coefficients(settings, rattle)
}

/// The beam, the clearness and the brightness.
fn sky_parameters(settings: &Settings, rattle: &Probes) -> Outcome {
    compare_function(
        settings,
        "init_direct_beam_radiation",
        std::iter::empty(),
        [Argument::flag(), reading(), altitude()],
        |[c, raw, a]| rust::init_direct_beam_radiation(c as u64, raw, a),
        |[c, raw, a]| unsafe { (rattle.init_direct_beam_radiation)(c as u64, raw, a) },
    )?;
    compare_function(
        settings,
        "init_dimensionless_clearness_parameter",
        at_the_limits(&mut settings.random("limits"), settings.count),
        [reading(), reading(), altitude()],
        |[d, b, a]| rust::init_dimensionless_clearness_parameter(d, b, a),
        |[d, b, a]| unsafe { (rattle.init_dimensionless_clearness_parameter)(d, b, a) },
    )?;
    let radiations = [1367.0, 1411.0, 1322.0, 0.0, -0.0];
    compare_function(
        settings,
        "init_dimensionless_sky_brightness_parameter",
        std::iter::empty(),
        [
            Argument::double(1.0, 38.0, &[1.0, 0.0, -0.0, 5.0, f64::NAN]),
            reading(),
            Argument::double(1320.0, 1413.0, &radiations),
        ],
        |[m, d, e]| rust::init_dimensionless_sky_brightness_parameter(m, d, e),
        |[m, d, e]| unsafe { (rattle.init_dimensionless_sky_brightness_parameter)(m, d, e) },
    )
}

/// The row of Table 8, and F1 and F2, for each of which the published form looks for it three times.
fn brightness_coefficients(settings: &Settings, rattle: &Probes) -> Outcome {
    compare_function(
        settings,
        "table_row",
        std::iter::empty(),
        [clearness()],
        |[c]| rust::table_row(c) as f64,
        |[c]| unsafe { (rattle.table_row)(c) } as f64,
    )?;
    compare_function(
        settings,
        "init_f1_circumsolar_brightness_coefficient",
        std::iter::empty(),
        [clearness(), delta(), zenith()],
        |[c, d, z]| rust::init_f1_circumsolar_brightness_coefficient(c, d, z),
        |[c, d, z]| unsafe { (rattle.init_f1_circumsolar_brightness_coefficient)(c, d, z) },
    )?;
    compare_function(
        settings,
        "init_f2_horizontal_brightness_coefficient",
        std::iter::empty(),
        [clearness(), delta(), zenith()],
        |[c, d, z]| rust::init_f2_horizontal_brightness_coefficient(c, d, z),
        |[c, d, z]| unsafe { (rattle.init_f2_horizontal_brightness_coefficient)(c, d, z) },
    )
}

// --- One hour ---

/// Tries to aim an hour at a sum beyond ±1, and the degrees within which they lie: so little that
/// the cosine is 1 to the last bit.
const TRIES: usize = 40;
const NEARBY: f64 = 1e-7;

impl OneHour {
    fn doubles(&self) -> [f64; 10] {
        [
            self.site.latitude,
            self.site.longitude,
            self.site.timezone as f64,
            self.hour as f64,
            self.site.conversion_needed as u64 as f64,
            self.site.tilt,
            self.site.orientation,
            self.diffuse,
            self.direct,
            self.reflectivity,
        ]
    }

    /// The longitude, about, at which the hour angle is that one in this hour; it may lie beyond
    /// ±180.
    fn longitude_for(&self, hour_angle: f64) -> f64 {
        let solar_time = 12.5 - hour_angle / 15.0;
        let clock = (self.hour % 24 + 1) as f64 - init_equation_of_time(self.hour / 24) / 60.0;
        15.0 * (solar_time - clock + self.site.timezone as f64)
    }

    /// Turns the surface to the sun, about: the cosine of the incidence is about 1, and its sum in
    /// some cases a little above it.
    ///
    /// (The published azimuth is not used: it is the sun's direction only about noon.)
    pub(super) fn face_the_sun(&mut self, random: &mut Random) {
        let record = self.record();
        let (sin_latitude, cos_latitude) = self.site.latitude.to_radians().sin_cos();
        let declination = record.solar_declinations[0].to_radians();
        let (sin_declination, cos_declination) = declination.sin_cos();
        let (sin_hour, cos_hour) = record.solar_hour_angles[0].to_radians().sin_cos();
        let up = sin_declination * sin_latitude + cos_declination * cos_latitude * cos_hour;
        let east = cos_declination * sin_hour;
        let south = sin_latitude * cos_declination * cos_hour - cos_latitude * sin_declination;
        let mut near = |degrees: f64| ulps_from(degrees, random.below(9) as i64 - 4);
        self.site.tilt = near(up.acos().to_degrees());
        self.site.orientation = near(180.0 - east.atan2(south).to_degrees()).clamp(0.0, 360.0);
    }

    /// Turns the back of the surface to the sun, about: the sum is about −1, and in some cases a
    /// little below it.
    fn turn_from_the_sun(&mut self, random: &mut Random) {
        self.face_the_sun(random);
        let Site {
            tilt, orientation, ..
        } = self.site;
        self.site.tilt = 180.0 - tilt;
        self.site.orientation = match orientation < 180.0 {
            true => orientation + 180.0,
            false => orientation - 180.0,
        };
    }

    /// Moves the site under the sun: the altitude is about 90, and its sum in some cases a little
    /// above 1.
    pub(super) fn sun_overhead(&mut self, random: &mut Random) {
        let longitude = self.longitude_for(0.0);
        if longitude.abs() <= 180.0 {
            self.site.longitude = ulps_from(longitude, random.below(9) as i64 - 4);
            let declination = declination_of(self.hour / 24);
            self.site.latitude = ulps_from(declination, random.below(9) as i64 - 4);
        }
    }

    /// Moves the site to the other end of the Earth: the sum is about −1, and in some cases a
    /// little below it.
    fn sun_underfoot(&mut self, random: &mut Random) {
        let both = [180.0, -180.0].map(|hour_angle| self.longitude_for(hour_angle));
        if let Some(longitude) = both.into_iter().find(|longitude| longitude.abs() <= 180.0) {
            self.site.longitude = ulps_from(longitude, random.below(9) as i64 - 4);
            let declination = declination_of(self.hour / 24);
            self.site.latitude = -ulps_from(declination, random.below(9) as i64 - 4);
        }
    }

    /// The sun square on the glass, overhead, or both. By rounding alone a sum is above 1 in one
    /// case of many; so for the most part such a case is looked for nearby.
    pub(super) fn aim_squarely(&mut self, random: &mut Random) {
        let overhead = random.below(2) == 0 && self.longitude_for(0.0).abs() <= 180.0;
        let facing = !overhead || random.below(2) == 0;
        let tries = [0, TRIES, TRIES][random.below(3)];
        if overhead {
            self.sun_overhead(random);
            self.latitude_nearby(random, tries, |beyond| beyond.arcsine_above);
        }
        if facing {
            self.face_the_sun(random);
            self.surface_in_range();
            self.surface_nearby(random, tries, |beyond| beyond.arccosine_above);
        }
    }

    /// The same with the sun square on the back of the glass, or under the site, and a sum below −1.
    pub(super) fn aim_from_behind(&mut self, random: &mut Random) {
        let tries = [0, TRIES, TRIES][random.below(3)];
        if random.below(2) == 0 {
            self.turn_from_the_sun(random);
            self.surface_in_range();
            self.surface_nearby(random, tries, |beyond| beyond.arccosine_below);
        } else {
            self.sun_underfoot(random);
            self.latitude_nearby(random, tries, |beyond| beyond.arcsine_below);
        }
    }

    /// Moves the site to a latitude nearby whose altitude has such a sum, if one of so many has it.
    fn latitude_nearby(&mut self, random: &mut Random, tries: usize, such: fn(Beyond) -> bool) {
        let record = self.record();
        let (declination, hour_angle) = (record.solar_declinations[0], record.solar_hour_angles[0]);
        for _ in 0..tries {
            let latitude = self.site.latitude + random.uniform(-NEARBY, NEARBY);
            let sum = || init_solar_altitude(latitude, declination, hour_angle);
            if such(beyond_in(sum).1) {
                self.site.latitude = latitude;
                return;
            }
        }
    }

    /// Turns the surface a little, to where the incidence has such a sum, if one of so many has it.
    fn surface_nearby(&mut self, random: &mut Random, tries: usize, such: fn(Beyond) -> bool) {
        let (record, start) = (self.record(), *self);
        for _ in 0..tries {
            *self = start;
            self.site.tilt += random.uniform(-NEARBY, NEARBY);
            self.site.orientation += random.uniform(-NEARBY, NEARBY);
            self.surface_in_range();
            let turned = Orientation360(self.site.orientation);
            let sum = || record.solar_angle_of_incidence(self.site.tilt, turned, FIRST_STEP);
            if such(beyond_in(sum).1) {
                return;
            }
        }
        *self = start;
    }

    /// Brings tilt and orientation into range. One step below 0 is a NaN, and so is the arccosine of
    /// a sun's height that is above 1: they become 0.
    fn surface_in_range(&mut self) {
        let within = |x: f64, high: f64| x.max(0.0).min(high);
        self.site.tilt = within(self.site.tilt, 180.0);
        self.site.orientation = within(self.site.orientation, 360.0);
    }

    /// Moves the site to where the sun's altitude is about one at which a formula takes another
    /// branch.
    pub(super) fn sun_at_a_branch(&mut self, random: &mut Random) {
        let altitude = BRANCHES[random.below(BRANCHES.len())];
        let declination = declination_of(self.hour / 24);
        let hour_angle = hour_angle_at(altitude, self.site.latitude, declination);
        let longitude = self.longitude_for(hour_angle);
        if longitude.abs() <= 180.0 {
            self.site.longitude = ulps_from(longitude, random.below(9) as i64 - 4);
        }
    }

    /// Makes the hour angle exactly ±180, or another half hour's: on day number 359 the equation of
    /// time is 0.
    fn turn_of_the_hour_angle(&mut self, random: &mut Random) {
        self.hour = 358 * 24 + self.hour % 24;
        self.site.longitude = 7.5 * (random.below(49) as f64 - 24.0);
    }

    fn clearness_at_a_limit(&mut self, random: &mut Random) {
        let altitude = self.record().solar_altitudes[0];
        let beam = beam_at_a_limit(random, self.diffuse, altitude);
        let sine = altitude.stand_in_to_radians().stand_in_sin();
        let converted = self.site.conversion_needed && sine > 0.0;
        self.direct = if converted { beam * sine } else { beam };
    }

    /// Puts any double at all at one of the places for doubles.
    fn any_double(&mut self, random: &mut Random) {
        let x = match random.below(2) {
            0 => random.any_double(),
            _ => random.any_size(),
        };
        match random.below(7) {
            0 => self.site.latitude = x,
            1 => self.site.longitude = x,
            2 => self.site.tilt = x,
            3 => self.site.orientation = x,
            4 => self.diffuse = x,
            5 => self.direct = x,
            _ => self.reflectivity = x,
        }
    }
}

/// A reading for an hour.
fn any_reading(random: &mut Random, usual: f64) -> f64 {
    match random.below(16) {
        0 | 1 => 0.0,
        2 => -0.0,
        3 => f64::from_bits(random.word() >> 12), // a subnormal, or 0
        4 => 10_000.0,
        5 => random.uniform(0.0, 10_000.0),
        6 => random.any_size().abs().min(10_000.0),
        _ => random.uniform(0.0, usual),
    }
}

/// One of the places in one of four draws, else uniform.
fn or_place(random: &mut Random, low: f64, high: f64, places: &[f64]) -> f64 {
    match random.below(8) {
        0 | 1 => places[random.below(places.len())],
        2 => random.uniform(low, high).round(),
        _ => random.uniform(low, high),
    }
}

fn any_site(random: &mut Random) -> Site {
    let latitudes = [90.0, -90.0, 0.0, -0.0, 23.45, -23.45, 66.55, -66.55];
    let longitudes = [180.0, -180.0, 0.0, -0.0, 7.5, 15.0, -15.0, 172.5];
    let orientations = [0.0, 360.0, 180.0, 90.0, 270.0, -0.0];
    Site {
        latitude: or_place(random, -90.0, 90.0, &latitudes),
        longitude: or_place(random, -180.0, 180.0, &longitudes),
        timezone: random.below(28) as i32 - 13,
        conversion_needed: random.below(2) == 1,
        tilt: or_place(random, 0.0, 180.0, &[0.0, 90.0, 180.0, 15.0, -0.0]),
        orientation: or_place(random, 0.0, 360.0, &orientations),
    }
}

fn any_hour(random: &mut Random, hour: u32) -> OneHour {
    OneHour {
        site: any_site(random),
        hour,
        diffuse: any_reading(random, 400.0),
        direct: any_reading(random, 900.0),
        reflectivity: or_place(random, 0.0, 1.0, &[0.0, -0.0, 1.0, 0.2]),
    }
}

/// The sun square on the glass: with these, the incidence's sum is above 1.
const SQUARE: OneHour = OneHour {
    site: Site {
        latitude: -8.067087,
        longitude: 8.26,
        timezone: 0,
        conversion_needed: false,
        tilt: 15.0,
        orientation: 180.0,
    },
    hour: 11,
    diffuse: 100.0,
    direct: 500.0,
    reflectivity: 0.2,
};

/// The sun overhead: with these, the altitude's sum is above 1.
const OVERHEAD: OneHour = OneHour {
    site: Site {
        latitude: -7.854071,
        longitude: 10.648195,
        ..SQUARE.site
    },
    hour: 1427,
    ..SQUARE
};

/// Those two, some others without diffuse, and each of them with the readings at the edges.
fn fixed_hours() -> Vec<OneHour> {
    let mut dark = SQUARE;
    dark.hour = 0;
    let mut behind = SQUARE; // the sun is up, behind the surface
    (behind.site.latitude, behind.site.tilt) = (51.5, 90.0);
    (behind.site.orientation, behind.hour) = (0.0, 4332);
    let readings = [
        0.0,
        -0.0,
        LEAST_SUBNORMAL,
        GREATEST_SUBNORMAL,
        100.0,
        10_000.0,
    ];
    let mut hours = vec![];
    for start in [SQUARE, OVERHEAD, dark, behind] {
        for n in 0..2 * readings.len() * readings.len() {
            let mut hour = start;
            hour.site.conversion_needed = n % 2 == 1;
            hour.diffuse = readings[n / 2 % readings.len()];
            hour.direct = readings[n / 2 / readings.len()];
            hours.push(hour);
        }
    }
    hours
}

/// The fixed hours, every hour of a leap year, then hours at random up to the count; of the last
/// two two thirds are aimed. `aimed` says of the hour just taken whether it was at the sun.
fn hours<'a>(
    random: &'a mut Random,
    aimed: &'a Cell<bool>,
    count: usize,
) -> impl Iterator<Item = [f64; 10]> + 'a {
    let each = DAYS * 24;
    let drawn = (0..count.max(each as usize) as u32).map(move |turn| {
        let hour = match turn < each {
            true => turn,
            false => random.below(each as usize) as u32,
        };
        let mut case = any_hour(random, hour);
        let aim = random.below(18);
        aimed.set(aim < 7);
        match aim {
            0..=6 => case.aim_squarely(random),
            7 => case.aim_from_behind(random),
            8 => case.sun_at_a_branch(random),
            9 => case.turn_of_the_hour_angle(random),
            10 => case.clearness_at_a_limit(random),
            11 => case.any_double(random),
            _ => {}
        }
        case
    });
    let all = fixed_hours().into_iter().chain(drawn);
    all.map(|case| case.doubles())
}

/// What has to be among the hours whose input is in range.
#[derive(Clone, Copy, Default)]
struct Met {
    sums: Sums,
    aimed: Aimed,
    minus_zero_direct: u64,
    converted: u64,
    night: u64,
    /// An input in range with a NaN in its answer: there should be none.
    nan: Option<[f64; 10]>,
}

impl Met {
    fn with(
        mut self,
        input: &[f64; 10],
        aimed: bool,
        (answer, beyond): (&ProbeHour, Beyond),
    ) -> Self {
        const RANGES: [(f64, f64); 10] = [
            (-90.0, 90.0),
            (-180.0, 180.0),
            (-13.0, 14.0),
            (0.0, 8783.0),
            (0.0, 1.0),
            (0.0, 180.0),
            (0.0, 360.0),
            (0.0, 10_000.0),
            (0.0, 10_000.0),
            (0.0, 1.0),
        ];
        let in_range = |(&x, (low, high)): (&f64, (f64, f64))| low <= x && x <= high;
        let in_range = input.iter().zip(RANGES).all(in_range);
        self.aimed.note(aimed && in_range, beyond);
        if !in_range {
            return self;
        }
        let ProbeHour {
            altitude, direct, ..
        } = *answer;
        self.sums.note(beyond);
        if answer.doubles().iter().any(|x| x.is_nan()) {
            self.nan.get_or_insert(*input);
        }
        self.minus_zero_direct += same(direct, -0.0) as u64;
        self.converted += (input[4] == 1.0) as u64;
        self.night += (altitude == 0.0) as u64;
        self
    }

    fn report(self, settings: &Settings) -> Outcome {
        if let Some(input) = self.nan {
            let input = all_shown(&input);
            return Err(format!("hour: NaN of an input in range\n  input  {input}"));
        }
        self.aimed.report(settings, "hour")?;
        self.sums.report(settings, "hour")?;
        let counts = [
            ("-0.0 direct", self.minus_zero_direct),
            ("conversion on", self.converted),
            ("night (altitude 0)", self.night),
        ];
        for (what, count) in counts {
            if count == 0 {
                return Err(format!("hour: no case had {what}"));
            }
            settings.detail(what, count);
        }
        Ok(())
    }
}

/// Whether a NaN in the answer of an input in range is told, for the self-test.
pub fn nan_is_told(settings: &Settings) -> bool {
    let input = SQUARE.doubles();
    let mut answer = hour_by(rust::hour, input);
    answer.diffuse = f64::NAN;
    let met = Met::default().with(&input, true, (&answer, Beyond::default()));
    matches!(met.report(settings), Err(words) if words.starts_with("hour: NaN"))
}

/// The answer of a function behind the C interface.
fn hour_by(function: HourCall, input: [f64; 10]) -> ProbeHour {
    let [latitude, longitude, zone, hour, conversion, tilt, orientation, d, b, r] = input;
    let (zone, hour, conversion) = (zone as i64, hour as u32, conversion as u64);
    unsafe {
        function(
            latitude,
            longitude,
            zone,
            hour,
            conversion,
            tilt,
            orientation,
            d,
            b,
            r,
        )
    }
}

/// The two known cases have a sum above 1 where they have to, and numbers all the same: all of the
/// beam falls on the glass, and the sun stands at 90 degrees.
fn known_hours() -> Outcome {
    for (known, what) in [(SQUARE, "incidence"), (OVERHEAD, "altitude")] {
        let (answer, beyond) = beyond_in(|| hour_by(rust::hour, known.doubles()));
        let whole = known.direct + answer.circumsolar;
        let holds = match what {
            "incidence" => beyond.arccosine_above && same(answer.direct, whole),
            _ => beyond.arcsine_above && same(answer.altitude, 90.0),
        };
        if !holds || answer.doubles().iter().any(|x| x.is_nan()) {
            return Err(format!("hour: the known case of the {what} is another one"));
        }
    }
    Ok(())
}

fn one_hours(settings: &Settings, rattle: &Probes) -> Outcome {
    known_hours()?;
    let (met, aimed) = (Cell::new(Met::default()), Cell::new(false));
    let mut random = settings.random("hour");
    let tally = compare(
        "hour",
        hours(&mut random, &aimed, settings.count / 5),
        |input| {
            let (answer, beyond) = beyond_in(|| hour_by(rust::hour, input));
            met.set(met.get().with(&input, aimed.get(), (&answer, beyond)));
            answer.doubles()
        },
        |input| hour_by(rattle.hour, input).doubles(),
    )
    .map_err(|words| {
        format!(
            "{words}\n  (input: latitude, longitude, timezone, hour, conversion, tilt, orientation, \
             diffuse, direct, reflectivity;\n  answer: altitude, azimuth, direct, diffuse, total, \
             sky, circumsolar, horizontal, ground)"
        )
    })?;
    settings.report("hour", With::Published, tally)?;
    met.get().report(settings)
}

// --- Whole years ---

/// The doubles as a list of bytes.
pub fn bytes_of(doubles: &[f64]) -> Vec<u8> {
    doubles.iter().flat_map(|x| x.to_le_bytes()).collect()
}

/// The results of a year by a function behind the C interface, and its count.
pub fn year_by(
    function: crate::probes::YearCall,
    site: &Site,
    [diffuse, direct, reflectivity]: [&[u8]; 3],
    results: &mut [u8],
) -> u64 {
    unsafe {
        function(
            site.latitude,
            site.longitude,
            site.timezone as i64,
            site.conversion_needed as u64,
            site.tilt,
            site.orientation,
            diffuse.as_ptr(),
            diffuse.len(),
            direct.as_ptr(),
            direct.len(),
            reflectivity.as_ptr(),
            reflectivity.len(),
            results.as_mut_ptr(),
            results.len(),
        )
    }
}

/// Two lists of a year's results, double by double.
pub fn compare_years(right: &[u8], got: &[u8]) -> Result<Tally, String> {
    let double = |bytes: &[u8]| f64::from_le_bytes(bytes.try_into().unwrap());
    let mut tally = Tally::default();
    for (place, (a, b)) in right.chunks_exact(8).zip(got.chunks_exact(8)).enumerate() {
        let (a, b) = (double(a), double(b));
        if !same(a, b) {
            return Err(format!(
                "year differs at hour {}, column {}\n  Rust   {}\n  Rattle {}",
                place / YEAR_COLUMNS,
                place % YEAR_COLUMNS,
                shown(a),
                shown(b),
            ));
        }
        tally.compared += 1;
        tally.both_nan += a.is_nan() as u64;
    }
    Ok(tally)
}

/// The three series of a year, as lists of bytes.
fn any_series(random: &mut Random) -> [Vec<u8>; 3] {
    let mut series =
        |usual| -> Vec<f64> { (0..YEAR).map(|_| any_reading(random, usual)).collect() };
    let (diffuse, direct) = (series(400.0), series(900.0));
    let reflectivity: Vec<f64> = (0..YEAR).map(|_| random.uniform(0.0, 1.0)).collect();
    [diffuse, direct, reflectivity].map(|doubles| bytes_of(&doubles))
}

fn site_shown(site: &Site) -> String {
    let Site {
        latitude,
        longitude,
        timezone,
        conversion_needed,
        tilt,
        orientation,
    } = *site;
    format!(
        "latitude {}, longitude {}, timezone {timezone}, conversion {conversion_needed}, tilt {}, \
         orientation {}",
        shown(latitude),
        shown(longitude),
        shown(tilt),
        shown(orientation),
    )
}

fn one_year(rattle: &Probes, site: &Site, lists: [&[u8]; 3]) -> Result<Tally, String> {
    let mut right = vec![0x55; YEAR * YEAR_COLUMNS * 8];
    let mut got = right.clone();
    year_by(rust::year, site, lists, &mut right);
    let count = year_by(rattle.year, site, lists, &mut got);
    if count != YEAR as u64 {
        return Err(format!("year gives {count} hours, not {YEAR}"));
    }
    compare_years(&right, &got).map_err(|words| format!("{words}\n  {}", site_shown(site)))
}

/// Any site, or one aimed at the sun of some hour.
fn site_of_a_year(random: &mut Random, aimed: bool) -> Site {
    let hour = random.below(YEAR) as u32;
    let mut case = any_hour(random, hour);
    if aimed {
        case.aim_squarely(random);
    }
    case.site
}

/// Years at random sites, every other aimed at the sun of some hour, by the published record of a
/// whole year. What a day decides is worked out once for all its hours there, and may be in Rattle:
/// it has to be the right day's.
fn years(settings: &Settings, rattle: &Probes) -> Outcome {
    let mut random = settings.random("year");
    let mut all = Tally::default();
    for turn in 0..(settings.count / 50_000).max(2) {
        let site = site_of_a_year(&mut random, turn % 2 == 1);
        let series = any_series(&mut random);
        let tally = one_year(rattle, &site, series.each_ref().map(|list| &list[..]))?;
        if tally.both_nan > 0 {
            let site = site_shown(&site);
            return Err(format!("year: NaN at a site in range\n  {site}"));
        }
        all.compared += tally.compared;
        all.both_nan += tally.both_nan;
    }
    settings.report("year", With::Published, all)
}

pub fn section(settings: &Settings, rattle: &Probes) -> Outcome {
    settings.heading("the sky and the irradiance on a surface: published Rust against Rattle");
    sky(settings, rattle)?;
    one_hours(settings, rattle)?;
    years(settings, rattle)
}
