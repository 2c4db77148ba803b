//! The library `pilgartze` called from Rust: structs of numbers, lists as slices, `Result`s.
//!
//! This file needs nothing but the archive. A program has it as a module and is built with
//!
//!     rustc --edition 2021 -O -L target/staticlib -l static=pilgartze PROGRAM.rs
//!
//! `examples/from_rust.rs` is such a program. `include/pilgartze.h` says what each field is and what
//! range it has, `docs/FORMATS.md` draws the lists. Nothing has to be checked before a call: what is
//! out of range is refused, and only the results and a run's table of days and totals are written to.

use std::fmt;

// --- What goes in ---

/// Where the surface stands, and how the series are to be read.
#[derive(Clone, Copy, Debug, PartialEq)]
pub struct Site {
    pub latitude: f64,
    pub longitude: f64,
    pub timezone: i64,
    pub start_day: u64,
    pub series_step: f64,
    /// 0 or 1, and so is the next.
    pub leap_year: u64,
    pub direct_beam_conversion: u64,
    /// Days of the year, from 0, each 0..365. With the first above the last the summer goes on from it
    /// to the end of the year, and from the year's first day to the last.
    pub first_leaf_day: u64,
    pub last_leaf_day: u64,
}

/// The steps of a run, in hours from the start of the year.
#[derive(Clone, Copy, Debug, PartialEq)]
pub struct RunTimes {
    pub start: f64,
    pub end: f64,
    pub step: f64,
}

#[derive(Clone, Copy, Debug, PartialEq)]
pub struct Surface {
    pub tilt: f64,
    pub orientation: f64,
    pub base_height: f64,
    pub height: f64,
    pub width: f64,
}

/// The most strips that tall glazing can be cut into.
pub const MOST_STRIPS: usize = 12;

/// Tall glazing, such as a stair window, cut into strips from side to side. The first stands on the base
/// height, each later one on the strip below.
#[derive(Clone, Copy, Debug)]
pub struct TallGlazing<'a> {
    pub tilt: f64,
    pub orientation: f64,
    pub base_height: f64,
    pub width: f64,
    /// Of 1 to `MOST_STRIPS` strips, the lowest first: a list of doubles (`bytes_of`).
    pub heights: &'a [u8],
}

/// The weather series, each a list of doubles (`bytes_of`).
#[derive(Clone, Copy, Debug)]
pub struct Weather<'a> {
    pub diffuse: &'a [u8],
    pub direct: &'a [u8],
    pub reflectivity: &'a [u8],
}

/// One value of each series, for a single step.
#[derive(Clone, Copy, Debug, PartialEq)]
pub struct Reading {
    pub diffuse: f64,
    pub direct: f64,
    pub reflectivity: f64,
}

/// Editions of the rule for fins: as the published Rust has it, for quotes that were made with it, and
/// by which fins of both sides shade. Take the second.
pub const EDITION_1: u64 = 1;
pub const EDITION_2: u64 = 2;

/// All that may shade the surface, and by which edition: records of 216 bytes (`sector`), those of the
/// days with leaves and those of the others, and of 32 (`window_object`).
#[derive(Clone, Copy, Debug)]
pub struct Shading<'a> {
    pub edition: u64,
    pub summer: &'a [u8],
    pub winter: &'a [u8],
    pub window: &'a [u8],
}

impl<'a> Shading<'a> {
    /// With the same sectors all the year; the leaf days do not matter then.
    pub fn all_year(edition: u64, sectors: &'a [u8], window: &'a [u8]) -> Self {
        Shading {
            edition,
            summer: sectors,
            winter: sectors,
            window,
        }
    }
}

// --- Lists ---

/// Doubles, eight bytes each, least byte first.
pub fn bytes_of(doubles: &[f64]) -> Vec<u8> {
    doubles.iter().flat_map(|x| x.to_le_bytes()).collect()
}

/// The doubles of such a list; a part of one at the end counts for nothing.
pub fn doubles_of(bytes: &[u8]) -> Vec<f64> {
    let double = |word: &[u8]| f64::from_le_bytes(word.try_into().expect("eight bytes"));
    bytes.chunks_exact(8).map(double).collect()
}

fn record<const BYTES: usize>(words: &[u64]) -> [u8; BYTES] {
    let mut record = [0; BYTES];
    for (place, word) in record.chunks_exact_mut(8).zip(words) {
        place.copy_from_slice(&word.to_le_bytes());
    }
    record
}

/// What stands in a sector: its kind (0 an obstacle, 1 an overhang), its height, its distance.
pub type DistantObject = (u64, f64, f64);

/// A sector with up to eight objects. With more its count is refused, as any other wrong count.
pub fn sector(start: f64, end: f64, objects: &[DistantObject]) -> [u8; 216] {
    let mut words = vec![start.to_bits(), end.to_bits(), objects.len() as u64];
    for &(kind, height, distance) in objects {
        words.extend([kind, height.to_bits(), distance.to_bits()]);
    }
    record(&words)
}

/// An object at the window, by its kind (0 an obstacle, 1 an overhang, 2 a right and 3 a left fin, 4
/// a reveal), its height or depth, its distance, and an obstacle's transparency (else 0.0).
pub fn window_object(kind: u64, size: f64, distance: f64, transparency: f64) -> [u8; 32] {
    let [size, distance, transparency] = [size, distance, transparency].map(f64::to_bits);
    record(&[kind, size, distance, transparency])
}

// --- What comes out ---

/// The doubles of a run's row: altitude, azimuth, direct, diffuse, total, factor.
pub const ROW: usize = 6;
/// Those that `irradiance` stores: the first five, then sky, circumsolar, horizontal, ground.
pub const IRRADIANCE_ROW: usize = 9;

/// The doubles of a day: declination, equation of time, extra-terrestrial radiation.
pub const DAY: usize = 3;
/// The days of the table that a run fills, in either year; the first is 1 January.
pub const DAYS: usize = 366;
/// The table's bytes.
pub const DAYS_LENGTH: usize = 8 * DAY * DAYS;

/// The words of one day's or one month's totals: the count of its steps, the largest total, the sum.
pub const TOTALS: usize = 3;
pub const MONTHS: usize = 12;

/// How many days a year has; leap year is 0 or 1, as in the site.
pub const fn days_in_year(leap_year: u64) -> usize {
    match leap_year {
        0 => 365,
        _ => 366,
    }
}

/// The bytes of a year's totals: those of its days, 1 January first, and right behind them those of
/// its months.
pub const fn totals_length(leap_year: u64) -> usize {
    8 * TOTALS * (days_in_year(leap_year) + MONTHS)
}

/// What a run keeps of the steps that start in one day or in one month.
#[derive(Clone, Copy, Debug, PartialEq)]
pub struct Totals {
    pub count: u64,
    /// Of the rows' totals; NaN where there is no step.
    pub largest: f64,
    /// Of factor times direct times the run's step in hours: Wh/m².
    pub sum: f64,
}

/// The totals in such a list, one behind the other; a part of one at the end counts for nothing.
pub fn totals_of(bytes: &[u8]) -> Vec<Totals> {
    let word = |bytes: &[u8]| u64::from_le_bytes(bytes.try_into().expect("eight bytes"));
    let each = bytes.chunks_exact(8 * TOTALS);
    each.map(|record| Totals {
        count: word(&record[..8]),
        largest: f64::from_bits(word(&record[8..16])),
        sum: f64::from_bits(word(&record[16..])),
    })
    .collect()
}

/// Why a call is turned down, by the specification's numbers.
#[derive(Clone, Copy, Debug, PartialEq, Eq)]
#[repr(u64)]
pub enum Refusal {
    Site = 1,
    Run = 2,
    Surface = 3,
    Object = 4,
    Series = 5,
    Reading = 6,
    Results = 7,
    Gap = 8,
    Turned = 9,
    NoSector = 10,
    Reveal = 11,
    Edition = 14,
    LeafDay = 15,
}

impl Refusal {
    const ALL: [Refusal; 13] = [
        Refusal::Site,
        Refusal::Run,
        Refusal::Surface,
        Refusal::Object,
        Refusal::Series,
        Refusal::Reading,
        Refusal::Results,
        Refusal::Gap,
        Refusal::Turned,
        Refusal::NoSector,
        Refusal::Reveal,
        Refusal::Edition,
        Refusal::LeafDay,
    ];

    /// None for 0, an accepted call. The library gives no other numbers than these.
    pub fn of(number: u64) -> Option<Refusal> {
        let known = |refusal: &Refusal| *refusal as u64 == number;
        let refusal = || Refusal::ALL.into_iter().find(known);
        (number != 0).then(|| refusal().expect("a number of the library's"))
    }
}

impl fmt::Display for Refusal {
    fn fmt(&self, to: &mut fmt::Formatter) -> fmt::Result {
        write!(to, "refused by {}: {self:?}", *self as u64)
    }
}

impl std::error::Error for Refusal {}

/// A run that is accepted: its rows are in the results.
#[derive(Clone, Copy, Debug, PartialEq)]
pub struct Accepted {
    pub count: usize,
    /// Of factor times direct times the run's step in hours, over all steps: Wh/m².
    pub sum: f64,
}

/// A run that is refused at a step, from 0; the rows of the steps before it are in the results, and
/// the totals are theirs.
#[derive(Clone, Copy, Debug, PartialEq, Eq)]
pub struct Refused {
    pub refusal: Refusal,
    pub step: usize,
}

/// A run's answer as the library gives it; number 0 is accepted.
#[repr(C)]
#[derive(Clone, Copy, Debug)]
pub struct Answer {
    pub number: u64,
    pub step: u64,
    pub count: u64,
    pub sum: f64,
}

impl Answer {
    pub fn result(self) -> Result<Accepted, Refused> {
        let step = self.step as usize;
        match Refusal::of(self.number) {
            Some(refusal) => Err(Refused { refusal, step }),
            None => Ok(Accepted {
                count: self.count as usize,
                sum: self.sum,
            }),
        }
    }
}

/// A factor's answer, of a surface or of strips, as the library gives it; number 0 is accepted.
#[repr(C)]
#[derive(Clone, Copy, Debug)]
pub struct FactorAnswer {
    pub number: u64,
    pub factor: f64,
}

impl FactorAnswer {
    pub fn result(self) -> Result<f64, Refusal> {
        Refusal::of(self.number).map_or(Ok(self.factor), Err)
    }
}

// --- The calls ---

/// All steps of a run, a row for each in the results. Days is room for the table of days, of
/// `DAYS_LENGTH` bytes or more, and totals for those of the year's days and months, of
/// `totals_length` or more; what was in them does not matter.
pub fn run(
    site: &Site,
    times: &RunTimes,
    surface: &Surface,
    weather: Weather,
    shading: Shading,
    days: &mut [u8],
    totals: &mut [u8],
    results: &mut [u8],
) -> Result<Accepted, Refused> {
    unsafe {
        run_by(
            pilgartze_run,
            site,
            times,
            surface,
            weather,
            shading,
            days,
            totals,
            results,
        )
    }
    .result()
}

/// One step: the row that a run has at that time.
pub fn step(
    site: &Site,
    time: f64,
    surface: &Surface,
    reading: &Reading,
    shading: Shading,
    results: &mut [u8],
) -> Result<(), Refusal> {
    let number = unsafe {
        step_by(
            pilgartze_step,
            site,
            time,
            surface,
            reading,
            shading,
            results,
        )
    };
    Refusal::of(number).map_or(Ok(()), Err)
}

/// The sun and the irradiance of one step with its breakdown, without shade.
pub fn irradiance(
    site: &Site,
    time: f64,
    surface: &Surface,
    reading: &Reading,
    results: &mut [u8],
) -> Result<(), Refusal> {
    let call = pilgartze_irradiance;
    let number = unsafe { irradiance_by(call, site, time, surface, reading, results) };
    Refusal::of(number).map_or(Ok(()), Err)
}

/// The direct shading factor for a given sun. It has no day: the sectors are those of the season that is
/// meant.
pub fn factor(
    edition: u64,
    altitude: f64,
    azimuth: f64,
    surface: &Surface,
    sectors: &[u8],
    window: &[u8],
) -> Result<f64, Refusal> {
    let (call, sun) = (pilgartze_factor, [altitude, azimuth]);
    unsafe { factor_by(call, edition, sun, surface, sectors, window) }.result()
}

/// The factor of tall glazing in strips: that of each strip as a surface of its own, weighted by its
/// height. Each strip has the overhangs at the window right above itself.
pub fn strips(
    edition: u64,
    altitude: f64,
    azimuth: f64,
    glazing: &TallGlazing,
    sectors: &[u8],
    window: &[u8],
) -> Result<f64, Refusal> {
    let (call, sun) = (pilgartze_strips, [altitude, azimuth]);
    unsafe { strips_by(call, edition, sun, glazing, sectors, window) }.result()
}

/// The library's version: 1.2.3 is 1002003.
pub fn version() -> u64 {
    unsafe { pilgartze_version() }
}

// --- The functions of the archive ---

/// Functions of the archive, and for each the type of a function that could stand in its place.
macro_rules! functions {
    ($(fn $name:ident($($argument:ident: $type:ty),* $(,)?) -> $answer:ty as $call:ident;)*) => {
        extern "C" {
            $(fn $name($($argument: $type),*) -> $answer;)*
        }
        $(pub type $call = unsafe extern "C" fn($($argument: $type),*) -> $answer;)*
    };
}

functions! {
    fn pilgartze_version() -> u64 as VersionCall;
    fn pilgartze_run(
        edition: u64, latitude: f64, longitude: f64, timezone: i64, start_day: u64, series_step: f64,
        leap_year: u64, direct_beam_conversion: u64, first_leaf_day: u64, last_leaf_day: u64,
        start: f64, end: f64, step: f64, tilt: f64, orientation: f64, base_height: f64, height: f64,
        width: f64, diffuse: *const u8, diffuse_length: usize, direct: *const u8,
        direct_length: usize, reflectivity: *const u8, reflectivity_length: usize,
        summer: *const u8, summer_length: usize, winter: *const u8, winter_length: usize,
        window: *const u8, window_length: usize, days: *mut u8, days_length: usize, totals: *mut u8,
        totals_length: usize, results: *mut u8, results_length: usize,
    ) -> Answer as RunCall;
    fn pilgartze_step(
        edition: u64, latitude: f64, longitude: f64, timezone: i64, start_day: u64, series_step: f64,
        leap_year: u64, direct_beam_conversion: u64, first_leaf_day: u64, last_leaf_day: u64,
        time: f64, tilt: f64, orientation: f64, base_height: f64, height: f64, width: f64,
        diffuse: f64, direct: f64, reflectivity: f64, summer: *const u8, summer_length: usize,
        winter: *const u8, winter_length: usize, window: *const u8, window_length: usize,
        results: *mut u8, results_length: usize,
    ) -> u64 as StepCall;
    fn pilgartze_irradiance(
        latitude: f64, longitude: f64, timezone: i64, start_day: u64, series_step: f64,
        leap_year: u64, direct_beam_conversion: u64, first_leaf_day: u64, last_leaf_day: u64,
        time: f64, tilt: f64, orientation: f64, base_height: f64, height: f64, width: f64,
        diffuse: f64, direct: f64, reflectivity: f64, results: *mut u8, results_length: usize,
    ) -> u64 as IrradianceCall;
    fn pilgartze_factor(
        edition: u64, altitude: f64, azimuth: f64, tilt: f64, orientation: f64, base_height: f64,
        height: f64, width: f64, sectors: *const u8, sectors_length: usize, window: *const u8,
        window_length: usize,
    ) -> FactorAnswer as FactorCall;
    fn pilgartze_strips(
        edition: u64, altitude: f64, azimuth: f64, tilt: f64, orientation: f64, base_height: f64,
        width: f64, heights: *const u8, heights_length: usize, sectors: *const u8,
        sectors_length: usize, window: *const u8, window_length: usize,
    ) -> FactorAnswer as StripsCall;
}

/// The archive's functions, for what calls them by the five that follow.
pub const RUN: RunCall = pilgartze_run;
pub const STEP: StepCall = pilgartze_step;
pub const IRRADIANCE: IrradianceCall = pilgartze_irradiance;
pub const FACTOR: FactorCall = pilgartze_factor;
pub const STRIPS: StripsCall = pilgartze_strips;

// The same calls by a function in the place of the archive's own; the comparison has such functions.
// Each must read and write nothing but the lists that it is lent, and write to the table of days, the
// totals and the results alone.

pub unsafe fn run_by(
    call: RunCall,
    site: &Site,
    times: &RunTimes,
    surface: &Surface,
    weather: Weather,
    shading: Shading,
    days: &mut [u8],
    totals: &mut [u8],
    results: &mut [u8],
) -> Answer {
    #[rustfmt::skip] // a line for each struct or list
    let answer = call(
        shading.edition,
        site.latitude, site.longitude, site.timezone, site.start_day, site.series_step,
        site.leap_year, site.direct_beam_conversion, site.first_leaf_day, site.last_leaf_day,
        times.start, times.end, times.step,
        surface.tilt, surface.orientation, surface.base_height, surface.height, surface.width,
        weather.diffuse.as_ptr(), weather.diffuse.len(),
        weather.direct.as_ptr(), weather.direct.len(),
        weather.reflectivity.as_ptr(), weather.reflectivity.len(),
        shading.summer.as_ptr(), shading.summer.len(),
        shading.winter.as_ptr(), shading.winter.len(),
        shading.window.as_ptr(), shading.window.len(),
        days.as_mut_ptr(), days.len(),
        totals.as_mut_ptr(), totals.len(),
        results.as_mut_ptr(), results.len(),
    );
    answer
}

pub unsafe fn step_by(
    call: StepCall,
    site: &Site,
    time: f64,
    surface: &Surface,
    reading: &Reading,
    shading: Shading,
    results: &mut [u8],
) -> u64 {
    call(
        shading.edition,
        site.latitude,
        site.longitude,
        site.timezone,
        site.start_day,
        site.series_step,
        site.leap_year,
        site.direct_beam_conversion,
        site.first_leaf_day,
        site.last_leaf_day,
        time,
        surface.tilt,
        surface.orientation,
        surface.base_height,
        surface.height,
        surface.width,
        reading.diffuse,
        reading.direct,
        reading.reflectivity,
        shading.summer.as_ptr(),
        shading.summer.len(),
        shading.winter.as_ptr(),
        shading.winter.len(),
        shading.window.as_ptr(),
        shading.window.len(),
        results.as_mut_ptr(),
        results.len(),
    )
}

pub unsafe fn irradiance_by(
    call: IrradianceCall,
    site: &Site,
    time: f64,
    surface: &Surface,
    reading: &Reading,
    results: &mut [u8],
) -> u64 {
    call(
        site.latitude,
        site.longitude,
        site.timezone,
        site.start_day,
        site.series_step,
        site.leap_year,
        site.direct_beam_conversion,
        site.first_leaf_day,
        site.last_leaf_day,
        time,
        surface.tilt,
        surface.orientation,
        surface.base_height,
        surface.height,
        surface.width,
        reading.diffuse,
        reading.direct,
        reading.reflectivity,
        results.as_mut_ptr(),
        results.len(),
    )
}

/// The sun is its altitude and azimuth.
pub unsafe fn factor_by(
    call: FactorCall,
    edition: u64,
    [altitude, azimuth]: [f64; 2],
    surface: &Surface,
    sectors: &[u8],
    window: &[u8],
) -> FactorAnswer {
    call(
        edition,
        altitude,
        azimuth,
        surface.tilt,
        surface.orientation,
        surface.base_height,
        surface.height,
        surface.width,
        sectors.as_ptr(),
        sectors.len(),
        window.as_ptr(),
        window.len(),
    )
}

/// The sun is its altitude and azimuth.
pub unsafe fn strips_by(
    call: StripsCall,
    edition: u64,
    [altitude, azimuth]: [f64; 2],
    glazing: &TallGlazing,
    sectors: &[u8],
    window: &[u8],
) -> FactorAnswer {
    call(
        edition,
        altitude,
        azimuth,
        glazing.tilt,
        glazing.orientation,
        glazing.base_height,
        glazing.width,
        glazing.heights.as_ptr(),
        glazing.heights.len(),
        sectors.as_ptr(),
        sectors.len(),
        window.as_ptr(),
        window.len(),
    )
}
