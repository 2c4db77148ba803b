//! The table of days that a run fills, by the published functions of a day.

use super::*;
use crate::pilgartze::{bytes_of, doubles_of, DAY, DAYS, DAYS_LENGTH};

/// Declination, equation of time, extra-terrestrial radiation.
pub type DayValues = [f64; DAY];

/// Those of a day of the year, the first of which is 0.
pub fn day_values(day: u32) -> DayValues {
    let deviation = init_earth_orbit_deviation(day);
    [
        init_solar_declination(deviation),
        init_equation_of_time(day),
        init_extra_terrestrial_radiation(deviation),
    ]
}

/// The table: "366 records of three doubles, day 1 first, all 366 in either year".
pub fn day_table() -> &'static [u8] {
    static TABLE: OnceLock<Vec<u8>> = OnceLock::new();
    TABLE.get_or_init(|| {
        let days = 0..DAYS as u32;
        days.flat_map(|day| bytes_of(&day_values(day))).collect()
    })
}

/// The values of a day in a table that is lent.
pub fn day_in(table: &[u8], day: u32) -> DayValues {
    let at = 8 * DAY * day as usize;
    let doubles = doubles_of(&table[at..at + 8 * DAY]);
    doubles.try_into().expect("three doubles")
}

/// "Where the run is not refused 14, 15 or 1 to 7 all of the table is stored, before the first step;
/// bytes past it are untouched."
pub fn fill_days(table: &mut [u8]) {
    table[..DAYS_LENGTH].copy_from_slice(day_table());
}
