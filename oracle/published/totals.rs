//! The totals of days and months that a run keeps, worked out from its rows once it is over: those of
//! each day and of each month are put together first, and then looked at.

use super::jobs::{watt_hours, JobSite, Step};
use crate::pilgartze::{MONTHS, ROW, TOTALS};

/// The months' lengths.
fn months(leap_year: u64) -> [usize; MONTHS] {
    let february = if leap_year == 1 { 29 } else { 28 };
    [31, february, 31, 30, 31, 30, 31, 31, 30, 31, 30, 31]
}

pub fn days_of(leap_year: u64) -> usize {
    months(leap_year).iter().sum()
}

/// The month, from 0, in which a day of the year is, from 0.
pub fn month_of(leap_year: u64, day: usize) -> usize {
    let mut gone = 0;
    let ends = months(leap_year).map(|days| {
        gone += days;
        gone
    });
    let month = ends.iter().position(|&end| day < end);
    month.expect("a day of the year")
}

/// "For each day of the year and then each month three words."
pub fn totals_needed(leap_year: u64) -> usize {
    8 * TOTALS * (days_of(leap_year) + MONTHS)
}

/// There is one NaN, and this is how it is written.
pub const NAN: u64 = 0x7FF8_0000_0000_0000;

/// What is kept of some rows: "the count of steps, the largest total (NaN skipped, of equals the latest;
/// NaN while there is none) and the sum of factor times direct" times step, "in step order".
fn record(rows: &[[f64; ROW]], step_hours: f64) -> [u64; TOTALS] {
    let totals = rows
        .iter()
        .map(|row| row[4])
        .filter(|total| !total.is_nan());
    // of equals the latest, −0.0 after 0.0 too
    let largest = totals.reduce(|largest, total| match largest > total {
        true => largest,
        false => total,
    });
    let each = rows.iter().map(|row| watt_hours(row, step_hours));
    let sum = each.fold(0.0, |sum, more| sum + more);
    let sum_bits = if sum.is_nan() { NAN } else { sum.to_bits() };
    [
        rows.len() as u64,
        largest.map_or(NAN, f64::to_bits),
        sum_bits,
    ]
}

/// Stores the totals of a run that passed the checks and has these rows. A step belongs whole to the
/// day in which it starts. Bytes behind the year's records are untouched.
pub fn keep_totals(
    site: &JobSite,
    step_hours: f64,
    rows: &[(Step, [f64; ROW])],
    totals: &mut [u8],
) {
    let days = days_of(site.leap_year);
    let mut kept = vec![vec![]; days + MONTHS];
    for (step, row) in rows {
        let day = step.day as usize;
        kept[day].push(*row);
        kept[days + month_of(site.leap_year, day)].push(*row);
    }
    let words = kept.iter().flat_map(|rows| record(rows, step_hours));
    for (place, word) in totals.chunks_exact_mut(8).zip(words) {
        place.copy_from_slice(&word.to_le_bytes());
    }
}
