//! Leaf days, and the season of a day: a plain form of the specification's paragraph, written apart from
//! the project's code. The days of the summer are listed, and a day is looked for among them.

use super::jobs::JobSite;

/// "The first and last leaf day, 0 to 365."
const LAST_DAY: u64 = 365;

/// "Refused: 15 leaf day, either day not 0 to 365."
pub const WRONG_LEAF_DAY: u64 = 15;

pub fn leaf_days_fine(site: &JobSite) -> bool {
    let days = [site.first_leaf_day, site.last_leaf_day];
    days.iter().all(|day| (0..=LAST_DAY).contains(day))
}

/// "If first is not above last, summer is from first to last inclusive; otherwise it is the days from
/// first on and those up to and including last, counted from 0."
fn summer_days(first: u64, last: u64) -> Vec<u64> {
    match first > last {
        false => (first..=last).collect(),
        true => (first..=LAST_DAY).chain(0..=last).collect(),
    }
}

/// Whether each day of the year is one of the summer; the leaf days are fine.
#[derive(Clone)]
pub struct Seasons {
    summer: [bool; LAST_DAY as usize + 1],
}

impl Seasons {
    pub fn of(site: &JobSite) -> Self {
        let mut summer = [false; LAST_DAY as usize + 1];
        for day in summer_days(site.first_leaf_day, site.last_leaf_day) {
            summer[day as usize] = true;
        }
        Seasons { summer }
    }

    /// A day of the year, from 0.
    pub fn is_summer(&self, day: u32) -> bool {
        self.summer[day as usize]
    }
}
