//! The comparison of jobs tried on itself: the plain engine must pass, and each wrong one must be
//! found. The library is not called.

use super::wrong::{By, Wrong};
use super::{must_be_numbers, section, wrong, Fixed, Plan};
use crate::comparison::{Outcome, Settings};
use crate::published::jobs::{steps_of, JobSite};
use crate::published::totals::{keep_totals, totals_needed, NAN};
use crate::shading::laws::LAWS;
use crate::shading::sizes::SIZE_LAWS;

/// Random jobs for each engine.
const JOBS: usize = 3_000;

fn found(settings: &Settings, plan: Plan, wrong: &Wrong) -> Result<(), String> {
    let Wrong { told, what, .. } = wrong;
    match section(settings, &wrong.library, plan) {
        Ok(()) => Err(format!("self-test: {what} was not found")),
        Err(words) if words.starts_with(&format!("{told} ")) => Ok(()),
        Err(words) => Err(format!(
            "self-test: {what} was found in the wrong place: {words}"
        )),
    }
}

const SITE: JobSite = JobSite {
    latitude: 0.0,
    longitude: 0.0,
    timezone: 0,
    start_day: 0,
    series_step: 1.0,
    leap_year: 0,
    direct_beam_conversion: 0,
    first_leaf_day: 0,
    last_leaf_day: 0,
};

/// The specification's counts of steps.
fn step_counts() -> Outcome {
    let counts = [
        ([0.0, 3.0, 1.0], 3),
        ([0.0, 3.0, 0.3], 11),
        ([5.0, 5.0, 1.0], 0),
        ([5.0, 3.0, 1.0], 1),
    ];
    for (times, count) in counts {
        if steps_of(&SITE, &times).len() != count {
            return Err(format!("self-test: {times:?} must have {count} steps"));
        }
    }
    Ok(())
}

/// The judge's totals of three rows, from the last hour of 28 February on: by the text a NaN is skipped
/// and of equals the latest is the largest, so −0.0 after 0.0, which no run is known to have.
fn known_totals() -> Outcome {
    let times = [1415.0, 1418.0, 1.0];
    let rows = [
        [0.0, 0.0, 4.0, 0.0, 0.0, 0.5],
        [0.0, 0.0, 8.0, 0.0, -0.0, 1.0],
        [0.0, 0.0, 6.0, 0.0, f64::NAN, 0.25],
    ];
    let (zero, minus_zero) = (0.0f64.to_bits(), (-0.0f64).to_bits());
    let of = |count: u64, largest: u64, sum: f64| [count, largest, sum.to_bits()];
    let (first, others) = (of(1, zero, 1.0), of(2, minus_zero, 4.75));
    let (none, february) = (of(0, NAN, 0.0), of(3, minus_zero, 5.75));
    let years = [
        (0, [(58, first), (59, others), (366, first), (367, others)]),
        (1, [(58, first), (59, others), (367, february), (368, none)]),
    ];
    for (leap_year, known) in years {
        let site = JobSite { leap_year, ..SITE };
        let rows: Vec<_> = steps_of(&site, &times).into_iter().zip(rows).collect();
        let mut totals = vec![0xA5; totals_needed(leap_year) + 1];
        keep_totals(&site, 0.5, &rows, &mut totals);
        let mut right = vec![none; totals_needed(leap_year) / 24];
        for (place, record) in known {
            right[place] = record;
        }
        let mut right: Vec<u8> = right
            .concat()
            .iter()
            .flat_map(|w| w.to_le_bytes())
            .collect();
        right.push(0xA5);
        if totals != right {
            return Err(format!("self-test: other totals, leap year {leap_year}"));
        }
    }
    Ok(())
}

/// A NaN in an accepted row is told.
fn nan_is_told() -> Outcome {
    let words = || String::from("a row");
    let (numbers, nan) = ([1.0, -0.0, f64::INFINITY], [1.0, f64::NAN]);
    let told = must_be_numbers("run", &nan, words).is_err();
    match told && must_be_numbers("run", &numbers, words).is_ok() {
        true => Ok(()),
        false => Err(String::from("self-test: a NaN in a row was not told")),
    }
}

/// The plan with these jobs and no others.
fn alone<'a>(plan: Plan<'a>, fixed: &'a Fixed) -> Plan<'a> {
    Plan {
        fixed,
        jobs: 0,
        years: 0,
        aimed: 0,
        ..plan
    }
}

/// The plain engine passes with all laws, and a comparison of nothing is an error.
fn plain_engine(settings: &Settings, plan: Plan) -> Outcome {
    let right = wrong::without_flaw();
    let with_laws = Plan {
        laws: &LAWS,
        sizes: &SIZE_LAWS,
        by_the_hour: true,
        leaf_days: true,
        ..plan
    };
    section(settings, &right, with_laws)
        .map_err(|words| format!("self-test, the plain engine: {words}"))?;
    let nothing = Fixed::default();
    match section(settings, &right, alone(plan, &nothing)) {
        Ok(()) => Err(String::from(
            "self-test: a comparison of nothing must be an error",
        )),
        Err(_) => Ok(()),
    }
}

/// The plan of the random jobs and no others.
fn random_alone<'a>(plan: Plan<'a>, nothing: &'a Fixed) -> Plan<'a> {
    Plan {
        fixed: nothing,
        years: 0,
        ..plan
    }
}

/// How many wrong engines there are, all of which are found.
fn engines_found(settings: &Settings, plan: Plan) -> Result<usize, String> {
    let (days, sums, totals) = (Fixed::days(), Fixed::sums(), Fixed::totals());
    let (editions, seasons) = (Fixed::editions(), Fixed::seasons());
    let nothing = Fixed::default();
    let mut count = 0;
    for engine in &wrong::engines() {
        let plans = match engine.by {
            By::All => vec![plan],
            By::Days => vec![alone(plan, &days)],
            By::Sums => vec![alone(plan, &sums), random_alone(plan, &nothing)],
            By::Editions => vec![alone(plan, &editions), random_alone(plan, &nothing)],
            By::Totals => vec![alone(plan, &totals)],
            By::TotalsAndRandom => vec![alone(plan, &totals), random_alone(plan, &nothing)],
            By::Seasons => vec![alone(plan, &seasons), random_alone(plan, &nothing)],
        };
        for plan in plans {
            found(settings, plan, engine)?;
        }
        count += 1;
    }
    Ok(count)
}

/// The same of those that break a law, the figures of runs by the hour, or what equal lists come to,
/// each of which is tried alone.
fn lawless_found(settings: &Settings, plan: Plan) -> Result<usize, String> {
    let plan = Plan {
        compared: false,
        years: 0,
        ..plan
    };
    let mut count = 0;
    for law in LAWS {
        let laws = &[law];
        for engine in &wrong::lawless_engines(law) {
            found(settings, Plan { laws, ..plan }, engine)?;
            count += 1;
        }
    }
    let figures = Plan {
        by_the_hour: true,
        ..plan
    };
    for engine in &wrong::other_figures() {
        found(settings, figures, engine)?;
        count += 1;
    }
    let leaf_days = Plan {
        leaf_days: true,
        ..plan
    };
    for engine in &wrong::by_leaf_days() {
        found(settings, leaf_days, engine)?;
        count += 1;
    }
    Ok(count)
}

/// The same of those that break a law about sizes, on the random jobs alone.
fn sizes_found(settings: &Settings, plan: Plan) -> Result<usize, String> {
    let nothing = Fixed::default();
    let plan = Plan {
        compared: false,
        ..random_alone(plan, &nothing)
    };
    let all = Plan {
        sizes: &SIZE_LAWS,
        ..plan
    };
    let mut count = 0;
    for engine in &wrong::sizes_not_looked_at() {
        found(settings, all, engine)?;
        count += 1;
    }
    for law in SIZE_LAWS {
        let sizes = &[law];
        for engine in &wrong::lawless_sizes(law) {
            found(settings, Plan { sizes, ..plan }, engine)?;
            count += 1;
        }
    }
    Ok(count)
}

pub fn run(seed: u64) -> Outcome {
    let settings = Settings {
        seed,
        count: JOBS,
        print: false,
    };
    let fixed = Fixed::all();
    let plan = Plan {
        fixed: &fixed,
        jobs: JOBS,
        years: 1,
        aimed: Plan::aimed_for(&fixed, 1),
        compared: true,
        laws: &[],
        sizes: &[],
        by_the_hour: false,
        leaf_days: false,
    };
    step_counts()?;
    known_totals()?;
    nan_is_told()?;
    plain_engine(&settings, plan)?;
    let count = engines_found(&settings, plan)? + lawless_found(&settings, plan)?;
    let count = count + sizes_found(&settings, plan)?;
    println!("self-test: {count} wrong engines found");
    Ok(())
}
