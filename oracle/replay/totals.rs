//! Runs about the totals of days and months, most of which are kept with the totals that they leave.

use crate::jobs::cases::Maker;
use crate::jobs::edges::{fault, plain_jobs};
use crate::jobs::totals::{job_over, refused_later};
use crate::published::jobs::*;
use crate::published::totals::{days_of, totals_needed};
use crate::random::{ulps_from, Random};

/// A run, the number that it must have, and whether its totals are kept.
pub struct Kept {
    pub job: Job,
    pub number: u64,
    pub keeps: bool,
}

/// The midnights at the end of January and of 28 February, and at that of a leap day.
const JANUARY_31: f64 = 744.0;
const FEBRUARY_28: f64 = 1416.0;
const FEBRUARY_29: f64 = 1440.0;

/// Start, end and step in a year, and how many bytes of totals are lent.
type Run = (u64, Times, usize);

/// Runs that are accepted: across the end of February, at the end of the year, of no steps, and by
/// steps of 24 hours, of half an hour and of 0.3 hours.
fn accepted() -> Vec<Run> {
    let hours = |leap_year: u64| 24.0 * days_of(leap_year) as f64;
    let about = |midnight: f64, step: f64| [midnight - 12.0, midnight + 14.0, step];
    let passing = [FEBRUARY_28 - 0.25, FEBRUARY_28 + 1.0, 0.5];
    vec![
        (0, about(FEBRUARY_28, 1.0), 9048),
        (1, about(FEBRUARY_28, 1.0), 9072),
        (1, about(FEBRUARY_29, 0.5), 9080),
        (0, passing, 9072),
        (1, passing, 9073),
        (
            0,
            [ulps_from(FEBRUARY_28, -1), FEBRUARY_28 + 1.0, 0.25],
            9080,
        ),
        (0, about(JANUARY_31, 0.3), 9049),
        (0, [hours(0) - 26.0, hours(0), 1.0], 9072),
        (1, [hours(1) - 26.0, hours(1), 1.0], 9072),
        (0, [ulps_from(hours(0), -1), 10.0, 1.0], 9048),
        (1, [hours(1) - 12.0, hours(1), 24.0], 9072),
        (0, [FEBRUARY_28, FEBRUARY_28, 1.0], 9072),
        (1, [hours(1), hours(1), 24.0], 9072),
        (0, [0.0, hours(0), 24.0], 9048),
        (1, [12.0, hours(1), 24.0], 9072),
    ]
}

/// Runs that the totals alone have refused: they are too short for the year, with steps and with none.
fn too_short() -> Vec<Run> {
    let (hour, none) = ([12.0, 13.0, 1.0], [12.0, 12.0, 1.0]);
    vec![
        (0, hour, 9047),
        (1, hour, 9071),
        (1, hour, 9048),
        (0, none, 9047),
        (1, none, 0),
    ]
}

/// The run with so many bytes of totals. The weather of a run by days is by days too.
fn run(maker: &mut Maker, plain: &Job, (leap_year, times, lent): Run) -> Job {
    let mut job = job_over(maker, plain, leap_year, times);
    if times[2] == 24.0 {
        job.site.series_step = 24.0;
        maker.fit(&mut job);
    }
    job.totals.resize(lent, 0);
    job
}

/// One fault each, from 1 to 7, in both years by turns; then totals that are too short beside another
/// fault, which comes first or, of 8, does not.
fn faults(maker: &mut Maker) -> Vec<Kept> {
    let plain = plain_jobs(maker);
    let mut kept = vec![];
    for number in 1..=7 {
        let variant = number as usize % 2;
        let mut job = plain[variant].clone();
        job.totals.resize(totals_needed(1), 0);
        fault(&mut job, number, variant);
        kept.push(Kept {
            job,
            number: number.into(),
            keeps: true,
        });
    }
    for (other, number) in [(4, 4), (5, 5), (6, 6), (8, 7)] {
        let variant = other as usize % 2;
        let mut job = plain[variant].clone();
        fault(&mut job, other, variant);
        job.totals.resize(totals_needed(job.site.leap_year) - 1, 0);
        kept.push(Kept {
            job,
            number,
            keeps: false,
        });
    }
    kept
}

pub fn kept() -> Vec<Kept> {
    let mut maker = Maker::new(Random::new(1, "replayed totals"));
    let plain = plain_jobs(&mut maker).swap_remove(0);
    let mut jobs: Vec<(Job, u64)> = vec![];
    jobs.extend(
        accepted()
            .into_iter()
            .map(|each| (run(&mut maker, &plain, each), 0)),
    );
    jobs.extend(
        too_short()
            .into_iter()
            .map(|each| (run(&mut maker, &plain, each), 7)),
    );
    for (leap_year, midnight) in [(0, JANUARY_31), (1, FEBRUARY_29)] {
        // by steps of an hour, 8 to 11
        let later = refused_later(&mut maker, &plain, leap_year, midnight);
        jobs.extend(later.into_iter().take(4).zip(8..));
    }
    let mut kept: Vec<Kept> = jobs
        .into_iter()
        .map(|(job, number)| Kept {
            job,
            number,
            keeps: true,
        })
        .collect();
    kept.extend(faults(&mut maker));
    kept
}
