//! Runs about leaf days and seasons: about the midnights at which a summer begins or ends, with sectors
//! that are refused, or not met, in one season, with a list in one season that is not as it should be,
//! random ones with two lists, and leaf days that are none, each with other faults too.

use crate::comparison::Settings;
use crate::jobs::cases::Maker;
use crate::jobs::edges::plain_jobs;
use crate::jobs::seasons::{self, LEAF_DAYS};
use crate::published::jobs::*;
use crate::published::seasons::{Seasons, WRONG_LEAF_DAY};
use crate::random::Random;
use crate::shading::editions::EDITIONS;

/// Whether a run has other results with its lists exchanged: what its steps walk along can be told.
fn told_apart(judge: &mut Judge, job: &Job) -> bool {
    let exchanged = Job {
        summer: job.winter.clone(),
        winter: job.summer.clone(),
        ..job.clone()
    };
    let (left, other) = (judge.run_on_copies(job), judge.run_on_copies(&exchanged));
    left.answer.number != other.answer.number || left.results != other.results
}

/// Whether the steps of a run are of both seasons.
fn has_both(job: &Job) -> bool {
    let seasons = Seasons::of(&job.site);
    let steps = steps_of(&job.site, &job.times);
    let summers = steps.iter().filter(|step| seasons.is_summer(step.day));
    !steps.is_empty() && ![0, steps.len()].contains(&summers.count())
}

/// For each of these leaf days, in both years, a run about a change of season, where the year has one,
/// or else one of a season that can be told.
fn changes(judge: &mut Judge, maker: &mut Maker, plain: &Job, short: fn(&Job) -> bool) -> Vec<Job> {
    let all = seasons::changes(maker, plain);
    let mut kept = vec![];
    for leap_year in [0, 1] {
        for (turn, leaf_days) in LEAF_DAYS.into_iter().enumerate() {
            let of = |job: &&Job| {
                let site = &job.site;
                (site.first_leaf_day, site.last_leaf_day) == leaf_days
                    && site.leap_year == leap_year
                    && short(job)
            };
            let told: Vec<&Job> = all
                .iter()
                .filter(of)
                .filter(|job| told_apart(judge, job))
                .collect();
            let both: Vec<&Job> = told.iter().copied().filter(|job| has_both(job)).collect();
            let from = if both.is_empty() { told } else { both };
            if !from.is_empty() {
                kept.push(from[turn % from.len()].clone());
            }
        }
    }
    kept
}

/// Of these every so many.
const LATER_EVERY: usize = 3;
const FAULTS_EVERY: usize = 13;
const LISTS_EVERY: usize = 17;

/// Runs with sectors that are refused in one season, or would be, those past a change of season more
/// often, and with a list that leads to 4.
fn in_one_season(
    judge: &mut Judge,
    maker: &mut Maker,
    plain: &Job,
    short: fn(&Job) -> bool,
) -> Vec<Job> {
    let mut faults = seasons::faults_in_one_season(maker, plain);
    let mut lists = seasons::with_other_sectors(maker, plain, &seasons::damaged_lists());
    faults.retain(short);
    lists.retain(short);
    let past_a_change = |job: &Job| judge.run_on_copies(job).answer.step > 0;
    let (later, others): (Vec<Job>, Vec<Job>) = faults.into_iter().partition(past_a_change);
    let later = later.into_iter().step_by(LATER_EVERY);
    let others = others.into_iter().step_by(FAULTS_EVERY);
    let lists = lists.into_iter().step_by(LISTS_EVERY);
    later.chain(others).chain(lists).collect()
}

/// So many random runs of each number.
const RUNS: [(u64, usize); 6] = [(0, 24), (4, 4), (8, 4), (9, 4), (10, 4), (15, 4)];

/// Random ones with two lists; where they are accepted the season changes within the run, and shows.
fn by_chance(settings: &Settings, judge: &mut Judge, short: fn(&Job) -> bool) -> Vec<Job> {
    let mut maker = Maker::new(settings.random("replayed seasons"));
    let mut wanted = RUNS;
    let mut jobs: Vec<Job> = vec![];
    while wanted.iter().any(|&(_, count)| count > 0) {
        let mut job = maker.any_job();
        maker.put_seasons_in(&mut job);
        job.edition = EDITIONS[jobs.len() % EDITIONS.len()];
        let number = judge.run_on_copies(&job).answer.number;
        let place = wanted.iter().position(|&(known, _)| known == number);
        let Some(place) = place.filter(|&place| wanted[place].1 > 0) else {
            continue;
        };
        let mut tells = || match number {
            0 => has_both(&job) && told_apart(judge, &job),
            WRONG_LEAF_DAY => true,
            _ => told_apart(judge, &job) || number == 4 && job.summer != job.winter,
        };
        if short(&job) && tells() {
            wanted[place].1 -= 1;
            jobs.push(job);
        }
    }
    jobs
}

/// 15 with no other fault, with each, and with all of them.
fn of_no_leaf_day(plain: &[Job]) -> Vec<(Job, Option<u64>)> {
    let faults = seasons::FAULTS;
    let one = faults
        .iter()
        .enumerate()
        .map(|(k, &number)| (1 << k, number));
    let sets = [(0, 15), ((1 << faults.len()) - 1, 14)];
    let each = sets.into_iter().chain(one);
    each.map(|(set, number)| {
        let number = match number {
            14 | 1 => number,
            _ => 15,
        };
        (seasons::with_faults(plain, set), Some(number.into()))
    })
    .collect()
}

/// All of them that are kept, with the number that each must have.
pub fn runs(settings: &Settings, short: fn(&Job) -> bool) -> Vec<(Job, Option<u64>)> {
    let judge = &mut Judge::new();
    let mut maker = Maker::new(Random::new(1, "replayed about seasons"));
    let plain = plain_jobs(&mut maker);
    let mut runs: Vec<(Job, Option<u64>)> = vec![];
    let changes = changes(judge, &mut maker, &plain[0], short);
    runs.extend(changes.into_iter().map(|job| (job, Some(0))));
    let in_one_season = in_one_season(judge, &mut maker, &plain[0], short);
    runs.extend(in_one_season.into_iter().map(|job| (job, None)));
    for (turn, (job, _)) in runs.iter_mut().enumerate() {
        job.edition = EDITIONS[turn % EDITIONS.len()];
    }
    let by_chance = by_chance(settings, judge, short);
    runs.extend(by_chance.into_iter().map(|job| (job, None)));
    runs.extend(of_no_leaf_day(&plain));
    runs
}
