//! Short runs, accepted and with every refusal, some whose walk along 36 sectors ends at the first, a
//! middle or the last of them, some whose sums have something to tell of the step, and some about the
//! totals, all of edition 1; then some of edition 2 and of none. All these have two equal lists of
//! sectors. At the end come some about leaf days and seasons, with two lists for the most part.

use super::file::{File, Record};
use super::{editions, seasons, totals};
use crate::comparison::Settings;
use crate::jobs::cases::Maker;
use crate::jobs::edges;
use crate::published::jobs::*;
use crate::published::shading::MOST_SECTORS;
use crate::published::totals::totals_needed;
use crate::random::Random;
use crate::shading::walks::all_ends;

const KIND: u64 = 1;
/// With one list of sectors, though there are two.
const LONGEST: usize = 2_648;
const MOST_RESULTS: usize = 1_024;
const FILL: u8 = 0xA5;

/// So many of each number among the jobs at the edges, those with several faults and the random ones.
const ACCEPTED: usize = 70;
const REFUSED: usize = 12;
/// Of those about editions, and about seasons, one in so many has its totals kept.
const KEEPS_TOTALS: usize = 8;

/// The job with so many bytes of results and totals, and room for its table of days.
fn lent(job: Job, results: usize, totals: usize) -> Job {
    Job {
        days: vec![FILL; DAYS_LENGTH],
        totals: vec![FILL; totals],
        results: vec![FILL; results],
        ..job
    }
}

/// The record of a job with its answer, the results and, where they are kept, the totals that it leaves.
fn record_of(job: &Job, left: &Left<RunAnswer>, keeps_totals: bool) -> Record {
    let (site, answer) = (&job.site, &left.answer);
    let [diffuse, direct, reflectivity] = &job.series;
    let lists: [&[u8]; 8] = [
        diffuse,
        direct,
        reflectivity,
        &job.summer,
        &job.winter,
        &job.window,
        &left.results,
        if keeps_totals { &left.totals } else { &[] },
    ];
    let mut record = Record::new(KIND);
    record
        .word(job.edition)
        .doubles(&[site.latitude, site.longitude, site.timezone as f64])
        .word(site.start_day)
        .doubles(&[site.series_step])
        .word(site.leap_year)
        .word(site.direct_beam_conversion)
        .word(site.first_leaf_day)
        .word(site.last_leaf_day)
        .doubles(&job.times)
        .doubles(&job.surface);
    for list in lists {
        record.word(list.len() as u64);
    }
    record
        .word(answer.number)
        .word(answer.step)
        .word(answer.count)
        .answer(answer.sum)
        .word(job.totals.len() as u64)
        .list(&lists.concat());
    record
}

/// The record of a job, if it is short, with its answer. Its table of days and its totals have room.
fn record(judge: &mut Judge, job: Job) -> Option<(Record, RunAnswer)> {
    let results = job.results.len();
    let timezone_is_double =
        job.site.timezone as f64 as i64 == job.site.timezone && job.site.timezone < i64::MAX;
    if results > MOST_RESULTS || !timezone_is_double {
        return None;
    }
    let job = lent(job, results, totals_needed(1));
    let left = judge.run_on_copies(&job);
    let record = record_of(&job, &left, false);
    let one_list = record.len() - job.summer.len().min(job.winter.len());
    (one_list <= LONGEST).then_some((record, left.answer))
}

/// How many runs there are of each number; for those of 8 and above, also at a later step.
#[derive(Default)]
struct Met {
    first: [usize; 12],
    later: [usize; 12],
}

impl Met {
    /// Whether there are too few of this kind as yet; it counts for one then.
    fn takes(&mut self, answer: &RunAnswer) -> bool {
        let number = answer.number as usize;
        let most = if number == 0 { ACCEPTED } else { REFUSED };
        let met = match answer.step {
            0 => &mut self.first[number],
            _ => &mut self.later[number],
        };
        let takes = *met < most;
        *met += takes as usize;
        takes
    }

    fn whole(&self) -> bool {
        (1..12).all(|number| self.first[number] == REFUSED) && self.first[0] == ACCEPTED
    }

    fn later(&self) -> bool {
        (8..11).all(|number| self.later[number] == REFUSED)
    }
}

fn shuffled<T>(mut all: Vec<T>, random: &mut Random) -> Vec<T> {
    for k in (1..all.len()).rev() {
        all.swap(k, random.below(k + 1));
    }
    all
}

/// Jobs with several faults at once, of which one is told.
fn several_faults(maker: &mut Maker) -> Vec<Job> {
    let mut several = vec![];
    for (variant, job) in edges::plain_jobs(maker).iter().enumerate() {
        let mut jobs = vec![];
        edges::sets_of_faults(&mut jobs, job, variant);
        // the k-th job has the faults of the bits of k + 1
        let faults = |&(k, _): &(usize, Job)| (k + 1).count_ones() > 1;
        let jobs = jobs.into_iter().enumerate().filter(faults);
        several.extend(jobs.map(|(_, job)| job));
    }
    several
}

/// Takes jobs as long as there are too few of their number.
fn take(file: &mut File, what: &str, jobs: impl Iterator<Item = Job>) -> Met {
    let mut judge = Judge::new();
    let mut met = Met::default();
    for job in jobs {
        if let Some((record, answer)) = record(&mut judge, job) {
            if met.takes(&answer) {
                file.push(&record);
            }
        }
        if met.whole() && met.later() {
            break;
        }
    }
    println!("  {what} {:?}, past step 0 {:?}", met.first, met.later);
    met
}

/// Runs of one step, whose walk ends in each way at some places.
fn walks(file: &mut File) {
    let mut judge = Judge::new();
    for (walked, job) in all_ends().zip(edges::walks()) {
        if [0, 1, 18, MOST_SECTORS - 1].contains(&walked.place) {
            let job = lent(job, 8 * ROW, totals_needed(1));
            let left = judge.run_on_copies(&job);
            file.push(&record_of(&job, &left, false));
        }
    }
}

/// Runs about the sum, where it is a number of the usual size.
fn sums(file: &mut File) {
    let mut judge = Judge::new();
    for job in edges::sums() {
        match record(&mut judge, job) {
            Some((record, answer)) if answer.sum.is_normal() => file.push(&record),
            _ => {}
        }
    }
}

/// Runs about the totals.
fn with_totals(file: &mut File) -> Result<(), String> {
    let mut judge = Judge::new();
    for totals::Kept { job, number, keeps } in totals::kept() {
        let (results, totals) = (job.results.len(), job.totals.len());
        let job = lent(job, results, totals);
        let left = judge.run_on_copies(&job);
        if left.answer.number != number {
            let other = left.answer.number;
            return Err(format!(
                "a run about totals is refused {other}, not {number}"
            ));
        }
        file.push(&record_of(&job, &left, keeps));
    }
    Ok(())
}

/// Whether the record of a job is short.
fn short(job: &Job) -> bool {
    record(&mut Judge::new(), job.clone()).is_some()
}

/// The same of one about seasons, which may be somewhat longer.
fn short_about_seasons(job: &Job) -> bool {
    let series: usize = job.series.iter().map(|series| series.len()).sum();
    let objects = job.summer.len() + job.winter.len() + job.window.len();
    job.results.len() <= MOST_RESULTS && series + objects <= LONGEST
}

/// Runs with the number that each must have, if that is known. The totals of some are kept.
fn known(file: &mut File, what: &str, runs: Vec<(Job, Option<u64>)>) -> Result<(), String> {
    let mut judge = Judge::new();
    let mut numbers = [0; 16];
    for (place, (job, known)) in runs.into_iter().enumerate() {
        let results = job.results.len();
        let job = lent(job, results, totals_needed(1));
        let left = judge.run_on_copies(&job);
        let number = left.answer.number;
        if known.is_some_and(|known| known != number) {
            return Err(format!("a run {what} has the number {number}"));
        }
        numbers[number as usize] += 1;
        file.push(&record_of(&job, &left, place % KEEPS_TOTALS == 0));
    }
    let more: usize = numbers.iter().sum();
    println!("  {more} {what}, numbers {numbers:?}");
    Ok(())
}

pub fn file(settings: &Settings) -> Result<File, String> {
    let mut random = settings.random("replayed runs");
    let mut file = File::default();
    let edges = shuffled(edges::edges(), &mut random);
    take(&mut file, "at the edges", edges.into_iter());
    let mut maker = Maker::new(settings.random("replayed faults"));
    let several = shuffled(several_faults(&mut maker), &mut random);
    take(&mut file, "several faults", several.into_iter());
    walks(&mut file);
    let mut maker = Maker::new(random);
    let any = (0..400_000).map(|_| maker.any_job());
    let met = take(&mut file, "random", any);
    sums(&mut file);
    with_totals(&mut file)?;
    let of_editions = editions::runs(settings, short);
    known(&mut file, "of edition 2 or none", of_editions)?;
    let of_seasons = seasons::runs(settings, short_about_seasons);
    known(&mut file, "about seasons", of_seasons)?;
    match met.whole() {
        true => Ok(file),
        false => Err(String::from("too few runs of some number")),
    }
}
