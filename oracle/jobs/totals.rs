//! Totals of days and months: what stands in them before a run, jobs about them, and how many were
//! left in each way.

use super::cases::Maker;
use super::edges::{all_in_both_editions, fault, plain_jobs, sectors_of};
use super::tables::each_number;
use super::{BEFORE_ANY_STORE, GIVEN, NUMBERS, WORDS};
use crate::comparison::{Outcome, Settings};
use crate::pilgartze::{sector, totals_of, window_object, Totals, MONTHS, TOTALS};
use crate::published::jobs::*;
use crate::published::totals::{days_of, month_of, totals_needed, NAN};
use crate::random::{ulps_from, Random};
use crate::shading::editions::{EDITIONS, WRONG_EDITIONS};

// --- Before the run ---

/// What may stand there.
#[derive(Clone, Copy)]
enum Former {
    Noise,
    Zeros,
    /// Records of no step.
    Empty,
    /// Counts of 0, and noise in the other words.
    CountsOfZero,
}

const FORMERS: [Former; 4] = [
    Former::Noise,
    Former::Zeros,
    Former::Empty,
    Former::CountsOfZero,
];

/// Totals of that length; noise for the most part.
pub fn any_former(random: &mut Random, len: usize) -> Vec<u8> {
    let former = match random.below(2) {
        0 => Former::Noise,
        _ => FORMERS[random.below(FORMERS.len())],
    };
    former_totals(random, former, len)
}

/// A record without a step.
fn empty_record() -> [u8; 8 * TOTALS] {
    let mut record = [0; 8 * TOTALS];
    record[8..16].copy_from_slice(&NAN.to_le_bytes());
    record
}

fn former_totals(random: &mut Random, what: Former, len: usize) -> Vec<u8> {
    let mut former = random.bytes(len);
    for record in former.chunks_exact_mut(8 * TOTALS) {
        match what {
            Former::Noise => {}
            Former::Zeros => record.fill(0),
            Former::Empty => record.copy_from_slice(&empty_record()),
            Former::CountsOfZero => record[..8].fill(0),
        }
    }
    former
}

// --- Jobs ---

/// Lengths that are too short, among them those of one word, of one record, of the months, of a
/// common year's days and of a leap year's, as many as the table of days has.
const SHORT: [usize; 9] = [0, 1, 7, 8, 23, 24, 288, 8760, DAYS_LENGTH];

/// A job that is accepted, one with no steps, and one for each refusal, in a common year and in a leap
/// year, each with totals of every length about those of both years, others that are too short and one
/// that is much too long, all with noise in them.
pub fn lengths() -> Vec<Job> {
    let mut maker = Maker::new(Random::new(1, "totals"));
    let mut jobs = vec![];
    for (variant, plain) in plain_jobs(&mut maker).iter().enumerate() {
        for job in each_number(&mut maker, plain, variant) {
            let about = totals_needed(0) - 8..=totals_needed(1) + 8;
            let lengths = SHORT.into_iter().chain(about);
            for len in lengths.chain([2 * totals_needed(1)]) {
                let totals = maker.bytes(len);
                jobs.push(Job {
                    totals,
                    ..job.clone()
                });
            }
        }
    }
    jobs
}

/// Each of them with all that may stand there before, what the run itself leaves there too.
pub fn formers() -> Vec<Job> {
    let mut maker = Maker::new(Random::new(1, "former totals"));
    let mut judge = Judge::new();
    let mut jobs = vec![];
    for (variant, plain) in plain_jobs(&mut maker).iter().enumerate() {
        for job in each_number(&mut maker, plain, variant) {
            let needed = totals_needed(job.site.leap_year);
            let formers = FORMERS.map(|former| former_totals(&mut maker.random, former, needed));
            for totals in formers
                .into_iter()
                .chain([judge.run_on_copies(&job).totals])
            {
                jobs.push(Job {
                    totals,
                    ..job.clone()
                });
            }
        }
    }
    jobs
}

/// Every set of faults with a 7 that is one of the totals alone: a byte too short for the year; in an
/// edition, by turns, and with a word that names none.
fn sets_of_faults(jobs: &mut Vec<Job>) {
    let mut maker = Maker::new(Random::new(1, "totals among faults"));
    for (variant, plain) in plain_jobs(&mut maker).iter().enumerate() {
        for set in (1u32..1 << 11).filter(|set| set >> 6 & 1 == 1) {
            let mut job = plain.clone();
            for number in (1..=11).rev().filter(|number| set >> (number - 1) & 1 == 1) {
                match number {
                    7 => job.totals = maker.bytes(totals_needed(job.site.leap_year) - 1),
                    _ => fault(&mut job, number, variant),
                }
            }
            let place = jobs.len() / 2;
            let named = EDITIONS[place % EDITIONS.len()];
            let none = WRONG_EDITIONS[place % WRONG_EDITIONS.len()];
            jobs.extend([named, none].map(|edition| Job {
                edition,
                ..job.clone()
            }));
        }
    }
}

/// A job over these times at a window to the south, in the shade of an overhang, of an obstacle that
/// light gets through and of one in the distance.
pub fn job_over(maker: &mut Maker, plain: &Job, leap_year: u64, times: Times) -> Job {
    let mut job = plain.clone();
    job.site.leap_year = leap_year;
    (job.site.latitude, job.site.longitude) = (45.0, 0.0);
    (job.site.timezone, job.site.start_day) = (0, (times[0] / 24.0).min(365.0) as u64);
    (job.site.series_step, job.site.direct_beam_conversion) = (1.0, 0);
    job.surface = [90.0, 180.0, 1.0, 1.5, 1.2];
    job.set_sectors(sector(0.0, 360.0, &[(0, 2.0, 5.0)]).to_vec());
    let near = [
        window_object(1, 0.5, 0.1, 0.0),
        window_object(0, 2.5, 3.0, 0.3),
    ];
    job.window = near.concat();
    job.times = times;
    maker.fit(&mut job);
    job
}

/// The first days of February and all later months, and others by the year's ends and the end of
/// February: the midnights at which something changes.
fn midnights(leap_year: u64) -> Vec<f64> {
    let days = days_of(leap_year);
    let turns = |&day: &usize| month_of(leap_year, day) != month_of(leap_year, day - 1);
    let mut all: Vec<usize> = (1..days).filter(turns).collect();
    all.extend([1, 57, 58, 59, 60, 61, days - 1]);
    all.sort();
    all.dedup();
    all.iter().map(|&day| (24 * day) as f64).collect()
}

/// Runs across a midnight: steps of an hour and of a part of one, some of which pass it and some of
/// which, added up, come to just before it; of 24 hours, from midnight and from noon; from just before
/// it; and a start above the end.
fn across(midnight: f64) -> [Times; 7] {
    [
        [midnight - 12.0, midnight + 14.0, 1.0],
        [midnight - 12.0, midnight + 13.0, 0.3],
        [midnight - 0.25, midnight + 1.0, 0.5],
        [ulps_from(midnight, -1), midnight + 1.0, 0.25],
        [midnight - 12.0, (midnight + 30.0).min(8760.0), 24.0],
        [midnight - 24.0, (midnight + 48.0).min(8760.0), 24.0],
        [midnight - 0.3, 3.0, 24.0],
    ]
}

/// The year's first and last steps, runs of no steps, runs past a common year, and whole years.
fn ends_of(leap_year: u64) -> Vec<Times> {
    let hours = 24.0 * days_of(leap_year) as f64;
    vec![
        [0.0, 24.0, 1.0],
        [-0.0, 3.0, 0.3],
        [0.0, 24.0, 24.0],
        [12.0, 24.0, 24.0],
        [hours - 26.0, hours, 1.0],
        [hours - 14.0, hours, 0.3],
        [hours - 1.0, hours, 0.25],
        [hours - 24.0, hours, 24.0],
        [hours - 12.0, hours, 24.0],
        [hours - 0.25, 7.0, 24.0],
        [ulps_from(hours, -1), 10.0, 1.0],
        [hours, hours, 1.0],
        [hours - 24.0, hours - 24.0, 1.0],
        [5.0, 5.0, 1.0],
        [1416.0, 1416.0, 24.0],
        // past a common year
        [hours - 30.0, 8784.0, 1.0],
        [hours, 5.0, 1.0],
        // whole years
        [0.0, hours, 24.0],
        [12.0, hours, 24.0],
        [3.0, hours, 7.1],
        [0.0, hours, 1.0],
    ]
}

/// Runs from an afternoon into the next morning, which is refused: the sun is in a sector, then outside
/// the beam, and then a gap or a turned sector comes before it, or it is in none. With a reveal the run
/// begins in the evening.
pub fn refused_later(maker: &mut Maker, plain: &Job, leap_year: u64, midnight: f64) -> Vec<Job> {
    let mut jobs = vec![];
    for step in [1.0, 0.3] {
        for (number, from) in [(8, 11.0), (9, 11.0), (10, 11.0), (11, 5.0)] {
            let times = [midnight - from, midnight + 14.0, step];
            let mut job = job_over(maker, plain, leap_year, times);
            match number {
                8 => job.set_sectors(sectors_of(&[(180.0, 360.0), (0.0, 180.0)])),
                9 => job.set_sectors(sectors_of(&[(180.0, 360.0), (360.0, 100.0)])),
                10 => job.set_sectors(sectors_of(&[(180.0, 360.0)])),
                _ => job.window.extend(window_object(4, 0.5, 0.1, 0.0)),
            }
            jobs.push(job);
        }
    }
    jobs
}

/// Jobs about the days and months of both years, runs that are refused in a later one, and sets of
/// faults.
pub fn calendar() -> Vec<Job> {
    let mut maker = Maker::new(Random::new(1, "calendar"));
    let plain = plain_jobs(&mut maker).swap_remove(0);
    let mut jobs = vec![];
    for leap_year in [0, 1] {
        for midnight in midnights(leap_year) {
            let runs = across(midnight);
            jobs.extend(runs.map(|times| job_over(&mut maker, &plain, leap_year, times)));
            jobs.extend(refused_later(&mut maker, &plain, leap_year, midnight));
        }
        for times in ends_of(leap_year) {
            jobs.push(job_over(&mut maker, &plain, leap_year, times));
        }
    }
    let mut jobs = all_in_both_editions(&jobs);
    sets_of_faults(&mut jobs);
    jobs
}

// --- Counting ---

const BORDERS: usize = MONTHS - 1;

/// How many totals were left in each way, and what the runs had that tells something of them. Those
/// that held the right bytes before do not count.
#[derive(Default)]
pub struct TotalsMet {
    kept: [u64; NUMBERS],
    left: [u64; NUMBERS],
    /// By the number that the job has with longer totals.
    short: [u64; NUMBERS],
    /// Refused in a later day, and in a later month, than the first step's.
    later_day: [u64; NUMBERS],
    later_month: [u64; NUMBERS],
    /// Runs with steps on both sides, by year and border.
    borders: [[u64; BORDERS]; 2],
    counts: [u64; COUNTED.len()],
}

/// What else is counted.
const COUNTED: [&str; 18] = [
    "totals kept, refused, a sum above 0",
    "totals kept, no steps",
    "totals kept, bytes past them left",
    "totals kept, common year, 366 days' room",
    "totals right before",
    "totals short, leap year, 365 days' room",
    "rows of 1 January",
    "rows of 31 December of a common year",
    "rows of 31 December of a leap year",
    "rows of 28 February",
    "rows of 29 February",
    "rows of 1 March of a common year",
    "rows of steps that pass midnight",
    "rows of steps from just before midnight",
    "rows of 24 hours not from midnight",
    "days' largest total that is not the first",
    "days' largest total that is not the last",
    "months' sums that are not their days'",
];

impl TotalsMet {
    fn count(&mut self, what: &str, more: usize) {
        let place = COUNTED.iter().position(|&counted| counted == what);
        self.counts[place.expect("a kind that is counted")] += more as u64;
    }

    pub fn note(&mut self, judge: &mut Judge, job: &Job, right: &Left<RunAnswer>) {
        let number = right.answer.number as usize;
        if job.totals.len() < totals_needed(job.site.leap_year) {
            return self.note_short(judge, job);
        }
        if BEFORE_ANY_STORE.contains(&number) {
            // empty ones would look the same emptied and left alone
            self.left[number] += !job.totals.starts_with(&empty_record()) as u64;
            return;
        }
        if job.totals == right.totals {
            return self.count("totals right before", 1);
        }
        self.kept[number] += 1;
        self.note_kept(job, right);
    }

    fn note_short(&mut self, judge: &mut Judge, job: &Job) {
        let (mut days, mut results) = (job.days.clone(), job.results.clone());
        let mut totals = vec![0; totals_needed(1)];
        let without = judge.run(job, &mut days, &mut totals, &mut results);
        self.short[without.number as usize] += 1;
        if without.number == 0 && job.totals.len() >= totals_needed(0) {
            self.count("totals short, leap year, 365 days' room", 1);
        }
    }

    fn note_kept(&mut self, job: &Job, right: &Left<RunAnswer>) {
        let RunAnswer {
            number,
            step,
            count,
            ..
        } = right.answer;
        let leap_year = job.site.leap_year;
        let len = job.totals.len();
        self.count(
            "totals kept, no steps",
            (number == 0 && count == 0) as usize,
        );
        self.count(
            "totals kept, bytes past them left",
            (len > totals_needed(leap_year)) as usize,
        );
        self.count(
            "totals kept, common year, 366 days' room",
            (leap_year == 0 && len >= totals_needed(1)) as usize,
        );
        let steps = steps_of(&job.site, &job.times);
        let month = |step: &Step| month_of(leap_year, step.day as usize);
        if number != 0 {
            let (first, refused) = (&steps[0], &steps[step as usize]);
            self.later_day[number as usize] += (refused.day > first.day) as u64;
            self.later_month[number as usize] += (month(refused) > month(first)) as u64;
        }
        let rows = if number == 0 { count } else { step };
        let steps = &steps[..rows as usize];
        for pair in steps.windows(2) {
            // a step of 24 hours crosses one border at most
            if month(&pair[0]) != month(&pair[1]) {
                self.borders[leap_year as usize][month(&pair[0])] += 1;
            }
        }
        self.note_rows(job, steps);
        self.note_records(job, right, steps);
    }

    fn note_rows(&mut self, job: &Job, steps: &[Step]) {
        let [.., hours] = job.times;
        let leap = job.site.leap_year == 1;
        let days = days_of(job.site.leap_year) as u32;
        for step in steps {
            let into_the_day = step.time - (24 * step.day) as f64;
            let what = match step.day {
                0 => "rows of 1 January",
                58 => "rows of 28 February",
                59 if leap => "rows of 29 February",
                59 => "rows of 1 March of a common year",
                day if day + 1 < days => "",
                _ if leap => "rows of 31 December of a leap year",
                _ => "rows of 31 December of a common year",
            };
            if !what.is_empty() {
                self.count(what, 1);
            }
            if into_the_day > 23.999 {
                self.count("rows of steps from just before midnight", 1);
            }
            if into_the_day + hours > 24.0 {
                self.count("rows of steps that pass midnight", 1);
            }
            if hours == 24.0 && into_the_day >= 1.0 {
                self.count("rows of 24 hours not from midnight", 1);
            }
        }
    }

    fn note_records(&mut self, job: &Job, right: &Left<RunAnswer>, steps: &[Step]) {
        let leap_year = job.site.leap_year;
        let totals = totals_of(&right.totals);
        let (days, months) = totals.split_at(days_of(leap_year));
        let some = right.answer.number != 0 && days.iter().any(|day| day.sum > 0.0);
        self.count("totals kept, refused, a sum above 0", some as usize);
        let rows = doubles_of(&right.results);
        let mut before = 0;
        for of_day in steps.chunk_by(|a, b| a.day == b.day) {
            let total = |k: usize| rows[ROW * (before + k) + 4];
            let (first, last) = (total(0), total(of_day.len() - 1));
            let largest = days[of_day[0].day as usize].largest;
            let not_first = (largest != first) as usize;
            self.count("days' largest total that is not the first", not_first);
            let not_last = (largest != last) as usize;
            self.count("days' largest total that is not the last", not_last);
            before += of_day.len();
        }
        for (month, totals) in months.iter().take(MONTHS).enumerate() {
            let of_month = |&(day, _): &(usize, &Totals)| month_of(leap_year, day) == month;
            let days = days.iter().enumerate().filter(of_month);
            let added = days.fold(0.0, |sum, (_, day)| sum + day.sum);
            let other = (added != totals.sum) as usize;
            self.count("months' sums that are not their days'", other);
        }
    }

    pub fn report(&self, settings: &Settings) -> Outcome {
        let mut counts = vec![];
        let mut each = |what: &str, of: &[u64; NUMBERS], numbers: &[usize]| {
            for &number in numbers {
                let what = format!("{what}, {number} {}", WORDS[number]);
                counts.push((what, of[number]));
            }
        };
        let at_a_step = [8, 9, 10, 11];
        each("totals kept", &self.kept, &[0, 8, 9, 10, 11]);
        each("totals kept, a later day", &self.later_day, &at_a_step);
        let later_month = "totals kept, a later month";
        each(later_month, &self.later_month, &at_a_step);
        each("totals left", &self.left, &BEFORE_ANY_STORE);
        each("totals too short, else", &self.short, &GIVEN);
        let others = COUNTED.iter().zip(self.counts);
        counts.extend(others.map(|(what, count)| (String::from(*what), count)));
        for (what, count) in counts {
            if count == 0 {
                return Err(format!("jobs: none had {what}"));
            }
            settings.detail(&what, count);
        }
        self.report_borders(settings)
    }

    /// Prints how often the end of each month was crossed, in both years.
    fn report_borders(&self, settings: &Settings) -> Outcome {
        for (year, borders) in ["common year", "leap year"].into_iter().zip(&self.borders) {
            let mut line = format!("{:<30}", format!("    {year}, ends of months"));
            for (month, count) in borders.iter().enumerate() {
                if *count == 0 {
                    return Err(format!("jobs: no run in a {year} goes past month {month}"));
                }
                line += &format!("{count:>7}");
            }
            settings.heading(&line);
        }
        Ok(())
    }
}
