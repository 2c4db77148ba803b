//! Tables of days: what stands in them before a run, jobs about them, and how many were left in each
//! way.

use super::cases::Maker;
use super::edges::{fault, one_step, plain_jobs, sectors_of};
use super::{BEFORE_ANY_STORE, GIVEN, NUMBERS, WORDS};
use crate::comparison::{Outcome, Settings};
use crate::pilgartze::DAY;
use crate::published::days::day_table;
use crate::published::jobs::*;
use crate::random::Random;

// --- Before the run ---

/// What may stand there.
#[derive(Clone, Copy)]
enum Former {
    Noise,
    Zeros,
    Right,
    /// The first day, and noise behind it.
    FirstDayRight,
    /// One bit of it all is another.
    BitChanged,
    /// Each day in the next one's place.
    DayLate,
}

const FORMERS: [Former; 6] = [
    Former::Noise,
    Former::Zeros,
    Former::Right,
    Former::FirstDayRight,
    Former::BitChanged,
    Former::DayLate,
];

/// A table of that length; noise for the most part.
pub fn any_former(random: &mut Random, len: usize) -> Vec<u8> {
    let former = match random.below(2) {
        0 => Former::Noise,
        _ => FORMERS[random.below(FORMERS.len())],
    };
    former_table(random, former, len)
}

fn former_table(random: &mut Random, what: Former, len: usize) -> Vec<u8> {
    let mut former = random.bytes(len);
    let table = day_table();
    let record = 8 * DAY;
    let mut put = |at: usize, bytes: &[u8]| {
        let end = len.min(at + bytes.len());
        let at = at.min(end);
        former[at..end].copy_from_slice(&bytes[..end - at]);
    };
    match what {
        Former::Noise => {}
        Former::Zeros => put(0, &[0; DAYS_LENGTH]),
        Former::Right => put(0, table),
        Former::FirstDayRight => put(0, &table[..record]),
        Former::BitChanged => {
            put(0, table);
            former[random.below(len.min(DAYS_LENGTH))] ^= 1 << random.below(8);
        }
        Former::DayLate => put(record, &table[..DAYS_LENGTH - record]),
    }
    former
}

// --- Jobs ---

/// Lengths that are far too short, among them one word, one record and the days of a common year.
const SHORT: [usize; 7] = [0, 1, 7, 8, 23, 24, DAYS_LENGTH - 8 * DAY];

/// A job that is accepted, one with no steps, and one for each refusal; those of 8 to 11 also at the
/// first step. They are of edition 1, but for the one that names none.
pub fn each_number(maker: &mut Maker, plain: &Job, variant: usize) -> Vec<Job> {
    let mut no_steps = plain.clone();
    no_steps.times = [5.0, 5.0, 1.0];
    maker.fit(&mut no_steps);
    let wrong_edition = Job {
        edition: 0,
        ..plain.clone()
    };
    let mut jobs = vec![plain.clone(), no_steps, wrong_edition];
    let (first_step, _) = one_step(plain, maker);
    let refused = (1..=11).chain([15]).map(|number| (plain, number));
    for (job, number) in refused.chain((8..=11).map(|number| (&first_step, number))) {
        let mut job = job.clone();
        fault(&mut job, number, variant);
        jobs.push(job);
    }
    jobs
}

/// Each of them with tables of every length about the one that is needed, far too short ones and
/// one that is much too long, all with noise in them.
pub fn lengths() -> Vec<Job> {
    let mut maker = Maker::new(Random::new(1, "tables of days"));
    let mut jobs = vec![];
    for (variant, plain) in plain_jobs(&mut maker).iter().enumerate() {
        for job in each_number(&mut maker, plain, variant) {
            let about = DAYS_LENGTH - 8..=DAYS_LENGTH + 8;
            let lengths = SHORT.into_iter().chain(about);
            for len in lengths.chain([2 * DAYS_LENGTH]) {
                let days = maker.bytes(len);
                jobs.push(Job {
                    days,
                    ..job.clone()
                });
            }
        }
    }
    jobs
}

/// Each of them with every table that may stand there before.
pub fn formers() -> Vec<Job> {
    let mut maker = Maker::new(Random::new(1, "former tables"));
    let mut jobs = vec![];
    for (variant, plain) in plain_jobs(&mut maker).iter().enumerate() {
        for job in each_number(&mut maker, plain, variant) {
            for former in FORMERS {
                let days = former_table(&mut maker.random, former, DAYS_LENGTH);
                jobs.push(Job {
                    days,
                    ..job.clone()
                });
            }
        }
    }
    jobs
}

/// The first and the last days of either year, with the sun on the glass at noon: an hour that went
/// by another day's record would have another row. The last run has a noon of every day.
pub fn turns_of_the_year() -> Vec<Job> {
    let mut maker = Maker::new(Random::new(1, "turns of the year"));
    let plain = plain_jobs(&mut maker).swap_remove(0);
    let mut jobs = vec![];
    for (leap_year, hours) in [(0, 8760.0), (1, 8784.0)] {
        let runs = [
            [0.0, 48.0, 1.0],
            [12.0, 13.0, 1.0],
            [23.0, 25.0, 0.25],
            [hours - 48.0, hours, 1.0],
            [hours - 25.0, hours - 23.0, 0.25],
            [hours - 12.0, hours - 11.0, 1.0],
            [12.0, hours, 24.0],
        ];
        for (latitude, orientation) in [(-35.0, 0.0), (0.0, 180.0), (45.0, 180.0)] {
            for times in runs {
                let mut job = plain.clone();
                job.site.leap_year = leap_year;
                (job.site.latitude, job.site.longitude) = (latitude, 0.0);
                (job.site.timezone, job.site.start_day) = (0, (times[0] / 24.0) as u64);
                job.surface[..2].copy_from_slice(&[40.0, orientation]);
                job.set_sectors(sectors_of(&[(0.0, 360.0)]));
                job.times = times;
                maker.fit(&mut job);
                jobs.push(job);
            }
        }
    }
    jobs
}

// --- Counting ---

/// How many tables were left in each way. Those that held the right bytes before do not count: they
/// would look the same filled and left alone.
#[derive(Default)]
pub struct Tables {
    filled: [u64; NUMBERS],
    filled_first_step: [u64; NUMBERS],
    no_steps: u64,
    longer: u64,
    left: [u64; NUMBERS],
    /// By the number that the job has with a longer table.
    short: [u64; NUMBERS],
    right_before: u64,
    days: [u64; 3],
}

impl Tables {
    pub fn note(&mut self, judge: &mut Judge, job: &Job, right: &Left<RunAnswer>) {
        let RunAnswer {
            number,
            step,
            count,
            ..
        } = right.answer;
        if job.days.len() < DAYS_LENGTH {
            let (mut totals, mut results) = (job.totals.clone(), job.results.clone());
            let without = judge.run(job, &mut [0; DAYS_LENGTH], &mut totals, &mut results);
            self.short[without.number as usize] += 1;
            return;
        }
        if job.days.starts_with(day_table()) {
            self.right_before += 1;
            return;
        }
        let number = number as usize;
        if BEFORE_ANY_STORE.contains(&number) {
            self.left[number] += 1;
            return;
        }
        self.filled[number] += 1;
        self.filled_first_step[number] += (step == 0) as u64;
        self.no_steps += (number == 0 && count == 0) as u64;
        self.longer += (job.days.len() > DAYS_LENGTH) as u64;
    }

    /// A row with the sun up on the first day, on the last of a common year, on that of a leap year.
    pub fn note_row(&mut self, site: &JobSite, hour: u32, altitude: f64) {
        let last = [8736, 8760][site.leap_year as usize];
        self.days[0] += (hour < 24 && altitude > 0.0) as u64;
        self.days[1 + site.leap_year as usize] += (hour >= last && altitude > 0.0) as u64;
    }

    pub fn report(&self, settings: &Settings) -> Outcome {
        let mut counts = vec![];
        let mut each = |what: &str, of: &[u64; NUMBERS], numbers: &[usize]| {
            for &number in numbers {
                let what = format!("{what}, {number} {}", WORDS[number]);
                counts.push((what, of[number]));
            }
        };
        each("table filled", &self.filled, &[0, 8, 9, 10, 11]);
        let at_once = "table filled, step 0";
        each(at_once, &self.filled_first_step, &[8, 9, 10, 11]);
        each("table left", &self.left, &BEFORE_ANY_STORE);
        each("table too short, else", &self.short, &GIVEN);
        let others = [
            ("table filled, no steps", self.no_steps),
            ("table filled, bytes past it left", self.longer),
            ("table right before", self.right_before),
            ("rows of day 1, sun up", self.days[0]),
            ("rows of day 365 of a common year, sun up", self.days[1]),
            ("rows of day 366, sun up", self.days[2]),
        ];
        counts.extend(others.map(|(what, count)| (String::from(what), count)));
        for (what, count) in counts {
            if count == 0 {
                return Err(format!("jobs: none had {what}"));
            }
            settings.detail(&what, count);
        }
        Ok(())
    }
}
