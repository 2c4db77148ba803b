//! Leaf days and two lists of sectors: those of random jobs, and jobs about them.

use super::cases::Maker;
use super::edges::{fault, one_step, plain_jobs, sectors_of};
use super::totals::job_over;
use crate::pilgartze::{sector, window_object};
use crate::published::jobs::*;
use crate::published::shading::{MOST_SECTORS, ORIENTATION, SECTOR_WORDS};
use crate::published::totals::days_of;
use crate::published::walk::{End, Walked};
use crate::random::{ulps_from, Random};
use crate::shading::call::{Call, Scene};
use crate::shading::editions::{EDITIONS, WRONG_EDITIONS};
use crate::shading::walks::{obstacle_at, sectors_ending};
use crate::shading::{laws, scenes};

const RECORD: usize = 8 * SECTOR_WORDS;

/// The first and the last leaf day.
pub type LeafDays = (u64, u64);

pub fn set_leaf_days(job: &mut Job, (first, last): LeafDays) {
    (job.site.first_leaf_day, job.site.last_leaf_day) = (first, last);
}

/// Words that are no leaf day, some of which would be by fewer of their bits.
const NO_LEAF_DAYS: [u64; 10] = [
    366,
    367,
    400,
    1 << 16,
    1 << 32,
    (1 << 32) + 100,
    1 << 63,
    (1 << 63) + 200,
    u64::MAX - 100,
    u64::MAX,
];

// --- Random jobs ---

impl Maker {
    /// Leaf days and a second list in a job with one: for the most part the lists are different, and
    /// the season changes within the run.
    pub fn put_seasons_in(&mut self, job: &mut Job) {
        let mut leaf_days = self.leaf_days_about(job);
        let other = self.random.below(NO_LEAF_DAYS.len());
        match self.random.below(64) {
            0 => leaf_days.0 = NO_LEAF_DAYS[other],
            1 => leaf_days.1 = NO_LEAF_DAYS[other],
            2 => leaf_days = (NO_LEAF_DAYS[other], self.random.word()),
            3 => leaf_days = (self.random.below(366) as u64, 366),
            _ => {}
        }
        set_leaf_days(job, leaf_days);
        if self.random.below(8) != 0 {
            let other = self.other_list(job);
            match self.random.below(2) {
                0 => job.summer = other,
                _ => job.winter = other,
            }
        }
    }

    /// Leaf days by which a season begins or ends, for the most part, at a midnight of the run.
    fn leaf_days_about(&mut self, job: &Job) -> LeafDays {
        let steps = steps_if_any(&job.site, &job.times);
        let day = |step: Option<&Step>| step.map_or(0, |step| u64::from(step.day).min(365));
        let (from, to) = (day(steps.first()), day(steps.last()));
        let turn = match to > from {
            true => from + 1 + self.random.below((to - from) as usize) as u64,
            false => from + self.random.below(2) as u64,
        };
        let turn = turn.min(365);
        let before = turn.saturating_sub(1);
        let [any, other] = [(); 2].map(|_| self.random.below(366) as u64);
        let few = self.random.below(3) as u64;
        match self.random.below(16) {
            0 => (any, other),
            1 => (
                self.one_of(&[0, 1, 364, 365]),
                self.one_of(&[0, 1, 364, 365]),
            ),
            2 => (any, any),
            3 => (turn, turn),
            4 => (any.min(364) + 1, any.min(364)),
            // a winter of one day, and a summer of few
            5 => ((turn + 1).min(365), before),
            6 | 7 => (turn, (turn + few).min(365)),
            8..=10 => (turn, any),
            11..=13 => (any, before),
            _ => (turn, before.saturating_sub(few)),
        }
    }

    /// Sectors for the other season: those that the job has but for their objects, a part of them, or
    /// others; some of them with a fault.
    fn other_list(&mut self, job: &Job) -> Vec<u8> {
        let mut scene = self.scene(job);
        let list = &job.summer;
        let len = list.len();
        match self.random.below(20) {
            0 => return vec![],
            1 => return list[..len.saturating_sub(RECORD)].to_vec(),
            2 => return list[len.min(RECORD)..].to_vec(),
            3 => return self.damaged_list(scene.call()),
            4 => scenes::bounds_moved(&mut self.random, &mut scene),
            5 => scenes::walk_ended(&mut self.random, &mut scene),
            6 | 7 => laws::enlarge(&mut self.random, &mut scene),
            8 => laws::empty(&mut scene),
            _ => scene.sectors = self.sectors_aimed_by(&scene.numbers),
        }
        scene.call().sectors
    }

    /// A job of a whole year: with two lists that go all the way round for the most part, every fourth
    /// with equal ones, and leaf days in order or turned.
    pub fn year_of_two_lists(&mut self, turn: usize) -> Job {
        let mut job = self.whole_year(turn);
        let days = [(); 2].map(|_| self.random.below(366) as u64);
        set_leaf_days(&mut job, (days[0], days[1]));
        if turn % 4 != 1 {
            let mut scene = self.scene(&job);
            scene.sectors = self.sectors_aimed_by(&scene.numbers);
            job.winter = scene.call().sectors;
        }
        job
    }

    fn damaged_list(&mut self, call: Call) -> Vec<u8> {
        let mut scene = Scene::of(&Call {
            window: vec![],
            ..call
        });
        match self.random.below(3) {
            0 => scenes::word_damaged(&mut self.random, &mut scene),
            1 => scenes::filled(&mut self.random, &mut scene),
            _ => {
                let mut list = scene.call().sectors;
                let by = 1 + self.random.below(RECORD - 1);
                list.resize(list.len() + by, 0);
                return list;
            }
        }
        scene.call().sectors
    }
}

// --- Jobs about them ---

/// Sectors with tall trees, and with a low wall: inside the beam no factor is the same by both.
fn trees() -> Vec<u8> {
    let tall = [(0, 80.0, 5.0)];
    let sectors = [(0.0, 90.0), (90.0, 200.0), (200.0, 360.0)];
    let trees = sectors.map(|(start, end)| sector(start, end, &tall));
    trees.concat()
}

fn low_wall() -> Vec<u8> {
    sector(0.0, 360.0, &[(0, 1.5, 20.0)]).to_vec()
}

/// A job over these times at a window to the south, or to the north, where a night's sun is inside the
/// beam; trees in summer, a low wall in winter.
pub fn of_two_lists(maker: &mut Maker, plain: &Job, leap_year: u64, times: Times, to: To) -> Job {
    let mut job = job_over(maker, plain, leap_year, times);
    job.surface[1] = match to {
        To::South => 180.0,
        To::North => 0.0,
    };
    job.window = window_object(1, 0.1, 0.1, 0.0).to_vec();
    (job.summer, job.winter) = (trees(), low_wall());
    job
}

#[derive(Clone, Copy, PartialEq)]
pub enum To {
    South,
    North,
}

/// Leaf days at the ends of the year, about the leap day, in order and turned, equal, and one above the
/// other in both orders.
pub const LEAF_DAYS: [LeafDays; 26] = [
    (109, 303),
    (303, 109),
    (0, 0),
    (0, 1),
    (1, 0),
    (1, 1),
    (0, 365),
    (365, 0),
    (365, 365),
    (364, 364),
    (364, 365),
    (365, 364),
    (0, 364),
    (364, 0),
    (1, 364),
    (364, 1),
    (58, 58),
    (59, 59),
    (60, 60),
    (59, 60),
    (60, 59),
    (61, 58),
    (100, 99),
    (99, 100),
    (201, 199),
    (255, 256),
];

/// Runs about a midnight, within the year, and which way they look: of the hours next to it, of halves,
/// of parts that add up to about it, from just before it, of one step on either side; by day from noon
/// to noon, by steps of 24 hours and of others over some days.
fn about_midnight(midnight: f64, hours: f64) -> Vec<(Times, To)> {
    let night = [
        [midnight - 3.0, midnight + 3.0, 1.0],
        [midnight - 1.0, midnight + 1.0, 0.5],
        [midnight - 0.9, midnight + 1.0, 0.3],
        [ulps_from(midnight, -1), midnight + 0.5, 0.25],
        [ulps_from(midnight, -1), 3.0, 1.0],
        [midnight - 0.25, 3.0, 24.0],
        [midnight, 3.0, 1.0],
    ];
    let day = [
        [midnight - 12.0, midnight + 14.0, 1.0],
        [midnight - 36.0, midnight + 60.0, 24.0],
        [midnight - 40.0, midnight + 50.0, 7.1],
        [midnight - 14.0, midnight + 11.0, 22.5],
    ];
    let night = night.into_iter().map(|times| (times, To::North));
    let day = day.into_iter().map(|times| (times, To::South));
    let fits =
        |([start, end, _], _): &(Times, To)| *start >= 0.0 && *end <= hours && *start < hours;
    night.chain(day).filter(fits).collect()
}

/// Each of these leaf days in both years, about the midnights at which the summer begins and ends.
pub fn changes(maker: &mut Maker, plain: &Job) -> Vec<Job> {
    let mut jobs = vec![];
    for leap_year in [0, 1] {
        let hours = 24.0 * days_of(leap_year) as f64;
        for leaf_days in LEAF_DAYS {
            let (first, last) = leaf_days;
            for midnight in [24.0 * first as f64, 24.0 * (last + 1) as f64] {
                for (times, to) in about_midnight(midnight, hours) {
                    let mut job = of_two_lists(maker, plain, leap_year, times, to);
                    set_leaf_days(&mut job, leaf_days);
                    jobs.push(job);
                }
            }
        }
    }
    jobs
}

/// Whole years: a noon of every day, with all of these leaf days, steps of 7.1 hours and of one.
fn years(maker: &mut Maker, plain: &Job) -> Vec<Job> {
    let mut jobs = vec![];
    for leap_year in [0, 1] {
        let hours = 24.0 * days_of(leap_year) as f64;
        let noons = LEAF_DAYS.map(|leaf_days| (leaf_days, [12.0, hours, 24.0]));
        let others = [
            ((109, 303), [3.0, hours, 7.1]),
            ((303, 109), [0.0, hours, 1.0]),
        ];
        for (leaf_days, times) in noons.into_iter().chain(others) {
            let mut job = of_two_lists(maker, plain, leap_year, times, To::South);
            set_leaf_days(&mut job, leaf_days);
            jobs.push(job);
        }
    }
    jobs
}

/// Each of these leaf days with equal lists.
fn equal_lists(maker: &mut Maker, plain: &Job) -> Vec<Job> {
    let times = [2388.0, 2453.0, 4.0];
    let with = |leaf_days: LeafDays| {
        let mut job = of_two_lists(maker, plain, 0, times, To::South);
        set_leaf_days(&mut job, leaf_days);
        job.winter = job.summer.clone();
        job
    };
    LEAF_DAYS.map(with).to_vec()
}

/// Every two of some days, and of words that are none, with steps of some days.
fn every_two_leaf_days(maker: &mut Maker, plain: &Job) -> Vec<Job> {
    let fine = [0, 1, 2, 30, 99, 100, 101, 102, 200, 363, 364, 365];
    let days: Vec<u64> = fine.into_iter().chain(NO_LEAF_DAYS).collect();
    let mut job = of_two_lists(maker, plain, 0, [2388.0, 2453.0, 4.0], To::South);
    let mut jobs = vec![];
    for (turn, &first) in days.iter().enumerate() {
        job.site.leap_year = turn as u64 % 2;
        maker.fit(&mut job);
        for &last in &days {
            set_leaf_days(&mut job, (first, last));
            jobs.push(job.clone());
        }
    }
    jobs
}

/// A day of the summer and one of the winter, across the summer's first midnight and past its last, no
/// step; and a day of each looking away from the sun.
fn runs_in_seasons((first, last): LeafDays) -> [(Times, To); 7] {
    let by_day = |day: u64| [24.0 * day as f64 + 9.0, 24.0 * day as f64 + 15.0, 1.0];
    let across = |day: u64| [24.0 * day as f64 - 10.0, 24.0 * day as f64 + 11.0, 1.0];
    let middle = (first + last) / 2;
    let (summer, winter) = match first <= last {
        true => (middle, last + 40),
        false => (first + 40, middle),
    };
    let [start, ..] = by_day(summer);
    [
        (by_day(summer), To::South),
        (by_day(winter), To::South),
        (across(first), To::South),
        (across(last + 1), To::South),
        ([start, start, 1.0], To::South),
        (by_day(summer), To::North),
        (by_day(winter), To::North),
    ]
}

/// The same runs with other sectors in one season.
pub fn with_other_sectors(maker: &mut Maker, plain: &Job, others: &[Vec<u8>]) -> Vec<Job> {
    let mut jobs = vec![];
    for leaf_days in [(100, 200), (250, 150)] {
        for (times, to) in runs_in_seasons(leaf_days) {
            let mut job = of_two_lists(maker, plain, jobs.len() as u64 % 2, times, to);
            set_leaf_days(&mut job, leaf_days);
            for other in others {
                let (mut summer, mut winter) = (job.clone(), job.clone());
                summer.summer = other.clone();
                winter.winter = other.clone();
                jobs.extend([summer, winter]);
            }
        }
    }
    jobs
}

/// Sectors that lead to 8, 9 and 10 in one season, met or not; each of these runs with a reveal too.
pub fn faults_in_one_season(maker: &mut Maker, plain: &Job) -> Vec<Job> {
    let bounds: [&[(f64, f64)]; 6] = [
        &[(0.0, 100.0), (120.0, 360.0)],
        &[(0.0, 80.0), (80.0, 100.0), (99.0, 360.0)],
        &[(0.0, 30.0), (30.0, 20.0), (20.0, 360.0)],
        &[(300.0, 60.0)],
        &[(0.0, 20.0)],
        &[],
    ];
    let mut jobs = with_other_sectors(maker, plain, &bounds.map(sectors_of));
    let mut reveals = jobs.clone();
    for job in &mut reveals {
        job.window.extend(window_object(4, 0.5, 0.1, 0.0));
    }
    jobs.extend(reveals);
    jobs
}

/// A list that leads to 4: too long, a part of a record more or less, a field that is not as it should
/// be in its last record.
pub fn damaged_lists() -> Vec<Vec<u8>> {
    let list = trees();
    let mut longer = list.clone();
    longer.push(0);
    let mut lists = vec![
        longer,
        list[..list.len() - 1].to_vec(),
        list[..RECORD / 2].to_vec(),
        low_wall().repeat(MOST_SECTORS + 1),
    ];
    let nan = f64::NAN.to_bits();
    let words = [
        (0, 361.0f64.to_bits()),
        (1, nan),
        (1, (-1.0f64).to_bits()),
        (2, 9),
        (3, 2),
        (4, 0),
        (5, 0),
        (6, 1),
        (SECTOR_WORDS - 1, 1 << 63),
    ];
    for (place, word) in words {
        let mut list = list.clone();
        let at = list.len() - RECORD + 8 * place;
        list[at..at + 8].copy_from_slice(&word.to_le_bytes());
        lists.push(list);
    }
    lists
}

/// Lists of every two of some lengths, in each season, with the sun in the last sector of either; and a
/// list beside one that is a part of it.
fn lengths(maker: &mut Maker, plain: &Job) -> Vec<Job> {
    let (mut job, numbers) = one_step(plain, maker);
    let day = steps_of(&job.site, &job.times)[0].day.into();
    let list = |len: usize, more: usize| {
        let walked = Walked {
            end: End::Match,
            place: len - 1,
        };
        let obstacle = |place: usize| obstacle_at(&numbers, (place + more) % MOST_SECTORS);
        let sectors = sectors_ending(walked, len, numbers[ORIENTATION], obstacle);
        Scene {
            edition: job.edition,
            numbers,
            sectors,
            window: vec![],
        }
        .call()
        .sectors
    };
    let sizes = [1, 2, 18, MOST_SECTORS - 1, MOST_SECTORS];
    let mut pairs = vec![];
    for size in sizes {
        let whole = list(size, 0);
        pairs.extend(sizes.map(|other| (whole.clone(), list(other, 5))));
        pairs.push((whole.clone(), vec![]));
        pairs.push((whole.clone(), whole[..whole.len() - RECORD].to_vec()));
        pairs.push((whole.clone(), whole[RECORD..].to_vec()));
    }
    let mut jobs = vec![];
    for (one, other) in pairs {
        for leaf_days in [(day, day), (day + 1, 0)] {
            set_leaf_days(&mut job, leaf_days);
            (job.summer, job.winter) = (one.clone(), other.clone());
            jobs.push(job.clone());
            (job.summer, job.winter) = (other.clone(), one.clone());
            jobs.push(job.clone());
        }
    }
    jobs
}

/// The faults beside 15 that a run can have; 14 is a word that names no edition.
pub const FAULTS: [u32; 12] = [1, 2, 3, 4, 5, 6, 7, 8, 9, 10, 11, 14];

/// The job with 15 and those of these faults whose bits are in the set. Which of both leaf days it is,
/// and which edition, goes by the set.
pub fn with_faults(plain: &[Job], set: usize) -> Job {
    let variant = set.count_ones() as usize % 2;
    let mut job = plain[variant].clone();
    job.edition = EDITIONS[set / 2 % 2];
    for (_, &number) in FAULTS
        .iter()
        .enumerate()
        .rev()
        .filter(|(k, _)| set >> k & 1 == 1)
    {
        match number {
            14 => job.edition = WRONG_EDITIONS[set % WRONG_EDITIONS.len()],
            _ => fault(&mut job, number, variant),
        }
    }
    let word = NO_LEAF_DAYS[set % NO_LEAF_DAYS.len()];
    match set % 3 {
        0 => job.site.first_leaf_day = word,
        1 => job.site.last_leaf_day = word,
        _ => set_leaf_days(&mut job, (word, word)),
    }
    job
}

/// Jobs about leaf days and seasons, in both editions by turns, the short ones first. Not part of
/// `edges`.
pub fn jobs() -> Vec<Job> {
    let mut maker = Maker::new(Random::new(1, "jobs about seasons"));
    let plain = plain_jobs(&mut maker);
    let mut jobs = vec![];
    for job in &plain {
        jobs.extend(lengths(&mut maker, job));
    }
    jobs.extend(every_two_leaf_days(&mut maker, &plain[0]));
    jobs.extend(equal_lists(&mut maker, &plain[0]));
    jobs.extend(with_other_sectors(&mut maker, &plain[0], &damaged_lists()));
    jobs.extend(faults_in_one_season(&mut maker, &plain[0]));
    jobs.extend(changes(&mut maker, &plain[0]));
    jobs.extend(years(&mut maker, &plain[0]));
    for (turn, job) in jobs.iter_mut().enumerate() {
        job.edition = EDITIONS[turn % EDITIONS.len()];
    }
    let sets = (0..1 << FAULTS.len()).map(|set| with_faults(&plain, set));
    sets.chain(jobs).collect()
}

/// The single step with 15 and those of these faults whose bits are in the set; of 7 the results are
/// too short for either call.
fn single_with_faults(maker: &mut Maker, plain: &[Job], set: usize) -> Single {
    let job = with_faults(plain, set);
    let has = |number: u32| {
        let place = FAULTS.iter().position(|&known| known == number);
        set >> place.expect("a fault") & 1 == 1
    };
    let mut single = maker.sound_single_of(&plain[set.count_ones() as usize % 2], IRRADIANCE_ROW);
    (single.edition, single.site, single.surface) = (job.edition, job.site, job.surface);
    (single.summer, single.winter, single.window) = (job.summer, job.winter, job.window);
    if has(2) {
        single.time = [8784.0, f64::NAN, -1.0][set % 3];
    }
    if has(6) {
        single.readings[set % 3] = f64::NAN;
    }
    if has(7) {
        single.results.truncate(40);
    }
    single
}

/// Single steps: every set of faults with 15, and each of the runs of one step about a midnight.
pub fn singles() -> Vec<Single> {
    let mut maker = Maker::new(Random::new(1, "single steps about seasons"));
    let plain = plain_jobs(&mut maker);
    let series = FAULTS
        .iter()
        .position(|&number| number == 5)
        .expect("a fault");
    // 5 is none of a single step
    let sets = (0..1 << FAULTS.len()).filter(|set| set >> series & 1 == 0);
    let mut singles: Vec<Single> = sets
        .map(|set| single_with_faults(&mut maker, &plain, set))
        .collect();
    for (turn, job) in changes(&mut maker, &plain[0]).iter().enumerate() {
        let mut single = maker.sound_single_of(job, IRRADIANCE_ROW);
        single.edition = EDITIONS[turn % EDITIONS.len()];
        singles.push(single);
    }
    singles
}
