//! Random jobs: most of them accepted, with the sun on the surface and partly in the shade.

use super::{tables, totals};
use crate::published::jobs::*;
use crate::published::shading::{outside_beam, Numbers, ALTITUDE, AZIMUTH, ORIENTATION, TILT};
use crate::published::totals::totals_needed;
use crate::random::{ulps_from, Random, NAN_PATTERNS};
use crate::shading::call::{difference, sector, Call, Scene, Sector, END, START};
use crate::shading::scenes::{self, edges_of_range, turned_back, Aim};

/// The most words that a series can need: a year of quarter hours.
const MOST_WORDS: usize = 36_000;

/// No list is longer than this.
pub const MOST_BYTES: usize = 8 * ROW * MOST_WORDS;

/// How jobs are aimed at the sun of one of their steps.
#[derive(Clone, Copy, PartialEq)]
pub enum Aims {
    /// One in eight, square on the glass, overhead or about another bound.
    Seldom,
    /// This one, square on the glass or overhead, for the most part with a sum above 1.
    Squarely,
    /// This one, square on its back or under the site, for the most part with a sum below −1.
    FromBehind,
}

/// A job's hour at which the sun is, and what of the job has to stay for it.
#[derive(Clone, Copy, PartialEq)]
struct Target {
    aims: Aims,
    hour: u32,
    /// Latitude, longitude, tilt, orientation.
    bits: [u64; 4],
}

impl Target {
    fn of(aims: Aims, site: &JobSite, surface: &Surface, hour: u32) -> Target {
        let doubles = [site.latitude, site.longitude, surface[0], surface[1]];
        Target {
            aims,
            hour,
            bits: doubles.map(f64::to_bits),
        }
    }
}

pub struct Maker {
    pub random: Random,
    /// For tables of days, for totals and for leaf days, so that all else is as it would be without
    /// them.
    table_random: Random,
    totals_random: Random,
    leaf_random: Random,
    pub aims: Aims,
    /// Whether jobs have fins on both sides and, at one step at least, the sun up and inside the beam
    /// across the north, so that the difference is beyond 180.
    pub across_the_north: bool,
    target: Option<Target>,
    judge: Judge,
    /// Words of any kind, few of them readings, for entries that no step uses.
    junk: Vec<u8>,
}

type Damage = fn(&mut Maker, &mut Job);

/// What can be wrong with a job, by the number that it leads to for the most part.
const DAMAGES: [Damage; 18] = [
    Maker::site_at_an_edge,
    Maker::whole_number_at_an_edge,
    Maker::times_at_an_edge,
    Maker::end_of_the_year,
    Maker::surface_at_an_edge,
    Maker::word_damaged,
    Maker::list_damaged,
    Maker::series_shortened,
    Maker::reading_damaged,
    Maker::results_shortened,
    Maker::bounds_moved,
    Maker::bounds_moved,
    Maker::bound_at_the_sun,
    Maker::bound_at_the_sun,
    Maker::bound_at_the_sun,
    Maker::walk_ended,
    Maker::reveal_put_in,
    Maker::minus_zeros,
];

impl Maker {
    pub fn new(mut random: Random) -> Self {
        let mut junk = Vec::with_capacity(8 * MOST_WORDS);
        for _ in 0..MOST_WORDS {
            let word = match random.below(4) {
                0 => NAN_PATTERNS[random.below(NAN_PATTERNS.len())],
                1 => random.uniform(-1.0, 2.0).to_bits(),
                _ => random.word(),
            };
            junk.extend(word.to_le_bytes());
        }
        let judge = Judge::new();
        Maker {
            table_random: random.beside("tables of days"),
            totals_random: random.beside("totals"),
            leaf_random: random.beside("leaf days"),
            random,
            aims: Aims::Seldom,
            across_the_north: false,
            target: None,
            judge,
            junk,
        }
    }

    pub fn one_of<T: Copy>(&mut self, all: &[T]) -> T {
        all[self.random.below(all.len())]
    }

    // --- Site and times ---

    fn any_site(&mut self) -> JobSite {
        let timezone = self.random.below(28) as i64 - 13;
        let longitude = match self.random.below(8) {
            0 => self.random.uniform(-180.0, 180.0),
            1 => 15.0 * timezone as f64,
            _ => 15.0 * timezone as f64 + self.random.uniform(-12.0, 12.0),
        };
        let latitude = match self.random.below(8) {
            0 => self.one_of(&[90.0, -90.0, 0.0, -0.0, 66.55, -23.45]),
            1 => self.random.uniform(-90.0, 90.0),
            _ => self.random.uniform(-60.0, 60.0),
        };
        let series_step = match self.random.below(12) {
            0 => 0.25,
            1 => 0.5,
            2 => 24.0,
            3 => self.one_of(&[2.0, 3.0, 7.1, 0.3, 1.5]),
            4 => self.random.uniform(0.25, 24.0),
            _ => 1.0,
        };
        JobSite {
            latitude,
            longitude: longitude.clamp(-180.0, 180.0),
            timezone,
            start_day: 0,
            series_step,
            leap_year: self.random.below(2) as u64,
            direct_beam_conversion: self.random.below(2) as u64,
            first_leaf_day: self.leaf_random.below(366) as u64,
            last_leaf_day: self.leaf_random.below(366) as u64,
        }
    }

    /// Up to some sixty steps, anywhere in the year.
    fn any_times(&mut self, leap_year: u64) -> Times {
        let step = match self.random.below(16) {
            0 => 0.25,
            1 => 0.5,
            2 => 0.3,
            3 => 7.1,
            4 => 24.0,
            5 => self.random.uniform(0.25, 24.0),
            6 => self.random.uniform(0.25, 2.0),
            _ => 1.0,
        };
        let count = match self.random.below(4) {
            0 => self.random.below(4),
            _ => self.random.below(61),
        };
        let hours = if leap_year == 1 { 8784.0 } else { 8760.0 };
        let length = (step * count as f64).min(hours);
        let start = match self.random.below(16) {
            0 => 0.0,
            1 => hours - length,
            2 | 3 => self.random.uniform(0.0, hours - length),
            4 => ulps_from(self.random.below(8700) as f64, -1).clamp(0.0, hours - length),
            // about the morning of some day
            _ => (24.0 * self.random.uniform(0.0, 365.0).floor() + self.random.below(14) as f64)
                .min(hours - length),
        };
        let end = match self.random.below(12) {
            0 => start + length - step * self.random.uniform(0.0, 1.0),
            1 => ulps_from(start + length, self.random.below(5) as i64 - 2),
            2 => self.random.uniform(0.0, start),
            _ => start + length,
        };
        let end = match 0.0 < end && end <= 8784.0 {
            true => end,
            false => 1.0,
        };
        [start, end, step]
    }

    /// A site and times with the sun up in the north: in the south about noon, or in the far north about
    /// midnight in summer.
    fn sun_to_the_north(&mut self, site: &mut JobSite, times: &mut Times) {
        let [start, end, step] = *times;
        let hours = if site.leap_year == 1 { 8784.0 } else { 8760.0 };
        let (day, middle) = match self.random.below(4) {
            0 => {
                site.latitude = self.random.uniform(67.0, 85.0);
                (140.0 + self.random.below(60) as f64, 24.0)
            }
            _ => {
                site.latitude = self.random.uniform(-65.0, -15.0);
                ((start / 24.0).floor(), 12.0)
            }
        };
        let before = step * self.random.below(4) as f64;
        let moved = 24.0 * day + middle - before;
        let last = if start < end {
            moved + (end - start)
        } else {
            moved
        };
        if moved >= 0.0 && last < hours {
            times[0] = moved;
            times[1] = if start < end { last } else { end.min(moved) };
        }
    }

    /// Turns the surface away from a sun in the north, across it; or just to it, so that the difference
    /// is 0 at one step and beyond 180 at another.
    fn face_across_the_north(&mut self, numbers: &mut Numbers) {
        let azimuth = numbers[AZIMUTH];
        if (90.0..=180.0).contains(&azimuth.abs()) {
            let by = match self.random.below(4) {
                0 => 0.0,
                _ => self.random.uniform(180.0 - azimuth.abs(), 90.0),
            };
            let from_south = turned_back(azimuth + by * azimuth.signum());
            numbers[ORIENTATION] = 180.0 - from_south;
        }
    }

    /// Whether a job is aimed where it has to be, and has the sun where it has to be.
    fn is_well_placed(&mut self, site: &JobSite, times: &Times, numbers: &Numbers) -> bool {
        let across = |(_, numbers): &(u32, Numbers)| {
            numbers[ALTITUDE] > 0.0 && difference(numbers).abs() > 180.0 && !outside_beam(numbers)
        };
        if self.aims != Aims::Seldom && self.target.is_none() {
            return false;
        }
        let surface = numbers[2..].try_into().unwrap();
        !self.across_the_north || self.judge.suns(site, times, surface).iter().any(across)
    }

    /// A day, for the most part not long before the run begins.
    fn any_start_day(&mut self, start: f64) -> u64 {
        let day = (start / 24.0) as u64;
        match self.random.below(16) {
            0 => 0,
            1 => 365,
            2 => (day + self.random.below(3) as u64).min(365),
            3 => self.random.below(366) as u64,
            _ => day.saturating_sub(self.random.below(3) as u64).min(365),
        }
    }

    // --- Surface and objects ---

    /// The highest sun of some steps.
    pub fn sun_of(&mut self, site: &JobSite, steps: &[Step]) -> (f64, f64) {
        let mut best = (0.0, 0.0);
        for turn in 0..5 {
            let Some(step) = steps.get(self.random.below(steps.len().max(1))) else {
                break;
            };
            let surface = [90.0, 180.0, 0.0, 1.0, 1.0];
            let row = self.judge.hour(site, &surface, step.hour % 8784, [0.0; 3]);
            if turn == 0 || row[0] > best.0 {
                best = (row[0], row[1]);
            }
        }
        best
    }

    /// Sun and surface as the objects are aimed by, with the surface turned to that sun, about.
    fn any_numbers(&mut self, (altitude, azimuth): (f64, f64)) -> Numbers {
        let mut numbers = scenes::any_numbers(&mut self.random);
        numbers[ALTITUDE] = if altitude > 0.0 { altitude } else { 0.0 };
        numbers[AZIMUTH] = azimuth;
        let beside = self.random.uniform(-70.0, 70.0);
        let orientation = 180.0 - azimuth - beside;
        numbers[ORIENTATION] = match self.random.below(16) {
            0 => self.random.uniform(0.0, 360.0),
            _ => orientation.clamp(0.0, 360.0),
        };
        if self.random.below(2) == 0 {
            numbers[TILT] = 90.0;
        }
        numbers
    }

    /// Distant objects; few jobs have sectors that do not go all the way round.
    fn any_sectors(&mut self, aim: &Aim) -> Vec<Sector> {
        let mut sectors = scenes::any_sectors(&mut self.random, aim);
        if let (Some(last), true) = (sectors.len().checked_sub(1), self.random.below(8) != 0) {
            sectors[0][START] = 0.0f64.to_bits();
            sectors[last][END] = 360.0f64.to_bits();
        }
        if sectors.is_empty() && self.random.below(4) != 0 {
            sectors = vec![sector(0.0, 360.0, &[])];
        }
        sectors
    }

    /// The same for the other season.
    pub fn sectors_aimed_by(&mut self, numbers: &Numbers) -> Vec<Sector> {
        let aim = Aim::new(&mut self.random, numbers);
        self.any_sectors(&aim)
    }

    /// Distant and near objects.
    fn any_lists(&mut self, numbers: &Numbers) -> (Vec<u8>, Vec<u8>) {
        let aim = Aim::new(&mut self.random, numbers);
        let sectors = self.any_sectors(&aim);
        let mut window = scenes::any_window(&mut self.random, &aim);
        if self.across_the_north {
            scenes::fins_put_in(&mut self.random, &aim, &mut window);
        }
        let numbers = *numbers;
        let call = Scene {
            edition: EDITION_1,
            numbers,
            sectors,
            window,
        }
        .call();
        (call.sectors, call.window)
    }

    // --- Series and results ---

    pub fn any_reading(&mut self, list: usize) -> f64 {
        let random = &mut self.random;
        if list == 2 {
            return match random.below(8) {
                0 => [0.0, -0.0, 1.0, 0.2][random.below(4)],
                _ => random.uniform(0.0, 1.0),
            };
        }
        match random.below(16) {
            0 | 1 => 0.0,
            2 => -0.0,
            3 => f64::from_bits(random.word() >> 12), // a subnormal, or 0
            4 => 10_000.0,
            5 => random.uniform(0.0, 10_000.0),
            _ => random.uniform(0.0, 900.0),
        }
    }

    /// Series and results that fit the steps: readings where a step uses them, anything elsewhere,
    /// and now and then more than is needed.
    pub fn fit(&mut self, job: &mut Job) {
        let steps = steps_if_any(&job.site, &job.times);
        let words = steps.iter().map(|step| step.index + 1).max().unwrap_or(0);
        let all_minus_zero = self.random.below(16) == 0;
        for list in 0..3 {
            let more = match self.random.below(4) {
                0 => self.random.below(8),
                1 => self.random.below(40),
                _ => 0,
            };
            let from = 8 * self.random.below(64);
            let len = (8 * words + more).min(self.junk.len() - from);
            let mut series = self.junk[from..from + len].to_vec();
            for step in &steps {
                let reading = match list == 1 && all_minus_zero {
                    true => -0.0,
                    false => self.any_reading(list),
                };
                let at = 8 * step.index;
                series[at..at + 8].copy_from_slice(&reading.to_le_bytes());
            }
            job.series[list] = series;
        }
        let more = match self.random.below(4) {
            0 => self.random.below(8),
            1 => self.random.below(200),
            _ => 0,
        };
        job.results = self.bytes(8 * ROW * steps.len() + more);
        job.days = self.any_table();
        job.totals = self.any_totals(job.site.leap_year);
    }

    /// Random bytes, which a call is to leave where it stores nothing.
    pub fn bytes(&mut self, len: usize) -> Vec<u8> {
        self.random.bytes(len)
    }

    /// Room for a table of days, now and then with some bytes more.
    fn any_table(&mut self) -> Vec<u8> {
        let more = match self.table_random.below(8) {
            0 => self.table_random.below(9),
            1 => self.table_random.below(400),
            _ => 0,
        };
        tables::any_former(&mut self.table_random, DAYS_LENGTH + more)
    }

    /// Room for the totals of the year, now and then with some bytes more; of a common year one time in
    /// four as many as a leap year needs.
    fn any_totals(&mut self, leap_year: u64) -> Vec<u8> {
        let random = &mut self.totals_random;
        let needed = totals_needed(leap_year);
        let len = match random.below(8) {
            0 => needed + random.below(9),
            1 => needed + random.below(400),
            2 | 3 => totals_needed(1),
            _ => needed,
        };
        totals::any_former(random, len)
    }

    // --- Jobs ---

    /// Sun and surface of a job in range with these times, and its site, aimed as they are to be.
    fn placed(&mut self, site: &mut JobSite, times: &Times) -> Numbers {
        site.start_day = self.any_start_day(times[0]);
        let steps = steps_of(site, times);
        let sun = self.sun_of(site, &steps);
        let mut numbers = self.any_numbers(sun);
        if self.across_the_north {
            self.face_across_the_north(&mut numbers);
        }
        self.target = None;
        if self.aims != Aims::Seldom {
            self.aim_squarely(site, &mut numbers, &steps);
        } else if !steps.is_empty() && self.random.below(8) == 0 {
            let hour = steps[self.random.below(steps.len())].hour.min(8783);
            let surface = (&mut numbers[2..]).try_into().unwrap();
            aim(&mut self.random, site, surface, hour);
        }
        numbers
    }

    /// The job that is placed so.
    fn job_of(&mut self, site: JobSite, times: Times, numbers: &Numbers) -> Job {
        let (sectors, window) = self.any_lists(numbers);
        let mut job = Job {
            edition: EDITION_1,
            site,
            times,
            surface: numbers[2..].try_into().unwrap(),
            series: [vec![], vec![], vec![]],
            summer: sectors.clone(),
            winter: sectors,
            window,
            days: vec![],
            totals: vec![],
            results: vec![],
        };
        self.fit(&mut job);
        job
    }

    /// A job in range with these times.
    fn job_at(&mut self, mut site: JobSite, times: Times) -> Job {
        let numbers = self.placed(&mut site, &times);
        self.job_of(site, times, &numbers)
    }

    /// One of the steps, for the most part one with a high sun.
    fn sunny_step(&mut self, site: &JobSite, steps: &[Step]) -> Option<Step> {
        let mut best: Option<(f64, Step)> = None;
        for _ in 0..3 {
            let step = *steps.get(self.random.below(steps.len().max(1)))?;
            let (altitude, _) = self.sun_of(site, &[step]);
            if best.is_none_or(|(highest, _)| altitude > highest) {
                best = Some((altitude, step));
            }
        }
        best.map(|(_, step)| step)
    }

    /// Aims at the sun of one of the steps, and has the objects aimed by that sun too.
    fn aim_squarely(&mut self, site: &mut JobSite, numbers: &mut Numbers, steps: &[Step]) {
        let Some(step) = self.sunny_step(site, steps) else {
            return;
        };
        let hour = step.hour.min(8783);
        let mut surface: Surface = numbers[2..].try_into().unwrap();
        let from_behind = self.aims == Aims::FromBehind;
        if !aim_squarely(&mut self.random, site, &mut surface, hour, from_behind) {
            return;
        }
        let sun = self.judge.hour(site, &surface, hour, [0.0; 3]);
        numbers[..2].copy_from_slice(&sun[..2]);
        numbers[2..].copy_from_slice(&surface);
        self.target = Some(Target::of(self.aims, site, &surface, hour));
    }

    /// Where the last job made was aimed, if that is this job and its aim is as it was.
    fn target_of(&self, job: &Job) -> Option<Target> {
        let target = self.target?;
        let same = Target::of(target.aims, &job.site, &job.surface, target.hour) == target;
        let steps = steps_if_any(&job.site, &job.times);
        let there = steps.iter().any(|step| step.hour == target.hour);
        (same && there).then_some(target)
    }

    /// The hour at which the sun is square on the glass of the last job made, or overhead.
    pub fn aimed_hour(&self, job: &Job) -> Option<u32> {
        let target = self.target_of(job)?;
        (target.aims == Aims::Squarely).then_some(target.hour)
    }

    /// A short job in range that is aimed so.
    pub fn aimed_job(&mut self, aims: Aims, most_steps: usize) -> Job {
        self.aims = aims;
        self.aimed(|maker, site| maker.short_times(site.leap_year, most_steps))
    }

    /// Up to so many steps from a full hour on: half of the runs go by the hour, and half have a last
    /// step that passes the end, or a start above it.
    fn short_times(&mut self, leap_year: u64, most_steps: usize) -> Times {
        let hours = if leap_year == 1 { 8784 } else { 8760 };
        let step = match self.random.below(16) {
            0..=7 => 1.0,
            8 => 0.25,
            9 => 0.5,
            10 => 0.3,
            11 => 0.7,
            // over some days, for a change of season
            12 => self.random.uniform(1.0, 24.0),
            13 => self.random.uniform(6.0, 24.0),
            14 => 24.0,
            _ => self.random.uniform(0.25, 1.0),
        };
        let length = step * (1 + self.random.below(most_steps)) as f64;
        let start = self.random.below(hours) as f64;
        let start = start.min((hours as f64 - length).floor());
        let end = match self.random.below(8) {
            0..=2 => start + length - step * self.random.uniform(0.0, 1.0),
            3 if start > 0.0 => self.random.uniform(0.0, start),
            _ => start + length,
        };
        [start, end, step]
    }

    /// A job in range with these times, over weather by such a step.
    pub fn job_over(&mut self, series_step: f64, times: Times) -> Job {
        let mut site = self.any_site();
        site.series_step = series_step;
        self.job_at(site, times)
    }

    pub fn sound_job(&mut self) -> Job {
        self.aimed(|maker, site| maker.any_times(site.leap_year))
    }

    /// A job with such times, as often as it takes until it is aimed where it has to be.
    fn aimed(&mut self, times: impl Fn(&mut Maker, &JobSite) -> Times) -> Job {
        loop {
            let mut site = self.any_site();
            let mut times = times(self, &site);
            if self.across_the_north {
                self.sun_to_the_north(&mut site, &mut times);
            }
            let numbers = self.placed(&mut site, &times);
            if self.is_well_placed(&site, &times, &numbers) {
                return self.job_of(site, times, &numbers);
            }
        }
    }

    /// A job of a whole year; the first two in quarter hours.
    pub fn whole_year(&mut self, turn: usize) -> Job {
        let site = self.any_site();
        let hours = if site.leap_year == 1 { 8784.0 } else { 8760.0 };
        let step = match turn {
            0 | 1 => 0.25,
            2 => 0.3,
            _ => 1.0,
        };
        let mut job = self.job_at(site, [0.0, hours, step]);
        // one sector all the way round in place of some that the sun leaves in the course of a year
        let mut scene = self.scene(&job);
        if turn % 4 != 3 {
            for (start, end) in [(0, START), (scene.sectors.len().saturating_sub(1), END)] {
                if let Some(sector) = scene.sectors.get_mut(start) {
                    sector[end] = if end == START { 0.0f64 } else { 360.0 }.to_bits();
                }
            }
            if scene.sectors.is_empty() {
                scene.sectors.push(sector(0.0, 360.0, &[]));
            }
        }
        put_back(&mut job, scene.call());
        job
    }

    /// Six in ten are sound; the others are damaged in one place, or in two or three. One in forty
    /// has a table of days that is too short, and one in forty totals, half of these by less than a
    /// record.
    pub fn any_job(&mut self) -> Job {
        let mut job = self.sound_job();
        let damages = match self.random.below(20) {
            0..=11 => 0,
            12..=17 => 1,
            18 => 2,
            _ => 3,
        };
        for _ in 0..damages {
            let damage = self.one_of(&DAMAGES);
            damage(self, &mut job);
        }
        if self.table_random.below(40) == 0 {
            let len = self.table_random.below(DAYS_LENGTH);
            job.days.truncate(len);
        }
        if self.totals_random.below(40) == 0 {
            let needed = totals_needed(job.site.leap_year);
            let by = [needed, 24][self.totals_random.below(2)];
            let len = needed - 1 - self.totals_random.below(by);
            job.totals.truncate(len);
        }
        job
    }

    // --- Damages ---

    /// A double at an edge of its range, within or beyond.
    fn edge_of(&mut self, range: (f64, f64)) -> f64 {
        let edges = edges_of_range(range);
        match self.random.below(8) {
            0 => self.random.any_double(),
            _ => self.one_of(&edges),
        }
    }

    fn site_at_an_edge(&mut self, job: &mut Job) {
        let place = self.random.below(3);
        let x = self.edge_of(SITE_RANGES[place]);
        *[
            &mut job.site.latitude,
            &mut job.site.longitude,
            &mut job.site.series_step,
        ][place] = x;
    }

    fn whole_number_at_an_edge(&mut self, job: &mut Job) {
        let odd = [0, 1, 2, 365, 366, 1 << 32, (1 << 32) + 1, 1 << 63, u64::MAX];
        let word = self.one_of(&odd);
        match self.random.below(5) {
            0 => job.site.start_day = word,
            1 => job.site.leap_year = word,
            2 => job.site.direct_beam_conversion = word,
            3 => job.site.timezone = self.one_of(&[-13, 14, -14, 15]),
            _ => job.site.timezone = word as i64,
        }
    }

    fn times_at_an_edge(&mut self, job: &mut Job) {
        let place = self.random.below(3);
        job.times[place] = self.edge_of(TIME_RANGES[place]);
    }

    /// The run's last steps about the end of the year.
    fn end_of_the_year(&mut self, job: &mut Job) {
        let hours = self.one_of(&[8760.0, 8784.0, 8783.0, 8759.0]);
        let step = job.times[2];
        let start: f64 = hours - step * self.random.below(4) as f64;
        let start = ulps_from(start, self.random.below(3) as i64 - 1);
        let end = start + step * self.random.below(4) as f64;
        job.times = [start.clamp(0.0, 8784.0), end.clamp(1.0, 8784.0), step];
        job.site.start_day = 360 + self.random.below(6) as u64;
        job.site.leap_year = self.random.below(2) as u64;
        self.fit(job);
    }

    fn surface_at_an_edge(&mut self, job: &mut Job) {
        let place = self.random.below(5);
        job.surface[place] = self.edge_of(SURFACE_RANGES[place]);
    }

    /// The objects of a job, with one list as yet, and the sun of one of its steps.
    pub fn scene(&mut self, job: &Job) -> Scene {
        let steps = steps_if_any(&job.site, &job.times);
        let (altitude, azimuth) = self.sun_of(&job.site, &steps);
        let [tilt, orientation, base_height, height, width] = job.surface;
        Scene::of(&Call {
            edition: job.edition,
            numbers: [
                altitude,
                azimuth,
                tilt,
                orientation,
                base_height,
                height,
                width,
            ],
            sectors: job.summer.clone(),
            window: job.window.clone(),
        })
    }

    fn changed(&mut self, job: &mut Job, change: fn(&mut Random, &mut Scene)) {
        let mut scene = self.scene(job);
        change(&mut self.random, &mut scene);
        put_back(job, scene.call());
    }

    fn word_damaged(&mut self, job: &mut Job) {
        self.changed(job, scenes::word_damaged);
    }

    fn list_damaged(&mut self, job: &mut Job) {
        let mut call = self.scene(job).call();
        scenes::length_damaged(&mut self.random, &mut call);
        put_back(job, call);
    }

    fn bounds_moved(&mut self, job: &mut Job) {
        self.changed(job, scenes::bounds_moved);
    }

    fn reveal_put_in(&mut self, job: &mut Job) {
        self.changed(job, scenes::reveal_put_in);
    }

    /// A walk that ends in some way at some place, in the hour of some step.
    fn walk_ended(&mut self, job: &mut Job) {
        self.changed(job, scenes::walk_ended);
    }

    /// A sector cut in two where the sun stands at some step, about; or with a gap, or a turned
    /// sector, there. The steps before are accepted where the sun stood in an earlier sector.
    fn bound_at_the_sun(&mut self, job: &mut Job) {
        let mut scene = self.scene(job);
        let bound = 180.0 - scene.numbers[AZIMUTH];
        let bound = ulps_from(bound, self.random.below(3) as i64 - 1);
        let holds = |sector: &Sector| {
            f64::from_bits(sector[START]) < bound && bound < f64::from_bits(sector[END])
        };
        if let Some(place) = scene.sectors.iter().position(holds) {
            let mut second = scene.sectors[place];
            let [start, end] = [START, END].map(|bound| f64::from_bits(second[bound]));
            scene.sectors[place][END] = bound.to_bits();
            second[START] = bound.to_bits();
            match self.random.below(4) {
                0 => {}
                1 => second[START] = self.random.uniform(bound, end).to_bits(),
                2 => second[END] = self.random.uniform(start, bound).to_bits(),
                _ => scene.sectors[place][END] = self.random.uniform(start, bound).to_bits(),
            }
            scene.sectors.insert(place + 1, second);
        }
        put_back(job, scene.call());
    }

    fn minus_zeros(&mut self, job: &mut Job) {
        self.changed(job, scenes::minus_zeros);
        for place in 0..3 {
            if self.random.below(2) == 0 {
                job.surface[place] = -0.0;
            }
        }
        if job.times[0] == 0.0 {
            job.times[0] = -0.0;
        }
        if self.random.below(2) == 0 {
            job.site.latitude = -0.0;
        }
    }

    fn series_shortened(&mut self, job: &mut Job) {
        let list = self.random.below(3);
        let by = 1 + self.random.below(60);
        let series = &mut job.series[list];
        series.truncate(series.len().saturating_sub(by));
    }

    /// A reading that a step uses, or the one beside it.
    pub fn reading_damaged(&mut self, job: &mut Job) {
        let list = self.random.below(3);
        let x = match self.random.below(4) {
            0 => f64::from_bits(self.one_of(&NAN_PATTERNS)),
            _ => self.edge_of(READING_RANGES[list]),
        };
        let whole = job.series[list].len() / 8;
        if whole > 0 {
            // the last ones are those of the last steps
            let back = 1 + self.random.below(whole.min(60));
            let at = 8 * (whole - back);
            job.series[list][at..at + 8].copy_from_slice(&x.to_le_bytes());
        }
    }

    fn results_shortened(&mut self, job: &mut Job) {
        let by = 1 + self.random.below(2 * 8 * ROW);
        let results = &mut job.results;
        results.truncate(results.len().saturating_sub(by));
    }

    // --- Single steps ---

    /// The readings of one of a job's steps, or any where there are none.
    fn readings_of(&mut self, job: &Job, step: Option<&Step>) -> [f64; 3] {
        let reading = |list: usize| {
            let series = doubles_of(&job.series[list]);
            step.and_then(|step| series.get(step.index).copied())
        };
        let readings = [reading(0), reading(1), reading(2)];
        [0, 1, 2].map(|k: usize| match readings[k] {
            Some(x) => x,
            None => self.any_reading(k),
        })
    }

    /// Few of the calls have a short list of results, or a reading or a time at an edge.
    fn single_damaged(&mut self, single: &mut Single, doubles: usize) {
        match self.random.below(32) {
            0 => {
                let len = self.random.below(8 * doubles + 1);
                single.results = self.bytes(len);
            }
            1 => {
                let list = self.random.below(3);
                single.readings[list] = self.edge_of(READING_RANGES[list]);
            }
            2 => single.time = self.edge_of((0.0, 8784.0)),
            3 => {
                let hour = self.one_of(&[8760.0, 8784.0, 0.0, 8759.0]);
                single.time = ulps_from(hour, self.random.below(3) as i64 - 1);
            }
            _ => {}
        }
    }

    /// The call of one of a job's steps, where it has any, for the most part with room for all of
    /// its doubles. Of a job that is aimed it is the step that it is aimed at.
    pub fn single_of(&mut self, job: &Job, doubles: usize) -> Single {
        let mut single = self.sound_single_of(job, doubles);
        self.single_damaged(&mut single, doubles);
        single
    }

    /// The same with room for all of them.
    pub fn sound_single_of(&mut self, job: &Job, doubles: usize) -> Single {
        let steps = steps_if_any(&job.site, &job.times);
        let aimed = self.target_of(job).map(|target| target.hour);
        let step = match steps.iter().find(|step| Some(step.hour) == aimed) {
            Some(step) => Some(step),
            None => steps.get(self.random.below(steps.len().max(1))),
        };
        let readings = self.readings_of(job, step);
        let time = step.map_or(job.times[0], |step| step.time);
        let more = match self.random.below(4) {
            0 => self.random.below(20),
            _ => 0,
        };
        Single {
            edition: job.edition,
            site: job.site,
            time,
            surface: job.surface,
            readings,
            summer: job.summer.clone(),
            winter: job.winter.clone(),
            window: job.window.clone(),
            results: self.bytes(8 * doubles + more),
        }
    }
}

fn put_back(job: &mut Job, call: Call) {
    job.set_sectors(call.sectors);
    job.window = call.window;
}
