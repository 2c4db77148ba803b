//! Whole jobs and single steps through the library: the specification's checks and the published
//! Rust against Rattle, every number, step, count, sum and byte of the results, of the table of days
//! and of the totals.

pub mod cases;
pub mod edges;
pub mod laws;
pub mod lent;
mod season_counts;
pub mod seasons;
pub mod self_test;
pub mod sizes;
pub mod tables;
pub mod totals;
pub mod wrong;
mod wrong_seasons;
mod wrong_sizes;
mod wrong_totals;

use crate::comparison::{same, shown, Outcome, Settings, Tally, With};
use crate::guarded::Side;
use crate::pilgartze::{DAY, EDITION_2, TOTALS};
use crate::published::beyond::{Aimed, Sums};
use crate::published::jobs::*;
use crate::published::seasons::{leaf_days_fine, Seasons};
use crate::published::shading::{outside_beam, Judge as FactorJudge, Numbers};
use crate::published::walk::End;
use crate::random::Random;
use crate::shading::call::Call;
use crate::shading::editions::{any_edition, has_fins_on_both_sides, FinsMet, Seen};
use crate::shading::laws::Law;
use crate::shading::sizes::{SizeLaw, REFUSED};
use crate::shading::smaller;
use crate::shading::walks::Walks;
use crate::stand_ins::Beyond;
use cases::{Aims, Maker, MOST_BYTES};
use laws::{keeps_its_figure, leaf_days_change_nothing, try_laws, Pairs};
use lent::{Lent, Library, DAYS_LIST, TOTALS_LIST};
use season_counts::SeasonsMet;
use sizes::{try_sizes, SizePairs};
use tables::Tables;
use totals::TotalsMet;

/// Jobs that are the same whatever the seed.
#[derive(Default)]
pub struct Fixed {
    pub edges: Vec<Job>,
    /// Jobs of one step, which is called by itself too.
    pub walks: Vec<Job>,
    /// Jobs with tables of days of every length and contents, lent at either end of their pages, in
    /// another edition at each.
    pub tables: Vec<Job>,
    /// Jobs about the first and the last days of the year.
    pub turns: Vec<Job>,
    /// Jobs with totals of every length and contents, lent so too.
    pub totals: Vec<Job>,
    /// Jobs about the days and months of the totals.
    pub calendar: Vec<Job>,
    /// Jobs about leaf days and seasons, and single steps.
    pub seasons: Vec<Job>,
    pub singles: Vec<Single>,
}

impl Fixed {
    pub fn all() -> Self {
        let mut edges = edges::all_in_both_editions(&edges::all());
        edges.extend(edges::editions());
        Fixed {
            edges,
            walks: edges::all_in_both_editions(&edges::walks()),
            seasons: seasons::jobs(),
            singles: seasons::singles(),
            ..Fixed::lists()
        }
    }

    /// Those about leaf days and seasons.
    pub fn seasons() -> Self {
        Fixed {
            seasons: seasons::jobs(),
            singles: seasons::singles(),
            ..Fixed::default()
        }
    }

    /// Those about editions and fins.
    pub fn editions() -> Self {
        Fixed {
            edges: edges::editions(),
            ..Fixed::default()
        }
    }

    /// Those about the lists that a run fills besides the results.
    fn lists() -> Self {
        let Fixed { tables, turns, .. } = Fixed::days();
        Fixed {
            tables,
            turns,
            ..Fixed::totals()
        }
    }

    /// Those about the table of days.
    pub fn days() -> Self {
        let mut tables = tables::lengths();
        tables.extend(tables::formers());
        Fixed {
            tables,
            turns: edges::all_in_both_editions(&tables::turns_of_the_year()),
            ..Fixed::default()
        }
    }

    /// Those about the sum.
    pub fn sums() -> Self {
        Fixed {
            edges: edges::sums(),
            ..Fixed::default()
        }
    }

    /// Those about the totals.
    pub fn totals() -> Self {
        let mut totals = totals::lengths();
        totals.extend(totals::formers());
        Fixed {
            totals,
            calendar: totals::calendar(),
            ..Fixed::default()
        }
    }

    fn runs(&self) -> usize {
        let once = [
            &self.edges,
            &self.walks,
            &self.turns,
            &self.calendar,
            &self.seasons,
        ];
        let twice = [&self.tables, &self.totals];
        let runs = |jobs: &[&Vec<Job>]| jobs.iter().map(|jobs| jobs.len()).sum::<usize>();
        runs(&once) + 2 * runs(&twice)
    }
}

/// What is to be tried.
#[derive(Clone, Copy)]
pub struct Plan<'a> {
    pub fixed: &'a Fixed,
    /// Random jobs; nine in twenty are aimed at the sun, so that a third is left when some of them,
    /// and of their single steps, are damaged.
    pub jobs: usize,
    /// Whole years, each in both editions.
    pub years: usize,
    /// Short random jobs, fifteen in sixteen of them aimed at the sun.
    pub aimed: usize,
    /// Whether answers are compared; else what follows is tried alone.
    pub compared: bool,
    pub laws: &'a [Law],
    pub sizes: &'a [SizeLaw],
    /// Whether runs by the hour are held to the figures that they had without the step in the sum.
    pub by_the_hour: bool,
    /// Whether jobs with equal lists are run with other leaf days too.
    pub leaf_days: bool,
}

/// Among so many random jobs, and short ones, one is also judged by the published record of the whole
/// job.
const BY_NEW: usize = 50;
const SHORT_BY_NEW: usize = 200;
/// The same of the jobs about seasons.
const SEASONS_BY_NEW: usize = 40;
/// Of the jobs that are not random one in so many, if its lists are equal, is run with other leaf days.
const EQUAL_LISTS: u64 = 8;

impl Plan<'_> {
    /// So many short jobs at the sun that at least a third of all are aimed there: somewhat more
    /// than one for every two that are not random.
    pub fn aimed_for(fixed: &Fixed, years: usize) -> usize {
        (fixed.runs() + years) * 3 / 5
    }
}

// --- Their objects ---

impl Job {
    /// Edition and objects of a season as a call of the factor has them, without sun and surface.
    pub fn objects(&self, summer: bool) -> Call {
        Call {
            edition: self.edition,
            numbers: [0.0; 7],
            sectors: if summer { &self.summer } else { &self.winter }.clone(),
            window: self.window.clone(),
        }
    }
}

impl Single {
    pub fn objects(&self, summer: bool) -> Call {
        Call {
            edition: self.edition,
            numbers: [0.0; 7],
            sectors: if summer { &self.summer } else { &self.winter }.clone(),
            window: self.window.clone(),
        }
    }
}

// --- Telling ---

pub fn shown_job(job: &Job) -> String {
    let JobSite {
        timezone,
        start_day,
        leap_year,
        direct_beam_conversion,
        first_leaf_day,
        last_leaf_day,
        ..
    } = job.site;
    let edition = job.edition;
    let whole = format!(
        "  edition {edition}, timezone {timezone}, start day {start_day}, leap year {leap_year}, conversion \
         {direct_beam_conversion}, leaf days {first_leaf_day} to {last_leaf_day}"
    );
    let doubles = [
        ("latitude", job.site.latitude),
        ("longitude", job.site.longitude),
        ("series step", job.site.series_step),
        ("start", job.times[0]),
        ("end", job.times[1]),
        ("step", job.times[2]),
    ];
    let mut lines = vec![whole];
    lines.extend(doubles.map(|(name, x)| format!("  {name:<11} {}", shown(x))));
    let names = ["diffuse", "direct", "reflectivity"];
    let series = names.iter().zip(&job.series);
    lines.extend(series.map(|(name, series)| shown_series(name, series, job)));
    let (days, totals, results) = (job.days.len(), job.totals.len(), job.results.len());
    lines.push(format!("  table of days, {days} bytes"));
    lines.push(format!("  totals, {totals} bytes"));
    lines.push(format!("  results, {results} bytes"));
    lines.push(String::from("  in summer"));
    lines.push(shown_objects(&job.surface, &job.summer, &job.window));
    lines.push(String::from("  in winter"));
    lines.push(shown_objects(&job.surface, &job.winter, &job.window));
    lines.join("\n")
}

/// A series' length, and what the first steps read of it.
fn shown_series(name: &str, series: &[u8], job: &Job) -> String {
    let doubles = doubles_of(series);
    let steps = steps_if_any(&job.site, &job.times);
    let read = steps
        .iter()
        .take(8)
        .map(|step| match doubles.get(step.index) {
            Some(&x) => format!("{}: {}", step.index, shown(x)),
            None => format!("{}: none", step.index),
        });
    let read: Vec<String> = read.collect();
    format!("  {name}, {} bytes, {}", series.len(), read.join(", "))
}

fn shown_objects(surface: &Surface, sectors: &[u8], window: &[u8]) -> String {
    let &[tilt, orientation, base_height, height, width] = surface;
    let call = Call {
        edition: EDITION_1,
        numbers: [0.0, 0.0, tilt, orientation, base_height, height, width],
        sectors: sectors.to_vec(),
        window: window.to_vec(),
    };
    let lines = call.shown();
    let lines: Vec<&str> = lines.lines().skip(3).collect(); // no edition and no sun here
    lines.join("\n")
}

fn shown_single(single: &Single) -> String {
    let job = Job {
        edition: single.edition,
        site: single.site,
        times: [single.time, single.time, 1.0],
        surface: single.surface,
        series: single.readings.map(|x| x.to_le_bytes().to_vec()),
        summer: single.summer.clone(),
        winter: single.winter.clone(),
        window: single.window.clone(),
        days: vec![],
        totals: vec![],
        results: single.results.clone(),
    };
    let [d, b, r] = single.readings.map(shown);
    format!("{}\n  readings {d}, {b}, {r}", shown_job(&job))
}

fn shown_answer(answer: &RunAnswer) -> String {
    let RunAnswer {
        number,
        step,
        count,
        sum,
    } = *answer;
    format!(
        "number {number}, step {step}, count {count}, sum {}",
        shown(sum)
    )
}

/// The first byte of a list that differs, and the double it is of, by the doubles of a record.
fn first_other_byte(list: &str, doubles: usize, right: &[u8], got: &[u8]) -> String {
    match (0..right.len()).find(|&at| right[at] != got[at]) {
        Some(at) => {
            let (record, double) = (at / (8 * doubles), at / 8 % doubles);
            let word = |bytes: &[u8]| match bytes.get(at / 8 * 8..at / 8 * 8 + 8) {
                Some(word) => shown(f64::from_le_bytes(word.try_into().unwrap())),
                None => format!("byte {:02X}", bytes[at]),
            };
            format!(
                "{list}, byte {at} (record {record}, double {double}): Rust {}, Rattle {}",
                word(right),
                word(got)
            )
        }
        None => format!("{list}: no difference"),
    }
}

// --- Comparing ---

/// Answers that are the same but for the sum.
fn numbers_same(a: &RunAnswer, b: &RunAnswer) -> bool {
    (a.number, a.step, a.count) == (b.number, b.step, b.count)
}

/// What differs, if anything: the run, or else its sum, its table of days or its totals alone.
fn other_part(right: &Left<RunAnswer>, got: &Left<RunAnswer>) -> Option<&'static str> {
    match () {
        _ if !numbers_same(&right.answer, &got.answer) => Some("run"),
        _ if right.results != got.results => Some("run"),
        _ if !same(right.answer.sum, got.answer.sum) => Some("run's sum"),
        _ if right.days != got.days => Some("run's table of days"),
        _ if right.totals != got.totals => Some("run's totals"),
        _ => None,
    }
}

/// A difference, with the smallest job by which it was found.
fn difference(job: &Job, judge: &mut Judge, lent: &mut Lent) -> String {
    let mut differ = |job: &Job| {
        let right = judge.run_on_copies(job);
        let got = lent.run(job).ok()?;
        other_part(&right, &got).map(|_| (right, got))
    };
    let mut smallest = job.clone();
    while let Some(smaller) = smaller_jobs(&smallest)
        .into_iter()
        .find(|job| differ(job).is_some())
    {
        smallest = smaller;
    }
    match differ(&smallest) {
        Some((right, got)) => format!(
            "{}\n  Rust   {}\n  Rattle {}\n  {}\n  {}\n  {}",
            shown_job(&smallest),
            shown_answer(&right.answer),
            shown_answer(&got.answer),
            first_other_byte("results", ROW, &right.results, &got.results),
            first_other_byte("table of days", DAY, &right.days, &got.days),
            first_other_byte("totals", TOTALS, &right.totals, &got.totals),
        ),
        None => format!("{}\n  differs once and not again", shown_job(job)),
    }
}

/// The job without one of its records in either season, or with fewer steps.
fn smaller_jobs(job: &Job) -> Vec<Job> {
    let mut all = vec![];
    for summer in [true, false] {
        for call in smaller(&job.objects(summer)) {
            let mut other = job.clone();
            *(if summer {
                &mut other.summer
            } else {
                &mut other.winter
            }) = call.sectors;
            other.window = call.window;
            all.push(other);
        }
    }
    let steps = steps_if_any(&job.site, &job.times);
    for place in [steps.len() / 2, steps.len().saturating_sub(1)] {
        if place > 0 && place < steps.len() && steps[place].time < job.times[1] {
            let mut other = job.clone();
            other.times[1] = steps[place].time;
            all.push(other);
        }
    }
    all
}

/// The rows that the judge left, up to the one that is refused.
fn rows_are_numbers(job: &Job, right: &Left<RunAnswer>) -> Outcome {
    let rows = match right.answer.number {
        0 => right.answer.count,
        _ => right.answer.step,
    };
    let doubles = doubles_of(&right.results[..8 * ROW * rows as usize]);
    must_be_numbers("run", &doubles, || shown_job(job))
}

/// The judge's rows held to those by the published record of the whole job.
fn by_new(job: &Job, right: &Left<RunAnswer>) -> Outcome {
    let rows = doubles_of(&right.results);
    let by_new = rows_by_new(job);
    let RunAnswer {
        number,
        step,
        count,
        ..
    } = right.answer;
    let (expected, refused) = match number {
        0 => (count as usize, 0),
        _ => (step as usize, 1),
    };
    let each = by_new.iter().enumerate();
    let agree = by_new.len() == expected + refused
        && each.into_iter().all(|(k, row)| match row {
            Ok(row) => (0..ROW).all(|place| same(row[place], rows[ROW * k + place])),
            Err(other) => (*other, k) == (number, expected),
        });
    match agree {
        true => Ok(()),
        false => Err(format!(
            "the judge differs from the published record of the whole job\n{}",
            shown_job(job)
        )),
    }
}

/// Of what is in range no double is NaN: not one in an accepted row.
fn must_be_numbers(call: &str, doubles: &[f64], shown: impl Fn() -> String) -> Outcome {
    match doubles.iter().any(|x| x.is_nan()) {
        true => Err(format!(
            "{call}: NaN in a row that is accepted\n{}",
            shown()
        )),
        false => Ok(()),
    }
}

// --- Counting ---

/// The specification's words for its numbers.
const WORDS: [&str; NUMBERS] = [
    "accepted",
    "site",
    "run",
    "surface",
    "object",
    "series",
    "reading",
    "results",
    "gap",
    "turned",
    "no sector",
    "reveal",
    "line",
    "unknown",
    "edition",
    "leaf day",
];

/// One more than the greatest number of a refusal.
const NUMBERS: usize = 16;

/// The numbers that a run gives.
const GIVEN: [usize; 14] = [0, 1, 2, 3, 4, 5, 6, 7, 8, 9, 10, 11, 14, 15];

/// Those that come before anything is stored.
const BEFORE_ANY_STORE: [usize; 9] = [1, 2, 3, 4, 5, 6, 7, 14, 15];

/// Sums beyond ±1 in the steps of one kind of call, how many calls were aimed at them, and how many
/// walks under an altitude's sum above 1 ended at a sector and at none.
#[derive(Default)]
struct Sunward {
    sums: Sums,
    aimed: Aimed,
    found: u64,
    no_sector: u64,
}

impl Sunward {
    /// Notes the judge's last call, which was aimed at that hour's sun, if at any.
    fn note(&mut self, judge: &Judge, aimed: Option<u32>) {
        let mut there = Beyond::default();
        for &(hour, beyond) in &judge.sums {
            self.sums.note(beyond);
            if Some(hour) == aimed {
                there = beyond;
            }
        }
        self.aimed.note(aimed.is_some(), there);
        for walked in &judge.overhead {
            self.found += (walked.end == End::Match) as u64;
            self.no_sector += (walked.end == End::NoSector) as u64;
        }
    }

    fn report(&self, settings: &Settings, name: &str) -> Outcome {
        self.aimed.report(settings, name)?;
        self.sums.report(settings, name)
    }

    /// The walks, of calls that have any.
    fn report_walks(&self, settings: &Settings, name: &str) -> Outcome {
        let counts = [("a sector", self.found), ("no sector", self.no_sector)];
        for (what, count) in counts {
            let what = format!("{name}, sum above 1, walk to {what}");
            if count == 0 {
                return Err(format!("{what}: none was met"));
            }
            settings.detail(&what, count);
        }
        Ok(())
    }
}

/// How many accepted runs with a sum above 0 had a step by which it tells something: of a product
/// taken in another order or rounded elsewhere, of the series' step in its place, of a last step cut
/// at the end.
#[derive(Default)]
struct Summed {
    all: u64,
    no_power_of_two: u64,
    not_the_series: u64,
    past_the_end: u64,
    above_the_end: u64,
}

impl Summed {
    fn note(&mut self, job: &Job, answer: &RunAnswer, steps: &[Step], rows: &[f64]) {
        let [start, end, step] = job.times;
        let (Some(last), true) = (steps.last(), answer.sum > 0.0) else {
            return;
        };
        let last_row = &rows[ROW * (steps.len() - 1)..];
        let last_counts = last_row[5] * last_row[2] > 0.0;
        let passes = start < end && last.time + step > end;
        self.all += 1;
        self.no_power_of_two += (step.to_bits() << 12 != 0) as u64;
        self.not_the_series += (step != job.site.series_step) as u64;
        self.past_the_end += (passes && last_counts) as u64;
        self.above_the_end += (start > end) as u64;
    }

    fn report(&self, settings: &Settings) -> Outcome {
        let counts = [
            ("watt-hours above 0", self.all),
            ("watt-hours, step no power of two", self.no_power_of_two),
            ("watt-hours, step not the series'", self.not_the_series),
            ("watt-hours, last step past the end", self.past_the_end),
            ("watt-hours, start above end", self.above_the_end),
        ];
        for (what, count) in counts {
            if count == 0 {
                return Err(format!("jobs: none had {what}"));
            }
            settings.detail(what, count);
        }
        Ok(())
    }
}

/// How many calls came out in each way.
#[derive(Default)]
struct Met {
    runs: Sunward,
    steps: Sunward,
    irradiances: Sunward,
    run: [u64; NUMBERS],
    later: [u64; NUMBERS],
    step: [u64; NUMBERS],
    irradiance: [u64; NUMBERS],
    no_steps: u64,
    one_above_end: u64,
    leap_day: u64,
    before_series: u64,
    shaded: u64,
    dark: u64,
    minus_zero: u64,
    rows: u64,
    sums: Summed,
    run_walks: Walks,
    step_walks: Walks,
    tables: Tables,
    totals: TotalsMet,
    seasons: SeasonsMet,
    /// Of the random jobs.
    fins: FinsMet,
}

impl Met {
    fn note(&mut self, job: &Job, right: &Left<RunAnswer>) {
        let RunAnswer {
            number,
            step,
            count,
            ..
        } = right.answer;
        self.run[number as usize] += 1;
        self.later[number as usize] += (step > 0) as u64;
        if number != 0 {
            return;
        }
        let [start, end, _] = job.times;
        self.no_steps += (count == 0) as u64;
        self.one_above_end += (start > end) as u64;
        self.rows += count;
        let steps = steps_of(&job.site, &job.times);
        let rows = doubles_of(&right.results);
        self.sums.note(job, &right.answer, &steps, &rows);
        for (step, row) in steps.iter().zip(rows.chunks_exact(ROW)) {
            self.leap_day += (step.hour >= 8760) as u64;
            self.tables.note_row(&job.site, step.hour, row[0]);
            self.before_series += (step.time < 24.0 * job.site.start_day as f64) as u64;
            self.shaded += (0.0 < row[5] && row[5] < 1.0 && row[2] > 0.0) as u64;
            self.dark += (row[5] == 0.0) as u64;
            self.minus_zero += same(row[2], -0.0) as u64;
        }
    }

    /// The calls by the number they gave.
    fn by_number(&self) -> Vec<(String, u64)> {
        let mut counts = vec![];
        for number in GIVEN {
            let word = WORDS[number];
            counts.push((format!("run, {number} {word}"), self.run[number]));
            if (8..=11).contains(&number) {
                let words = format!("run, {number} {word}, past step 0");
                counts.push((words, self.later[number]));
            }
        }
        for number in [0, 1, 2, 3, 4, 6, 7, 8, 9, 10, 11, 14, 15] {
            let words = format!("single step, {number} {}", WORDS[number]);
            counts.push((words, self.step[number]));
        }
        for number in [0, 1, 2, 3, 6, 7, 15] {
            let words = format!("irradiance, {number} {}", WORDS[number]);
            counts.push((words, self.irradiance[number]));
        }
        counts
    }

    fn report(&self, settings: &Settings, lent: &Lent) -> Outcome {
        let kinds = [
            ("accepted, no steps", self.no_steps),
            ("accepted, start above end", self.one_above_end),
            ("rows of accepted runs", self.rows),
            ("rows past hour 8759", self.leap_day),
            ("rows before the series begin", self.before_series),
            ("rows with direct, partly in the shade", self.shaded),
            ("rows all in the shade", self.dark),
            ("rows with direct -0.0", self.minus_zero),
        ];
        let mut counts = self.by_number();
        counts.extend(kinds.map(|(what, count)| (String::from(what), count)));
        for (what, count) in &counts {
            if *count == 0 {
                return Err(format!("jobs: none had {what}"));
            }
            settings.detail(what, *count);
        }
        self.sums.report(settings)?;
        self.seasons.report(settings, lent)?;
        self.fins.report(settings, "job")?;
        self.tables.report(settings)?;
        self.totals.report(settings)?;
        self.runs.report(settings, "run")?;
        self.runs.report_walks(settings, "run")?;
        self.steps.report(settings, "step")?;
        self.steps.report_walks(settings, "step")?;
        self.irradiances.report(settings, "irradiance")?;
        self.run_walks.report(settings, "run")?;
        self.step_walks.report(settings, "step")
    }
}

/// Whether the editions have another factor at a step.
fn editions_part(judge: &mut FactorJudge, job: &Job, summer: bool, numbers: &Numbers) -> bool {
    let sectors = if summer { &job.summer } else { &job.winter };
    let judged = judge.answer(EDITION_1, numbers, sectors, &job.window);
    let other = || judge.factor_in(EDITION_2);
    judged.answer.number == 0 && !other().is_ok_and(|other| same(judged.answer.factor, other))
}

/// What a job with fins on both sides has for them, at any of its steps inside the beam.
fn seen(judge: &mut Judge, factors: &mut FactorJudge, job: &Job) -> Seen {
    let mut seen = Seen::default();
    if !has_fins_on_both_sides(&job.window) || !leaf_days_fine(&job.site) {
        return seen;
    }
    let seasons = Seasons::of(&job.site);
    for (day, numbers) in judge.suns(&job.site, &job.times, &job.surface) {
        if !outside_beam(&numbers) {
            seen.note(&numbers, true);
            let summer = seasons.is_summer(day);
            seen.other |= !seen.other && editions_part(factors, job, summer, &numbers);
        }
    }
    seen
}

// --- The section ---

struct Comparison<'a> {
    plan: Plan<'a>,
    judge: Judge,
    factors: FactorJudge,
    lent: Lent,
    met: Met,
    pairs: Pairs,
    size_pairs: SizePairs,
    laws_random: Random,
    sizes_random: Random,
    editions_random: Random,
    tally: Tally,
    /// Whether the job under way is a random one.
    by_chance: bool,
    by_new: u64,
    years_accepted: u64,
    by_the_hour: u64,
    leaf_days: u64,
}

impl Comparison<'_> {
    /// One job, aimed at the sun of that hour, if at any: its answer and its results, then the laws.
    fn job(&mut self, job: &Job, aimed: Option<u32>, also_by_new: bool) -> Outcome {
        let got = self.lent.run(job)?;
        if self.plan.compared {
            self.compare(job, &got, aimed, also_by_new)?;
        }
        self.tally.compared += 1;
        let tried = self.by_chance || self.tally.compared % EQUAL_LISTS == 0;
        if self.plan.leaf_days && tried {
            let (random, lent) = (&mut self.laws_random, &mut self.lent);
            self.leaf_days += leaf_days_change_nothing(random, job, &got, lent)? as u64;
        }
        if got.answer.number == 0 {
            if self.plan.by_the_hour {
                self.by_the_hour += keeps_its_figure(job, &got)? as u64;
            }
            let (pairs, random) = (&mut self.pairs, &mut self.laws_random);
            try_laws(self.plan.laws, pairs, random, job, &got, &mut self.lent)?;
        }
        let number = got.answer.number;
        if !self.plan.sizes.is_empty() && (number == 0 || REFUSED.contains(&number)) {
            let (pairs, random) = (&mut self.size_pairs, &mut self.sizes_random);
            try_sizes(self.plan.sizes, pairs, random, job, &got, &mut self.lent)?;
        }
        Ok(())
    }

    /// What a job left against what the judge leaves.
    fn compare(
        &mut self,
        job: &Job,
        got: &Left<RunAnswer>,
        aimed: Option<u32>,
        also_by_new: bool,
    ) -> Outcome {
        let right = self.judge.run_on_copies(job);
        if let Some(part) = other_part(&right, got) {
            let words = difference(job, &mut self.judge, &mut self.lent);
            let cases = self.tally.compared;
            return Err(format!("{part} differs after {cases} cases\n{words}"));
        }
        rows_are_numbers(job, &right)?;
        self.met.note(job, &right);
        self.met.runs.note(&self.judge, aimed);
        let walks = self.judge.walks.iter();
        walks.for_each(|&walked| self.met.run_walks.note(walked));
        let by_chance = self.by_chance;
        self.met.seasons.note(&self.judge, job, &right, by_chance);
        if also_by_new && !BEFORE_ANY_STORE.contains(&(right.answer.number as usize)) {
            by_new(job, &right)?;
            self.by_new += 1;
            self.met.seasons.by_new[lists_walked(job) - 1] += 1;
        }
        self.met.tables.note(&mut self.judge, job, &right);
        self.met.totals.note(&mut self.judge, job, &right);
        self.tally.both_nan += right.answer.sum.is_nan() as u64;
        Ok(())
    }

    fn job_and_singles(&mut self, maker: &mut Maker, job: &Job, also_by_new: bool) -> Outcome {
        let aimed = maker.aimed_hour(job);
        self.job(job, aimed, also_by_new)?;
        match self.plan.compared {
            true => self.singles(maker, job, aimed),
            false => Ok(()),
        }
    }

    /// Those that are the same whatever the seed.
    fn fixed_jobs(&mut self, maker: &mut Maker) -> Outcome {
        let fixed = self.plan.fixed;
        for job in &fixed.edges {
            self.job_and_singles(maker, job, false)?;
        }
        for job in &fixed.walks {
            self.job(job, None, job.edition == EDITION_1)?;
            if self.plan.compared {
                self.step(&maker.sound_single_of(job, ROW), None)?;
            }
        }
        for job in &fixed.turns {
            self.job_and_singles(maker, job, job.edition == EDITION_1)?;
        }
        self.at_both_ends(&fixed.tables, DAYS_LIST)?;
        for job in &fixed.calendar {
            self.job(job, None, false)?;
        }
        self.at_both_ends(&fixed.totals, TOTALS_LIST)?;
        self.seasons(maker)
    }

    /// Those about leaf days and seasons, one in some judged by the published record of the whole job.
    fn seasons(&mut self, maker: &mut Maker) -> Outcome {
        let fixed = self.plan.fixed;
        for (turn, job) in fixed.seasons.iter().enumerate() {
            self.job_and_singles(maker, job, turn % SEASONS_BY_NEW == 0)?;
        }
        let singles: &[Single] = match self.plan.compared {
            true => &fixed.singles,
            false => &[],
        };
        for single in singles {
            self.step(single, None)?;
            self.irradiance(single, None)?;
        }
        Ok(())
    }

    /// Jobs of which that list is lent at the back and at the front of its pages, each time in another
    /// edition.
    fn at_both_ends(&mut self, jobs: &[Job], list: usize) -> Outcome {
        for (turn, job) in jobs.iter().enumerate() {
            let mut both = edges::in_both_editions(job);
            both.rotate_left(turn % 2);
            for (side, job) in [Side::Back, Side::Front].into_iter().zip(&both) {
                self.lent.list_side = Some((list, side));
                self.job(job, None, false)?;
            }
        }
        self.lent.list_side = None;
        Ok(())
    }

    /// The random ones, and those that are all aimed at the sun.
    fn random_jobs(&mut self, maker: &mut Maker) -> Outcome {
        for turn in 0..self.plan.jobs {
            maker.aims = match turn % 20 {
                0..=8 => Aims::Squarely,
                9 => Aims::FromBehind,
                _ => Aims::Seldom,
            };
            maker.across_the_north = maker.aims != Aims::FromBehind && turn % 3 != 0;
            let job = maker.any_job();
            self.random_job(maker, job, turn % BY_NEW == 0)?;
        }
        for turn in 0..self.plan.aimed {
            maker.across_the_north = turn % 5 != 0 && turn % 5 != 2;
            let aims = match turn % 16 {
                0 => Aims::Seldom,
                _ => Aims::Squarely,
            };
            let job = maker.aimed_job(aims, 6);
            self.random_job(maker, job, turn % SHORT_BY_NEW == 0)?;
        }
        maker.aims = Aims::Seldom;
        maker.across_the_north = false;
        Ok(())
    }

    /// One of them, in any edition.
    fn random_job(&mut self, maker: &mut Maker, mut job: Job, also_by_new: bool) -> Outcome {
        job.edition = any_edition(&mut self.editions_random);
        maker.put_seasons_in(&mut job);
        self.by_chance = true;
        self.job_and_singles(maker, &job, also_by_new)?;
        self.by_chance = false;
        if self.plan.compared {
            let seen = seen(&mut self.judge, &mut self.factors, &job);
            self.met.fins.note(job.edition, &seen);
        }
        Ok(())
    }

    fn report(&self, settings: &Settings) -> Outcome {
        settings.report("jobs", With::Published, self.tally)?;
        if self.plan.compared {
            self.met.report(settings, &self.lent)?;
            settings.detail("also judged by the record of a year", self.by_new);
            settings.detail("jobs of a whole year", 2 * self.plan.years as u64);
            settings.detail("of these accepted", self.years_accepted);
            if self.plan.years > 0 && self.years_accepted == 0 {
                return Err(String::from("jobs: no whole year was accepted"));
            }
        }
        if self.plan.by_the_hour {
            if self.by_the_hour == 0 {
                return Err(String::from("run: none by the hour has a sum"));
            }
            settings.detail("by the hour, sum as without the step", self.by_the_hour);
        }
        if self.plan.leaf_days {
            if self.leaf_days == 0 {
                return Err(String::from("run: none with equal lists"));
            }
            settings.detail("equal lists, same by other leaf days", self.leaf_days);
        }
        self.pairs.report(settings, self.plan.laws)?;
        self.size_pairs.report(settings, self.plan.sizes)
    }

    /// The call of one step.
    fn step(&mut self, single: &Single, aimed: Option<u32>) -> Outcome {
        let mut results = single.results.clone();
        let number = self.judge.step(single, &mut results);
        let got = self.lent.step(single)?;
        self.single("step", ROW, single, (number, results), got)?;
        self.met.step[number as usize] += 1;
        self.met.steps.note(&self.judge, single.at(aimed));
        let walks = self.judge.walks.iter();
        walks.for_each(|&walked| self.met.step_walks.note(walked));
        Ok(())
    }

    /// Both single-step calls of a step.
    fn singles(&mut self, maker: &mut Maker, job: &Job, aimed: Option<u32>) -> Outcome {
        self.step(&maker.single_of(job, ROW), aimed)?;
        self.irradiance(&maker.single_of(job, IRRADIANCE_ROW), aimed)
    }

    /// The sun and the irradiance of one step.
    fn irradiance(&mut self, single: &Single, aimed: Option<u32>) -> Outcome {
        let mut results = single.results.clone();
        let number = self.judge.irradiance(single, &mut results);
        let got = self.lent.irradiance(single)?;
        self.single("irradiance", IRRADIANCE_ROW, single, (number, results), got)?;
        self.met.irradiance[number as usize] += 1;
        self.met.irradiances.note(&self.judge, single.at(aimed));
        Ok(())
    }

    fn single(
        &self,
        call: &str,
        row: usize,
        single: &Single,
        (number, results): (u64, Vec<u8>),
        got: Left<u64>,
    ) -> Outcome {
        if number == got.answer && results == got.results {
            let stored = if number == 0 { row } else { 0 };
            let doubles = doubles_of(&results[..8 * stored]);
            return must_be_numbers(call, &doubles, || shown_single(single));
        }
        Err(format!(
            "{call} differs after {} jobs\n{}\n  Rust number {number}, Rattle {}\n  {}",
            self.tally.compared,
            shown_single(single),
            got.answer,
            first_other_byte("results", row, &results, &got.results),
        ))
    }
}

impl Single {
    /// The hour at which its job was aimed, if that is its own.
    fn at(&self, aimed: Option<u32>) -> Option<u32> {
        aimed.filter(|&hour| self.time.floor() == hour as f64)
    }
}

pub fn section(settings: &Settings, library: &Library, plan: Plan) -> Outcome {
    settings.heading("whole jobs and single steps: published Rust against Rattle");
    let mut all = Comparison {
        plan,
        judge: Judge::new(),
        factors: FactorJudge::new(),
        lent: Lent::new(*library, MOST_BYTES),
        met: Met::default(),
        pairs: Pairs::default(),
        size_pairs: SizePairs::default(),
        laws_random: settings.random("laws of jobs"),
        sizes_random: settings.random("sizes of jobs"),
        editions_random: settings.random("editions of jobs"),
        tally: Tally::default(),
        by_chance: false,
        by_new: 0,
        years_accepted: 0,
        by_the_hour: 0,
        leaf_days: 0,
    };
    let mut maker = Maker::new(settings.random("jobs"));
    all.fixed_jobs(&mut maker)?;
    all.random_jobs(&mut maker)?;
    for turn in 0..plan.years {
        maker.across_the_north = turn % 2 == 0;
        let job = maker.year_of_two_lists(turn);
        let accepted = all.met.run[0];
        for job in &edges::in_both_editions(&job) {
            all.job(job, None, true)?;
        }
        all.years_accepted += all.met.run[0] - accepted;
    }
    all.report(settings)
}
