//! Two jobs compared: the factor's laws over whole runs, from the first step to the last, over their
//! sums and over their totals of days and months. Both name the same edition, but for what the editions
//! have in common. Objects are other ones in summer, in winter or in both. And what equal lists come to.

use super::lent::Lent;
use crate::comparison::{same, shown, Outcome, Settings};
use crate::pilgartze::{totals_of, Totals, MONTHS};
use crate::published::jobs::*;
use crate::published::seasons::{leaf_days_fine, Seasons};
use crate::published::shading::{outside_beam, Numbers};
use crate::published::totals::{days_of, month_of};
use crate::random::Random;
use crate::shading::call::{Call, Scene};
use crate::shading::editions::{editions_agree, has_left_fin};
use crate::shading::laws::{extents_are_numbers, Law, LAWS};
use crate::shading::scenes::Aim;

/// How many pairs of jobs were tried for each law, and how many of their steps; a pair with the same
/// lists does not count.
#[derive(Default)]
pub struct Pairs {
    tried: [u64; LAWS.len()],
    steps: u64,
    /// Days and months that have a step, and those of them whose sum was smaller with further objects.
    records: u64,
    smaller: u64,
    /// Steps with left fins at which both editions have the same factor.
    alike: u64,
    /// Pairs with other objects in one season alone or in both, and steps of the season that was left
    /// as it was.
    changed: [u64; CHANGES.len()],
    left_alone: [u64; CHANGES.len()],
    /// Days and months whose sum was smaller with further objects there.
    smaller_in: [u64; CHANGES.len()],
    skipped: u64,
}

/// Where the other job of a pair has other objects.
#[derive(Clone, Copy, PartialEq)]
pub enum Change {
    Summer,
    Winter,
    /// In both, and at the window.
    Everywhere,
}

const CHANGES: [(Change, &str); 3] = [
    (Change::Summer, "summer alone"),
    (Change::Winter, "winter alone"),
    (Change::Everywhere, "both and at the window"),
];

impl Change {
    /// One of them, by chance; what is said of no objects, and of editions, is said of all.
    fn any(law: Law, random: &mut Random) -> Change {
        match law {
            Law::Range | Law::Emptied | Law::OtherEdition => Change::Everywhere,
            _ => CHANGES[random.below(CHANGES.len())].0,
        }
    }

    pub fn is_in(self, summer: bool) -> bool {
        match self {
            Change::Summer => summer,
            Change::Winter => !summer,
            Change::Everywhere => true,
        }
    }
}

impl Pairs {
    pub fn report(&self, settings: &Settings, laws: &[Law]) -> Outcome {
        for &law in laws {
            let count = self.tried[law as usize];
            if count == 0 {
                return Err(format!("run: no pair of jobs for the {}", law.words()));
            }
            settings.detail(&format!("jobs, {}", law.words()), count);
        }
        settings.detail("steps of these pairs", self.steps);
        settings.detail("days and months of these pairs", self.records);
        if laws.contains(&Law::Enlarged) {
            if self.smaller == 0 {
                return Err(String::from(
                    "run: no smaller sum of a day with more objects",
                ));
            }
            settings.detail("smaller with more objects", self.smaller);
        }
        if laws.contains(&Law::OtherEdition) {
            if self.alike == 0 {
                return Err(String::from(
                    "run: no step at which both editions have to agree",
                ));
            }
            settings.detail("steps alike in both editions", self.alike);
        }
        if laws.contains(&Law::Enlarged) {
            self.report_seasons(settings)?;
        }
        settings.detail("laws not tried: an extent might be NaN", self.skipped);
        Ok(())
    }

    fn report_seasons(&self, settings: &Settings) -> Outcome {
        for (place, (change, season)) in CHANGES.into_iter().enumerate() {
            let mut counts = vec![
                (format!("pairs, in {season}"), self.changed[place]),
                (format!("smaller, in {season}"), self.smaller_in[place]),
            ];
            if change != Change::Everywhere {
                let words = format!("steps left alone, in {season}");
                counts.push((words, self.left_alone[place]));
            }
            for (what, count) in counts {
                if count == 0 {
                    return Err(format!("run: no {what}"));
                }
                settings.detail(&what, count);
            }
        }
        Ok(())
    }

    /// Notes a pair with such rows, at so many of which both editions have to agree.
    fn note(&mut self, law: Law, rows: &Rows, alike: usize) {
        self.tried[law as usize] += 1;
        self.steps += rows.0.len() as u64;
        self.alike += if law == Law::OtherEdition { alike } else { 0 } as u64;
    }

    /// Notes where a pair had other objects.
    fn note_change(&mut self, law: Law, change: Change, job: &Job) {
        if matches!(law, Law::Range | Law::OtherEdition) {
            return;
        }
        self.changed[change as usize] += 1;
        let seasons = Seasons::of(&job.site);
        let steps = steps_of(&job.site, &job.times);
        let left = |step: &&Step| !change.is_in(seasons.is_summer(step.day));
        self.left_alone[change as usize] += steps.iter().filter(left).count() as u64;
    }

    fn note_totals(
        &mut self,
        law: Law,
        change: Change,
        job: &Job,
        left: &Left<RunAnswer>,
        other: &Left<RunAnswer>,
    ) {
        let (kept, other) = (totals_of(&left.totals), totals_of(&other.totals));
        let records = days_of(job.site.leap_year) + MONTHS;
        for (kept, other) in kept.iter().zip(&other).take(records) {
            let smaller = law == Law::Enlarged && other.sum < kept.sum;
            self.records += (kept.count > 0) as u64;
            self.smaller += smaller as u64;
            self.smaller_in[change as usize] += smaller as u64;
        }
    }
}

/// A run's rows.
pub struct Rows(pub Vec<[f64; ROW]>);

impl Rows {
    fn of(left: &Left<RunAnswer>) -> Rows {
        Rows::first(left, left.answer.count)
    }

    /// Those up to the step that was refused, if one was.
    pub fn stored(left: &Left<RunAnswer>) -> Rows {
        match left.answer.number {
            0 => Rows::of(left),
            _ => Rows::first(left, left.answer.step),
        }
    }

    fn first(left: &Left<RunAnswer>, count: u64) -> Rows {
        let doubles = doubles_of(&left.results);
        let rows = doubles.chunks_exact(ROW).map(|row| row.try_into().unwrap());
        Rows(rows.take(count as usize).collect())
    }

    /// The sum from 0 of the unshaded direct values, each times the step.
    fn unshaded(&self, step_hours: f64) -> f64 {
        let each = self.0.iter();
        each.fold(0.0, |sum, row| sum + row[2] * step_hours)
    }

    /// The sum from 0 of factor times direct, by which a step of any length would count as an hour.
    fn by_hours(&self) -> f64 {
        self.0.iter().fold(0.0, |sum, row| sum + row[5] * row[2])
    }
}

/// "One-hour runs keep their figures": the sum of an accepted one is still that of factor times direct.
/// Whether the job is one, with a sum that is not 0.
pub fn keeps_its_figure(job: &Job, left: &Left<RunAnswer>) -> Result<bool, String> {
    let [.., step_hours] = job.times;
    let (sum, figure) = (left.answer.sum, Rows::of(left).by_hours());
    match step_hours == 1.0 {
        false => Ok(false),
        true if same(sum, figure) => Ok(sum != 0.0),
        true => Err(format!(
            "run by the hour has the sum {}, not {} as by factor times direct\n{}",
            shown(sum),
            shown(figure),
            super::shown_job(job)
        )),
    }
}

fn sums_hold(law: Law, sum: f64, other: f64, unshaded: f64) -> bool {
    match law {
        Law::Range => 0.0 <= sum && sum <= unshaded,
        Law::Reordered | Law::Repeated => same(sum, other),
        Law::Enlarged => other <= sum,
        Law::Emptied => same(other, unshaded),
        // the sums are of other steps too
        Law::OtherEdition => true,
    }
}

/// The sums from 0 of the unshaded direct values, each times the step, of each day and month.
fn unshaded_totals(job: &Job, rows: &Rows) -> Vec<f64> {
    let leap_year = job.site.leap_year;
    let days = days_of(leap_year);
    let mut sums = vec![0.0; days + MONTHS];
    let steps = steps_of(&job.site, &job.times);
    for (step, row) in steps.iter().zip(&rows.0) {
        let day = step.day as usize;
        for place in [day, days + month_of(leap_year, day)] {
            sums[place] += row[2] * job.times[2];
        }
    }
    sums
}

/// Whether the law holds of two jobs' totals of one day or month.
fn totals_hold(law: Law, kept: &Totals, other: &Totals, unshaded: f64) -> bool {
    let same_steps = kept.count == other.count && same(kept.largest, other.largest);
    let (sum, other) = (kept.sum, other.sum);
    same_steps
        && match law {
            Law::Emptied => sum <= other && same(other, unshaded),
            _ => sums_hold(law, sum, other, unshaded),
        }
}

/// What breaks the law in the totals of two runs, in words.
fn totals_broken(
    law: Law,
    job: &Job,
    left: &Left<RunAnswer>,
    other: &Left<RunAnswer>,
) -> Option<String> {
    let unshaded = unshaded_totals(job, &Rows::of(left));
    let (kept, other_kept) = (totals_of(&left.totals), totals_of(&other.totals));
    for (place, &unshaded) in unshaded.iter().enumerate() {
        let (kept, other) = (&kept[place], &other_kept[place]);
        if !totals_hold(law, kept, other, unshaded) {
            return Some(format!("totals {place}, {kept:?} and {other:?}"));
        }
    }
    let same_objects = !matches!(law, Law::Enlarged | Law::Emptied | Law::OtherEdition);
    let other_bytes = same_objects && left.totals != other.totals;
    other_bytes.then(|| String::from("bytes of the totals"))
}

/// Sun and surface in a row.
pub fn numbers(job: &Job, row: &[f64; ROW]) -> Numbers {
    let mut numbers = [0.0; 7];
    numbers[..2].copy_from_slice(&row[..2]);
    numbers[2..].copy_from_slice(&job.surface);
    numbers
}

/// Outside the beam, as under an azimuth far beyond ±180, nothing has an extent.
pub fn no_nan_extent(numbers: &Numbers) -> bool {
    extents_are_numbers(&Aim::half_shaded(numbers)) || outside_beam(numbers)
}

/// The job with other objects there, or in the other edition; further objects are aimed by the sun of
/// one of the rows.
fn changed(law: Law, change: Change, random: &mut Random, job: &Job, rows: &Rows) -> Job {
    let sun = numbers(job, &rows.0[random.below(rows.0.len())]);
    let mut other = job.clone();
    for summer in [true, false]
        .into_iter()
        .filter(|&season| change.is_in(season))
    {
        let mut scene = Scene::of(&Call {
            numbers: sun,
            ..job.objects(summer)
        });
        law.change(random, &mut scene);
        let call = scene.call();
        match summer {
            true => other.summer = call.sectors,
            false => other.winter = call.sectors,
        }
        if change == Change::Everywhere {
            (other.edition, other.window) = (call.edition, call.window);
        }
    }
    other
}

/// The first step of a season whose objects are the same in both jobs that has another row.
pub fn other_row_elsewhere(change: Change, job: &Job, rows: &Rows, others: &Rows) -> Option<usize> {
    let seasons = Seasons::of(&job.site);
    let steps = steps_of(&job.site, &job.times);
    let each = steps.iter().zip(rows.0.iter().zip(&others.0));
    let same_row =
        |(row, other): (&[f64; ROW], &[f64; ROW])| row.iter().zip(other).all(|(&x, &y)| same(x, y));
    each.map(|(step, rows)| change.is_in(seasons.is_summer(step.day)) || same_row(rows))
        .position(|holds| !holds)
}

/// What breaks the law in this job and one with other objects, by what they left, in words.
fn broken(
    law: Law,
    change: Change,
    job: &Job,
    left: &Left<RunAnswer>,
    other: &Left<RunAnswer>,
) -> Option<String> {
    let [.., step_hours] = job.times;
    let (rows, other_rows) = (Rows::of(left), Rows::of(other));
    let (sum, other_sum) = (left.answer.sum, other.answer.sum);
    if other.answer.number != 0 || other_rows.0.len() != rows.0.len() {
        return Some(format!("number {}", other.answer.number));
    }
    for (step, (row, other)) in rows.0.iter().zip(&other_rows.0).enumerate() {
        let says_nothing = law == Law::OtherEdition && !editions_agree(&numbers(job, row));
        let holds = says_nothing || law.holds(row[5], other[5]);
        if !holds || !same(row[2], other[2]) {
            let (factor, other) = (shown(row[5]), shown(other[5]));
            return Some(format!("step {step}, factors {factor} and {other}"));
        }
    }
    if let Some(step) = other_row_elsewhere(change, job, &rows, &other_rows) {
        return Some(format!("step {step}, of the season that was left alone"));
    }
    if !sums_hold(law, sum, other_sum, rows.unshaded(step_hours)) {
        return Some(format!("sums {} and {}", shown(sum), shown(other_sum)));
    }
    totals_broken(law, job, left, other)
}

/// The steps with left fins at which both editions have to give the same factor.
fn steps_alike(job: &Job, rows: &Rows) -> usize {
    match has_left_fin(&job.window) {
        true => {
            let alike = |row: &&[f64; ROW]| editions_agree(&numbers(job, row));
            rows.0.iter().filter(alike).count()
        }
        false => 0,
    }
}

/// Tries the laws on a job that was accepted and left this.
pub fn try_laws(
    laws: &[Law],
    pairs: &mut Pairs,
    random: &mut Random,
    job: &Job,
    left: &Left<RunAnswer>,
    lent: &mut Lent,
) -> Outcome {
    let rows = Rows::of(left);
    let all_numbers = rows.0.iter().all(|row| no_nan_extent(&numbers(job, row)));
    if rows.0.is_empty() || !all_numbers {
        pairs.skipped += !all_numbers as u64;
        return Ok(());
    }
    let alike = steps_alike(job, &rows);
    for &law in laws {
        if law == Law::OtherEdition && alike == 0 {
            continue;
        }
        let change = Change::any(law, random);
        let other = changed(law, change, random, job, &rows);
        if law != Law::Range && other == *job {
            continue;
        }
        let got = lent.run(&other)?;
        if let Some(words) = broken(law, change, job, left, &got) {
            return Err(format!(
                "run breaks the law of the {}: {words}\n{}\nand\n{}",
                law.name(),
                super::shown_job(job),
                super::shown_job(&other),
            ));
        }
        pairs.note(law, &rows, alike);
        pairs.note_change(law, change, job);
        pairs.note_totals(law, change, job, left, &got);
    }
    Ok(())
}

/// "An older job, with one list, is a job with two equal lists": with these any leaf days that are
/// accepted give the same answer and leave the same bytes, whatever was refused. Whether the job is one.
pub fn leaf_days_change_nothing(
    random: &mut Random,
    job: &Job,
    left: &Left<RunAnswer>,
    lent: &mut Lent,
) -> Result<bool, String> {
    if job.summer != job.winter || !leaf_days_fine(&job.site) {
        return Ok(false);
    }
    let mut other = job.clone();
    other.site.first_leaf_day = random.below(366) as u64;
    other.site.last_leaf_day = random.below(366) as u64;
    let got = lent.run(&other)?;
    match super::other_part(left, &got) {
        None => Ok(true),
        Some(part) => Err(format!(
            "run with equal lists and other leaf days: another {part}\n{}\nand\n{}",
            super::shown_job(job),
            super::shown_job(&other),
        )),
    }
}
