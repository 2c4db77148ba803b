//! Two jobs that are alike but for the sizes of objects: the laws about sizes over whole runs, from the
//! first step to the last, over their sums and over their totals of days and months. Sizes are other
//! ones in summer, in winter, in both, at the window or everywhere.

use super::laws::{no_nan_extent, numbers, other_row_elsewhere, Change, Rows};
use super::lent::Lent;
use crate::comparison::{same, shown, Outcome, Settings};
use crate::pilgartze::{totals_of, Totals, MONTHS};
use crate::published::jobs::*;
use crate::published::seasons::Seasons;
use crate::published::shading::Numbers;
use crate::published::totals::days_of;
use crate::random::Random;
use crate::shading::call::Call;
use crate::shading::scenes::Aim;
use crate::shading::sizes::{any_law, in_order, SizeLaw, Trial, REFUSED, SIZE_LAWS, SKIPPED};

/// Where the other job of a pair has other sizes.
#[derive(Clone, Copy, PartialEq)]
enum Place {
    Summer,
    Winter,
    BothSeasons,
    Window,
    Everywhere,
}

const PLACES: [(Place, &str); 5] = [
    (Place::Summer, "in summer alone"),
    (Place::Winter, "in winter alone"),
    (Place::BothSeasons, "in both seasons"),
    (Place::Window, "at the window"),
    (Place::Everywhere, "everywhere"),
];

impl Place {
    fn any(law: SizeLaw, random: &mut Random) -> Place {
        match law.handle() {
            Some(handle) if handle.distant => PLACES[random.below(3)].0,
            Some(_) => Place::Window,
            None => Place::Everywhere,
        }
    }

    /// The seasons whose steps may have other factors.
    fn change(self) -> Change {
        match self {
            Place::Summer => Change::Summer,
            Place::Winter => Change::Winter,
            _ => Change::Everywhere,
        }
    }

    /// The seasons whose objects are changed in turn; those at the window are the same in both.
    fn seasons(self) -> &'static [bool] {
        match self {
            Place::Summer | Place::Window => &[true],
            Place::Winter => &[false],
            _ => &[true, false],
        }
    }
}

/// A pair of jobs and what they left; the other is on the darker side or not.
struct Pair<'a> {
    law: SizeLaw,
    place: Place,
    darker: bool,
    jobs: [&'a Job; 2],
    left: [&'a Left<RunAnswer>; 2],
}

// --- Counting ---

/// How many pairs of jobs were tried for each law, how many of them had another factor at some step and
/// how many another sum; a pair of the same jobs does not count.
#[derive(Default)]
pub struct SizePairs {
    tried: [u64; SIZE_LAWS.len()],
    factors: [u64; SIZE_LAWS.len()],
    sums: [u64; SIZE_LAWS.len()],
    /// By place: pairs, steps with another factor, days and months with another sum, and steps of the
    /// season that was left as it was.
    places: [[u64; 4]; PLACES.len()],
    /// Pairs that were refused 8 to 11, and those of them that had rows before.
    refused: [u64; 4],
    later: [u64; 4],
    /// Jobs on which no law was tried, as an extent might be NaN.
    skipped: u64,
}

impl SizePairs {
    fn note(&mut self, pair: &Pair) {
        let [answer, other] = pair.left.map(|left| left.answer);
        if answer.number != 0 {
            let place = (answer.number - REFUSED.start()) as usize;
            self.refused[place] += 1;
            self.later[place] += (answer.step > 0) as u64;
            return;
        }
        let factors = pair.other_factors();
        let law = pair.law as usize;
        self.tried[law] += 1;
        self.factors[law] += (factors > 0) as u64;
        self.sums[law] += (answer.sum != other.sum) as u64;
        let counts = [1, factors, pair.other_totals(), pair.left_alone()];
        let place = &mut self.places[pair.place as usize];
        for (all, count) in place.iter_mut().zip(counts) {
            *all += count as u64;
        }
    }

    /// The laws' counts, of which none may be 0.
    fn report_laws(&self, settings: &Settings, laws: &[SizeLaw]) -> Outcome {
        settings.heading("    sizes of jobs: pairs, with other factors, with another sum");
        for &law in laws {
            let counts = [&self.tried, &self.factors, &self.sums].map(|all| all[law as usize]);
            let [tried, factors, sums] = counts;
            let line = format!("{:<30} {tried:>10} {factors:>10} {sums:>10}", law.words());
            if counts.contains(&0) {
                return Err(format!(
                    "run: pairs, with other factors, with another sum: {line}"
                ));
            }
            settings.heading(&format!("    {line}"));
        }
        Ok(())
    }

    /// The same of the places of these laws.
    fn report_places(&self, settings: &Settings, laws: &[SizeLaw]) -> Outcome {
        settings.heading("    by place: pairs, other factors, other totals, steps left alone");
        for ((place, words), counts) in PLACES.into_iter().zip(self.places) {
            let asked = laws.iter().any(|law| match law.handle() {
                Some(handle) if handle.distant => (place as usize) < 3,
                Some(_) => place == Place::Window,
                None => place == Place::Everywhere,
            });
            let [tried, factors, totals, left] = counts;
            let alone = matches!(place, Place::Summer | Place::Winter);
            let none = counts[..3].contains(&0) || alone && left == 0;
            if asked && none {
                return Err(format!("run: other sizes {words}: {counts:?}"));
            }
            settings.heading(&format!(
                "    {words:<30} {tried:>10} {factors:>10} {totals:>10} {left:>10}"
            ));
        }
        Ok(())
    }

    pub fn report(&self, settings: &Settings, laws: &[SizeLaw]) -> Outcome {
        if laws.is_empty() {
            return Ok(());
        }
        self.report_laws(settings, laws)?;
        self.report_places(settings, laws)?;
        for (place, number) in REFUSED.enumerate() {
            let counts = [("", self.refused), (", past step 0", self.later)];
            for (past, counts) in counts {
                let what = format!("other sizes, both refused {number}{past}");
                if counts[place] == 0 {
                    return Err(format!("run: no pair of jobs with {what}"));
                }
                settings.detail(&what, counts[place]);
            }
        }
        settings.detail(SKIPPED, self.skipped);
        Ok(())
    }
}

// --- What breaks a law ---

/// The records of days and months of both jobs, one beside the other.
fn totals_of_both(pair: &Pair) -> Vec<(Totals, Totals)> {
    let [kept, other] = pair.left.map(|left| totals_of(&left.totals));
    let records = days_of(pair.jobs[0].site.leap_year) + MONTHS;
    kept.into_iter().zip(other).take(records).collect()
}

impl Pair<'_> {
    fn rows(&self) -> [Rows; 2] {
        self.left.map(Rows::stored)
    }

    fn other_factors(&self) -> usize {
        let [rows, others] = self.rows();
        let each = rows.0.iter().zip(&others.0);
        each.filter(|(row, other)| row[5] != other[5]).count()
    }

    fn other_totals(&self) -> usize {
        let totals = totals_of_both(self);
        totals.iter().filter(|(a, b)| a.sum != b.sum).count()
    }

    /// The steps of the season in which both have the same sizes.
    fn left_alone(&self) -> usize {
        let [job, _] = self.jobs;
        let seasons = Seasons::of(&job.site);
        let change = self.place.change();
        let left = |step: &&Step| !change.is_in(seasons.is_summer(step.day));
        steps_of(&job.site, &job.times).iter().filter(left).count()
    }

    /// The first step whose factors are not in order, or whose other doubles are not the same.
    fn row_broken(&self) -> Option<String> {
        let [rows, others] = self.rows();
        for (step, (row, other)) in rows.0.iter().zip(&others.0).enumerate() {
            let alike = (0..5).all(|place| same(row[place], other[place]));
            if !alike || !in_order(self.darker, row[5], other[5]) {
                let (factor, other) = (shown(row[5]), shown(other[5]));
                return Some(format!("step {step}, factors {factor} and {other}"));
            }
        }
        let step = other_row_elsewhere(self.place.change(), self.jobs[0], &rows, &others)?;
        Some(format!("step {step}, of the season that was left alone"))
    }

    fn totals_broken(&self) -> Option<String> {
        let holds = |(kept, other): &(Totals, Totals)| {
            kept.count == other.count
                && same(kept.largest, other.largest)
                && in_order(self.darker, kept.sum, other.sum)
        };
        let totals = totals_of_both(self);
        let place = totals.iter().position(|both| !holds(both))?;
        let (kept, other) = &totals[place];
        Some(format!("totals {place}, {kept:?} and {other:?}"))
    }

    /// What breaks the law, in words.
    fn broken(&self) -> Option<String> {
        let [left, other] = self.left;
        if !super::numbers_same(&left.answer, &other.answer) {
            let answers = [left, other].map(|left| super::shown_answer(&left.answer));
            return Some(answers.join(" and "));
        }
        if let Some(words) = self.row_broken() {
            return Some(words);
        }
        let (sum, other_sum) = (left.answer.sum, other.answer.sum);
        if !in_order(self.darker, sum, other_sum) {
            return Some(format!("sums {} and {}", shown(sum), shown(other_sum)));
        }
        if left.days != other.days {
            return Some(String::from("table of days"));
        }
        self.totals_broken()
    }
}

// --- Trying ---

/// The sun of a row, partly in the shade if one is soon found, by which sizes are aimed.
fn any_sun(random: &mut Random, job: &Job, rows: &Rows) -> Numbers {
    let mut sun = numbers(job, &[30.0, 0.0, 0.0, 0.0, 0.0, 1.0]);
    for _ in 0..if rows.0.is_empty() { 0 } else { 6 } {
        let row = &rows.0[random.below(rows.0.len())];
        sun = numbers(job, row);
        if row[2] > 0.0 && 0.0 < row[5] && row[5] < 1.0 {
            break;
        }
    }
    sun
}

/// One of the laws that are about an object of the job, in a season by chance, if there is one and no
/// extent is NaN.
fn any_trial(
    laws: &[SizeLaw],
    skipped: &mut u64,
    random: &mut Random,
    job: &Job,
    left: &Left<RunAnswer>,
) -> Option<Trial> {
    let rows = Rows::stored(left);
    if !rows.0.iter().all(|row| no_nan_extent(&numbers(job, row))) {
        *skipped += 1;
        return None;
    }
    let aim = Aim::half_shaded(&any_sun(random, job, &rows));
    let objects = Call {
        numbers: aim.numbers,
        ..job.objects(random.below(2) == 0)
    };
    let law = any_law(laws, random, &objects)?;
    Some(Trial { law, aim })
}

/// The job with other sizes there, on the darker side or not.
fn changed(trial: &Trial, place: Place, random: &mut Random, job: &Job, darker: bool) -> Job {
    let drag = trial.drag(darker, random.below(8) == 0);
    let mut other = job.clone();
    for &summer in place.seasons() {
        let mut call = Call {
            numbers: trial.aim.numbers,
            ..other.objects(summer)
        };
        trial.law.change(random, &mut call, &drag);
        match summer {
            true => other.summer = call.sectors,
            false => other.winter = call.sectors,
        }
        other.window = call.window;
    }
    // an older job, with one list, stays one
    if place == Place::BothSeasons && job.summer == job.winter && random.below(2) == 0 {
        other.winter = other.summer.clone();
    }
    other
}

/// Tries a law on a job that was accepted, or refused at a step, and left this.
pub fn try_sizes(
    laws: &[SizeLaw],
    pairs: &mut SizePairs,
    random: &mut Random,
    job: &Job,
    left: &Left<RunAnswer>,
    lent: &mut Lent,
) -> Outcome {
    let Some(trial) = any_trial(laws, &mut pairs.skipped, random, job, left) else {
        return Ok(());
    };
    let place = Place::any(trial.law, random);
    let darker = random.below(2) == 0;
    let other = changed(&trial, place, random, job, darker);
    if other == *job {
        return Ok(());
    }
    let got = lent.run(&other)?;
    let pair = Pair {
        law: trial.law,
        place,
        darker,
        jobs: [job, &other],
        left: [left, &got],
    };
    if let Some(words) = pair.broken() {
        return Err(format!(
            "run breaks the law of the {}: {words}\n{}\nand\n{}",
            pair.law.name(),
            super::shown_job(job),
            super::shown_job(&other),
        ));
    }
    pairs.note(&pair);
    Ok(())
}
