//! How many jobs had what tells something of leaf days and seasons.

use super::lent::Lent;
use super::{BEFORE_ANY_STORE, WORDS};
use crate::comparison::{same, Outcome, Settings};
use crate::published::jobs::*;
use crate::published::seasons::{leaf_days_fine, Seasons, WRONG_LEAF_DAY};

/// What is counted of all jobs, and of the random ones by themselves.
const RUNS: [&str; 12] = [
    "a change of season within the run",
    "both changes within the run",
    "winter, then summer",
    "summer, then winter",
    "all steps in summer",
    "all steps in winter",
    "leaf days turned",
    "leaf days equal",
    "first leaf day one above the last",
    "equal lists",
    "different lists",
    "lists of different lengths",
];

/// What is counted of all jobs: rows inside the beam that the other list would give another factor, and
/// numbers that come by one list alone.
const TOLD: [&str; 27] = [
    "rows told apart, in summer",
    "rows told apart, in winter",
    "rows told apart, first leaf day",
    "rows told apart, the day before it",
    "rows told apart, last leaf day",
    "rows told apart, the day after it",
    "rows told apart, day 0",
    "rows told apart, day 58",
    "rows told apart, day 59",
    "rows told apart, day 60",
    "rows told apart, day 364",
    "rows told apart, day 365",
    "rows that the other list would refuse",
    "8 gap in summer, none in winter",
    "8 gap in winter, none in summer",
    "9 turned in summer, none in winter",
    "9 turned in winter, none in summer",
    "10 no sector in summer, none in winter",
    "10 no sector in winter, none in summer",
    "11 reveal, another number by the other list",
    "4 object in summer alone",
    "4 object in winter alone",
    "4 object in summer alone, no step there",
    "4 object in winter alone, no step there",
    "15 leaf day, the first alone",
    "15 leaf day, the last alone",
    "15 leaf day, equal lists",
];

/// Of the random jobs with steps on more than one day at least one in so many has a change of season
/// within its run.
const CHANGES_IN: u64 = 2;

#[derive(Default)]
pub struct SeasonsMet {
    runs: [u64; RUNS.len()],
    random_runs: [u64; RUNS.len()],
    /// Random jobs with steps, and those of them with steps on more than one day.
    random: u64,
    random_days: u64,
    told: [u64; TOLD.len()],
    /// Jobs judged by the published record of the whole job: with one list, and with one of both at
    /// each step.
    pub by_new: [u64; 2],
}

fn place(all: &[&str], what: &str) -> usize {
    let place = all.iter().position(|&counted| counted == what);
    place.unwrap_or_else(|| panic!("{what} is not counted"))
}

/// The kinds of a run with steps.
fn kinds(job: &Job, seasons: &[bool]) -> Vec<&'static str> {
    let changes = seasons.windows(2).filter(|pair| pair[0] != pair[1]);
    let changes: Vec<bool> = changes.map(|pair| pair[1]).collect();
    let (first, last) = (job.site.first_leaf_day, job.site.last_leaf_day);
    let all = [
        ("a change of season within the run", !changes.is_empty()),
        ("both changes within the run", changes.len() > 1),
        ("winter, then summer", changes.contains(&true)),
        ("summer, then winter", changes.contains(&false)),
        ("all steps in summer", changes.is_empty() && seasons[0]),
        ("all steps in winter", changes.is_empty() && !seasons[0]),
        ("leaf days turned", first > last),
        ("leaf days equal", first == last),
        ("first leaf day one above the last", first == last + 1),
        ("equal lists", job.summer == job.winter),
        ("different lists", job.summer != job.winter),
        (
            "lists of different lengths",
            job.summer.len() != job.winter.len(),
        ),
    ];
    let held = all.into_iter().filter(|(_, holds)| *holds);
    held.map(|(what, _)| what).collect()
}

impl SeasonsMet {
    fn tell(&mut self, what: &str) {
        self.told[place(&TOLD, what)] += 1;
    }

    /// Notes the judge's last run.
    pub fn note(&mut self, judge: &Judge, job: &Job, right: &Left<RunAnswer>, random: bool) {
        let number = right.answer.number;
        match number {
            4 => self.note_objects(job),
            WRONG_LEAF_DAY => self.note_leaf_days(job),
            _ => {}
        }
        if BEFORE_ANY_STORE.contains(&(number as usize)) {
            return;
        }
        let seasons = Seasons::of(&job.site);
        let steps = steps_of(&job.site, &job.times);
        let seasons: Vec<bool> = steps
            .iter()
            .map(|step| seasons.is_summer(step.day))
            .collect();
        if seasons.is_empty() {
            return;
        }
        self.random += random as u64;
        self.random_days += (random && steps[0].day < steps[steps.len() - 1].day) as u64;
        for what in kinds(job, &seasons) {
            self.runs[place(&RUNS, what)] += 1;
            self.random_runs[place(&RUNS, what)] += random as u64;
        }
        for step in &judge.by_both_lists {
            self.note_step(job, step);
        }
    }

    fn note_step(&mut self, job: &Job, step: &ByBothLists) {
        let season = |summer: bool| if summer { "summer" } else { "winter" };
        match (step.own, step.other) {
            (Ok(own), Ok(other)) if !same(own, other) => self.note_told_apart(job, step),
            (Ok(_), Err(_)) => self.tell("rows that the other list would refuse"),
            (Err(11), Err(other)) if other != 11 => {
                self.tell("11 reveal, another number by the other list")
            }
            (Err(number), Ok(_)) => {
                let (own, other) = (season(step.summer), season(!step.summer));
                let word = WORDS[number as usize];
                self.tell(&format!("{number} {word} in {own}, none in {other}"));
            }
            _ => {}
        }
    }

    fn note_told_apart(&mut self, job: &Job, step: &ByBothLists) {
        let day = u64::from(step.day);
        let (first, last) = (job.site.first_leaf_day, job.site.last_leaf_day);
        let days = [
            ("first leaf day", first),
            ("the day before it", first.wrapping_sub(1)),
            ("last leaf day", last),
            ("the day after it", last + 1),
            ("day 0", 0),
            ("day 58", 58),
            ("day 59", 59),
            ("day 60", 60),
            ("day 364", 364),
            ("day 365", 365),
        ];
        self.tell(match step.summer {
            true => "rows told apart, in summer",
            false => "rows told apart, in winter",
        });
        for (what, _) in days.into_iter().filter(|&(_, known)| known == day) {
            self.tell(&format!("rows told apart, {what}"));
        }
    }

    /// 4 that one list of sectors leads to, the other and the window being as they should be.
    fn note_objects(&mut self, job: &Job) {
        let fine = |sectors: &[u8]| lists_of(sectors, &[], &job.window).is_some();
        let seasons = Seasons::of(&job.site);
        let steps = steps_of(&job.site, &job.times);
        for (season, in_summer, list, other) in [
            ("summer", true, &job.summer, &job.winter),
            ("winter", false, &job.winter, &job.summer),
        ] {
            if !fine(list) && fine(other) {
                self.tell(&format!("4 object in {season} alone"));
                let there = |step: &Step| seasons.is_summer(step.day) == in_summer;
                if !steps.iter().any(there) {
                    self.tell(&format!("4 object in {season} alone, no step there"));
                }
            }
        }
    }

    fn note_leaf_days(&mut self, job: &Job) {
        let with = |first: u64, last: u64| {
            let mut site = job.site;
            (site.first_leaf_day, site.last_leaf_day) = (first, last);
            leaf_days_fine(&site)
        };
        let (first, last) = (job.site.first_leaf_day, job.site.last_leaf_day);
        if with(0, last) {
            self.tell("15 leaf day, the first alone");
        }
        if with(first, 0) {
            self.tell("15 leaf day, the last alone");
        }
        if job.summer == job.winter {
            self.tell("15 leaf day, equal lists");
        }
    }

    pub fn report(&self, settings: &Settings, lent: &Lent) -> Outcome {
        let mut counts = vec![];
        let mut each = |name: &str, words: &[&str], of: &[u64]| {
            let each = words.iter().zip(of);
            counts.extend(each.map(|(what, &count)| (format!("{name}{what}"), count)));
        };
        each("", &RUNS, &self.runs);
        each("random: ", &RUNS, &self.random_runs);
        each("", &TOLD, &self.told);
        let lists = [
            "same memory for both lists",
            "a list in a part of the other",
        ];
        each("", &lists, &[lent.same_memory, lent.overlapping]);
        let by_new = [
            "by the record of a year, one list",
            "by the record of a year, both lists",
        ];
        each("", &by_new, &self.by_new);
        for (what, count) in counts {
            if count == 0 {
                return Err(format!("jobs: none had {what}"));
            }
            settings.detail(&what, count);
        }
        settings.detail("random: jobs with steps", self.random);
        settings.detail("random: steps on more than one day", self.random_days);
        let changes = self.random_runs[place(&RUNS, "a change of season within the run")];
        match changes * CHANGES_IN < self.random_days {
            true => Err(String::from("jobs: too few seasons change within a run")),
            false => Ok(()),
        }
    }
}
