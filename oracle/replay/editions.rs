//! Runs and factor calls of edition 2, with fins on both sides and a difference beyond 180 for the most
//! part, and some that name no edition, each with other faults too.

use crate::comparison::{same, Settings};
use crate::jobs::cases::Maker;
use crate::jobs::edges;
use crate::pilgartze::EDITION_2;
use crate::published::jobs::*;
use crate::published::shading::{self, Numbers};
use crate::random::Random;
use crate::shading::call::{sector, Call, Scene, RIGHT_FIN};
use crate::shading::editions::{other_edition, WRONG_EDITIONS};
use crate::shading::{edges as factor_edges, scenes};

// --- Runs ---

/// So many random runs of each number, and of those about fins every so many.
const RUNS: [(u64, usize); 5] = [(0, 20), (8, 4), (9, 4), (10, 4), (11, 4)];
const EVERY: usize = 12;

/// Whether the editions part in this run: another byte of the results.
fn parts(judge: &mut Judge, job: &Job) -> bool {
    let other = Job {
        edition: other_edition(job.edition),
        ..job.clone()
    };
    judge.run_on_copies(job).results != judge.run_on_copies(&other).results
}

/// Some of the jobs about fins in which the editions part.
fn about_fins(judge: &mut Judge) -> Vec<Job> {
    let all = edges::editions();
    let second = all.into_iter().filter(|job| job.edition == EDITION_2);
    let parted: Vec<Job> = second.filter(|job| parts(judge, job)).collect();
    parted.into_iter().step_by(EVERY).collect()
}

/// Random ones with the sun across the north; where they are accepted the editions part.
fn by_chance(settings: &Settings, judge: &mut Judge, short: fn(&Job) -> bool) -> Vec<Job> {
    let mut maker = Maker::new(settings.random("replayed editions"));
    maker.across_the_north = true;
    let mut wanted = RUNS;
    let mut jobs = vec![];
    while wanted.iter().any(|&(_, count)| count > 0) {
        let job = Job {
            edition: EDITION_2,
            ..maker.any_job()
        };
        let number = judge.run_on_copies(&job).answer.number;
        let place = wanted.iter().position(|&(known, _)| known == number);
        let Some(place) = place.filter(|&place| wanted[place].1 > 0) else {
            continue;
        };
        if short(&job) && (number > 0 || parts(judge, &job)) {
            wanted[place].1 -= 1;
            jobs.push(job);
        }
    }
    jobs
}

/// Jobs that name no edition: with no other fault, with one of each, and with all of them.
fn of_no_edition() -> Vec<Job> {
    let mut maker = Maker::new(Random::new(1, "replayed without edition"));
    let plain = edges::plain_jobs(&mut maker);
    let sets = (1..=11).map(|number| vec![number]);
    let sets = [vec![], (1..=11).collect()].into_iter().chain(sets);
    let each = sets.zip(WRONG_EDITIONS.into_iter().cycle()).enumerate();
    each.map(|(turn, (set, edition))| {
        let mut job = plain[turn % 2].clone();
        job.edition = edition;
        for &number in set.iter().rev() {
            edges::fault(&mut job, number, turn % 2);
        }
        job
    })
    .collect()
}

/// All of them that are kept, with the number that each must have.
pub fn runs(settings: &Settings, short: fn(&Job) -> bool) -> Vec<(Job, Option<u64>)> {
    let judge = &mut Judge::new();
    let mut runs: Vec<(Job, Option<u64>)> = vec![];
    runs.extend(about_fins(judge).into_iter().map(|job| (job, Some(0))));
    let by_chance = by_chance(settings, judge, short);
    runs.extend(by_chance.into_iter().map(|job| (job, None)));
    runs.extend(of_no_edition().into_iter().map(|job| (job, Some(14))));
    runs
}

// --- Factor calls ---

/// So many random calls of each number.
const CALLS: [(u64, usize); 7] = [(0, 90), (3, 6), (4, 6), (8, 8), (9, 8), (10, 8), (11, 8)];
/// Of the calls about fins in which the editions part every so many.
const EVERY_CALL: usize = 300;

/// A right fin 0.5 deep at the edge of a window 1 by 1, the sun at the horizon with a difference of −30,
/// and its factor in both editions.
const FIGURE: Numbers = [0.0, -30.0, 90.0, 180.0, 0.0, 1.0, 1.0];
const FIGURES: [(u64, f64); 2] = [(EDITION_1, 1.0), (EDITION_2, 0.711_324_865_405_187_1)];

fn figure(edition: u64) -> Call {
    let fin = [RIGHT_FIN, 0.5f64.to_bits(), 0, 0];
    let scene = Scene {
        edition,
        numbers: FIGURE,
        sectors: vec![sector(0.0, 360.0, &[])],
        window: vec![fin],
    };
    scene.call()
}

fn answer(judge: &mut shading::Judge, call: &Call) -> (u64, f64) {
    let judged = judge.answer(call.edition, &call.numbers, &call.sectors, &call.window);
    (judged.answer.number, judged.answer.factor)
}

fn call_parts(judge: &mut shading::Judge, call: &Call) -> bool {
    let other = Call {
        edition: other_edition(call.edition),
        ..call.clone()
    };
    !same(answer(judge, call).1, answer(judge, &other).1)
}

fn calls_by_chance(
    settings: &Settings,
    judge: &mut shading::Judge,
    short: fn(&Call) -> bool,
) -> Vec<Call> {
    let mut random = settings.random("replayed factors of edition 2");
    let mut wanted = CALLS;
    let mut calls = vec![];
    while wanted.iter().any(|&(_, count)| count > 0) {
        let mut call = scenes::any_call_of_any_edition(&mut random);
        call.edition = EDITION_2;
        let (number, _) = answer(judge, &call);
        let place = wanted.iter().position(|&(known, _)| known == number);
        let Some(place) = place.filter(|&place| wanted[place].1 > 0) else {
            continue;
        };
        if short(&call) && (number > 0 || call_parts(judge, &call)) {
            wanted[place].1 -= 1;
            calls.push(call);
        }
    }
    calls
}

/// All calls that are kept.
pub fn calls(settings: &Settings, short: fn(&Call) -> bool) -> Result<Vec<Call>, String> {
    let mut judge = shading::Judge::new();
    for (edition, factor) in FIGURES {
        if answer(&mut judge, &figure(edition)) != (0, factor) {
            return Err(format!("another figure in edition {edition}"));
        }
    }
    let mut calls = FIGURES.map(|(edition, _)| figure(edition)).to_vec();
    let second = factor_edges::fins().into_iter();
    let second = second.filter(|call| call.edition == EDITION_2);
    let parted: Vec<Call> = second.filter(|call| call_parts(&mut judge, call)).collect();
    calls.extend(parted.into_iter().step_by(EVERY_CALL));
    calls.extend(calls_by_chance(settings, &mut judge, short));
    // each word that names no edition, with another set of faults
    let sets = factor_edges::sets_of_faults();
    let wrong = |call: &&Call| !shading::edition_fine(call.edition) && short(call);
    let wrong: Vec<&Call> = sets.iter().filter(wrong).collect();
    for (turn, edition) in WRONG_EDITIONS.into_iter().enumerate() {
        let mut of_word = wrong.iter().filter(|call| call.edition == edition);
        let place = 3 * turn;
        calls.extend(of_word.nth(place).map(|&call| call.clone()));
    }
    Ok(calls)
}
