//! Calls of the strips: some of those at the edges, random ones that are accepted, as many of each
//! number of strips in each edition, and random ones that are refused.

use super::file::{File, Record};
use crate::comparison::Settings;
use crate::pilgartze::MOST_STRIPS;
use crate::published::shading::edition_fine;
use crate::published::strips::{judge_strips, StripsJudged};
use crate::random::Random;
use crate::shading::editions::EDITIONS;
use crate::strips::call::Call;
use crate::strips::{edges, scenes};

const KIND: u64 = 6;
/// The bytes of a record before its lists.
const WORDS: usize = 112;
/// The most bytes of a record at the edges, in which 257 heights have room, and of a random one.
const LONGEST: usize = 2_600;
const LONGEST_BY_CHANCE: usize = 800;

/// Of the calls at the edges every so many of each group.
const EDGES: [(fn() -> Vec<Call>, usize); 8] = [
    (edges::counts, 23),
    (edges::numbers, 173),
    (edges::heights, 293),
    (edges::bases, 151),
    (faults_in_an_edition, 127),
    (faults_of_no_edition, 953),
    (edges::outside, 149),
    (edges::sums, 257),
];

/// So many random calls of each number of strips in each edition that are accepted, and of each refusal.
const ACCEPTED: usize = 3;
const REFUSED: [(u64, usize); 7] = [(14, 4), (3, 8), (4, 10), (8, 8), (9, 8), (10, 8), (11, 8)];

fn judged(call: &Call) -> StripsJudged {
    let Call {
        edition, numbers, ..
    } = call;
    judge_strips(
        *edition,
        numbers,
        &call.heights,
        &call.sectors,
        &call.window,
    )
}

fn len(call: &Call) -> usize {
    WORDS + call.heights.len() + call.sectors.len() + call.window.len()
}

/// The record of a call with its answer.
fn record_of(call: &Call) -> Record {
    let answer = judged(call).answer;
    let mut record = Record::new(KIND);
    record
        .word(call.edition)
        .doubles(&call.numbers)
        .word(call.heights.len() as u64)
        .word(call.sectors.len() as u64)
        .word(call.window.len() as u64)
        .word(answer.number)
        .answer(answer.factor)
        .list(&call.heights)
        .list(&call.sectors)
        .list(&call.window);
    record
}

fn faults_in_an_edition() -> Vec<Call> {
    let mut calls = edges::faults();
    calls.retain(|call| edition_fine(call.edition));
    calls
}

fn faults_of_no_edition() -> Vec<Call> {
    let mut calls = edges::faults();
    calls.retain(|call| !edition_fine(call.edition));
    calls
}

fn at_the_edges() -> Vec<Call> {
    let of_group = |(cases, every): (fn() -> Vec<Call>, usize)| {
        let short = cases().into_iter().filter(|call| len(call) <= LONGEST);
        short.step_by(every).collect::<Vec<Call>>()
    };
    EDGES.into_iter().flat_map(of_group).collect()
}

/// Accepted ones inside the beam, with another factor on some strip where there are several.
fn accepted(random: &mut Random) -> Vec<Call> {
    let mut wanted = [[ACCEPTED; EDITIONS.len()]; MOST_STRIPS];
    let mut calls = vec![];
    while wanted.iter().flatten().any(|&count| count > 0) {
        let call = scenes::any_call(random);
        let judged = judged(&call);
        let count = judged.factors.len();
        let edition = EDITIONS.iter().position(|&known| known == call.edition);
        let (Some(edition), true) = (edition, count > 0 && judged.inside_beam) else {
            continue;
        };
        let first = judged.factors[0];
        let tells = match count {
            1 => 0.0 < first && first < 1.0,
            _ => judged.factors.iter().any(|&factor| factor != first),
        };
        let wanted = &mut wanted[count - 1][edition];
        if tells && *wanted > 0 && len(&call) <= LONGEST_BY_CHANCE {
            *wanted -= 1;
            calls.push(call);
        }
    }
    calls
}

fn refused(random: &mut Random) -> Vec<Call> {
    let mut wanted = REFUSED;
    let mut calls = vec![];
    while wanted.iter().any(|&(_, count)| count > 0) {
        let call = scenes::any_call(random);
        let number = judged(&call).answer.number;
        let place = wanted.iter().position(|&(known, _)| known == number);
        let place = place.filter(|&place| wanted[place].1 > 0 && len(&call) <= LONGEST_BY_CHANCE);
        if let Some(place) = place {
            wanted[place].1 -= 1;
            calls.push(call);
        }
    }
    calls
}

/// Whether there is a call with no strip, one with 13, one with a part of a word, and one that is
/// outside the beam.
fn whole(calls: &[Call]) -> bool {
    let lengths = [0, 8 * (MOST_STRIPS + 1)];
    let of_length = |length: usize| calls.iter().any(|call| call.heights.len() == length);
    let outside = |call: &Call| {
        let judged = judged(call);
        judged.answer.number == 0 && !judged.inside_beam
    };
    lengths.into_iter().all(of_length)
        && calls.iter().any(|call| call.heights.len() % 8 != 0)
        && calls.iter().any(outside)
}

pub fn file(settings: &Settings) -> Result<File, String> {
    let mut random = settings.random("replayed strips");
    let calls = [at_the_edges(), accepted(&mut random), refused(&mut random)].concat();
    let mut file = File::default();
    let mut numbers = [0; 15];
    for call in &calls {
        numbers[judged(call).answer.number as usize] += 1;
        file.push(&record_of(call));
    }
    println!("  numbers {numbers:?}");
    match whole(&calls) {
        true => Ok(file),
        false => Err(String::from("no strips call of some kind")),
    }
}
