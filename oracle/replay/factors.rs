//! Factor calls at the edges, random ones, and one for each way and place to end a walk along the
//! sectors, whose list ends there, all of edition 1; then some of edition 2 and of none.

use super::editions;
use super::file::{File, Record};
use crate::comparison::Settings;
use crate::published::shading::{Judge, Judged};
use crate::shading::call::Call;
use crate::shading::walks::Walks;
use crate::shading::{edges, scenes};

const KIND: u64 = 2;
const LONGEST: usize = 808;
/// The bytes of a record before its lists.
const WORDS: usize = 112;
const AT_THE_EDGES: usize = 400;
const ALL: usize = 1_000;

/// No number comes more often, so that all come often enough.
const MOST: [usize; 12] = [600, 0, 0, 60, 100, 0, 0, 0, 80, 80, 80, 80];

/// The record of a call with its answer.
fn record_of(judge: &mut Judge, call: &Call) -> (Record, Judged) {
    let judged = judge.answer(call.edition, &call.numbers, &call.sectors, &call.window);
    let mut record = Record::new(KIND);
    record
        .word(call.edition)
        .doubles(&call.numbers)
        .word(call.sectors.len() as u64)
        .word(call.window.len() as u64)
        .word(judged.answer.number)
        .answer(judged.answer.factor)
        .list(&call.sectors)
        .list(&call.window);
    (record, judged)
}

/// Whether the record of a call is short enough.
fn short(call: &Call) -> bool {
    let lists = call.sectors.len() + call.window.len();
    WORDS + lists <= LONGEST
}

/// Calls of edition 2 and of none.
fn with_editions(file: &mut File, settings: &Settings) -> Result<(), String> {
    let mut judge = Judge::new();
    let mut numbers = [0; 15];
    for call in editions::calls(settings, short)? {
        let (record, judged) = record_of(&mut judge, &call);
        numbers[judged.answer.number as usize] += 1;
        file.push(&record);
    }
    let more: usize = numbers.iter().sum();
    println!("  {more} of edition 2 or none, numbers {numbers:?}");
    Ok(())
}

pub fn file(settings: &Settings) -> Result<File, String> {
    let mut random = settings.random("replayed factors");
    let mut judge = Judge::new();
    let mut file = File::default();
    let mut numbers = [0; 12];
    let mut push = |file: &mut File, call: &Call| {
        let (record, judged) = record_of(&mut judge, call);
        let number = judged.answer.number as usize;
        if record.len() <= LONGEST && numbers[number] < MOST[number] {
            numbers[number] += 1;
            file.push(&record);
        }
    };
    let edges = edges::edges();
    while file.records < AT_THE_EDGES {
        push(&mut file, &edges[random.below(edges.len())]);
    }
    while file.records < ALL {
        push(&mut file, &scenes::any_call(&mut random));
    }
    println!("  numbers {numbers:?}");
    let mut walks = Walks::default();
    for call in edges::every_last_place() {
        let (record, judged) = record_of(&mut judge, &call);
        judged.walked.map(|walked| walks.note(walked));
        file.push(&record);
    }
    walks.report(settings, "kept")?;
    with_editions(&mut file, settings)?;
    match [0, 3, 4, 8, 9, 10, 11].iter().all(|&k| numbers[k] > 10) {
        true => Ok(file),
        false => Err(String::from("too few calls of some number")),
    }
}
