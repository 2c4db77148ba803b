//! How many calls of the strips came out in each way.

use crate::comparison::{same, Outcome, Settings};
use crate::pilgartze::MOST_STRIPS;
use crate::published::strips::{quotient, StripsJudged};

/// The numbers that a call can have, in their order.
const NUMBERS: [(usize, &str); 8] = [
    (0, "accepted"),
    (14, "edition"),
    (3, "sun, surface or strip"),
    (4, "object"),
    (8, "gap"),
    (9, "turned"),
    (10, "no sector"),
    (11, "reveal"),
];

/// Of the random calls that are accepted.
const COUNTED: [&str; 8] = [
    "outside the beam, 1",
    "inside the beam",
    "inside, different factors of strips",
    "inside, between 0 and 1",
    "other double from the top down",
    "other double as a plain mean",
    "beyond all factors of its strips",
    "one strip, other than its factor",
];

#[derive(Default)]
pub struct Met {
    numbers: [u64; 15],
    /// Accepted random calls inside the beam, by how many strips they have, from 1 on.
    strips: [u64; MOST_STRIPS],
    counts: [u64; COUNTED.len()],
}

/// The answer with both sums from the top down.
fn from_the_top(judged: &StripsJudged) -> f64 {
    let (mut factors, mut strips) = (judged.factors.clone(), judged.strips.clone());
    factors.reverse();
    strips.reverse();
    quotient(&factors, &strips)
}

/// The plain mean of the factors.
fn plain_mean(factors: &[f64]) -> f64 {
    factors.iter().sum::<f64>() / factors.len() as f64
}

impl Met {
    pub fn note(&mut self, judged: &StripsJudged, by_chance: bool) {
        let number = judged.answer.number;
        self.numbers[number as usize] += 1;
        if number == 0 && by_chance {
            self.note_accepted(judged);
        }
    }

    fn note_accepted(&mut self, judged: &StripsJudged) {
        let (inside, factor) = (judged.inside_beam, judged.answer.factor);
        let factors = &judged.factors;
        if inside {
            self.strips[factors.len() - 1] += 1;
        }
        let flags = [
            !inside,
            inside,
            inside && factors.iter().any(|&other| other != factors[0]),
            inside && 0.0 < factor && factor < 1.0,
            !same(from_the_top(judged), factor),
            !same(plain_mean(factors), factor),
            factors.iter().all(|&other| other < factor)
                || factors.iter().all(|&other| other > factor),
            factors.len() == 1 && !same(factors[0], factor),
        ];
        for (count, flag) in self.counts.iter_mut().zip(flags) {
            *count += flag as u64;
        }
    }

    /// Prints them. None of a kind is an error.
    pub fn report(&self, settings: &Settings) -> Outcome {
        let numbers = NUMBERS.map(|(number, word)| {
            let count = self.numbers[number];
            (format!("strips, number {number}, {word}"), count)
        });
        let counted = COUNTED.iter().zip(self.counts);
        let counted = counted.map(|(what, count)| (format!("strips, {what}"), count));
        let by_count = (1..).zip(self.strips);
        let by_count =
            by_count.map(|(n, count)| (format!("strips, inside the beam, with {n}"), count));
        for (what, count) in numbers.into_iter().chain(counted).chain(by_count) {
            if count == 0 {
                return Err(format!("strips: none was met: {what}"));
            }
            settings.detail(&what, count);
        }
        Ok(())
    }
}

/// A kind that was never met is an error, whichever it is.
pub fn every_count_is_asked_for(settings: &Settings) -> Outcome {
    let numbers = NUMBERS.len();
    let all = numbers + COUNTED.len() + MOST_STRIPS;
    for missing in 0..=all {
        let mut met = Met::default();
        for place in (0..all).filter(|&place| place != missing) {
            match place {
                place if place < numbers => met.numbers[NUMBERS[place].0] = 1,
                place if place < numbers + COUNTED.len() => met.counts[place - numbers] = 1,
                place => met.strips[place - numbers - COUNTED.len()] = 1,
            }
        }
        if met.report(settings).is_ok() != (missing == all) {
            return Err(format!("self-test: count {missing} of the strips"));
        }
    }
    Ok(())
}
