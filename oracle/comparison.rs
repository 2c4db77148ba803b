//! Comparing two functions case by case, bit for bit.

use crate::random::Random;
use std::sync::atomic::{AtomicU64, Ordering};

/// What a section gives: nothing, or the first difference in words.
pub type Outcome = Result<(), String>;

/// How a section is to be run.
#[derive(Clone, Copy)]
pub struct Settings {
    pub seed: u64,
    /// Cases for each function; the edges are always tried, however many they are.
    pub count: usize,
    /// Whether to print a line for each function.
    pub print: bool,
}

/// What Rattle's side of a comparison is held to.
#[derive(Clone, Copy)]
pub enum With {
    /// The published Rust.
    Published,
    /// The specification's stand-in for a float method, as the published Rust is given it.
    StandIn,
    /// A form written for the comparison alone.
    PlainForm,
}

impl With {
    const WORDS: [&'static str; 3] = ["published", "stand-in", "plain form"];

    fn word(self) -> &'static str {
        With::WORDS[self as usize]
    }
}

/// How many comparisons with each had all the cases that were asked for.
static FULL: [AtomicU64; 3] = [const { AtomicU64::new(0) }; 3];

impl Settings {
    pub fn random(&self, name: &str) -> Random {
        Random::new(self.seed, name)
    }

    pub fn heading(&self, words: &str) {
        if self.print {
            println!("{words}");
        }
    }

    /// The line of one function. That nothing was compared, or NaN alone, is an error: it would
    /// say nothing.
    pub fn report(&self, name: &str, with: With, tally: Tally) -> Outcome {
        if tally.compared == 0 {
            return Err(format!("{name}: nothing was compared"));
        }
        if tally.compared == tally.both_nan {
            return Err(format!("{name}: every case was NaN on both sides"));
        }
        if self.print {
            let Tally { compared, both_nan } = tally;
            let word = with.word();
            println!(
                "  {name:<44} {word:<10} {compared:>12} cases, {both_nan:>9} NaN on both sides"
            );
            if compared >= self.count as u64 {
                FULL[with as usize].fetch_add(1, Ordering::Relaxed);
            }
        }
        Ok(())
    }

    /// How many of the comparisons that were printed were full ones, and with what.
    pub fn report_all(&self) {
        let counts = FULL.each_ref().map(|count| count.load(Ordering::Relaxed));
        let mut line = format!(
            "comparisons of {} cases or more: {}",
            self.count,
            counts.iter().sum::<u64>()
        );
        for (word, count) in With::WORDS.iter().zip(counts) {
            line += &format!(", {word} {count}");
        }
        println!("{line}");
    }

    /// How many of a function's cases were of some kind.
    pub fn detail(&self, what: &str, count: u64) {
        if self.print {
            println!("    {what:<42} {count:>12}");
        }
    }
}

/// How many cases were compared, and how many of them were NaN on both sides.
#[derive(Clone, Copy, Default)]
pub struct Tally {
    pub compared: u64,
    pub both_nan: u64,
}

/// Doubles are the same where their bits are, or where both are NaN.
pub fn same(a: f64, b: f64) -> bool {
    a.to_bits() == b.to_bits() || (a.is_nan() && b.is_nan())
}

/// A double for a message: its bits, and its value for the eye.
pub fn shown(x: f64) -> String {
    format!("{:016X} ({x:?})", x.to_bits())
}

pub fn all_shown(xs: &[f64]) -> String {
    let words: Vec<String> = xs.iter().map(|&x| shown(x)).collect();
    words.join(", ")
}

/// Compares two functions of `I` doubles that give `O` doubles, up to the first difference.
pub fn compare<const I: usize, const O: usize>(
    name: &str,
    inputs: impl Iterator<Item = [f64; I]>,
    rust: impl Fn([f64; I]) -> [f64; O],
    rattle: impl Fn([f64; I]) -> [f64; O],
) -> Result<Tally, String> {
    let mut tally = Tally::default();
    for input in inputs {
        let expected = rust(input);
        let got = rattle(input);
        if !(0..O).all(|place| same(expected[place], got[place])) {
            return Err(format!(
                "{name} differs after {} cases\n  input  {}\n  Rust   {}\n  Rattle {}",
                tally.compared,
                all_shown(&input),
                all_shown(&expected),
                all_shown(&got),
            ));
        }
        tally.compared += 1;
        tally.both_nan += expected.iter().all(|x| x.is_nan()) as u64;
    }
    Ok(tally)
}

/// A whole number, decimal or with 0x hexadecimal.
pub fn whole_number(text: &str) -> Option<u64> {
    match text.strip_prefix("0x") {
        Some(digits) => u64::from_str_radix(digits, 16).ok(),
        None => text.parse().ok(),
    }
}
