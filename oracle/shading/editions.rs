//! Editions of the rule for fins: those of random calls, and how many calls and jobs had what the
//! editions part by, fins on both sides and a difference beyond 180.

use super::call::*;
use crate::comparison::{Outcome, Settings};
use crate::pilgartze::{EDITION_1, EDITION_2};
use crate::published::shading::*;
use crate::random::Random;

pub const EDITIONS: [u64; 2] = [EDITION_1, EDITION_2];

/// Words that name none, some of which would by fewer of their bits, or as doubles.
pub const WRONG_EDITIONS: [u64; 22] = [
    0,
    3,
    4,
    5,
    13,
    14,
    255,
    257,
    258,
    (1 << 16) + 1,
    (1 << 16) + 2,
    1 << 32,
    (1 << 32) + 1,
    (1 << 32) + 2,
    1 << 63,
    (1 << 63) + 1,
    (1 << 63) + 2,
    u64::MAX - 2,
    u64::MAX - 1,
    u64::MAX,
    0x3FF0_0000_0000_0000,
    0x4000_0000_0000_0000,
];

/// One of both, and now and then another word.
pub fn any_edition(random: &mut Random) -> u64 {
    match random.below(64) {
        0 if random.below(8) == 0 => random.word() | 4,
        0 => WRONG_EDITIONS[random.below(WRONG_EDITIONS.len())],
        1 => [0, 3, (1 << 32) + 1, (1 << 32) + 2][random.below(4)],
        n => EDITIONS[n % 2],
    }
}

/// The other one, of either.
pub fn other_edition(edition: u64) -> u64 {
    EDITION_1 + EDITION_2 - edition
}

fn has_kind(window: &[u8], kind: u64) -> bool {
    let mut records = window.chunks_exact(8 * WINDOW_WORDS);
    records.any(|record| record[..8] == kind.to_le_bytes())
}

pub fn has_left_fin(window: &[u8]) -> bool {
    has_kind(window, LEFT_FIN)
}

pub fn has_fins_on_both_sides(window: &[u8]) -> bool {
    has_kind(window, RIGHT_FIN) && has_left_fin(window)
}

/// Whether both editions give the same factor, whatever the fins.
pub fn editions_agree(numbers: &Numbers) -> bool {
    let difference = difference(numbers);
    0.0 < difference && difference <= 180.0
}

/// What a call, or a job at one of its steps at least, has with fins on both sides.
#[derive(Clone, Copy, Default)]
pub struct Seen {
    /// A difference beyond 180 as it is; inside the beam; and with the sun up.
    pub beyond: bool,
    pub inside: bool,
    pub sun_up: bool,
    /// Inside the beam, the difference that is brought into −180..180.
    pub below: bool,
    pub above: bool,
    pub zero: bool,
    /// Another factor than in the other edition.
    pub other: bool,
}

impl Seen {
    /// Notes the sun on the surface, inside the beam or not.
    pub fn note(&mut self, numbers: &Numbers, inside: bool) {
        let difference = difference(numbers);
        let beyond = difference.abs() > 180.0;
        // by one turn, strictly beyond
        let brought_in = match beyond {
            true => difference - 360.0 * difference.signum(),
            false => difference,
        };
        self.beyond |= beyond;
        self.inside |= beyond && inside;
        self.sun_up |= beyond && inside && numbers[ALTITUDE] > 0.0;
        self.below |= inside && brought_in < 0.0;
        self.above |= inside && brought_in > 0.0;
        self.zero |= inside && brought_in == 0.0;
    }

    fn flags(&self) -> [bool; COUNTED.len()] {
        [
            true,
            self.beyond,
            self.inside,
            self.sun_up,
            self.below,
            self.above,
            self.zero,
            self.other,
        ]
    }
}

const COUNTED: [&str; 8] = [
    "all",
    "fins, beyond 180",
    "beyond, in the beam",
    "beyond, sun up",
    "fins, below 0",
    "fins, above 0",
    "fins, at 0",
    "other factor",
];

/// How many of each edition had that.
#[derive(Default)]
pub struct FinsMet {
    counts: [[u64; COUNTED.len()]; 2],
}

impl FinsMet {
    pub fn note(&mut self, edition: u64, seen: &Seen) {
        let place = EDITIONS.iter().position(|&known| known == edition);
        let Some(place) = place else {
            return;
        };
        for (count, met) in self.counts[place].iter_mut().zip(seen.flags()) {
            *count += met as u64;
        }
    }

    /// Prints them. None of a kind is an error, and so is less than half with fins on both sides and
    /// a difference beyond 180.
    pub fn report(&self, settings: &Settings, name: &str) -> Outcome {
        for (edition, counts) in EDITIONS.iter().zip(&self.counts) {
            for (what, &count) in COUNTED.iter().zip(counts) {
                let what = format!("{name}, edition {edition}: {what}");
                if count == 0 {
                    return Err(format!("{what}: none was met"));
                }
                settings.detail(&what, count);
            }
            let [all, beyond, ..] = *counts;
            if 2 * beyond < all {
                return Err(format!(
                    "{name}, edition {edition}: fins on both sides and beyond 180 {beyond} of {all}"
                ));
            }
        }
        Ok(())
    }
}
