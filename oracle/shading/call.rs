//! What a call of the factor is given, as lists of bytes and as records of words.

use crate::published::shading::*;

pub type Sector = [u64; SECTOR_WORDS];
pub type WindowObject = [u64; WINDOW_WORDS];

/// The specification's kinds.
pub const OBSTACLE: u64 = 0;
pub const OVERHANG: u64 = 1;
pub const RIGHT_FIN: u64 = 2;
pub const LEFT_FIN: u64 = 3;
pub const REVEAL: u64 = 4;

/// The places of a sector's words.
pub const START: usize = 0;
pub const END: usize = 1;
pub const COUNT: usize = 2;
pub const TRIPLES: usize = 3;

/// What one call is given.
#[derive(Clone, PartialEq)]
pub struct Call {
    pub edition: u64,
    pub numbers: Numbers,
    pub sectors: Vec<u8>,
    pub window: Vec<u8>,
}

/// The same with lists of whole records.
#[derive(Clone)]
pub struct Scene {
    pub edition: u64,
    pub numbers: Numbers,
    pub sectors: Vec<Sector>,
    pub window: Vec<WindowObject>,
}

fn bytes_of<const WORDS: usize>(records: &[[u64; WORDS]]) -> Vec<u8> {
    let mut bytes = Vec::with_capacity(8 * WORDS * records.len());
    for word in records.iter().flatten() {
        bytes.extend(word.to_le_bytes());
    }
    bytes
}

fn records_of<const WORDS: usize>(bytes: &[u8]) -> Vec<[u64; WORDS]> {
    let word = |bytes: &[u8], k: usize| bytes[8 * k..8 * k + 8].try_into().unwrap();
    bytes
        .chunks_exact(8 * WORDS)
        .map(|record| std::array::from_fn(|k| u64::from_le_bytes(word(record, k))))
        .collect()
}

impl Scene {
    pub fn call(&self) -> Call {
        Call {
            edition: self.edition,
            numbers: self.numbers,
            sectors: bytes_of(&self.sectors),
            window: bytes_of(&self.window),
        }
    }

    /// The whole records of a call's lists.
    pub fn of(call: &Call) -> Scene {
        Scene {
            edition: call.edition,
            numbers: call.numbers,
            sectors: records_of(&call.sectors),
            window: records_of(&call.window),
        }
    }
}

/// A word's digits, the highest first.
fn word_shown(word: &[u8]) -> String {
    let digits = word.iter().rev().map(|byte| format!("{byte:02X}"));
    digits.collect()
}

/// The line of a record: four words, and more up to the last that is not 0.
fn record_shown(name: &str, record: &[u8], words: usize) -> String {
    let used = record
        .iter()
        .rposition(|&byte| byte != 0)
        .map_or(0, |k| k / 8 + 1);
    let shown = record.chunks(8).take(used.max(4)).map(word_shown);
    let whole: Vec<String> = shown.collect();
    let part = match record.len() < 8 * words {
        true => " (a part)",
        false => "",
    };
    format!("  {name}{part}: {}", whole.join(" "))
}

/// The lines of both lists.
pub fn lists_shown(sectors: &[u8], window: &[u8]) -> Vec<String> {
    let sectors = sectors.chunks(8 * SECTOR_WORDS);
    let sectors = sectors.map(|record| record_shown("sector", record, SECTOR_WORDS));
    let window = window.chunks(8 * WINDOW_WORDS);
    let window = window.map(|record| record_shown("window", record, WINDOW_WORDS));
    sectors.chain(window).collect()
}

impl Call {
    pub fn shown(&self) -> String {
        const NAMES: [&str; 7] = [
            "altitude",
            "azimuth",
            "tilt",
            "orientation",
            "base height",
            "height",
            "width",
        ];
        let mut lines = vec![format!("  edition     {}", self.edition)];
        for (name, x) in NAMES.iter().zip(self.numbers) {
            lines.push(format!("  {name:<11} {}", crate::comparison::shown(x)));
        }
        lines.extend(lists_shown(&self.sectors, &self.window));
        lines.join("\n")
    }
}

pub fn sector(start: f64, end: f64, objects: &[[u64; 3]]) -> Sector {
    let mut sector = [0; SECTOR_WORDS];
    sector[START] = start.to_bits();
    sector[END] = end.to_bits();
    sector[COUNT] = objects.len() as u64;
    for (place, triple) in sector[TRIPLES..].chunks_mut(3).zip(objects) {
        place.copy_from_slice(triple);
    }
    sector
}

/// The sun's azimuth less the orientation from south, not wrapped.
pub fn difference(numbers: &Numbers) -> f64 {
    numbers[AZIMUTH] - (180.0 - numbers[ORIENTATION])
}
