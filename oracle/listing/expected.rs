//! What a listing comes to, read off the specification's text; the factors are the published Rust's.

use super::NAMES;
use crate::comparison::{Outcome, Settings};
use crate::pilgartze::EDITION_1;
use crate::published::shading::*;

/// How often each number was the answer to a line, and how listings began.
pub struct Answers {
    judge: Judge,
    numbers: [u64; 13],
    no_input: u64,
    wrong_names: u64,
    names_alone: u64,
}

impl Default for Answers {
    fn default() -> Self {
        Answers {
            judge: Judge::new(),
            numbers: [0; 13],
            no_input: 0,
            wrong_names: 0,
            names_alone: 0,
        }
    }
}

impl Answers {
    pub fn report(&self, settings: &Settings) -> Outcome {
        let counts = [
            ("line accepted", self.numbers[0]),
            ("line 3, sun or surface", self.numbers[3]),
            ("line 4, object", self.numbers[4]),
            ("line 10, no sector", self.numbers[10]),
            ("line 12", self.numbers[12]),
            ("no input", self.no_input),
            ("wrong names line", self.wrong_names),
            ("names line alone", self.names_alone),
        ];
        for (what, count) in counts {
            if count == 0 {
                return Err(format!("listing: no case of: {what}"));
            }
            settings.detail(what, count);
        }
        Ok(())
    }
}

/// "Ten values, 16 upper-case hexadecimal digits (a double's bits, highest first), single spaces."
pub fn values(line: &[u8]) -> Option<[f64; 10]> {
    let words: Vec<&[u8]> = line.split(|&byte| byte == b' ').collect();
    let words: [&[u8]; 10] = words.try_into().ok()?;
    let mut values = [0.0; 10];
    for (value, word) in values.iter_mut().zip(words) {
        let digits = |&byte: &u8| matches!(byte, b'0'..=b'9' | b'A'..=b'F');
        if word.len() != 16 || !word.iter().all(digits) {
            return None;
        }
        let text = std::str::from_utf8(word).ok()?;
        *value = f64::from_bits(u64::from_str_radix(text, 16).ok()?);
    }
    Some(values)
}

/// "One sector 0..360, no distant object, one near obstacle."
pub fn judged(judge: &mut Judge, values: &[f64; 10]) -> (u64, f64) {
    let &[altitude, azimuth, base, height, width, tilt, orientation, shade, distance, transparency] =
        values;
    let mut sector = [0; SECTOR_WORDS];
    sector[1] = 360.0f64.to_bits();
    let obstacle = [
        0,
        shade.to_bits(),
        distance.to_bits(),
        transparency.to_bits(),
    ];
    let bytes = |words: &[u64]| -> Vec<u8> { words.iter().flat_map(|w| w.to_le_bytes()).collect() };
    let numbers = [altitude, azimuth, tilt, orientation, base, height, width];
    let answer = judge
        .answer(EDITION_1, &numbers, &bytes(&sector), &bytes(&obstacle))
        .answer;
    (answer.number, answer.factor)
}

/// The output for a listing.
pub fn expected(listing: &[u8], answers: &mut Answers) -> Vec<u8> {
    // "Lines end in a line feed, which the last may lack": after the last line feed there is a line
    // only if there is something.
    let mut lines: Vec<&[u8]> = listing.split(|&byte| byte == b'\n').collect();
    if lines.last().is_some_and(|line| line.is_empty()) {
        lines.pop();
    }
    let mut output = String::from("number factor\n");
    match lines.first() {
        Some(&names) if names == NAMES.as_bytes() => {}
        Some(_) => answers.wrong_names += 1,
        None => answers.no_input += 1,
    }
    if lines.first() != Some(&NAMES.as_bytes()) {
        output += "12 -\n";
        return output.into_bytes();
    }
    answers.names_alone += (lines.len() == 1) as u64;
    for line in &lines[1..] {
        let (number, factor) = match values(line) {
            Some(values) => judged(&mut answers.judge, &values),
            None => (12, 0.0),
        };
        answers.numbers[number as usize] += 1;
        output += &match number {
            0 if factor.is_nan() => String::from("0 7FF8000000000000\n"),
            0 => format!("0 {:016X}\n", factor.to_bits()),
            _ => format!("{number} -\n"),
        };
    }
    output.into_bytes()
}
