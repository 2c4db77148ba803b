//! Walks along the sectors that end at each place, and how many did.

use super::call::{sector, Sector, END, OBSTACLE, START};
use crate::comparison::{Outcome, Settings};
use crate::published::shading::*;
use crate::published::walk::{End, Walked};
use crate::stand_ins;

const ENDS: [(End, &str); 3] = [
    (End::Gap, "gap"),
    (End::Turned, "turned"),
    (End::Match, "match"),
];

/// A walk can end so at that place: the first sector starts anywhere.
fn possible(end: End, place: usize) -> bool {
    end != End::Gap || place > 0
}

/// Each way to end, at each place.
pub fn all_ends() -> impl Iterator<Item = Walked> {
    let each = |(end, _)| (0..MOST_SECTORS).map(move |place| Walked { end, place });
    let all = ENDS.into_iter().flat_map(each);
    all.filter(|walked| possible(walked.end, walked.place))
}

/// How many walks inside the beam ended so at each place.
#[derive(Default)]
pub struct Walks {
    counts: [[u64; 12]; 9],
}

impl Walks {
    pub fn note(&mut self, Walked { end, place }: Walked) {
        if let Some(row) = ENDS.iter().position(|(known, _)| *known == end) {
            self.counts[3 * row + place / 12][place % 12] += 1;
        }
    }

    /// Prints twelve places to a line. A place that was never met is an error.
    pub fn report(&self, settings: &Settings, name: &str) -> Outcome {
        for (row, counts) in self.counts.iter().enumerate() {
            let ((end, word), first) = (ENDS[row / 3], 12 * (row % 3));
            let mut line = format!("    {name}, {word} at {first}..{}", first + 11);
            line = format!("{line:<30}");
            for (k, count) in counts.iter().enumerate() {
                match possible(end, first + k) {
                    true if *count == 0 => {
                        let place = first + k;
                        return Err(format!("{name}: no walk had {word} at place {place}"));
                    }
                    true => line += &format!("{count:>8}"),
                    false => line += &format!("{:>8}", "-"),
                }
            }
            settings.heading(&line);
        }
        settings.detail(
            &format!("{name}, ends by way and place"),
            all_ends().count() as u64,
        );
        Ok(())
    }
}

/// So many sectors by which the walk ends so, with the sun, in degrees as sectors count, in the
/// sector of that place; a gap is an overlap at every other place.
pub fn sectors_ending(
    Walked { end, place }: Walked,
    count: usize,
    sun: f64,
    mut obstacle: impl FnMut(usize) -> [u64; 3],
) -> Vec<Sector> {
    let (low, high) = (sun - 1.0, sun + 1.0);
    let part = |k: usize, of: usize| k as f64 / of as f64;
    let bound = |k: usize| match k {
        0 => 0.0,
        k if k == count => 360.0,
        k if k <= place => low * part(k, place),
        k => high + (360.0 - high) * part(k - place - 1, count - place - 1),
    };
    let mut sectors: Vec<Sector> = (0..count)
        .map(|k| sector(bound(k), bound(k + 1), &[obstacle(k)]))
        .collect();
    match end {
        End::Gap => {
            let by = if place % 2 == 0 { 0.5 } else { -0.5 };
            sectors[place][START] = (low + by).to_bits();
        }
        End::Turned => {
            let start = if place == 0 { low } else { bound(place) };
            sectors[place][START] = start.to_bits();
            sectors[place][END] = (start / 2.0).to_bits();
        }
        _ => {}
    }
    sectors
}

/// A distant obstacle whose shade is another at each place.
pub fn obstacle_at(numbers: &Numbers, place: usize) -> [u64; 3] {
    let shade = numbers[HEIGHT] * (place + 1) as f64 / (MOST_SECTORS + 1) as f64;
    let above = stand_ins::tan(stand_ins::to_radians(numbers[ALTITUDE]));
    let height = numbers[BASE_HEIGHT] + above + shade;
    [OBSTACLE, height.to_bits(), 1.0f64.to_bits()]
}
