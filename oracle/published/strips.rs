//! The factor of tall glazing in strips, a plain form of the specification's paragraph: its checks, read
//! off the text, then the published factor of each strip as a surface of its own, and the quotient of two
//! sums.

use super::conditions::{angle, sun_at, FIRST_STEP};
use super::shading::*;
use super::walk::walked;
use super::*;
use crate::pilgartze::{FactorAnswer, MOST_STRIPS};

/// Sun and glazing without the heights: altitude, azimuth, tilt, orientation, base height, width.
pub type GlazingNumbers = [f64; 6];
pub const GLAZING_BASE: usize = 4;
pub const GLAZING_WIDTH: usize = 5;

/// "Altitude and azimuth as in the shade listing", and the ranges of a surface.
pub const GLAZING_RANGES: [(f64, f64); 6] = [
    RANGES[ALTITUDE],
    RANGES[AZIMUTH],
    RANGES[TILT],
    RANGES[ORIENTATION],
    RANGES[BASE_HEIGHT],
    RANGES[WIDTH],
];

/// A strip's base and height.
pub type Strip = [f64; 2];

/// "1 to 12 horizontal strips, bottom first, each with its height; the first base is the surface's, and
/// each later one is the rounded sum of base and height below." None where there is another number of
/// them, or a part of one, or where a base or a height is out of range.
pub fn strips_of(base_height: f64, heights: &[u8]) -> Option<Vec<Strip>> {
    let words = heights.chunks_exact(8);
    if !words.remainder().is_empty() || !(1..=MOST_STRIPS).contains(&words.len()) {
        return None;
    }
    let mut base = base_height;
    let mut strips = vec![];
    for word in words {
        let height = f64::from_le_bytes(word.try_into().unwrap());
        strips.push([
            within(base, RANGES[BASE_HEIGHT])?,
            within(height, RANGES[HEIGHT])?,
        ]);
        base += height;
    }
    Some(strips)
}

/// "The sum of factor times height, divided by the sum of heights, both from the bottom up."
pub fn quotient(factors: &[f64], strips: &[Strip]) -> f64 {
    let (mut share, mut whole) = (0.0, 0.0);
    for (factor, [_, height]) in factors.iter().zip(strips) {
        share += factor * height;
        whole += height;
    }
    share / whole
}

/// What the judge says of a call.
pub struct StripsJudged {
    pub answer: FactorAnswer,
    /// The strips and the factors of each, where the call is accepted.
    pub strips: Vec<Strip>,
    pub factors: Vec<f64>,
    pub inside_beam: bool,
}

impl StripsJudged {
    /// Before any sector is walked.
    fn refused(number: u64) -> Self {
        StripsJudged {
            answer: FactorAnswer {
                number,
                factor: 0.0,
            },
            strips: vec![],
            factors: vec![],
            inside_beam: false,
        }
    }
}

/// 14, then 3, then 4, then what the published function gives for each strip.
pub fn judge_strips(
    edition: u64,
    numbers: &GlazingNumbers,
    heights: &[u8],
    sectors: &[u8],
    window: &[u8],
) -> StripsJudged {
    if !edition_fine(edition) {
        return StripsJudged::refused(WRONG_EDITION);
    }
    let in_range = |(&x, &range): (&f64, &(f64, f64))| within(x, range).is_some();
    let fine = numbers.iter().zip(&GLAZING_RANGES).all(in_range);
    let strips = strips_of(numbers[GLAZING_BASE], heights).filter(|_| fine);
    let Some(strips) = strips else {
        return StripsJudged::refused(3);
    };
    match (sectors_of(sectors), window_of(window)) {
        (Some(sectors), Some(window)) => published(edition, numbers, strips, sectors, &window),
        _ => StripsJudged::refused(4),
    }
}

fn published(
    edition: u64,
    &[altitude, azimuth, tilt, orientation, _, width]: &GlazingNumbers,
    strips: Vec<Strip>,
    sectors: Vec<ShadingSegment>,
    window: &[WindowShadingObject],
) -> StripsJudged {
    let conditions = sun_at(altitude, azimuth, sectors);
    let factor = |[base, height]: Strip| {
        let surface = [tilt, orientation, base, height, width];
        factor_by(&conditions, edition, &surface, window, FIRST_STEP)
    };
    let each: Vec<Result<f64, u64>> = strips.iter().map(|&strip| factor(strip)).collect();
    let number = each[0].err().unwrap_or(0);
    assert!(
        each.iter().all(|one| one.err().unwrap_or(0) == number),
        "beam, walk and reveal do not depend on the strip, and the published Rust gives {each:?}"
    );
    let inside_beam = walked(&conditions, tilt, angle(orientation), number).is_some();
    if number != 0 {
        return StripsJudged {
            inside_beam,
            ..StripsJudged::refused(number)
        };
    }
    let factors: Vec<f64> = each.into_iter().flatten().collect();
    StripsJudged {
        answer: FactorAnswer {
            number,
            factor: quotient(&factors, &strips),
        },
        strips,
        factors,
        inside_beam,
    }
}
