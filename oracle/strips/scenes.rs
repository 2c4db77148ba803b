//! Random calls of the strips, most of them accepted, inside the beam and partly in the shade, and
//! with another shade on each strip.

use super::call::Call;
use crate::pilgartze::{bytes_of, EDITION_1, MOST_STRIPS};
use crate::published::shading::*;
use crate::published::strips::GLAZING_BASE;
use crate::random::{ulps_from, Random};
use crate::shading::call::Scene;
use crate::shading::editions::any_edition;
use crate::shading::scenes::*;

/// How many strips.
fn any_count(random: &mut Random) -> usize {
    match random.below(8) {
        0 => 1,
        1 => 2,
        2 | 3 => MOST_STRIPS,
        _ => 1 + random.below(MOST_STRIPS),
    }
}

/// Heights that are all alike, tenths, which round, some small and one large, or any.
fn any_heights(random: &mut Random) -> Vec<f64> {
    let count = any_count(random);
    let (way, usual) = (random.below(8), any_side(random));
    let large = random.below(count);
    let each = |place: usize| match way {
        0 => usual,
        1 => (1 + random.below(9)) as f64 / 10.0,
        2 if place == large => random.uniform(10.0, 900.0),
        2 => [0.001, 0.003, 0.1, 0.3][random.below(4)],
        3 => any_side(random),
        _ => random.uniform(0.05, 1.5),
    };
    (0..count).map(each).collect()
}

/// Sun and glazing: the numbers of a surface as high as all strips together.
fn any_glazing(random: &mut Random, heights: &[f64]) -> Numbers {
    let mut numbers = match random.below(2) {
        0 => any_numbers(random),
        _ => numbers_across_the_north(random),
    };
    numbers[HEIGHT] = heights.iter().sum();
    numbers
}

/// The numbers of one of its strips.
fn any_strip(random: &mut Random, numbers: &Numbers, heights: &[f64]) -> Numbers {
    let place = random.below(heights.len());
    let mut strip = *numbers;
    strip[BASE_HEIGHT] += heights[..place].iter().sum::<f64>();
    strip[HEIGHT] = heights[place];
    strip
}

/// The base at which a later one is about 1000, its greatest.
fn base_near_the_greatest(random: &mut Random, heights: &[f64]) -> f64 {
    let below = 1 + random.below(heights.len());
    let base = 1000.0 - heights[..below].iter().sum::<f64>();
    ulps_from(base, random.below(9) as i64 - 4)
}

/// A list that is cut, that has bytes behind it, that is empty, or that has too many heights.
fn length_of_heights_damaged(random: &mut Random, heights: &mut Vec<u8>) {
    match random.below(8) {
        0 => heights.clear(),
        1 | 2 => heights.truncate(heights.len() - 1 - random.below(7)),
        3 | 4 => {
            let part = 1 + random.below(7);
            heights.extend(random.bytes(part));
        }
        _ => {
            let more = [MOST_STRIPS, MOST_STRIPS, 20 * MOST_STRIPS][random.below(3)];
            let one = heights[..8].to_vec();
            let count = heights.len() / 8;
            for _ in 0..MOST_STRIPS + 1 + random.below(more) - count {
                heights.extend(&one);
            }
        }
    }
}

/// Something done to the strips, now and then.
fn strips_damaged(random: &mut Random, call: &mut Call, heights: &[f64]) {
    match random.below(48) {
        0 | 1 => {
            let place = 8 * random.below(heights.len());
            let edges = edges_of_range(RANGES[HEIGHT]);
            let height = match random.below(8) {
                0 => random.any_double(),
                _ => edges[random.below(edges.len())],
            };
            call.heights[place..place + 8].copy_from_slice(&height.to_le_bytes());
        }
        2 => call.numbers[GLAZING_BASE] = base_near_the_greatest(random, heights),
        3 => length_of_heights_damaged(random, &mut call.heights),
        _ => {}
    }
}

/// A call of any edition. What stands in a sector has a height about that of the glazing, what stands
/// at the window one about that of a strip.
pub fn any_call(random: &mut Random) -> Call {
    let heights = any_heights(random);
    let numbers = any_glazing(random, &heights);
    let aim = Aim::new(random, &numbers);
    let sectors = any_sectors(random, &aim);
    let strip = any_strip(random, &numbers, &heights);
    let aim = Aim::new(random, &strip);
    let mut window = match random.below(4) {
        0 => vec![],
        _ => any_window(random, &aim),
    };
    if random.below(3) == 0 {
        fins_put_in(random, &aim, &mut window);
    }
    let scene = Scene {
        edition: EDITION_1,
        numbers,
        sectors,
        window,
    };
    let mut surface = damaged(random, scene);
    surface.edition = any_edition(random);
    let mut call = Call::of(&surface, bytes_of(&heights));
    strips_damaged(random, &mut call, &heights);
    call
}
