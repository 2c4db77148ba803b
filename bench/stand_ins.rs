//! Nanoseconds for each call of a stand-in: Rattle's, through the static library, beside the same
//! formula in Rust.
//!
//! Both sides are called through a function pointer that the compiler cannot see through, on the
//! same inputs, in turns; what is printed is the median of the rounds. So both pay one call, and
//! a slow spell of the machine meets both.

use std::hint::black_box;

#[allow(dead_code)]
mod measure;
#[path = "../oracle/pilgartze.rs"]
#[allow(dead_code)]
mod pilgartze;
#[path = "../oracle/probes.rs"]
#[allow(dead_code)] // words and digits are not measured here
mod probes;
#[path = "../oracle/random.rs"]
#[allow(dead_code)]
mod random;
#[path = "../oracle/stand_ins.rs"]
#[allow(dead_code)]
mod stand_ins;

use probes::{OneDouble, SinCos, TwoDoubles, LIBRARY};
use random::Random;

/// Inputs in an array: few enough to stay in the nearest cache.
const INPUTS: usize = 2048;
/// Passes over the array in a round.
const PASSES: usize = 8;

// --- The Rust side: the same formulas, each behind a call ---

macro_rules! behind_a_call {
    ($($name:ident($($argument:ident),*))*) => {
        mod rust {
            $(
                #[inline(never)]
                pub extern "C" fn $name($($argument: f64),*) -> f64 {
                    super::stand_ins::$name($($argument),*)
                }
            )*

            #[inline(never)]
            pub extern "C" fn sin_cos(a: f64) -> super::SinCos {
                let (sin, cos) = super::stand_ins::sin_cos(a);
                super::SinCos { sin, cos }
            }
        }
    };
}
behind_a_call! {
    min_of_2(a, b) max_of_2(a, b) float_min(a, b) float_max(a, b)
    floor(x) cube(x) to_radians(x) to_degrees(x)
    sqrt(x) sqrt_by_whole_numbers(x)
    sin(a) cos(a) tan(a) asin(a) acos(a) pow_minus_1_253(u)
}

// --- Measuring ---

type Both = unsafe extern "C" fn(f64) -> SinCos;

/// One round of one side: nanoseconds for each call.
///
/// Each result goes to a place of its own, so that no call waits for the one before it; and the
/// results are handed where the compiler must believe that they are used.
fn round<I: Copy, R>(call: impl Fn(I) -> R, inputs: &[I], results: &mut Vec<R>) -> f64 {
    let all = measure::nanoseconds(|| {
        for _ in 0..PASSES {
            results.clear();
            results.extend(inputs.iter().map(|&input| call(input)));
            black_box(&mut *results);
        }
    });
    all / (PASSES * inputs.len()) as f64
}

/// Measures both sides in turns and prints a line of the table.
fn line<I: Copy, R>(name: &str, rattle: impl Fn(I) -> R, rust: impl Fn(I) -> R, inputs: &[I]) {
    let (rattle_results, rust_results) = (&mut vec![], &mut vec![]);
    measure::line(
        name,
        || round(&rattle, inputs, rattle_results),
        || round(&rust, inputs, rust_results),
    );
}

fn one(name: &str, rattle: OneDouble, rust: OneDouble, inputs: &[f64]) {
    let (rattle, rust) = (black_box(rattle), black_box(rust));
    line(
        name,
        |x| unsafe { rattle(x) },
        |x| unsafe { rust(x) },
        inputs,
    )
}

/// The other argument is the next input.
fn two(name: &str, rattle: TwoDoubles, rust: TwoDoubles, inputs: &[f64]) {
    let (rattle, rust) = (black_box(rattle), black_box(rust));
    let pairs: Vec<(f64, f64)> = inputs.windows(2).map(|pair| (pair[0], pair[1])).collect();
    line(
        name,
        |(a, b)| unsafe { rattle(a, b) },
        |(a, b)| unsafe { rust(a, b) },
        &pairs,
    )
}

/// What the functions are called with.
struct Inputs {
    turns: Vec<f64>,
    degrees: Vec<f64>,
    ratios: Vec<f64>,
    positive: Vec<f64>,
    powers: Vec<f64>,
    hours: Vec<f64>,
    extents: Vec<f64>,
}

fn any_inputs(mut random: Random) -> Inputs {
    let mut between = |low: f64, high: f64| -> Vec<f64> {
        (0..INPUTS).map(|_| random.uniform(low, high)).collect()
    };
    Inputs {
        turns: between(-7.0, 7.0),
        degrees: between(-360.0, 360.0),
        ratios: between(-1.0, 1.0),
        positive: between(0.0, 1.0),
        powers: between(3.0, 14.0),
        hours: between(0.0, 8784.0),
        extents: between(-2.0, 2.0),
    }
}

/// The lesser and the greater of two, floor and cube.
fn plain_lines(inputs: &Inputs) {
    let extents = &inputs.extents;
    two("`min_of_2`", LIBRARY.min_of_2, rust::min_of_2, extents);
    two("`max_of_2`", LIBRARY.max_of_2, rust::max_of_2, extents);
    two("float `min`", LIBRARY.float_min, rust::float_min, extents);
    two("float `max`", LIBRARY.float_max, rust::float_max, extents);
    one("floor", LIBRARY.floor, rust::floor, &inputs.hours);
    one("power 3", LIBRARY.cube, rust::cube, &inputs.ratios);
}

fn degree_lines(inputs: &Inputs) {
    one(
        "degrees to radians",
        LIBRARY.to_radians,
        rust::to_radians,
        &inputs.degrees,
    );
    one(
        "radians to degrees",
        LIBRARY.to_degrees,
        rust::to_degrees,
        &inputs.turns,
    );
}

fn root_lines(inputs: &Inputs) {
    one(
        "root (Rust: whole numbers)",
        LIBRARY.sqrt,
        rust::sqrt_by_whole_numbers,
        &inputs.positive,
    );
    one(
        "root (Rust: the machine's)",
        LIBRARY.sqrt,
        rust::sqrt,
        &inputs.positive,
    );
}

/// Of angles, and angles of ratios.
fn angle_lines(inputs: &Inputs) {
    let (turns, ratios) = (&inputs.turns, &inputs.ratios);
    one("sine", LIBRARY.sin, rust::sin, turns);
    one("cosine", LIBRARY.cos, rust::cos, turns);
    let (rattle, rust) = (black_box(LIBRARY.sin_cos), black_box(rust::sin_cos as Both));
    line(
        "sine and cosine",
        |a| unsafe { rattle(a) },
        |a| unsafe { rust(a) },
        turns,
    );
    one("tangent", LIBRARY.tan, rust::tan, turns);
    one("arcsine", LIBRARY.asin, rust::asin, ratios);
    one("arccosine", LIBRARY.acos, rust::acos, ratios);
}

fn main() {
    let inputs = any_inputs(Random::new(1, "bench"));
    measure::heading("function");
    plain_lines(&inputs);
    degree_lines(&inputs);
    root_lines(&inputs);
    angle_lines(&inputs);
    one(
        "power −1.253",
        LIBRARY.pow_minus_1_253,
        rust::pow_minus_1_253,
        &inputs.powers,
    );
}
