//! The stand-ins and the other functions on doubles.

use crate::comparison::{compare, Outcome, Settings, With};
use crate::probes::{OneDouble, Probes, TwoDoubles};
use crate::random::{chief_edges, edges, power_of_two, ulps_from, Random};
use crate::stand_ins;
use std::cell::Cell;

/// Where a function's useful inputs lie.
#[derive(Clone, Copy)]
enum Useful {
    Between(f64, f64),
    /// A whole number or a half, and its neighbours.
    Halves,
    /// A square of a double as rounded, and its neighbours.
    Squares,
    /// A double whose root lies next to the half between two doubles: the hardest to round.
    RootHalves,
    /// 1 or −1, or one of their neighbours, as a sum of products rounds to.
    AboutOne,
}
use Useful::*;

impl Useful {
    fn draw(self, random: &mut Random) -> f64 {
        match self {
            Between(low, high) => random.uniform(low, high),
            Halves => {
                let bits = 1 + random.below(54);
                let half = random.below(1 << bits) as f64 * 0.5;
                let signed = if random.below(2) == 0 { half } else { -half };
                ulps_from(signed, random.below(3) as i64 - 1)
            }
            Squares => {
                let root = random.any_size();
                ulps_from(root * root, random.below(5) as i64 - 2)
            }
            AboutOne => {
                let one = [1.0, -1.0][random.below(2)];
                ulps_from(one, random.below(33) as i64 - 16)
            }
            RootHalves => {
                let (square, j) = next_to_a_half(random);
                square * power_of_two(2 * j)
            }
        }
    }
}

/// A double whose root is 54 bits long but for less than a millionth of its last bit, so that it
/// lies next to the half between two doubles, on either side; and some exponent to move it by.
///
/// Wanted is an odd s of 54 bits with s² = x + r, where r is small and x ends in 55 zeros, so that x
/// is a double. An odd square can be any r that leaves 1 by 8, and s is then found bit by bit.
fn next_to_a_half(random: &mut Random) -> (f64, i32) {
    loop {
        let r = 8 * (random.below(1 << 20) as i128 - (1 << 19)) + 1;
        let mut s: i128 = 1;
        for bit in 3..55 {
            if (s * s - r) & ((2 << bit) - 1) != 0 {
                s += 1 << (bit - 1);
            }
        }
        s &= (1 << 55) - 1;
        let others = [s, (1 << 55) - s, s ^ (1 << 54), ((1 << 55) - s) ^ (1 << 54)];
        let s = others[random.below(4)];
        if s >> 53 == 1 {
            let x = s * s - r;
            debug_assert_eq!(x & ((1 << 55) - 1), 0);
            return (x as f64, random.below(400) as i32 - 200);
        }
    }
}

/// The edges, then random cases up to the count: half of them in the useful places, the others any
/// bit pattern at all, any size, or some way from an edge.
fn doubles<'a>(
    random: &'a mut Random,
    edges: &'a [f64],
    useful: &'a [Useful],
    count: usize,
) -> impl Iterator<Item = f64> + 'a {
    let more = count.saturating_sub(edges.len());
    let drawn = (0..more).map(move |_| match random.below(8) {
        0..=3 => useful[random.below(useful.len())].draw(random),
        4 | 5 => random.any_double(),
        6 => random.any_size(),
        _ => ulps_from(
            edges[random.below(edges.len())],
            random.below(65) as i64 - 32,
        ),
    });
    edges.iter().copied().chain(drawn)
}

/// Each chief edge with each, then random pairs up to the count: unlike, equal, opposite and
/// neighbouring ones.
fn pairs(random: &mut Random, count: usize) -> impl Iterator<Item = [f64; 2]> + '_ {
    let chief = chief_edges();
    let each: Vec<[f64; 2]> = chief
        .iter()
        .flat_map(|&a| chief.iter().map(move |&b| [a, b]))
        .collect();
    let more = count.saturating_sub(each.len());
    let drawn = (0..more).map(move |_| {
        let a = match random.below(3) {
            0 => random.any_double(),
            1 => random.any_size(),
            _ => chief[random.below(chief.len())],
        };
        let b = match random.below(6) {
            0 => random.any_double(),
            1 => random.any_size(),
            2 => chief[random.below(chief.len())],
            3 => a,
            4 => -a,
            _ => ulps_from(a, random.below(5) as i64 - 2),
        };
        if random.below(2) == 0 {
            [a, b]
        } else {
            [b, a]
        }
    });
    each.into_iter().chain(drawn)
}

fn two(
    settings: &Settings,
    name: &str,
    with: With,
    rust: fn(f64, f64) -> f64,
    rattle: TwoDoubles,
) -> Outcome {
    let mut random = settings.random(name);
    let tally = compare(
        name,
        pairs(&mut random, settings.count),
        |[a, b]| [rust(a, b)],
        |[a, b]| [unsafe { rattle(a, b) }],
    )?;
    settings.report(name, with, tally)
}

/// `min_of_2` and `max_of_2`, which the published Rust has itself: it is handed in, so that this
/// file does without its texts.
pub fn least_and_most(
    settings: &Settings,
    probes: &Probes,
    min_of_2: fn(f64, f64) -> f64,
    max_of_2: fn(f64, f64) -> f64,
) -> Outcome {
    settings.heading("the lesser and the greater of two doubles: published Rust against Rattle");
    let with = With::Published;
    two(settings, "min_of_2", with, min_of_2, probes.min_of_2)?;
    two(settings, "max_of_2", with, max_of_2, probes.max_of_2)
}

fn of_two(settings: &Settings, probes: &Probes) -> Outcome {
    let (min, max) = (stand_ins::float_min, stand_ins::float_max);
    two(settings, "float_min", With::StandIn, min, probes.float_min)?;
    two(settings, "float_max", With::StandIn, max, probes.float_max)
}

const TURNS: [Useful; 3] = [Between(-64.0, 64.0), Between(-7.0, 7.0), Between(-1.0, 1.0)];

const WHOLE_NUMBER_ROOT: &str = "sqrt (whole numbers)";

/// The functions of one double, each with the range in which it is of use.
fn each_of_one(probes: &Probes) -> Vec<(&'static str, Vec<Useful>, fn(f64) -> f64, OneDouble)> {
    let floors = vec![Halves, Between(-1e4, 1e4)];
    let cubes = vec![Between(0.0, 1.6), Between(-10.0, 10.0)];
    let degrees = vec![Between(0.0, 360.0), Between(-360.0, 360.0)];
    let turns = TURNS.to_vec();
    let ratios = vec![
        Between(-1.0, 1.0),
        Between(0.49, 0.51),
        Between(0.999, 1.001),
        Between(-1.001, -0.999),
        AboutOne,
    ];
    let roots = vec![Between(0.0, 1.0), Between(0.0, 0.25), Squares, RootHalves];
    let powers = vec![
        Between(3.0, 14.0),
        Between(5.59, 5.61),
        Between(11.19, 11.21),
    ];
    let by_whole_numbers = stand_ins::sqrt_by_whole_numbers;
    let pow = (stand_ins::pow_minus_1_253, probes.pow_minus_1_253);
    vec![
        ("floor", floors, stand_ins::floor, probes.floor),
        ("cube", cubes, stand_ins::cube, probes.cube),
        (
            "to_radians",
            degrees,
            stand_ins::to_radians,
            probes.to_radians,
        ),
        (
            "to_degrees",
            turns.clone(),
            stand_ins::to_degrees,
            probes.to_degrees,
        ),
        ("sqrt", roots.clone(), stand_ins::sqrt, probes.sqrt),
        (WHOLE_NUMBER_ROOT, roots, by_whole_numbers, probes.sqrt),
        ("sin", turns.clone(), stand_ins::sin, probes.sin),
        ("cos", turns.clone(), stand_ins::cos, probes.cos),
        ("tan", turns, stand_ins::tan, probes.tan),
        ("asin", ratios.clone(), stand_ins::asin, probes.asin),
        ("acos", ratios, stand_ins::acos, probes.acos),
        ("pow_minus_1_253", powers, pow.0, pow.1),
    ]
}

/// How many of the arguments compared lay where an arcsine takes them as 1, as −1, and not at all.
#[derive(Clone, Copy, Default)]
struct Ends {
    above: u64,
    below: u64,
    infinite: u64,
    nan: u64,
}

impl Ends {
    fn note(ends: &Cell<Ends>, x: f64) {
        let mut met = ends.get();
        met.above += (x > 1.0) as u64;
        met.below += (x < -1.0) as u64;
        met.infinite += x.is_infinite() as u64;
        met.nan += x.is_nan() as u64;
        ends.set(met);
    }

    /// Prints them for an arcsine and an arccosine; none of a kind is an error.
    fn report(self, settings: &Settings, name: &str) -> Outcome {
        let counts = [
            ("above 1", self.above),
            ("below -1", self.below),
            ("infinite", self.infinite),
            ("NaN", self.nan),
        ];
        for (what, count) in counts {
            if count == 0 {
                return Err(format!("{name}: no argument was {what}"));
            }
            settings.detail(&format!("{name}, argument {what}"), count);
        }
        Ok(())
    }
}

fn of_one(settings: &Settings, probes: &Probes, edges: &[f64]) -> Outcome {
    for (name, useful, rust, rattle) in each_of_one(probes) {
        let mut random = settings.random(name);
        let ends = Cell::new(Ends::default());
        let inputs = doubles(&mut random, edges, &useful, settings.count).map(|x| [x]);
        let right = |[x]: [f64; 1]| {
            Ends::note(&ends, x);
            [rust(x)]
        };
        let tally = compare(name, inputs, right, |[x]| [unsafe { rattle(x) }])?;
        let with = match name == WHOLE_NUMBER_ROOT {
            true => With::PlainForm,
            false => With::StandIn,
        };
        settings.report(name, with, tally)?;
        if name == "asin" || name == "acos" {
            ends.get().report(settings, name)?;
        }
    }
    Ok(())
}

fn sine_and_cosine(settings: &Settings, probes: &Probes, edges: &[f64]) -> Outcome {
    let mut random = settings.random("sin_cos");
    let tally = compare(
        "sin_cos",
        doubles(&mut random, edges, &TURNS, settings.count).map(|x| [x]),
        |[x]| {
            let (sin, cos) = stand_ins::sin_cos(x);
            [sin, cos]
        },
        |[x]| {
            let both = unsafe { (probes.sin_cos)(x) };
            [both.sin, both.cos]
        },
    )?;
    settings.report("sin_cos", With::StandIn, tally)
}

pub fn section(settings: &Settings, probes: &Probes) -> Outcome {
    settings.heading("functions on doubles: stand-ins against Rattle");
    let edges = edges();
    of_two(settings, probes)?;
    of_one(settings, probes, &edges)?;
    sine_and_cosine(settings, probes, &edges)
}
