//! Calls of the strips at the edges, by what they are about.

use super::call::Call;
use super::lent::LONGEST;
use crate::pilgartze::{bytes_of, EDITION_1, EDITION_2, MOST_STRIPS};
use crate::published::shading::*;
use crate::published::strips::*;
use crate::random::{ulps_from, Random};
use crate::shading::call::*;
use crate::shading::edges as surface_edges;
use crate::shading::editions::{EDITIONS, WRONG_EDITIONS};
use crate::shading::scenes::edges_of_range;

type Surface = crate::shading::call::Call;

/// Twelve heights whose sums round, 3.5 metres together.
const TWELVE: [f64; MOST_STRIPS] = [
    0.1, 0.3, 0.2, 0.7, 0.15, 0.25, 0.35, 0.1, 0.05, 0.6, 0.3, 0.4,
];

/// The edges of a list's length in words.
const COUNTS: [usize; 15] = [
    13, 14, 15, 16, 24, 25, 36, 100, 255, 256, 257, 258, 269, 4097, LONGEST,
];

fn around(objects: &[[u64; 3]]) -> Vec<Sector> {
    vec![sector(0.0, 360.0, objects)]
}

fn distant(kind: u64, height: f64, distance: f64) -> [u64; 3] {
    [kind, height.to_bits(), distance.to_bits()]
}

fn at_the_window(kind: u64, size: f64, distance: f64, transparency: f64) -> WindowObject {
    [
        kind,
        size.to_bits(),
        distance.to_bits(),
        transparency.to_bits(),
    ]
}

/// Objects in a sector that reach among the strips of the second call below.
fn some_distant() -> Vec<Sector> {
    around(&[
        distant(OBSTACLE, 6.5, 5.0),
        distant(OBSTACLE, 3.0, 1.0),
        distant(OVERHANG, 13.0, 15.0),
    ])
}

fn some_at_the_window() -> Vec<WindowObject> {
    vec![
        at_the_window(OBSTACLE, 3.0, 1.0, 0.4),
        at_the_window(OVERHANG, 0.3, 0.15, 0.0),
        at_the_window(RIGHT_FIN, 0.5, 0.05, 0.0),
        at_the_window(LEFT_FIN, 0.5, 0.05, 0.0),
    ]
}

/// Calls to change in one place, each with twelve strips: an obstacle before the lower ones at the
/// horizon; objects of every kind under a sun that is higher; and the sun across the north.
fn plain_calls() -> [Call; 3] {
    let obstacle = || around(&[distant(OBSTACLE, 1.0, 1.0)]);
    let south = [0.0, 0.0, 90.0, 180.0, 0.0, 2.0, 1.0];
    let high = [31.5, -12.25, 80.0, 200.0, 1.5, 2.0, 1.3];
    let north = [12.0, -170.0, 90.0, 10.0, 0.5, 2.0, 2.5];
    let scenes = [
        (south, obstacle(), vec![]),
        (high, some_distant(), some_at_the_window()),
        (north, obstacle(), some_at_the_window()),
    ];
    scenes.map(|(numbers, sectors, window)| {
        let scene = Scene {
            edition: EDITION_1,
            numbers,
            sectors,
            window,
        };
        Call::of(&scene.call(), bytes_of(&TWELVE))
    })
}

fn in_both_editions(calls: Vec<Call>) -> Vec<Call> {
    let both = |call: Call| {
        EDITIONS.map(|edition| Call {
            edition,
            ..call.clone()
        })
    };
    calls.into_iter().flat_map(both).collect()
}

/// The call with other strips.
fn of_heights(call: &Call, heights: &[f64]) -> Call {
    Call {
        heights: bytes_of(heights),
        ..call.clone()
    }
}

fn of_base(call: &Call, base_height: f64, heights: &[f64]) -> Call {
    let mut call = of_heights(call, heights);
    call.numbers[GLAZING_BASE] = base_height;
    call
}

// --- How many strips ---

/// From no strip to many too many, and parts of a word behind some.
pub fn counts() -> Vec<Call> {
    let mut calls = vec![];
    for call in plain_calls() {
        for count in (0..=MOST_STRIPS).chain(COUNTS) {
            let heights: Vec<f64> = TWELVE.into_iter().cycle().take(count).collect();
            calls.push(of_heights(&call, &heights));
        }
        for count in [0, 1, 11, 12, 13] {
            for part in 1..8 {
                let mut longer = bytes_of(&TWELVE);
                longer.extend(longer.clone());
                longer.truncate(8 * count + part);
                calls.push(Call {
                    heights: longer.clone(),
                    ..call.clone()
                });
                longer[8 * count..].fill(0);
                calls.push(Call {
                    heights: longer,
                    ..call.clone()
                });
            }
        }
    }
    in_both_editions(calls)
}

// --- Ranges ---

/// Each number but the heights at each edge of its range.
pub fn numbers() -> Vec<Call> {
    let mut calls = vec![];
    for call in plain_calls() {
        for (place, &range) in GLAZING_RANGES.iter().enumerate() {
            for x in edges_of_range(range) {
                let mut call = call.clone();
                call.numbers[place] = x;
                calls.push(call);
            }
        }
    }
    in_both_editions(calls)
}

/// Each height at each edge of its range, among 1 and among 12 strips.
pub fn heights() -> Vec<Call> {
    let mut calls = vec![];
    for call in plain_calls() {
        for x in edges_of_range(RANGES[HEIGHT]) {
            calls.push(of_heights(&call, &[x]));
            for place in 0..MOST_STRIPS {
                let mut heights = TWELVE;
                heights[place] = x;
                calls.push(of_heights(&call, &heights));
            }
        }
    }
    in_both_editions(calls)
}

/// Where rounded sums of base and height reach at most 1000 and the base plus all heights passes it, or
/// the other way round: some bases with their strips.
fn about_the_greatest_base() -> Vec<(f64, Vec<f64>)> {
    let mut random = Random::new(1, "bases about 1000");
    let mut found: [Vec<(f64, Vec<f64>)>; 2] = [vec![], vec![]];
    while found.iter().any(|some| some.len() < 20) {
        let count = 3 + random.below(MOST_STRIPS - 2);
        let heights: Vec<f64> = (0..count).map(|_| random.uniform(0.001, 3.0)).collect();
        let below = &heights[..count - 1];
        let whole: f64 = below.iter().sum();
        let base = ulps_from(1000.0 - whole, random.below(5) as i64 - 2);
        let step_by_step = below.iter().fold(base, |base, height| base + height);
        if (step_by_step <= 1000.0) != (base + whole <= 1000.0) {
            let side = (step_by_step <= 1000.0) as usize;
            found[side].push((base, heights));
        }
    }
    let both = found.map(|some| some.into_iter().take(20).collect::<Vec<_>>());
    both.concat()
}

/// Bases at their ends and about 1000 at each strip but the first; strips whose top is above 1000, and
/// such as are higher than 1000 together.
pub fn bases() -> Vec<Call> {
    let ulp = ulps_from(1000.0, 1) - 1000.0;
    let mut calls = vec![];
    for call in plain_calls() {
        for count in [1, 2, MOST_STRIPS] {
            for x in edges_of_range(RANGES[BASE_HEIGHT]) {
                calls.push(of_base(&call, x, &TWELVE[..count]));
            }
        }
        for last in 1..MOST_STRIPS {
            let base = 1000.0 - last as f64;
            for steps in -2..=2 {
                let mut heights = [1.0; MOST_STRIPS];
                heights[last - 1] += steps as f64 * ulp;
                calls.push(of_base(&call, base, &heights[..last + 1]));
                calls.push(of_base(&call, base, &heights));
            }
        }
        for (base, heights) in about_the_greatest_base() {
            calls.push(of_base(&call, base, &heights));
        }
        let high: [(f64, &[f64]); 8] = [
            (1000.0, &[1000.0]),
            (1000.0, &[0.001]),
            (0.0, &[1000.0, 1000.0]),
            (0.0, &[1000.0, 1000.0, 0.001]),
            (0.0, &[500.0, 500.0, 1000.0]),
            (-0.0, &[999.999, 0.001, 1000.0]),
            (0.001, &[1000.0, 0.001]),
            (999.0, &[0.5, 0.5, 0.5]),
        ];
        calls.extend(high.map(|(base, heights)| of_base(&call, base, heights)));
    }
    in_both_editions(calls)
}

// --- Refusals ---

/// What the strips alone are refused for, 3, in the last of them or by how many there are.
const STRIP_FAULTS: [fn(&mut Vec<f64>, &mut Vec<u8>); 6] = [
    |heights, _| heights[MOST_STRIPS - 1] = f64::NAN,
    |heights, _| heights[MOST_STRIPS - 1] = 0.0,
    |heights, _| heights[MOST_STRIPS - 2] = 1000.0,
    |heights, _| heights.clear(),
    |heights, _| heights.push(0.5),
    |_, behind| behind.push(0),
];

/// The strips with such a fault.
fn faulty_heights(fault: usize) -> Vec<u8> {
    let (mut heights, mut behind) = (TWELVE.to_vec(), vec![]);
    STRIP_FAULTS[fault](&mut heights, &mut behind);
    [bytes_of(&heights), behind].concat()
}

const FAULTS: [u64; 6] = [3, 4, 8, 9, 10, 11];

/// The call with a set of the faults that lead to 3, of sun or surface, 4 and 8 to 11.
fn with_faults(call: &Call, set: usize) -> Call {
    let mut surface = call.strip([call.numbers[GLAZING_BASE], TWELVE[0]]);
    // from the last on, so that a part record stays one
    for place in (0..FAULTS.len())
        .rev()
        .filter(|place| set >> place & 1 == 1)
    {
        surface_edges::fault(&mut surface, FAULTS[place]);
    }
    Call::of(&surface, call.heights.clone())
}

/// Every set of the faults that lead to 14, 3, 4 and 8 to 11, and none of them; 3 also by the strips
/// alone, in each way.
pub fn faults() -> Vec<Call> {
    let mut calls = vec![];
    for call in plain_calls() {
        for set in 0..1 << FAULTS.len() {
            let call = with_faults(&call, set);
            let of_each = |edition| Call {
                edition,
                ..call.clone()
            };
            calls.extend(EDITIONS.into_iter().chain(WRONG_EDITIONS).map(of_each));
            for edition in [EDITION_1, EDITION_2, 0, 3] {
                calls.extend((0..STRIP_FAULTS.len()).map(|fault| Call {
                    heights: faulty_heights(fault),
                    ..of_each(edition)
                }));
            }
        }
    }
    calls
}

/// Outside the beam, every set of the faults that lead to 8 to 11, with one strip to twelve.
pub fn outside() -> Vec<Call> {
    let mut calls = vec![];
    for mut call in plain_calls() {
        call.numbers[AZIMUTH] = 360.0 - call.numbers[ORIENTATION]; // behind it
        for set in (0..1 << FAULTS.len()).step_by(4) {
            let call = with_faults(&call, set);
            calls.extend((1..=MOST_STRIPS).map(|count| of_heights(&call, &TWELVE[..count])));
            let heights = [0.001, 900.0, 0.3, 0.7, 0.1];
            calls.extend((1..=5).map(|count| of_heights(&call, &heights[..count])));
        }
    }
    in_both_editions(calls)
}

// --- Sums that round ---

/// Strips whose sums round, another way from the top, with the base and by another order.
fn rounding_heights() -> Vec<Vec<f64>> {
    let mut lists: Vec<Vec<f64>> = vec![
        vec![0.1, 0.2, 0.3],
        vec![0.3, 0.1, 0.7, 0.1],
        vec![0.001, 900.0],
        vec![900.0, 0.001, 0.1],
        vec![0.001, 0.001, 0.001, 999.0, 0.001],
        vec![0.7; 12],
        vec![0.1; 12],
        vec![0.001; 12],
        vec![1.0 / 3.0; 7],
        [vec![0.001; 11], vec![1000.0]].concat(),
        [vec![1000.0], vec![0.3]].concat(),
    ];
    for count in 1..=MOST_STRIPS {
        lists.push(TWELVE[..count].to_vec());
        lists.push(TWELVE.iter().rev().copied().take(count).collect());
    }
    lists.extend([0.05, 0.3, 1.0 / 3.0, 2.7].map(|height| vec![height]));
    lists
}

/// Objects before glazing that is so high, above its base: an obstacle, an overhang over it, one at
/// the window, and a near obstacle.
fn before(base: f64, whole: f64, part: f64) -> [(Vec<Sector>, Vec<WindowObject>); 4] {
    let reach = (base + whole * part).clamp(0.001, 1000.0);
    let obstacle = distant(OBSTACLE, reach, 1.0);
    let overhang = distant(OVERHANG, reach, 1.0);
    let over = at_the_window(OVERHANG, 0.3, 0.01 * part, 0.0);
    let near = at_the_window(OBSTACLE, reach, 1.0, 0.3);
    [
        (around(&[obstacle]), vec![]),
        (around(&[overhang]), vec![]),
        (around(&[obstacle]), vec![over]),
        (around(&[overhang]), vec![near]),
    ]
}

/// Each of these strips with each of these objects, the sun at the horizon or higher, the first one
/// that for which one strip has another double than its plain factor.
pub fn sums() -> Vec<Call> {
    let figure = Scene {
        edition: EDITION_1,
        numbers: [0.0, 0.0, 90.0, 180.0, 0.0, 0.05, 0.7],
        sectors: around(&[distant(OBSTACLE, 0.01, 1.0)]),
        window: vec![],
    };
    let mut calls = vec![Call::of(&figure.call(), bytes_of(&[0.05]))];
    for heights in rounding_heights() {
        let whole: f64 = heights.iter().sum();
        for (altitude, base) in [(0.0, 0.0), (0.0, 0.3), (35.0, 0.1), (20.0, 1.7)] {
            for part in [0.05, 0.2, 0.37, 0.61, 0.83] {
                calls.extend(before(base, whole, part).map(|(sectors, window)| {
                    let scene = Scene {
                        edition: EDITION_1,
                        numbers: [altitude, 10.0, 90.0, 180.0, base, 1.0, 1.3],
                        sectors,
                        window,
                    };
                    Call::of(&scene.call(), bytes_of(&heights))
                }));
            }
        }
    }
    in_both_editions(calls)
}

// --- The lists ---

/// Of the calls of the factor at the edges every so many; a prime, so that it falls in step with none of
/// the loops that make them.
const EVERY: usize = 7;

/// Calls of the factor at the edges, with strips in the place of the surface.
pub fn lists() -> Vec<Call> {
    let each = surface_edges::all().into_iter().step_by(EVERY);
    let strips = |(turn, surface): (usize, Surface)| {
        let count = 1 + turn % MOST_STRIPS;
        Call::of(&surface, bytes_of(&TWELVE[..count]))
    };
    each.enumerate().map(strips).collect()
}

/// All that are tried one by one.
pub fn all() -> Vec<Call> {
    [
        counts(),
        numbers(),
        heights(),
        bases(),
        faults(),
        outside(),
        sums(),
        lists(),
    ]
    .concat()
}
