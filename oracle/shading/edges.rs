//! Calls of the factor at the edges, one by one.

use super::call::*;
use super::editions::{EDITIONS, WRONG_EDITIONS};
use super::scenes::{edges_of_range, odd_words, Aim};
use super::walks::{all_ends, obstacle_at, sectors_ending};
use crate::pilgartze::EDITION_1;
use crate::published::shading::*;
use crate::published::walk::Walked;
use crate::random::{ulps_from, Random};

/// Scenes to change in one place: three sectors and five window objects, inside the beam, the match
/// in the second sector. The last has the sun beyond the turn, where right fins shade.
fn plain_scenes() -> [Scene; 3] {
    let suns = [
        [0.0, 0.0, 90.0, 180.0, 0.0, 2.0, 1.0],
        [31.5, -12.25, 80.0, 200.0, 1.5, 2.2, 1.3],
        [12.0, -170.0, 90.0, 10.0, 0.5, 1.75, 2.5],
    ];
    let mut random = Random::new(1, "plain scenes");
    suns.map(|numbers| {
        let aim = Aim::half_shaded(&numbers);
        let azimuth = numbers[AZIMUTH];
        let ends = [0.0, 180.0 - azimuth - 5.0, 180.0 - azimuth + 5.0, 360.0];
        let sectors = ends.windows(2).enumerate().map(|(place, ends)| {
            let objects: Vec<[u64; 3]> = (0..2 + place)
                .map(|_| aim.distant_object(&mut random))
                .collect();
            sector(ends[0], ends[1], &objects)
        });
        Scene {
            edition: EDITION_1,
            numbers,
            sectors: sectors.collect(),
            window: [OBSTACLE, OVERHANG, RIGHT_FIN, LEFT_FIN, OBSTACLE]
                .map(|kind| aim.window_object(&mut Random::new(kind, "window"), kind))
                .to_vec(),
        }
    })
}

/// Each field at each edge, all others as they were.
fn single_fields(calls: &mut Vec<Call>) {
    let words = odd_words();
    for scene in plain_scenes() {
        for place in 0..7 {
            for x in edges_of_range(RANGES[place]) {
                let mut scene = scene.clone();
                scene.numbers[place] = x;
                calls.push(scene.call());
            }
        }
        for sector in 0..scene.sectors.len() {
            for place in 0..SECTOR_WORDS {
                for &word in &words {
                    let mut scene = scene.clone();
                    scene.sectors[sector][place] = word;
                    calls.push(scene.call());
                }
            }
        }
        for object in 0..scene.window.len() {
            for place in 0..WINDOW_WORDS {
                for &word in &words {
                    let mut scene = scene.clone();
                    scene.window[object][place] = word;
                    calls.push(scene.call());
                }
            }
        }
    }
}

/// Each count of objects with each odd count said, in the sector with the sun and in another.
fn every_count(calls: &mut Vec<Call>) {
    let [_, scene, _] = plain_scenes();
    let mut random = Random::new(1, "counts");
    let aim = Aim::new(&mut random, &scene.numbers);
    for place in [1, 2] {
        for count in 0..=MOST_OBJECTS {
            let mut scene = scene.clone();
            let objects: Vec<[u64; 3]> = (0..count)
                .map(|_| aim.distant_object(&mut random))
                .collect();
            let [start, end] =
                [START, END].map(|bound| f64::from_bits(scene.sectors[place][bound]));
            scene.sectors[place] = sector(start, end, &objects);
            for word in odd_words() {
                scene.sectors[place][COUNT] = word;
                calls.push(scene.call());
            }
        }
    }
}

/// Every length of both lists, up to a few records too many.
fn every_length(calls: &mut Vec<Call>) {
    let [scene, ..] = plain_scenes();
    let around: Vec<Sector> = (0..MOST_SECTORS + 2)
        .map(|i| sector(i as f64 * 9.0, (i + 1) as f64 * 9.0, &[]))
        .collect();
    let long = Scene {
        sectors: around,
        window: scene
            .window
            .iter()
            .cycle()
            .take(MOST_WINDOW_OBJECTS + 2)
            .copied()
            .collect(),
        ..scene.clone()
    }
    .call();
    let usual = scene.call();
    for len in 0..=long.sectors.len() {
        let sectors = long.sectors[..len].to_vec();
        calls.push(Call {
            sectors,
            ..usual.clone()
        });
    }
    for len in 0..=long.window.len() {
        let window = long.window[..len].to_vec();
        calls.push(Call {
            window,
            ..usual.clone()
        });
    }
}

/// The sun at each turn of the beam's tests, with its neighbours.
fn every_turn(calls: &mut Vec<Call>) {
    let [_, scene, _] = plain_scenes();
    let mut scene = scene.clone();
    scene.sectors = vec![sector(0.0, 360.0, &[])];
    let orientations = [
        0.0, -0.0, 17.3, 45.0, 90.0, 100.1, 135.0, 180.0, 225.0, 270.0, 315.0, 342.7, 360.0,
    ];
    let heights = [
        (90.0, 0.0),
        (90.0, 45.0),
        (0.0, 90.0),
        (180.0, 90.0),
        (180.0, 0.0),
    ];
    for orientation in orientations {
        for quarter in -6..=6 {
            for steps in -2..=2 {
                for (tilt, altitude) in heights {
                    let azimuth = 180.0 - orientation - 90.0 * quarter as f64;
                    scene.numbers[ORIENTATION] = orientation;
                    scene.numbers[AZIMUTH] = ulps_from(azimuth, steps);
                    scene.numbers[TILT] = tilt;
                    scene.numbers[ALTITUDE] = altitude;
                    calls.push(scene.call());
                }
            }
        }
    }
    for altitude in [0.0, -0.0, 30.0, 60.1, 90.0] {
        for tilt in [altitude - 90.0, altitude + 90.0] {
            for steps in -2..=2 {
                scene.numbers = plain_scenes()[1].numbers;
                scene.numbers[ALTITUDE] = altitude;
                scene.numbers[TILT] = ulps_from(tilt, steps);
                calls.push(scene.call());
            }
        }
    }
}

/// Lists of bounds with one among them.
fn lists_with(bound: f64) -> [Vec<(f64, f64)>; 7] {
    [
        vec![(0.0, bound), (bound, 360.0)],
        vec![(0.0, bound)],
        vec![(bound, 360.0)],
        vec![(0.0, bound), (bound, bound), (bound, 360.0)],
        vec![(bound, bound)],
        vec![(bound, 0.0)],
        vec![(-0.0, bound), (-bound.abs(), 360.0)],
    ]
}

/// Sectors with these bounds, whose obstacles are low and high in turns.
fn sectors_between(list: &[(f64, f64)]) -> Vec<Sector> {
    let low = [OBSTACLE, 0.5f64.to_bits(), 1.0f64.to_bits()];
    let high = [OBSTACLE, 1.0f64.to_bits(), 1.0f64.to_bits()];
    list.iter()
        .enumerate()
        .map(|(i, &(start, end))| sector(start, end, &[[low, high][i % 2]]))
        .collect()
}

/// The azimuth at a bound, with its neighbours.
fn about_bound(calls: &mut Vec<Call>, scene: &Scene, bound: f64) {
    let mut scene = scene.clone();
    scene.numbers[ORIENTATION] = bound;
    for steps in -2..=2 {
        scene.numbers[AZIMUTH] = ulps_from(180.0 - bound, steps);
        calls.push(scene.call());
    }
}

/// The azimuth at a bound, with its neighbours, for bounds all around and several lists with it.
fn every_bound(calls: &mut Vec<Call>) {
    let [mut scene, ..] = plain_scenes();
    let bounds = [
        0.0,
        -0.0,
        f64::from_bits(1),
        1e-14,
        1.0,
        90.0,
        133.7,
        180.0,
        ulps_from(180.0, 1),
        270.0,
        359.9,
        ulps_from(360.0, -1),
        360.0,
    ];
    let each_list = |bound: f64| lists_with(bound).map(|list| (bound, list));
    for (bound, list) in bounds.into_iter().flat_map(each_list) {
        scene.sectors = sectors_between(&list);
        about_bound(calls, &scene, bound);
    }
}

/// Every list of up to three sectors whose bounds are among five: gaps, turns and matches in each
/// order. Every sector's shade is another.
fn every_walk(calls: &mut Vec<Call>) {
    let [mut scene, ..] = plain_scenes();
    scene.window.clear();
    let bounds = [0.0, 100.0, 180.0, 250.0, 360.0];
    let one = |n: usize, height: f64| {
        let obstacle = [OBSTACLE, height.to_bits(), 1.0f64.to_bits()];
        sector(bounds[n % 5], bounds[n / 5], &[obstacle])
    };
    let mut push = |sectors: Vec<Sector>| {
        for azimuth in [30.0, -20.0] {
            scene.numbers[AZIMUTH] = azimuth;
            scene.sectors = sectors.clone();
            calls.push(scene.call());
        }
    };
    for a in 0..25 {
        push(vec![one(a, 0.5)]);
        for b in 0..25 {
            push(vec![one(a, 0.5), one(b, 0.75)]);
            for c in 0..25 {
                push(vec![one(a, 0.5), one(b, 0.75), one(c, 1.25)]);
            }
        }
    }
}

/// The scene with so many sectors, by which the walk ends so. Every sector's shade is another.
fn walk_call(scene: &Scene, walked: Walked, count: usize) -> Call {
    let numbers = scene.numbers;
    let sun = 180.0 - numbers[AZIMUTH];
    Scene {
        edition: scene.edition,
        numbers,
        sectors: sectors_ending(walked, count, sun, |place| obstacle_at(&numbers, place)),
        window: vec![],
    }
    .call()
}

/// A walk that ends in each way at each place, in a list as long as it may be.
fn every_place(calls: &mut Vec<Call>) {
    for scene in plain_scenes() {
        calls.extend(all_ends().map(|walked| walk_call(&scene, walked, MOST_SECTORS)));
    }
}

/// The same in lists that end there, the scenes by turns.
pub fn every_last_place() -> Vec<Call> {
    let scenes = plain_scenes();
    let each = all_ends().zip(scenes.iter().cycle());
    each.map(|(walked, scene)| walk_call(scene, walked, walked.place + 1))
        .collect()
}

/// Every order of up to three objects at the window, of each kind.
fn every_order(calls: &mut Vec<Call>) {
    for scene in plain_scenes() {
        let mut objects = scene.window.clone();
        objects.push([REVEAL, 1.0f64.to_bits(), 0.0f64.to_bits(), 0]);
        let n = objects.len();
        let mut push = |window: Vec<WindowObject>| {
            calls.push(
                Scene {
                    window,
                    ..scene.clone()
                }
                .call(),
            );
        };
        for a in 0..n {
            push(vec![objects[a]]);
            for b in 0..n {
                push(vec![objects[a], objects[b]]);
                for c in 0..n {
                    push(vec![objects[a], objects[b], objects[c]]);
                }
            }
        }
    }
}

/// The specification's examples, of a surface that faces south: base 0, height 2, width 1.
fn examples(calls: &mut Vec<Call>) {
    let [scene, ..] = plain_scenes();
    let one = 1.0f64.to_bits();
    let obstacle = [OBSTACLE, one, one];
    let overhang = [OVERHANG, 1.5f64.to_bits(), one];
    let near = [OBSTACLE, one, one, 0.5f64.to_bits()];
    let reveal = [REVEAL, one, one, 0];
    let mut push = |azimuth: f64, sectors: &[Sector], window: &[WindowObject]| {
        let mut scene = scene.clone();
        scene.numbers[AZIMUTH] = azimuth;
        scene.sectors = sectors.to_vec();
        scene.window = window.to_vec();
        calls.push(scene.call());
    };
    let around = |objects: &[[u64; 3]]| [sector(0.0, 360.0, objects)];
    push(0.0, &around(&[]), &[]);
    push(0.0, &around(&[obstacle]), &[]);
    push(0.0, &around(&[]), &[near]);
    push(0.0, &around(&[obstacle]), &[near]);
    push(0.0, &around(&[overhang]), &[]);
    push(0.0, &around(&[overhang]), &[near]);
    push(0.0, &around(&[]), &[reveal]);
    push(170.0, &around(&[]), &[reveal]);
    let gap = [sector(0.0, 180.0, &[]), sector(190.0, 360.0, &[])];
    push(10.0, &gap, &[]);
    push(-20.0, &gap, &[]);
    push(
        0.0,
        &[sector(0.0, 180.0, &[]), sector(180.0, 360.0, &[])],
        &[],
    );
}

/// Differences at which something changes, and others: as they are, and not yet with their neighbours.
const DIFFERENCES: [f64; 25] = [
    0.0, 1e-300, 1e-9, 10.0, 30.0, 45.0, 60.0, 89.5, 90.0, 90.5, 120.0, 179.5, 180.0, 180.5, 200.0,
    269.5, 270.0, 270.5, 300.0, 315.0, 330.0, 345.0, 350.0, 359.5, 360.0,
];

/// Objects by which the editions part, or by which they must not, each alone and then together: fins
/// of both sides at the edge of the window and away from it, and an overhang.
fn fins_and_overhang() -> Vec<Vec<WindowObject>> {
    let object = |kind: u64, depth: f64, distance: f64| -> WindowObject {
        [kind, depth.to_bits(), distance.to_bits(), 0]
    };
    let alone = [
        object(RIGHT_FIN, 0.5, 0.0),
        object(LEFT_FIN, 0.5, 0.0),
        object(RIGHT_FIN, 0.25, 0.125),
        object(LEFT_FIN, 0.25, -0.0),
        object(OVERHANG, 0.5, 0.1),
    ];
    let mut lists: Vec<Vec<WindowObject>> = alone.iter().map(|&object| vec![object]).collect();
    lists.push(alone[..2].to_vec());
    lists.push(alone.to_vec());
    lists
}

/// The scene with that difference, or about, by that orientation, if the azimuth is in range; with
/// its neighbours.
fn about_difference(calls: &mut Vec<Call>, scene: &Scene, orientation: f64, difference: f64) {
    let mut scene = scene.clone();
    scene.numbers[ORIENTATION] = orientation;
    for steps in -2..=2 {
        let azimuth = ulps_from(180.0 - orientation + difference, steps);
        if (-360.0..=360.0).contains(&azimuth) {
            scene.numbers[AZIMUTH] = azimuth;
            calls.push(scene.call());
        }
    }
}

/// The sun at each such difference, on either side, low and overhead, with each of these lists; among
/// them a right fin 0.5 deep at difference −30. The azimuth −0.0 gives the difference −0.0.
fn every_difference(calls: &mut Vec<Call>) {
    let around = vec![sector(0.0, 360.0, &[])];
    for (window, altitude) in fins_and_overhang()
        .into_iter()
        .flat_map(|window| [0.0, 35.0, 90.0].map(|altitude| (window.clone(), altitude)))
    {
        let mut scene = Scene {
            edition: EDITION_1,
            numbers: [altitude, 0.0, 90.0, 180.0, 0.0, 1.0, 1.0],
            sectors: around.clone(),
            window,
        };
        for orientation in [0.0, 5.5, 60.0, 90.0, 180.0, 270.0, 300.0, 354.5, 360.0] {
            for difference in DIFFERENCES {
                about_difference(calls, &scene, orientation, difference);
                about_difference(calls, &scene, orientation, -difference);
            }
        }
        scene.numbers[AZIMUTH] = -0.0;
        calls.push(scene.call());
    }
}

/// The fault that leads to this number where there is no other.
pub fn fault(call: &mut Call, number: u64) {
    let sectors_of = |bounds: &[(f64, f64)]| {
        let sectors = bounds.iter().map(|&(start, end)| sector(start, end, &[]));
        let words = sectors.flatten().flat_map(u64::to_le_bytes);
        words.collect::<Vec<u8>>()
    };
    match number {
        3 => call.numbers[TILT] = f64::NAN,
        4 => call.window.push(0),
        8 => call.sectors = sectors_of(&[(0.0, 1e-9), (2.0, 360.0)]),
        9 => call.sectors = sectors_of(&[(360.0, 100.0)]),
        10 => call.sectors = sectors_of(&[]),
        _ => {
            let one = 1.0f64.to_bits();
            let reveal = [REVEAL, one, one, 0];
            call.window
                .extend(reveal.into_iter().flat_map(u64::to_le_bytes));
        }
    }
}

/// Every set of the faults that lead to 3, 4 and 8 to 11, and none of them, with every edition and
/// every word that names none.
pub fn sets_of_faults() -> Vec<Call> {
    const NUMBERS: [u64; 6] = [3, 4, 8, 9, 10, 11];
    let mut calls = vec![];
    for scene in plain_scenes() {
        for set in 0..1 << NUMBERS.len() {
            let mut call = scene.call();
            // from the last on, so that a part record stays one
            for place in (0..NUMBERS.len())
                .rev()
                .filter(|place| set >> place & 1 == 1)
            {
                fault(&mut call, NUMBERS[place]);
            }
            for edition in EDITIONS.into_iter().chain(WRONG_EDITIONS) {
                calls.push(Call {
                    edition,
                    ..call.clone()
                });
            }
        }
    }
    calls
}

/// Calls about the fins, in both editions.
pub fn fins() -> Vec<Call> {
    let mut calls = vec![];
    every_difference(&mut calls);
    in_both_editions(&calls)
}

fn in_both_editions(calls: &[Call]) -> Vec<Call> {
    let both = |call: &Call| {
        EDITIONS.map(|edition| Call {
            edition,
            ..call.clone()
        })
    };
    calls.iter().flat_map(both).collect()
}

/// All that are tried one by one, those of `edges` in both editions.
pub fn all() -> Vec<Call> {
    let mut calls = in_both_editions(&edges());
    calls.extend(fins());
    calls.extend(sets_of_faults());
    calls
}

/// Calls of edition 1, from which some of the answers that are kept are chosen.
pub fn edges() -> Vec<Call> {
    let mut calls = vec![];
    examples(&mut calls);
    single_fields(&mut calls);
    every_count(&mut calls);
    every_length(&mut calls);
    every_turn(&mut calls);
    every_bound(&mut calls);
    every_walk(&mut calls);
    every_place(&mut calls);
    calls.extend(every_last_place());
    every_order(&mut calls);
    calls
}
