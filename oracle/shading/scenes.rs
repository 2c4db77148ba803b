//! Random calls of the factor, most of them accepted, inside the beam and partly in the shade.

use super::call::*;
use super::editions::any_edition;
use super::walks::{all_ends, sectors_ending};
use crate::pilgartze::EDITION_1;
use crate::published::shading::*;
use crate::published::walk::Walked;
use crate::random::{ulps_from, Random, NAN_PATTERNS};
use crate::stand_ins;

// --- Objects whose shade is comparable to the surface ---

/// The sun on a surface, as the extents need it, and how deep the shade is to be.
pub struct Aim {
    pub numbers: Numbers,
    pub tan_altitude: f64,
    pub cos_difference: f64,
    pub tan_difference: f64,
    depth: f64,
}

impl Aim {
    pub fn new(random: &mut Random, numbers: &Numbers) -> Aim {
        let depth = [0.1, 0.25, 0.5, 1.0][random.below(4)];
        Aim {
            depth,
            ..Aim::half_shaded(numbers)
        }
    }

    pub fn half_shaded(numbers: &Numbers) -> Aim {
        let difference = stand_ins::to_radians(difference(numbers));
        Aim {
            numbers: *numbers,
            tan_altitude: stand_ins::tan(stand_ins::to_radians(numbers[ALTITUDE])),
            cos_difference: stand_ins::cos(difference),
            tan_difference: stand_ins::tan(difference),
            depth: 0.5,
        }
    }

    /// How much of a whole is to be in the shade.
    fn extent(&self, random: &mut Random, whole: f64) -> f64 {
        match random.below(32) {
            0 | 1 => 0.0,
            2 => whole * (random.below(5) as f64 / 4.0),
            3 => whole * random.uniform(0.0, 2.0),
            _ => whole * self.depth * random.uniform(0.0, 1.0),
        }
    }

    /// What is aimed at, where it is in range.
    fn fitted(&self, random: &mut Random, aimed: f64, most: f64) -> u64 {
        match 0.0 < aimed && aimed <= most && random.below(64) != 0 {
            true => aimed.to_bits(),
            false => any_length(random, most).to_bits(),
        }
    }

    /// A distance at which the sun does not pass too high.
    fn away(&self, random: &mut Random, usual: f64) -> f64 {
        let away = random.uniform(0.0, usual);
        match away * self.tan_altitude < 500.0 {
            true => away,
            false => random.uniform(0.0, 500.0) / self.tan_altitude,
        }
    }

    /// The height of an obstacle at some distance.
    fn obstacle(&self, random: &mut Random, away: f64) -> u64 {
        let extent = self.extent(random, self.numbers[HEIGHT]);
        let height = self.numbers[BASE_HEIGHT] + extent + away * self.tan_altitude;
        self.fitted(random, height, 1000.0)
    }

    pub fn distant_object(&self, random: &mut Random) -> [u64; 3] {
        let away = match random.below(32) {
            0 => any_length(random, 10_000.0),
            _ => f64::max(self.away(random, 20.0), f64::MIN_POSITIVE),
        };
        if random.below(2) == 0 {
            return [OBSTACLE, self.obstacle(random, away), away.to_bits()];
        }
        let (base, height) = (self.numbers[BASE_HEIGHT], self.numbers[HEIGHT]);
        let extent = self.extent(random, height);
        let lowest = height + base + away * self.tan_altitude - extent;
        [
            OVERHANG,
            self.fitted(random, lowest, 1000.0),
            away.to_bits(),
        ]
    }

    pub fn window_object(&self, random: &mut Random, kind: u64) -> WindowObject {
        let away = match random.below(32) {
            0 => any_length(random, 10_000.0),
            1 => -0.0,
            2..=8 => 0.0,
            _ => self.away(random, 1.0),
        };
        let extent = match kind {
            RIGHT_FIN | LEFT_FIN => self.extent(random, self.numbers[WIDTH]),
            _ => self.extent(random, self.numbers[HEIGHT]),
        };
        let depth = match kind {
            OBSTACLE => self.obstacle(random, away),
            OVERHANG => {
                let depth = (extent + away) * self.cos_difference / self.tan_altitude;
                self.fitted(random, depth, 1000.0)
            }
            _ => {
                let depth = (extent + away) / self.tan_difference.abs();
                self.fitted(random, depth, 1000.0)
            }
        };
        let last = match kind {
            OBSTACLE => any_transparency(random).to_bits(),
            _ => 0,
        };
        [kind, depth, away.to_bits(), last]
    }
}

/// From the least double up to the most, every size as likely.
pub fn any_length(random: &mut Random, most: f64) -> f64 {
    match random.below(8) {
        0 => f64::from_bits(1),
        1 => most,
        2 => ulps_from(most, -1),
        3 => f64::from_bits(random.word() % most.to_bits() + 1),
        _ => most * stand_ins::cube(random.uniform(0.001, 1.0)),
    }
}

fn any_transparency(random: &mut Random) -> f64 {
    match random.below(8) {
        0 => 0.0,
        1 => -0.0,
        2 => 1.0,
        3 => f64::from_bits(random.word() % 1.0f64.to_bits()),
        _ => random.uniform(0.0, 1.0),
    }
}

// --- Random scenes ---

fn any_angle(random: &mut Random, low: f64, high: f64) -> f64 {
    match random.below(8) {
        0 => low + 45.0 * random.below(((high - low) / 45.0) as usize + 1) as f64,
        1 => stand_ins::floor(random.uniform(low, high)),
        _ => random.uniform(low, high),
    }
}

/// One turn brings it into −180..180, where sectors are.
pub fn turned_back(azimuth: f64) -> f64 {
    match azimuth {
        a if a > 180.0 => a - 360.0,
        a if a < -180.0 => a + 360.0,
        a => a,
    }
}

fn any_altitude(random: &mut Random) -> f64 {
    match random.below(16) {
        0 | 1 => 0.0,
        2 => 90.0,
        3 => f64::from_bits(random.word() % 90.0f64.to_bits()),
        4 => ulps_from(90.0, -(random.below(1000) as i64)),
        5 | 6 => any_angle(random, 0.0, 90.0),
        _ => random.uniform(0.0, 60.0),
    }
}

fn any_tilt(random: &mut Random, altitude: f64) -> f64 {
    match random.below(8) {
        0..=3 => 90.0,
        4 => any_angle(random, 0.0, 180.0),
        _ => random.uniform(20.0, 90.0) + altitude * random.uniform(0.0, 1.0),
    }
}

fn any_azimuth(random: &mut Random, orientation: f64) -> f64 {
    match random.below(32) {
        0 => any_angle(random, -360.0, 360.0),
        1 => 180.0 - orientation,
        _ => turned_back(180.0 - orientation + any_angle(random, -90.0, 90.0)),
    }
}

fn any_base_height(random: &mut Random) -> f64 {
    match random.below(8) {
        0..=2 => 0.0,
        3 => random.below(20) as f64,
        4 => any_length(random, 1000.0),
        _ => random.uniform(0.0, 10.0),
    }
}

/// The height or the width of a surface.
pub fn any_side(random: &mut Random) -> f64 {
    match random.below(16) {
        0 => any_length(random, 1000.0).max(0.001),
        1 => 0.001,
        2..=5 => (1 + random.below(16)) as f64 / 4.0,
        _ => random.uniform(0.3, 4.0),
    }
}

pub fn any_numbers(random: &mut Random) -> Numbers {
    let altitude = any_altitude(random);
    let tilt = any_tilt(random, altitude);
    let orientation = any_angle(random, 0.0, 360.0);
    let azimuth = any_azimuth(random, orientation);
    let base_height = any_base_height(random);
    let (height, width) = (any_side(random), any_side(random));
    [
        altitude,
        azimuth,
        tilt,
        orientation,
        base_height,
        height,
        width,
    ]
}

/// The bounds of sectors one after the other, for the most part all around.
fn any_bounds(random: &mut Random, count: usize) -> Vec<f64> {
    let whole = random.below(2) == 0;
    let mut bounds: Vec<f64> = (0..count + 1)
        .map(|_| match whole {
            true => random.below(361) as f64,
            false => random.uniform(0.0, 360.0),
        })
        .collect();
    bounds.sort_by(f64::total_cmp);
    if random.below(32) != 0 {
        bounds[0] = 0.0;
    }
    if random.below(32) != 0 {
        bounds[count] = 360.0;
    }
    bounds
}

pub fn any_sectors(random: &mut Random, aim: &Aim) -> Vec<Sector> {
    let count = match random.below(64) {
        0 => return vec![],
        1..=28 => 1,
        29..=55 => 2 + random.below(4),
        56..=61 => 6 + random.below(11),
        _ => 17 + random.below(20),
    };
    let bounds = any_bounds(random, count);
    let many = count > 6;
    let ends = bounds.windows(2);
    ends.map(|ends| {
        let objects = match random.below(8) {
            0 => 0,
            1..=4 => 1 + random.below(2),
            5 | 6 if !many => 3 + random.below(3),
            7 if !many => MOST_OBJECTS,
            _ => random.below(3),
        };
        let objects: Vec<[u64; 3]> = (0..objects).map(|_| aim.distant_object(random)).collect();
        sector(ends[0], ends[1], &objects)
    })
    .collect()
}

fn any_kind(random: &mut Random) -> u64 {
    [
        OBSTACLE, OBSTACLE, OBSTACLE, OVERHANG, OVERHANG, RIGHT_FIN, RIGHT_FIN, LEFT_FIN,
    ][random.below(8)]
}

pub fn any_window(random: &mut Random, aim: &Aim) -> Vec<WindowObject> {
    let count = match random.below(16) {
        0 | 1 => 0,
        2..=9 => 1 + random.below(3),
        10..=14 => 4 + random.below(4),
        _ => 8 + random.below(9),
    };
    (0..count)
        .map(|_| {
            let kind = any_kind(random);
            aim.window_object(random, kind)
        })
        .collect()
}

fn any_scene(random: &mut Random) -> Scene {
    let numbers = any_numbers(random);
    let aim = Aim::new(random, &numbers);
    Scene {
        edition: EDITION_1,
        numbers,
        sectors: any_sectors(random, &aim),
        window: any_window(random, &aim),
    }
}

/// A surface that faces north, about, and the sun on the other side of it, so that the difference is
/// beyond 180 before it is brought into −180..180.
pub fn numbers_across_the_north(random: &mut Random) -> Numbers {
    let mut numbers = any_numbers(random);
    let side = [1.0, -1.0][random.below(2)];
    // what a surface to the north lacks of it, and how far beyond the sun stands
    let lacks = match random.below(8) {
        0 => 0.0,
        1 => random.below(90) as f64,
        _ => random.uniform(0.0, 90.0),
    };
    let beyond = match random.below(8) {
        0 => 90.0,
        1 => ulps_from(lacks, 1 + random.below(3) as i64),
        _ => random.uniform(lacks, 90.0),
    };
    let from_south = side * (180.0 - lacks);
    numbers[ORIENTATION] = 180.0 - from_south;
    numbers[AZIMUTH] = match random.below(32) {
        0 => -side * ulps_from(180.0, -(random.below(3) as i64)),
        _ => turned_back(from_south + side * beyond),
    };
    numbers
}

/// Puts a fin of each side among the objects at the window.
pub fn fins_put_in(random: &mut Random, aim: &Aim, window: &mut Vec<WindowObject>) {
    window.truncate(MOST_WINDOW_OBJECTS - 2);
    for kind in [RIGHT_FIN, LEFT_FIN] {
        let fin = aim.window_object(random, kind);
        window.insert(random.below(window.len() + 1), fin);
    }
}

/// Such a sun, and fins on both sides.
fn across_the_north(random: &mut Random) -> Scene {
    let numbers = numbers_across_the_north(random);
    let aim = Aim::new(random, &numbers);
    let sectors = any_sectors(random, &aim);
    let mut window = any_window(random, &aim);
    fins_put_in(random, &aim, &mut window);
    Scene {
        edition: EDITION_1,
        numbers,
        sectors,
        window,
    }
}

// --- What is done to a scene ---

/// A sun or surface field at an edge of its range, in it or beyond it.
fn number_at_an_edge(random: &mut Random, scene: &mut Scene) {
    let place = random.below(7);
    let edges = edges_of_range(RANGES[place]);
    scene.numbers[place] = match random.below(8) {
        0 => random.any_double(),
        _ => edges[random.below(edges.len())],
    };
}

/// The beam's first test at one of its turns.
fn azimuth_at_a_turn(random: &mut Random, scene: &mut Scene) {
    let turns = [-90.0, 90.0, -180.0, 180.0, -270.0, 270.0, 0.0];
    let azimuth = 180.0 - scene.numbers[ORIENTATION] - turns[random.below(turns.len())];
    scene.numbers[AZIMUTH] = ulps_from(azimuth, random.below(5) as i64 - 2);
}

/// The second test at its ends.
fn altitude_at_a_right_angle(random: &mut Random, scene: &mut Scene) {
    let altitude = scene.numbers[ALTITUDE];
    let tilt = match random.below(2) {
        0 => altitude + 90.0,
        _ => altitude - 90.0,
    };
    scene.numbers[TILT] = ulps_from(tilt, random.below(5) as i64 - 2);
    if random.below(2) == 0 {
        scene.numbers[ALTITUDE] = 90.0;
        scene.numbers[TILT] = [0.0, -0.0, f64::from_bits(1), 180.0][random.below(4)];
    }
}

fn azimuth_at_a_bound(random: &mut Random, scene: &mut Scene) {
    if scene.sectors.is_empty() {
        return;
    }
    let sector = scene.sectors[random.below(scene.sectors.len())];
    let azimuth = 180.0 - f64::from_bits(sector[random.below(2)]);
    scene.numbers[AZIMUTH] = ulps_from(azimuth, random.below(5) as i64 - 2);
}

/// A gap, an overlap or a turned sector at some place, before or after the match.
pub fn bounds_moved(random: &mut Random, scene: &mut Scene) {
    if scene.sectors.is_empty() {
        return;
    }
    let count = scene.sectors.len();
    let place = random.below(count);
    match random.below(6) {
        0 => scene.sectors[place].swap(START, END),
        1 => {
            scene.sectors.remove(place);
        }
        2 => scene.sectors.swap(place, random.below(count)),
        3 => {
            let bound = random.below(2);
            let x = f64::from_bits(scene.sectors[place][bound]);
            let moved = ulps_from(x, 1 - 2 * random.below(2) as i64);
            if 0.0 <= moved && moved <= 360.0 {
                scene.sectors[place][bound] = moved.to_bits();
            }
        }
        4 => {
            // a turned sector that is also a gap
            scene.sectors[place].swap(START, END);
            scene.sectors[place][START] = any_angle(random, 0.0, 360.0).to_bits();
        }
        _ => scene.sectors[place][random.below(2)] = any_angle(random, 0.0, 360.0).to_bits(),
    }
}

/// Other sectors, by which the walk ends in some way at some place.
pub fn walk_ended(random: &mut Random, scene: &mut Scene) {
    let sun = 180.0 - scene.numbers[AZIMUTH];
    if 2.0 < sun && sun < 358.0 {
        let ends: Vec<Walked> = all_ends().collect();
        let walked = ends[random.below(ends.len())];
        let count = walked.place + 1 + random.below(MOST_SECTORS - walked.place);
        let aim = Aim::new(random, &scene.numbers);
        scene.sectors = sectors_ending(walked, count, sun, |_| aim.distant_object(random));
    }
}

pub fn reveal_put_in(random: &mut Random, scene: &mut Scene) {
    let aim = Aim::new(random, &scene.numbers);
    let reveal = aim.window_object(random, REVEAL);
    match scene.window.len() {
        MOST_WINDOW_OBJECTS => scene.window[random.below(MOST_WINDOW_OBJECTS)] = reveal,
        count => scene.window.insert(random.below(count + 1), reveal),
    }
}

/// Nothing but a near obstacle that one can see through: what it leaves may round above the whole.
fn clear_obstacle_alone(random: &mut Random, scene: &mut Scene) {
    let aim = Aim::new(random, &scene.numbers);
    let mut clear = aim.window_object(random, OBSTACLE);
    clear[3] = 1.0f64.to_bits();
    scene.window = vec![clear];
    for sector in &mut scene.sectors {
        sector[COUNT..].fill(0);
    }
}

/// −0.0 wherever 0 is in range.
pub fn minus_zeros(random: &mut Random, scene: &mut Scene) {
    for place in [ALTITUDE, AZIMUTH, TILT, ORIENTATION, BASE_HEIGHT] {
        if random.below(3) == 0 {
            scene.numbers[place] = -0.0;
        }
    }
    for sector in &mut scene.sectors {
        for bound in [START, END] {
            if f64::from_bits(sector[bound]) == 0.0 && random.below(2) == 0 {
                sector[bound] = (-0.0f64).to_bits();
            }
        }
    }
    for object in &mut scene.window {
        if random.below(2) == 0 {
            object[2] = (-0.0f64).to_bits();
        }
        if object[0] == OBSTACLE && random.below(2) == 0 {
            object[3] = (-0.0f64).to_bits();
        }
    }
}

/// Both lists as long as they may be, and sometimes one record longer.
pub fn filled(random: &mut Random, scene: &mut Scene) {
    let aim = Aim::new(random, &scene.numbers);
    let more = |random: &mut Random| (random.below(4) == 0) as usize;
    let count = MOST_SECTORS + more(random);
    scene.sectors = any_bounds(random, count)
        .windows(2)
        .map(|ends| {
            let objects: [[u64; 3]; MOST_OBJECTS] =
                std::array::from_fn(|_| aim.distant_object(random));
            sector(ends[0], ends[1], &objects)
        })
        .collect();
    let count = MOST_WINDOW_OBJECTS + more(random);
    let kind = any_kind(random);
    scene.window = (0..count)
        .map(|_| aim.window_object(random, kind))
        .collect();
}

/// A word of a list that is out of range, or as good as any other.
pub fn word_damaged(random: &mut Random, scene: &mut Scene) {
    let words = odd_words();
    let word = match random.below(8) {
        0 => random.word(),
        1 => 1 << random.below(64),
        _ => words[random.below(words.len())],
    };
    let (sectors, window) = (scene.sectors.len(), scene.window.len());
    if window > 0 && (sectors == 0 || random.below(2) == 0) {
        scene.window[random.below(window)][random.below(WINDOW_WORDS)] = word;
    } else if sectors > 0 {
        scene.sectors[random.below(sectors)][random.below(SECTOR_WORDS)] = word;
    }
}

/// A list that ends elsewhere.
pub fn length_damaged(random: &mut Random, call: &mut Call) {
    let list = match random.below(2) {
        0 => &mut call.sectors,
        _ => &mut call.window,
    };
    let by = 1 + random.below(216);
    match random.below(2) {
        0 => list.truncate(list.len().saturating_sub(by)),
        _ => {
            let byte = [0, random.word() as u8][random.below(2)];
            list.resize(list.len() + by, byte);
        }
    }
}

/// A call of edition 1.
pub fn any_call(random: &mut Random) -> Call {
    let scene = any_scene(random);
    damaged(random, scene)
}

/// A call of any edition, two in three of them with fins on both sides and the sun across the north:
/// half of all when some of these are damaged.
pub fn any_call_of_any_edition(random: &mut Random) -> Call {
    let scene = match random.below(3) {
        0 => any_scene(random),
        _ => across_the_north(random),
    };
    let mut call = damaged(random, scene);
    call.edition = any_edition(random);
    call
}

/// The scene as it is, or with something done to it.
pub fn damaged(random: &mut Random, mut scene: Scene) -> Call {
    match random.below(32) {
        0 | 1 => number_at_an_edge(random, &mut scene),
        2 => azimuth_at_a_turn(random, &mut scene),
        3 => altitude_at_a_right_angle(random, &mut scene),
        4 => azimuth_at_a_bound(random, &mut scene),
        5 | 6 => bounds_moved(random, &mut scene),
        7 => reveal_put_in(random, &mut scene),
        8 => minus_zeros(random, &mut scene),
        9 if random.below(8) == 0 => filled(random, &mut scene),
        10 | 11 => word_damaged(random, &mut scene),
        12 => clear_obstacle_alone(random, &mut scene),
        15 => walk_ended(random, &mut scene),
        13 => {
            let mut call = scene.call();
            length_damaged(random, &mut call);
            return call;
        }
        14 => {
            // two at once: which of them is told is told by the order of the refusals
            let all = [
                number_at_an_edge,
                bounds_moved,
                reveal_put_in,
                word_damaged,
                azimuth_at_a_turn,
            ];
            for _ in 0..2 {
                all[random.below(all.len())](random, &mut scene);
            }
        }
        _ => {}
    }
    scene.call()
}

// --- Odd values ---

/// A range's ends with their neighbours, both zeros, and what is in no range.
pub fn edges_of_range((low, high): (f64, f64)) -> Vec<f64> {
    let mut edges = vec![
        0.0,
        -0.0,
        f64::from_bits(1),
        -f64::from_bits(1),
        f64::MIN_POSITIVE,
        -f64::MIN_POSITIVE,
        1.0,
        -1.0,
        90.0,
        -90.0,
        180.0,
        -180.0,
        -low,
        -high,
        1e300,
        f64::INFINITY,
        f64::NEG_INFINITY,
    ];
    for end in [low, high] {
        edges.extend((-2..=2).map(|steps| ulps_from(end, steps)));
    }
    edges.extend(NAN_PATTERNS.map(f64::from_bits));
    edges
}

/// Words for a field of a list: numbers about the bounds of counts and kinds, and doubles about the
/// ends of all ranges.
pub fn odd_words() -> Vec<u64> {
    let mut words: Vec<u64> = (0..=10).collect();
    words.extend([16, 17, 27, 255, 256, 257, 65_536, 1 << 31]);
    words.extend([
        1 << 32,
        (1 << 32) + 1,
        (1 << 32) + 4,
        1 << 63,
        (1 << 63) + 1,
    ]);
    words.extend([u64::MAX, u64::MAX - 1]);
    for range in [(0.0, 1.0), (0.0, 360.0), (0.001, 1000.0), (0.0, 10_000.0)] {
        words.extend(edges_of_range(range).iter().map(|x| x.to_bits()));
    }
    words.extend([0.5f64, 2.0, 3.0, 4.0].map(f64::to_bits));
    words.sort();
    words.dedup();
    words
}
