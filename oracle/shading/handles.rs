//! Objects in the bytes of a call, and other values for their sizes: neighbours, ends of the ranges, and
//! such that the shade just reaches something.

use super::call::*;
use super::scenes::Aim;
use crate::published::shading::*;
use crate::random::{ulps_from, Random};

/// The places of an object's words behind its kind; the last is a near obstacle's alone.
pub const SIZE: usize = 1;
pub const DISTANCE: usize = 2;
pub const TRANSPARENCY: usize = 3;

/// An object of a call: its list, and the word of it at which the object begins.
#[derive(Clone, Copy)]
pub struct Object {
    pub distant: bool,
    at: usize,
}

fn word_at(list: &[u8], place: usize) -> u64 {
    u64::from_le_bytes(list[8 * place..8 * place + 8].try_into().unwrap())
}

fn set_word(list: &mut [u8], place: usize, word: u64) {
    list[8 * place..8 * place + 8].copy_from_slice(&word.to_le_bytes());
}

impl Object {
    fn word(self, call: &Call, place: usize) -> u64 {
        let list = match self.distant {
            true => &call.sectors,
            false => &call.window,
        };
        word_at(list, self.at + place)
    }

    pub fn kind(self, call: &Call) -> u64 {
        self.word(call, 0)
    }

    pub fn double(self, call: &Call, place: usize) -> f64 {
        f64::from_bits(self.word(call, place))
    }

    pub fn set(self, call: &mut Call, place: usize, value: f64) {
        let list = match self.distant {
            true => &mut call.sectors,
            false => &mut call.window,
        };
        set_word(list, self.at + place, value.to_bits());
    }

    /// Puts it in once more, behind all others, where there is room.
    pub fn repeat(self, call: &mut Call) {
        if !self.distant {
            let record = 8 * self.at..8 * (self.at + WINDOW_WORDS);
            if call.window.len() < 8 * WINDOW_WORDS * MOST_WINDOW_OBJECTS {
                call.window.extend_from_within(record);
            }
            return;
        }
        let first = self.at / SECTOR_WORDS * SECTOR_WORDS;
        let count = word_at(&call.sectors, first + COUNT);
        if count < MOST_OBJECTS as u64 {
            let place = first + TRIPLES + 3 * count as usize;
            let triple = 8 * self.at..8 * (self.at + 3);
            call.sectors.copy_within(triple, 8 * place);
            set_word(&mut call.sectors, first + COUNT, count + 1);
        }
    }

    /// From the least to the greatest value of a field that is accepted.
    fn range(self, place: usize) -> (f64, f64) {
        let least = f64::from_bits(1);
        match place {
            SIZE => (least, 1000.0),
            DISTANCE if self.distant => (least, 10_000.0),
            DISTANCE => (0.0, 10_000.0),
            _ => (0.0, 1.0),
        }
    }
}

/// The sector in which the sun is, by its bounds alone.
fn sector_of_the_sun(call: &Call) -> Option<usize> {
    let azimuth = call.numbers[AZIMUTH];
    let bound = |sector: usize, place: usize| {
        180.0 - f64::from_bits(word_at(&call.sectors, SECTOR_WORDS * sector + place))
    };
    let sectors = call.sectors.len() / (8 * SECTOR_WORDS);
    (0..sectors).find(|&sector| bound(sector, END) < azimuth && azimuth < bound(sector, START))
}

/// The objects at the window, and those of the sector with the sun; now and then those of all sectors.
/// The lists are as the checks want them.
pub fn objects(random: &mut Random, call: &Call) -> Vec<Object> {
    let sectors = match sector_of_the_sun(call) {
        Some(place) if random.below(8) != 0 => place..place + 1,
        _ => 0..call.sectors.len() / (8 * SECTOR_WORDS),
    };
    let mut all = vec![];
    for first in sectors.map(|sector| SECTOR_WORDS * sector) {
        let counted = 0..word_at(&call.sectors, first + COUNT) as usize;
        all.extend(counted.map(|k| Object {
            distant: true,
            at: first + TRIPLES + 3 * k,
        }));
    }
    let records = 0..call.window.len() / (8 * WINDOW_WORDS);
    all.extend(records.map(|k| Object {
        distant: false,
        at: WINDOW_WORDS * k,
    }));
    all
}

// --- The shade of an object ---

/// The extent of the shade of an object of such a size and distance, and by how much it grows with
/// either.
fn extent_of(aim: &Aim, distant: bool, kind: u64, [size, distance]: [f64; 2]) -> (f64, [f64; 2]) {
    let (base, height) = (aim.numbers[BASE_HEIGHT], aim.numbers[HEIGHT]);
    let rise = aim.tan_altitude;
    let slope = match kind {
        OVERHANG => rise / aim.cos_difference,
        _ => aim.tan_difference.abs(),
    };
    match (kind, distant) {
        (OBSTACLE, _) => (size - base - distance * rise, [1.0, -rise]),
        (OVERHANG, true) => (height + base - size + distance * rise, [-1.0, rise]),
        _ => (size * slope - distance, [slope, -1.0]),
    }
}

fn size_and_distance(call: &Call, object: Object) -> [f64; 2] {
    [object.double(call, SIZE), object.double(call, DISTANCE)]
}

/// How far the shade is to reach: to the edge, over all, as far as another object's or up to it.
fn aimed_extent(random: &mut Random, aim: &Aim, call: &Call, rival: Object, whole: f64) -> f64 {
    let of_the_rival = || {
        let kind = rival.kind(call);
        extent_of(aim, rival.distant, kind, size_and_distance(call, rival)).0
    };
    match random.below(8) {
        0 => 0.0,
        1 => whole,
        2 => of_the_rival(),
        3 => whole - of_the_rival(),
        4 => whole * (random.below(5) as f64 / 4.0),
        _ => random.uniform(0.0, whole),
    }
}

/// A value of the size or the distance by which the shade reaches so far, or one nearby.
fn aimed(
    random: &mut Random,
    aim: &Aim,
    call: &Call,
    [object, rival]: [Object; 2],
    place: usize,
) -> f64 {
    let kind = object.kind(call);
    let whole = match (kind, object.distant) {
        (RIGHT_FIN | LEFT_FIN, false) => aim.numbers[WIDTH],
        _ => aim.numbers[HEIGHT],
    };
    let wanted = aimed_extent(random, aim, call, rival, whole);
    let mut fields = size_and_distance(call, object);
    // the first step can be off by what the old value rounds away
    for _ in 0..3 {
        let (extent, growth) = extent_of(aim, object.distant, kind, fields);
        fields[place - 1] += (wanted - extent) / growth[place - 1];
    }
    ulps_from(fields[place - 1], random.below(7) as i64 - 3)
}

// --- Another value ---

/// How objects are changed.
#[derive(Clone, Copy)]
pub struct Drag<'a> {
    pub aim: &'a Aim,
    /// To the side on which they shade more.
    pub darker: bool,
    /// By a few ulps.
    pub nearby: bool,
}

impl Drag<'_> {
    /// Another value for a field, above the old one or below; the old one, or the other zero, where
    /// there is none. The rival is an object that the shade may be made to reach.
    pub fn value(
        &self,
        random: &mut Random,
        call: &Call,
        [object, rival]: [Object; 2],
        place: usize,
        up: bool,
    ) -> f64 {
        let old = object.double(call, place) + 0.0; // 0.0 for −0.0
        let (least, most) = object.range(place);
        let end = if up { most } else { least };
        let ulps = 1 + random.below(3) as i64;
        let neighbour = ulps_from(old, if up { ulps } else { -ulps });
        let value = match random.below(16) {
            _ if self.nearby => neighbour,
            0 => neighbour,
            1 => end,
            2 => ulps_from(end, if up { -ulps } else { ulps }),
            3 => f64::from_bits(random.word() >> 12),
            4 => random.uniform(old, end),
            _ if place == TRANSPARENCY => random.uniform(0.0, 1.0),
            _ => aimed(random, self.aim, call, [object, rival], place),
        };
        let on_that_side = |x: f64| if up { old <= x } else { x <= old };
        let fits = |x: &f64| least <= *x && *x <= most && on_that_side(*x);
        let value = [value, neighbour].into_iter().find(fits).unwrap_or(old);
        match value == 0.0 && random.below(2) == 0 {
            true => -0.0,
            false => value,
        }
    }
}
