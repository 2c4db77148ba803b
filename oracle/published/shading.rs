//! The direct shading factor of one step: the specification's checks of what goes in, read off its
//! text, and then the published Rust; in edition 2 its second copy, with the fins of `fins.rs`.

use super::conditions::{angle, sun_at, FIRST_STEP};
use super::walk::{walked, Walked};
use super::*;
use crate::pilgartze::{FactorAnswer, EDITION_1, EDITION_2};
use crate::support::refusal_number;

/// "Refused: 14 edition, a name other than 1 or 2, before 1."
pub const WRONG_EDITION: u64 = 14;

pub fn edition_fine(edition: u64) -> bool {
    edition == EDITION_1 || edition == EDITION_2
}

/// Sun and surface: altitude, azimuth, tilt, orientation, base height, height, width.
pub type Numbers = [f64; 7];
pub const ALTITUDE: usize = 0;
pub const AZIMUTH: usize = 1;
pub const TILT: usize = 2;
pub const ORIENTATION: usize = 3;
pub const BASE_HEIGHT: usize = 4;
pub const HEIGHT: usize = 5;
pub const WIDTH: usize = 6;

/// "Altitude 0..90, azimuth −360..360"; "tilt 0..180, orientation 0..360 (degrees), base height
/// 0..1000, height and width 0.001..1000 (metres)".
pub const RANGES: [(f64, f64); 7] = [
    (0.0, 90.0),
    (-360.0, 360.0),
    (0.0, 180.0),
    (0.0, 360.0),
    (0.0, 1000.0),
    (0.001, 1000.0),
    (0.001, 1000.0),
];

/// The words of a sector: start, end, count, and eight triples of kind, height, distance.
pub const SECTOR_WORDS: usize = 27;
pub const MOST_SECTORS: usize = 36;
pub const MOST_OBJECTS: usize = 8;
/// The words of a window object: kind, two or three doubles, a spare word.
pub const WINDOW_WORDS: usize = 4;
pub const MOST_WINDOW_OBJECTS: usize = 16;

pub(super) fn within(x: f64, (low, high): (f64, f64)) -> Option<f64> {
    (low <= x && x <= high).then_some(x)
}

/// "Heights and depths are above 0 and up to 1000."
fn size(word: u64) -> Option<f64> {
    within(f64::from_bits(word), (0.0, 1000.0)).filter(|&x| x > 0.0)
}

/// "Distances 0..10,000, in sectors above 0."
fn distance(word: u64) -> Option<f64> {
    within(f64::from_bits(word), (0.0, 10_000.0))
}

/// "Kind (0 obstacle, 1 overhang), height, distance."
fn distant_object(triple: &[u64]) -> Option<ShadingObject> {
    let object_type = match triple[0] {
        0 => ShadingObjectType::Obstacle,
        1 => ShadingObjectType::Overhang,
        _ => return None,
    };
    Some(ShadingObject {
        object_type,
        height: size(triple[1])?,
        distance: distance(triple[2]).filter(|&x| x > 0.0)?,
    })
}

/// "Start, end (0..360), count, then eight triples"; "unused triples zero (all bits 0)".
fn sector(words: &[u64]) -> Option<ShadingSegment> {
    let bound = |word: u64| within(f64::from_bits(word), (0.0, 360.0));
    let (start, end) = (bound(words[0])?, bound(words[1])?);
    if words[2] > MOST_OBJECTS as u64 {
        return None;
    }
    let (counted, unused) = words[3..].split_at(3 * words[2] as usize);
    if unused.iter().any(|&word| word != 0) {
        return None;
    }
    Some(ShadingSegment {
        start360: angle(start),
        end360: angle(end),
        shading_objects: counted
            .chunks(3)
            .map(distant_object)
            .collect::<Option<_>>()?,
    })
}

/// "Kinds: 0 obstacle (height, distance, transparency 0..1), 1 overhang, 2 right fin, 3 left fin,
/// 4 reveal (each depth, distance)"; "spare word zero".
fn window_object(words: &[u64]) -> Option<WindowShadingObject> {
    let (depth, distance) = (size(words[1])?, distance(words[2])?);
    if words[0] == 0 {
        return Some(WindowShadingObject::Obstacle {
            height: depth,
            distance,
            transparency: within(f64::from_bits(words[3]), (0.0, 1.0))?,
        });
    }
    let object = match words[0] {
        1 => WindowShadingObject::Overhang { depth, distance },
        2 => WindowShadingObject::SideFinRight { depth, distance },
        3 => WindowShadingObject::SideFinLeft { depth, distance },
        4 => WindowShadingObject::Reveal { depth, distance },
        _ => return None,
    };
    (words[3] == 0).then_some(object)
}

/// The records of a list; none where the list "is too long or not whole records", or where one of
/// them is not as described.
fn records<T, const WORDS: usize>(
    bytes: &[u8],
    most: usize,
    record: fn(&[u64]) -> Option<T>,
) -> Option<Vec<T>> {
    let whole = bytes.chunks_exact(8 * WORDS);
    if !whole.remainder().is_empty() || whole.len() > most {
        return None;
    }
    let words = |bytes: &[u8]| -> [u64; WORDS] {
        std::array::from_fn(|k| u64::from_le_bytes(bytes[8 * k..8 * k + 8].try_into().unwrap()))
    };
    whole.map(|bytes| record(&words(bytes))).collect()
}

pub(super) fn sectors_of(bytes: &[u8]) -> Option<Vec<ShadingSegment>> {
    records::<_, SECTOR_WORDS>(bytes, MOST_SECTORS, sector)
}

pub(super) fn window_of(bytes: &[u8]) -> Option<Vec<WindowShadingObject>> {
    records::<_, WINDOW_WORDS>(bytes, MOST_WINDOW_OBJECTS, window_object)
}

/// What the judge says of a call.
#[derive(Clone, Copy)]
pub struct Judged {
    pub answer: FactorAnswer,
    /// How the walk ended, where the checks are passed and the surface is inside the solar beam.
    pub walked: Option<Walked>,
}

/// Whether the published Rust has that surface outside that sun's beam.
pub fn outside_beam(&[altitude, azimuth, tilt, orientation, ..]: &Numbers) -> bool {
    sun_at(altitude, azimuth, vec![]).outside_solar_beam(tilt, angle(orientation), FIRST_STEP)
}

fn refused(number: u64) -> FactorAnswer {
    FactorAnswer {
        number,
        factor: 0.0,
    }
}

/// The published factor in that edition, or the number. The surface is tilt, orientation, base height,
/// height, width.
pub(super) fn factor_by(
    conditions: &ExternalConditions,
    edition: u64,
    &[tilt, orientation, base_height, height, width]: &[f64; 5],
    window: &[WindowShadingObject],
    step: Timestep,
) -> Result<f64, u64> {
    let factor = match edition {
        EDITION_1 => ExternalConditions::direct_shading_reduction_factor,
        EDITION_2 => ExternalConditions::direct_shading_reduction_factor_edition_2,
        _ => return Err(WRONG_EDITION),
    };
    factor(
        conditions,
        base_height,
        height,
        width,
        tilt,
        Orientation360(orientation),
        Some(window),
        step,
    )
    .map_err(|error| refusal_number(&error))
}

/// The published record, kept from call to call.
pub struct Judge {
    conditions: ExternalConditions,
    surface: [f64; 5],
    window: Vec<WindowShadingObject>,
}

impl Judge {
    pub fn new() -> Self {
        let conditions = sun_at(0.0, 0.0, vec![]);
        Judge {
            conditions,
            surface: [0.0; 5],
            window: vec![],
        }
    }

    /// What the published function gives in that edition for the last call that passed the checks.
    pub fn factor_in(&self, edition: u64) -> Result<f64, u64> {
        let (conditions, window) = (&self.conditions, &self.window);
        factor_by(conditions, edition, &self.surface, window, FIRST_STEP)
    }

    /// 14, then 3, then 4, then what the published function gives.
    pub fn answer(
        &mut self,
        edition: u64,
        numbers: &Numbers,
        sectors: &[u8],
        window: &[u8],
    ) -> Judged {
        let unseen = |number: u64| Judged {
            answer: refused(number),
            walked: None,
        };
        if !edition_fine(edition) {
            return unseen(WRONG_EDITION);
        }
        let in_range = |(&x, &range): (&f64, &(f64, f64))| within(x, range).is_some();
        if !numbers.iter().zip(&RANGES).all(in_range) {
            return unseen(3);
        }
        let judged = self.of_any_sun(edition, numbers, sectors, window);
        judged.unwrap_or(unseen(4))
    }

    /// What the published function gives, whether or not sun and surface are in range; nothing where
    /// the lists are not as described.
    pub fn of_any_sun(
        &mut self,
        edition: u64,
        numbers: &Numbers,
        sectors: &[u8],
        window: &[u8],
    ) -> Option<Judged> {
        let (sectors, window) = (sectors_of(sectors)?, window_of(window)?);
        Some(self.published(edition, numbers, sectors, window))
    }

    fn published(
        &mut self,
        edition: u64,
        &[altitude, azimuth, ref surface @ ..]: &Numbers,
        sectors: Vec<ShadingSegment>,
        window: Vec<WindowShadingObject>,
    ) -> Judged {
        self.conditions.solar_altitudes[0] = altitude;
        self.conditions.solar_azimuth_angles[0] = azimuth;
        self.conditions.shading_segments = Some(sectors);
        self.surface = *surface;
        self.window = window;
        let answer = match self.factor_in(edition) {
            Ok(factor) => FactorAnswer { number: 0, factor },
            Err(number) => refused(number),
        };
        let [tilt, orientation, ..] = *surface;
        Judged {
            answer,
            walked: walked(&self.conditions, tilt, angle(orientation), answer.number),
        }
    }
}
