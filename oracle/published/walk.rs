//! Where the published walk along the sectors ends. The published function hands out a copy of the
//! sector, which does not tell its place; so there is a plain walk beside it, by the specification's
//! words, held to the number that the published Rust gives.

use super::conditions::FIRST_STEP;
use super::*;

#[derive(Clone, Copy, PartialEq)]
pub enum End {
    /// A sector does not start where the one before it ends (number 8).
    Gap,
    /// A sector ends before it starts (9).
    Turned,
    /// The sun stands in it (0, or 11).
    Match,
    /// There is no such sector (10).
    NoSector,
}

/// How a walk ended, and at which sector, from 0 on.
#[derive(Clone, Copy)]
pub struct Walked {
    pub end: End,
    pub place: usize,
}

fn walk(azimuth: f64, sectors: &[ShadingSegment]) -> Walked {
    let mut last = None;
    for (place, sector) in sectors.iter().enumerate() {
        let (start, end) = (sector.start360.angle(), sector.end360.angle());
        let ended = match last {
            Some(last) if last != start => Some(End::Gap),
            _ if end < start => Some(End::Turned),
            _ if 180.0 - end < azimuth && azimuth < 180.0 - start => Some(End::Match),
            _ => None,
        };
        if let Some(end) = ended {
            return Walked { end, place };
        }
        last = Some(end);
    }
    Walked {
        end: End::NoSector,
        place: sectors.len(),
    }
}

/// The walk in the hour that the record holds, where the published Rust gave that number; none
/// outside the beam.
pub(super) fn walked(
    conditions: &ExternalConditions,
    tilt: f64,
    orientation: Orientation360,
    number: u64,
) -> Option<Walked> {
    if conditions.outside_solar_beam(tilt, orientation, FIRST_STEP) {
        return None;
    }
    let sectors = conditions.shading_segments.as_deref().unwrap_or(&[]);
    let walked = walk(conditions.solar_azimuth_angles[0], sectors);
    let numbers: &[u64] = match walked.end {
        End::Gap => &[8],
        End::Turned => &[9],
        End::Match => &[0, 11],
        End::NoSector => &[10],
    };
    let place = walked.place;
    assert!(
        numbers.contains(&number),
        "the plain walk ends at place {place}, and the published Rust gives {number}"
    );
    Some(walked)
}
