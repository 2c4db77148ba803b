//! The shade of a fin by edition 2 of the fin rule: a plain form of its paragraph. Two calls of it
//! take the place of two expressions in a second copy of the published factor, which `slice` writes;
//! all else of that copy stands as published.

use crate::stand_ins::StandIns;

/// "The difference azimuth minus (180 less orientation) is first brought into −180..180 as in the
/// beam test": by one turn, strictly beyond.
fn brought_in(azimuth: f64, orientation180: f64) -> f64 {
    match azimuth - orientation180 {
        difference if difference > 180.0 => difference - 360.0,
        difference if difference < -180.0 => difference + 360.0,
        difference => difference,
    }
}

/// "A right fin shades where it is below 0, by depth times the tangent of its opposite, less
/// distance"; "elsewhere each gives 0".
pub fn right_fin(azimuth: f64, orientation180: f64, depth: f64, distance: f64) -> f64 {
    let difference = brought_in(azimuth, orientation180);
    if difference < 0.0 {
        depth * (-difference).stand_in_to_radians().stand_in_tan() - distance
    } else {
        0.0
    }
}

/// "A left fin above 0, by depth times the tangent, less distance."
pub fn left_fin(azimuth: f64, orientation180: f64, depth: f64, distance: f64) -> f64 {
    let difference = brought_in(azimuth, orientation180);
    if difference > 0.0 {
        depth * difference.stand_in_to_radians().stand_in_tan() - distance
    } else {
        0.0
    }
}
