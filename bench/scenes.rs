//! Calls of the factor that are measured: scenes of so many sectors and objects, as the library takes
//! them.

use std::hint::black_box;

use crate::call::{sector, Call, Scene, WindowObject, LEFT_FIN, OBSTACLE, OVERHANG, RIGHT_FIN};
use crate::measure;
use crate::pilgartze::{factor_by, FactorAnswer, Surface, EDITION_1, FACTOR};
use crate::published::shading::Numbers;

const CALLS: usize = 1000;

/// Sectors of equal width all round, the sun in the last of them, with so many objects in each and
/// at the window, by turns of every kind.
fn scene(sectors: usize, objects: usize, near: usize, altitude: f64) -> Call {
    let width = 360.0 / sectors as f64;
    let triples: Vec<[u64; 3]> = (0..objects)
        .map(|k| {
            let height = 3.0 + k as f64 / 4.0;
            [k as u64 % 2, height.to_bits(), (4.0 + k as f64).to_bits()]
        })
        .collect();
    let window = |k: usize| -> WindowObject {
        let kind = [OVERHANG, OBSTACLE, RIGHT_FIN, LEFT_FIN][k % 4];
        let spare = if kind == OBSTACLE {
            0.5f64.to_bits()
        } else {
            0
        };
        let size = 0.5 + k as f64 / 16.0;
        [
            kind,
            size.to_bits(),
            (0.25 + k as f64 / 32.0).to_bits(),
            spare,
        ]
    };
    let azimuth = -180.0 + width / 2.0;
    let orientation = 180.0 - azimuth; // the surface faces the sun
    Scene {
        edition: EDITION_1,
        numbers: [altitude, azimuth, 90.0, orientation, 1.0, 1.5, 1.2],
        sectors: (0..sectors)
            .map(|k| sector(k as f64 * width, (k + 1) as f64 * width, &triples))
            .collect(),
        window: (0..near).map(window).collect(),
    }
    .call()
}

pub fn rattle(call: &Call) -> FactorAnswer {
    rattle_of(call, &call.numbers)
}

/// With other numbers than the call's, and its lists.
pub fn rattle_of(call: &Call, numbers: &Numbers) -> FactorAnswer {
    let &[altitude, azimuth, tilt, orientation, base_height, height, width] = numbers;
    let surface = Surface {
        tilt,
        orientation,
        base_height,
        height,
        width,
    };
    let sun = [altitude, azimuth];
    unsafe {
        factor_by(
            black_box(FACTOR),
            call.edition,
            sun,
            &surface,
            &call.sectors,
            &call.window,
        )
    }
}

/// The calls of one line, with its name.
pub fn calls_of(sectors: usize, objects: usize, near: usize) -> (String, Vec<Call>) {
    let name = format!("{sectors} × {objects} in sectors, {near} at the window");
    let altitude = |k: usize| 5.0 + 60.0 * k as f64 / CALLS as f64;
    let calls = (0..CALLS).map(|k| scene(sectors, objects, near, altitude(k)));
    (name, calls.collect())
}

/// Nanoseconds of one call, by the library or by another.
pub fn nanoseconds<T>(calls: &[T], mut one: impl FnMut(&T) -> FactorAnswer) -> f64 {
    let all = measure::nanoseconds(|| {
        calls.iter().for_each(|call| {
            black_box(one(call));
        })
    });
    all / calls.len() as f64
}
