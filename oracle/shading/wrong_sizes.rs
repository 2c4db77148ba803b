//! What the factors that break a law about sizes, in one small way each, make of an object: of its
//! fields, of its shade, and of a refusal.

use super::call::*;
use super::sizes::{Handle, SizeLaw, SizeLaw::*};
use super::wrong::{double, Flaw, Flaw::*, Plain};
use crate::published::shading::*;

/// Flaws by which a field is taken with its last bit turned, so that of two neighbours the larger may
/// be taken for the smaller: those of the objects and the field that a law is about.
const TURNED: [(Flaw, SizeLaw); 11] = [
    (DistantObstacleHeightTurned, TallerDistantObstacle),
    (DistantObstacleDistanceTurned, NearerDistantObstacle),
    (WindowOverhangDepthTurned, DeeperWindowOverhang),
    (NearObstacleHeightTurned, TallerNearObstacle),
    (NearObstacleDistanceTurned, NearerNearObstacle),
    (TransparencyTurned, ClearerNearObstacle),
    (DistantOverhangHeightTurned, LowerDistantOverhang),
    (DistantOverhangDistanceTurned, FartherDistantOverhang),
    (WindowOverhangDistanceTurned, NearerWindowOverhang),
    (FinDistanceTurned, NearerFin),
    (FinDepthTurned, DeeperFin),
];

/// A size above which an object is tall, in metres.
const TALL: f64 = 5.0;

/// The heights and depths of all objects.
fn sizes(scene: &Scene) -> impl Iterator<Item = f64> + '_ {
    let distant = scene.sectors.iter().flat_map(|sector| {
        let counted = sector[COUNT] as usize;
        sector[TRIPLES..].chunks(3).take(counted)
    });
    let near = scene.window.iter().map(|object| &object[..]);
    distant.chain(near).map(|object| double(object[1]))
}

pub(super) fn least_size(scene: &Scene) -> f64 {
    sizes(scene).fold(f64::INFINITY, f64::min)
}

impl Plain {
    /// Size, distance and transparency of an object as they are taken.
    pub(super) fn fields(&self, distant: bool, object: &[u64]) -> [f64; 3] {
        let mut words = [object[1], object[2], object.get(3).copied().unwrap_or(0)];
        for (_, law) in TURNED.iter().filter(|(flaw, _)| self.is(*flaw)) {
            let handle = law.handle();
            let about =
                |handle: &Handle| handle.distant == distant && handle.kinds.contains(&object[0]);
            if let Some(handle) = handle.filter(about) {
                let word = &mut words[handle.place - 1];
                *word ^= (double(*word) != 1.0) as u64; // nothing becomes more than clear
            }
        }
        let [size, distance, transparency] = words.map(double);
        match transparency == 1.0 && self.is(ClearTakenAsOpaque) {
            true => [size, distance, 0.0],
            false => [size, distance, transparency],
        }
    }

    /// What counts of an object's shade: nothing where it is dropped.
    pub(super) fn counted(
        &self,
        numbers: &Numbers,
        distant: bool,
        object: &[u64],
        extent: f64,
    ) -> f64 {
        let (size, distance) = (double(object[1]), double(object[2]));
        let over_all = extent > numbers[HEIGHT];
        let dropped = match (self.flaw, distant, object[0]) {
            (TallDistantObstacleDropped, true, OBSTACLE) => over_all,
            (CloseDistantObstacleDropped, true, OBSTACLE) => distance < 1.0,
            (DeepWindowOverhangDropped, false, OVERHANG) => over_all,
            (TallNearObstacleDropped, false, OBSTACLE) => over_all,
            (CloseNearObstacleDropped, false, OBSTACLE) => distance < 1.0,
            (LowDistantOverhangDropped, true, OVERHANG) => size <= numbers[BASE_HEIGHT],
            (FarDistantOverhangDropped, true, OVERHANG) => distance > 1000.0,
            (WindowOverhangAtTheEdgeDropped, false, OVERHANG) => distance == 0.0,
            (FinAtTheEdgeDropped, false, RIGHT_FIN | LEFT_FIN) => distance == 0.0,
            (DeepFinDropped, false, RIGHT_FIN | LEFT_FIN) => extent > numbers[WIDTH],
            _ => false,
        };
        match dropped {
            true => 0.0,
            false => extent,
        }
    }

    /// The number by which a refusal is told: another one, if an object is tall.
    pub(super) fn told(&self, call: &Call, number: u64) -> u64 {
        let told = match (self.flaw, number) {
            (GapOfTallObjectsTurned, 8) => 9,
            (TurnOfTallObjectsNoSector, 9) => 10,
            (NoSectorOfTallObjectsGap, 10) => 8,
            (RevealBesideTallObjectsNoSector, 11) => 10,
            _ => return number,
        };
        match sizes(&Scene::of(call)).any(|size| size > TALL) {
            true => told,
            false => number,
        }
    }
}
