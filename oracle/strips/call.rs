//! What a call of the strips is given, and a strip of it as a call of the factor.

use crate::pilgartze::doubles_of;
use crate::published::shading::*;
use crate::published::strips::*;
use crate::shading::call::{lists_shown, Call as SurfaceCall};

#[derive(Clone, PartialEq)]
pub struct Call {
    pub edition: u64,
    pub numbers: GlazingNumbers,
    pub heights: Vec<u8>,
    pub sectors: Vec<u8>,
    pub window: Vec<u8>,
}

/// No more heights of a long list are shown.
const SHOWN: usize = 16;

impl Call {
    /// Strips in the place of a surface, whose own height is no part of the call.
    pub fn of(surface: &SurfaceCall, heights: Vec<u8>) -> Call {
        let numbers = surface.numbers;
        Call {
            edition: surface.edition,
            numbers: [
                numbers[ALTITUDE],
                numbers[AZIMUTH],
                numbers[TILT],
                numbers[ORIENTATION],
                numbers[BASE_HEIGHT],
                numbers[WIDTH],
            ],
            heights,
            sectors: surface.sectors.clone(),
            window: surface.window.clone(),
        }
    }

    /// The same glazing with the edition and the objects of another call.
    pub fn with(&self, other: &SurfaceCall) -> Call {
        Call {
            edition: other.edition,
            sectors: other.sectors.clone(),
            window: other.window.clone(),
            numbers: self.numbers,
            heights: self.heights.clone(),
        }
    }

    /// A strip of it as a surface of its own.
    pub fn strip(&self, [base, height]: Strip) -> SurfaceCall {
        let [altitude, azimuth, tilt, orientation, _, width] = self.numbers;
        SurfaceCall {
            edition: self.edition,
            numbers: [altitude, azimuth, tilt, orientation, base, height, width],
            sectors: self.sectors.clone(),
            window: self.window.clone(),
        }
    }

    /// Its strips, where these are as they should be.
    pub fn strips(&self) -> Option<Vec<Strip>> {
        strips_of(self.numbers[GLAZING_BASE], &self.heights)
    }

    pub fn shown(&self) -> String {
        const NAMES: [&str; 6] = [
            "altitude",
            "azimuth",
            "tilt",
            "orientation",
            "base height",
            "width",
        ];
        let mut lines = vec![format!("  edition     {}", self.edition)];
        for (name, x) in NAMES.iter().zip(self.numbers) {
            lines.push(format!("  {name:<11} {}", crate::comparison::shown(x)));
        }
        lines.push(format!("  heights     {} bytes", self.heights.len()));
        for height in doubles_of(&self.heights).into_iter().take(SHOWN) {
            lines.push(format!(
                "  height      {}",
                crate::comparison::shown(height)
            ));
        }
        lines.extend(lists_shown(&self.sectors, &self.window));
        lines.join("\n")
    }
}
