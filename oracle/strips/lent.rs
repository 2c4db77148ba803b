//! Calls of the strips with every list between guard pages.

use super::call::Call;
use crate::jobs::lent::Pages;
use crate::pilgartze::*;
use crate::published::shading::{MOST_SECTORS, SECTOR_WORDS};
use crate::shading::call::Call as SurfaceCall;
use crate::shading::call_with;

/// The longest list of heights that is tried, in words.
pub const LONGEST: usize = 5_000;

/// One side of the comparison.
#[derive(Clone, Copy)]
pub struct Library {
    pub strips: StripsCall,
    /// What a strip by itself is held to.
    pub factor: FactorCall,
}

/// The library that this program is linked with.
pub const LIBRARY: Library = Library {
    strips: STRIPS,
    factor: FACTOR,
};

/// A side of the comparison, with pages for the lists.
pub struct Lent {
    library: Library,
    /// Heights, sectors, window.
    pages: [Pages; 3],
    turn: usize,
}

impl Lent {
    pub fn new(library: Library) -> Self {
        let most = 8 * usize::max(LONGEST + 1, SECTOR_WORDS * (MOST_SECTORS + 4));
        Lent {
            library,
            pages: std::array::from_fn(|_| Pages::holding(most)),
            turn: 0,
        }
    }

    /// Each list against the front or the back of its pages, by turns; they and the bytes beside them
    /// are looked at afterwards.
    pub fn call(&mut self, call: &Call) -> Result<FactorAnswer, String> {
        self.turn += 1;
        let lists: [&[u8]; 3] = [&call.heights, &call.sectors, &call.window];
        let starts: [*mut u8; 3] = std::array::from_fn(|k| {
            let back = self.turn >> k & 1 == 1;
            self.pages[k].put("strips", back, lists[k], lists[(k + 1) % 3].len())
        });
        let lent = |k: usize| unsafe { std::slice::from_raw_parts(starts[k], lists[k].len()) };
        let [altitude, azimuth, tilt, orientation, base_height, width] = call.numbers;
        let glazing = TallGlazing {
            tilt,
            orientation,
            base_height,
            width,
            heights: lent(0),
        };
        let (strips, sun) = (self.library.strips, [altitude, azimuth]);
        let answer = unsafe { strips_by(strips, call.edition, sun, &glazing, lent(1), lent(2)) };
        // whatever the call was promised not to do, its pages are read anew
        let pages = std::hint::black_box(&mut self.pages);
        let mut each = pages.iter_mut().zip(lists);
        match each.all(|(pages, list)| pages.list() == list && pages.beside_is_left()) {
            true => Ok(answer),
            false => Err(format!("strips changes a list\n{}", call.shown())),
        }
    }

    /// The factor of a strip by itself.
    pub fn factor(&self, strip: &SurfaceCall) -> FactorAnswer {
        let lists = [&strip.sectors[..], &strip.window[..]];
        call_with(self.library.factor, strip.edition, &strip.numbers, lists)
    }
}
