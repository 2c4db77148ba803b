//! Calls with every list between guard pages.

use crate::guarded::{Guarded, Side};
use crate::pilgartze::*;
use crate::published::jobs::{Job, Left, Readings, RunAnswer, Single};

/// One side of the comparison.
#[derive(Clone, Copy)]
pub struct Library {
    pub run: RunCall,
    pub step: StepCall,
    pub irradiance: IrradianceCall,
}

/// The library that this program is linked with.
pub const LIBRARY: Library = Library {
    run: RUN,
    step: STEP,
    irradiance: IRRADIANCE,
};

/// So many bytes beside a list, on the side without a guard page, are looked at too.
const BESIDE: usize = 64;
const BESIDE_BYTE: u8 = 0xA5;

/// One list's pages.
pub struct Pages {
    pages: Guarded,
    side: Side,
    len: usize,
}

impl Pages {
    pub fn holding(most: usize) -> Self {
        Pages {
            pages: Guarded::holding(most),
            side: Side::Front,
            len: 0,
        }
    }

    fn beside(&mut self) -> &mut [u8] {
        let offset = self.pages.offset(self.side, self.len);
        let end = offset + self.len;
        let bytes = self.pages.bytes();
        match self.side {
            Side::Front => {
                let last = bytes.len().min(end + BESIDE);
                &mut bytes[end..last]
            }
            Side::Back => &mut bytes[offset.saturating_sub(BESIDE)..offset],
        }
    }

    pub fn list(&mut self) -> &mut [u8] {
        let offset = self.pages.offset(self.side, self.len);
        let end = offset + self.len;
        &mut self.pages.bytes()[offset..end]
    }

    /// Puts a list there, against an end, and gives its address.
    pub fn put(&mut self, call: &'static str, back: bool, list: &[u8], more: usize) -> *mut u8 {
        self.side = if back { Side::Back } else { Side::Front };
        self.len = list.len();
        self.list().copy_from_slice(list);
        self.beside().fill(BESIDE_BYTE);
        self.pages.lend(call, self.side, self.len, more)
    }

    pub fn beside_is_left(&mut self) -> bool {
        self.beside().iter().all(|&byte| byte == BESIDE_BYTE)
    }
}

/// A side of the comparison, with pages for the lists.
pub struct Lent {
    library: Library,
    /// Diffuse, direct, reflectivity, summer, winter, window, days, totals, results.
    pages: [Pages; LISTS],
    turn: usize,
    /// Calls with both lists of sectors in the same memory, and with one in a part of the other's.
    pub same_memory: u64,
    pub overlapping: u64,
    /// A list, and the end of its pages at which it stands, where that is not by turns.
    pub list_side: Option<(usize, Side)>,
}

const LISTS: usize = 9;
const ONLY_READ: usize = 6;
const SUMMER: usize = 3;
const WINTER: usize = 4;
pub const DAYS_LIST: usize = 6;
pub const TOTALS_LIST: usize = 7;
const RESULTS: usize = 8;
const WRITTEN: [usize; 3] = [DAYS_LIST, TOTALS_LIST, RESULTS];

/// A list of sectors that is lent as a part of the other, from that byte of it on.
#[derive(Clone, Copy)]
struct Part {
    list: usize,
    of: usize,
    from: usize,
}

/// One of both lists of sectors as a part of the other, at its start or at its end, if it is one.
fn part_of_the_other(lists: &[&[u8]; LISTS]) -> Option<Part> {
    let part = |(list, of): (usize, usize)| {
        let (inner, outer) = (lists[list], lists[of]);
        let from = match () {
            _ if inner.is_empty() => None,
            _ if outer.starts_with(inner) => Some(0),
            _ if outer.ends_with(inner) => Some(outer.len() - inner.len()),
            _ => None,
        };
        from.map(|from| Part { list, of, from })
    };
    [(WINTER, SUMMER), (SUMMER, WINTER)]
        .into_iter()
        .find_map(part)
}

impl Lent {
    /// For lists of at most that many bytes.
    pub fn new(library: Library, most: usize) -> Self {
        Lent {
            library,
            pages: std::array::from_fn(|_| Pages::holding(most)),
            turn: 0,
            same_memory: 0,
            overlapping: 0,
            list_side: None,
        }
    }

    /// Whether a list stands at the back of its pages; all 512 patterns come in 512 turns, as 41 is
    /// odd.
    fn at_back(&self, list: usize) -> bool {
        match self.list_side {
            Some((other, side)) if list == other => side == Side::Back,
            _ => self.turn * 41 >> list & 1 == 1,
        }
    }

    /// One list of sectors as a part of the other, where it is one, in every other call.
    fn part(&mut self, lists: &[&[u8]; LISTS]) -> Option<Part> {
        let part = part_of_the_other(lists).filter(|_| self.turn % 2 == 0)?;
        let whole = lists[part.list].len() == lists[part.of].len();
        self.same_memory += whole as u64;
        self.overlapping += !whole as u64;
        Some(part)
    }

    /// Puts the lists into their pages, and gives their addresses.
    fn put(&mut self, call: &'static str, lists: &[&[u8]; LISTS]) -> [*mut u8; LISTS] {
        let part = self.part(lists);
        let mut starts: [*mut u8; LISTS] = std::array::from_fn(|k| {
            let back = self.at_back(k);
            self.pages[k].put(call, back, lists[k], lists[DAYS_LIST].len())
        });
        if let Some(Part { list, of, from }) = part {
            starts[list] = unsafe { starts[of].add(from) };
        }
        starts
    }

    /// Lends the lists, each against the front or the back of its pages, by turns; looks at them
    /// and at the bytes beside them after the call.
    fn with<T>(
        &mut self,
        call: &'static str,
        lists: [&[u8]; LISTS],
        function: impl FnOnce(&Library, [&[u8]; ONLY_READ], [&mut [u8]; 3]) -> T,
    ) -> Result<Left<T>, String> {
        self.turn += 1;
        let starts = self.put(call, &lists);
        let read = |k: usize| unsafe { std::slice::from_raw_parts(starts[k], lists[k].len()) };
        let written =
            WRITTEN.map(|k| unsafe { std::slice::from_raw_parts_mut(starts[k], lists[k].len()) });
        let answer = function(&self.library, std::array::from_fn(read), written);
        // whatever the call was promised not to do, its pages are read anew
        let pages = std::hint::black_box(&mut self.pages);
        for k in 0..ONLY_READ {
            if pages[k].list() != lists[k] {
                return Err(format!(
                    "{call} changes a list that it only reads, number {k}"
                ));
            }
        }
        if !pages.iter_mut().all(Pages::beside_is_left) {
            return Err(format!("{call} writes beside a list"));
        }
        let [days, totals, results] = WRITTEN.map(|k| pages[k].list().to_vec());
        Ok(Left {
            answer,
            days,
            totals,
            results,
        })
    }

    pub fn run(&mut self, job: &Job) -> Result<Left<RunAnswer>, String> {
        let [start, end, step] = job.times;
        let times = RunTimes { start, end, step };
        let surface = surface_of(job.surface);
        let [diffuse, direct, reflectivity] = &job.series;
        let lists: [&[u8]; LISTS] = [
            diffuse,
            direct,
            reflectivity,
            &job.summer,
            &job.winter,
            &job.window,
            &job.days,
            &job.totals,
            &job.results,
        ];
        self.with("run", lists, |library, lent, [days, totals, results]| {
            let [diffuse, direct, reflectivity, summer, winter, window] = lent;
            let weather = Weather {
                diffuse,
                direct,
                reflectivity,
            };
            let shading = Shading {
                edition: job.edition,
                summer,
                winter,
                window,
            };
            let (call, site) = (library.run, &job.site);
            unsafe {
                run_by(
                    call, site, &times, &surface, weather, shading, days, totals, results,
                )
            }
        })
    }

    pub fn step(&mut self, single: &Single) -> Result<Left<u64>, String> {
        let Single { site, time, .. } = single;
        let surface = surface_of(single.surface);
        let reading = reading_of(single.readings);
        let (summer, winter) = (&single.summer, &single.winter);
        let (window, results) = (&single.window, &single.results);
        let lists: [&[u8]; LISTS] = [&[], &[], &[], summer, winter, window, &[], &[], results];
        self.with("step", lists, |library, lent, [.., results]| {
            let [.., summer, winter, window] = lent;
            let shading = Shading {
                edition: single.edition,
                summer,
                winter,
                window,
            };
            let call = library.step;
            unsafe { step_by(call, site, *time, &surface, &reading, shading, results) }
        })
    }

    pub fn irradiance(&mut self, single: &Single) -> Result<Left<u64>, String> {
        let Single { site, time, .. } = single;
        let surface = surface_of(single.surface);
        let reading = reading_of(single.readings);
        let mut lists: [&[u8]; LISTS] = [&[]; LISTS];
        lists[RESULTS] = &single.results;
        self.with("irradiance", lists, |library, _, [.., results]| {
            let call = library.irradiance;
            unsafe { irradiance_by(call, site, *time, &surface, &reading, results) }
        })
    }
}

fn surface_of([tilt, orientation, base_height, height, width]: [f64; 5]) -> Surface {
    Surface {
        tilt,
        orientation,
        base_height,
        height,
        width,
    }
}

fn reading_of([diffuse, direct, reflectivity]: Readings) -> Reading {
    Reading {
        diffuse,
        direct,
        reflectivity,
    }
}
