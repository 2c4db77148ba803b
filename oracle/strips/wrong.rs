//! Strips that are wrong in one small way each. The self-test has to find them all.
//!
//! They are one plain form of the call over the plain factor of `shading/wrong.rs`, in either of which a
//! flaw is built in where it is asked for.

use super::call::Call;
use super::edges;
use crate::pilgartze::{FactorAnswer, StripsCall, EDITION_1, EDITION_2, MOST_STRIPS};
use crate::published::shading::*;
use crate::published::strips::*;
use crate::random::ulps_from;
use crate::shading::call::{Call as SurfaceCall, Scene, OVERHANG, REVEAL};
use crate::shading::laws::Law;
use crate::shading::sizes::SizeLaw;
use crate::shading::wrong::{Flaw as FactorFlaw, Plain as PlainFactor};

#[derive(Clone, Copy, PartialEq)]
pub enum Flaw {
    /// None: the plain form itself has to pass.
    Nothing,

    // how many strips
    ThirteenTaken,
    TwelveRefused,
    NoneTakenAsOne,
    NoneRefusedAsObject,
    PartWordIgnored,
    CountOfOneByte,

    // ranges
    LeastHeightOpen,
    GreatestHeightOpen,
    NanHeightTaken,
    OnlyFirstHeightChecked,
    LastHeightNotChecked,
    OnlyFirstBaseChecked,
    LastBaseNotChecked,
    GreatestBaseOpen,
    MinusZeroBaseRefused,
    TopOfLastChecked,
    WholeHeightChecked,

    // refusals and their order
    EditionZeroTaken,
    EditionNotLookedAt,
    EditionAfterStrips,
    SunAfterObjects,
    StripsAfterObjects,
    StripsAfterTheWalk,
    FactorKeptWhereRefused,
    RevealPassed,
    HeightsWrittenTo,

    // outside the beam
    SharesOutsideTheBeam,
    NoSectorOutsideTheBeam,

    // the strips
    BasesNotSummed,
    BasesBySumOfHeights,
    BasesFromTheTop,
    BasesByOwnHeight,
    WholeHeightForEach,
    WindowOverhangFromTheTop,
    WindowOverhangOnTheTopAlone,
    LastLeftOut,
    TwelfthLeftOut,
    EditionOneForTwo,
    EditionTwoForOne,

    // the quotient
    SumsFromTheTop,
    SharesFromTheTop,
    WholeFromTheTop,
    DividedByTopLessBase,
    PlainMean,
    WeightedByParts,
    FusedProducts,
    ByTheInverse,
    OneStripPlain,
    LeastFactor,
    GreatestFactor,
    LowestAlone,
    HighestAlone,
    NoneBeyondTheStrips,
    DarkStripsLeftOut,

    // what breaks a law
    DarkBelowZero,
    BrightAboveOne,
}
use Flaw::*;

/// The strips with a flaw, and the factor with one.
pub struct Plain {
    flaw: Flaw,
    factor: FactorFlaw,
}

impl Plain {
    fn is(&self, flaw: Flaw) -> bool {
        self.flaw == flaw
    }

    // --- The checks ---

    /// The edition that is taken, if one is.
    fn edition(&self, named: u64) -> Option<u64> {
        match named {
            0 if self.is(EditionZeroTaken) => Some(EDITION_1),
            _ if self.is(EditionNotLookedAt) => Some(EDITION_1),
            EDITION_1 if self.is(EditionTwoForOne) => Some(EDITION_2),
            EDITION_2 if self.is(EditionOneForTwo) => Some(EDITION_1),
            _ => edition_fine(named).then_some(named),
        }
    }

    /// The heights, where there are as many as there may be.
    fn heights(&self, call: &Call) -> Option<Vec<f64>> {
        let words = call.heights.chunks_exact(8);
        let whole = words.remainder().is_empty() || self.is(PartWordIgnored);
        let count = match self.is(CountOfOneByte) {
            true => words.len() as u8 as usize,
            false => words.len(),
        };
        let most = match self.flaw {
            ThirteenTaken => 13,
            TwelveRefused => 11,
            _ => MOST_STRIPS,
        };
        let double = |word: &[u8]| f64::from_le_bytes(word.try_into().unwrap());
        let fine = whole && (1..=most).contains(&count);
        fine.then(|| words.take(count).map(double).collect())
    }

    fn height_fine(&self, place: usize, count: usize, x: f64) -> bool {
        let (low, high) = RANGES[HEIGHT];
        match self.flaw {
            OnlyFirstHeightChecked if place > 0 => true,
            LastHeightNotChecked if place == count - 1 => true,
            NanHeightTaken => !(x < low || x > high),
            LeastHeightOpen => low < x && x <= high,
            GreatestHeightOpen => low <= x && x < high,
            _ => low <= x && x <= high,
        }
    }

    fn base_fine(&self, place: usize, count: usize, x: f64) -> bool {
        let (low, high) = RANGES[BASE_HEIGHT];
        match self.flaw {
            OnlyFirstBaseChecked if place > 0 => true,
            LastBaseNotChecked if place == count - 1 && place > 0 => true,
            GreatestBaseOpen => low <= x && x < high,
            MinusZeroBaseRefused if x == 0.0 => x.to_bits() == 0,
            _ => low <= x && x <= high,
        }
    }

    /// The strips, where they are as they should be.
    fn strips(&self, call: &Call) -> Option<Vec<Strip>> {
        let heights = self.heights(call)?;
        let count = heights.len();
        let bases = self.bases(call.numbers[GLAZING_BASE], &heights);
        let top = bases[count - 1] + heights[count - 1];
        let whole: f64 = heights.iter().sum();
        let fine = (0..count)
            .all(|k| self.base_fine(k, count, bases[k]) && self.height_fine(k, count, heights[k]));
        let fine = match self.flaw {
            TopOfLastChecked => fine && top <= 1000.0,
            WholeHeightChecked => fine && whole <= 1000.0,
            _ => fine,
        };
        fine.then(|| bases.into_iter().zip(heights).map(Strip::from).collect())
    }

    fn numbers_fine(&self, numbers: &GlazingNumbers) -> bool {
        let each = numbers.iter().zip(GLAZING_RANGES).enumerate();
        each.filter(|(place, _)| *place != GLAZING_BASE)
            .all(|(_, (x, (low, high)))| low <= *x && *x <= high)
    }

    /// The number of a surface of the glazing's width, whatever the strips are.
    fn number_without_strips(&self, call: &Call) -> u64 {
        PlainFactor {
            flaw: FactorFlaw::Nothing,
        }
        .answer(&call.strip([0.0, 1.0]))
        .number
    }

    /// Whether an object is refused, whatever the sun and the surface are.
    fn objects_refused(&self, call: &Call) -> bool {
        let numbers = [0.0, 0.0, 90.0, 180.0, 0.0, 1.0];
        let call = Call {
            numbers,
            ..call.clone()
        };
        self.number_without_strips(&call) == 4
    }

    /// What strips that are not as they should be are refused with.
    fn strips_refused(&self, call: &Call) -> u64 {
        match self.flaw {
            NoneRefusedAsObject if call.heights.is_empty() => 4,
            StripsAfterObjects if self.objects_refused(call) => 4,
            StripsAfterTheWalk => match self.number_without_strips(call) {
                0 => 3,
                number => number,
            },
            _ => 3,
        }
    }

    // --- The strips ---

    fn bases(&self, base: f64, heights: &[f64]) -> Vec<f64> {
        let sum = |heights: &[f64]| heights.iter().fold(0.0, |sum, height| sum + height);
        let of = |k: usize| match self.flaw {
            BasesNotSummed => base,
            BasesBySumOfHeights => base + sum(&heights[..k]),
            BasesFromTheTop => base + sum(&heights[k + 1..]),
            BasesByOwnHeight => heights[1..=k]
                .iter()
                .fold(base, |base, height| base + height),
            _ => heights[..k].iter().fold(base, |base, height| base + height),
        };
        (0..heights.len()).map(of).collect()
    }

    /// The objects at the window of a strip, which is so far below the top of the glazing.
    fn window(&self, scene: &mut Scene, below: f64) {
        match self.flaw {
            RevealPassed => scene.window.retain(|object| object[0] != REVEAL),
            WindowOverhangOnTheTopAlone if below > 0.0 => {
                scene.window.retain(|object| object[0] != OVERHANG)
            }
            WindowOverhangFromTheTop => {
                let overhangs = scene.window.iter_mut().filter(|o| o[0] == OVERHANG);
                overhangs.for_each(|o| o[2] = (f64::from_bits(o[2]) + below).to_bits());
            }
            _ => {}
        }
    }

    /// A strip as a surface, with what a flaw makes of it.
    fn surface(&self, call: &Call, strips: &[Strip], [base, height]: Strip) -> SurfaceCall {
        let whole: f64 = strips.iter().map(|strip| strip[1]).sum();
        let [last_base, last_height] = strips[strips.len() - 1];
        let height = match self.is(WholeHeightForEach) {
            true => whole,
            false => height,
        };
        let surface = call.strip([base, height]);
        if surface.window.len() % (8 * WINDOW_WORDS) != 0 || surface.sectors.len() % 8 != 0 {
            return surface; // refused as it is
        }
        match self.flaw {
            RevealPassed | WindowOverhangOnTheTopAlone | WindowOverhangFromTheTop => {
                let mut scene = Scene::of(&surface);
                self.window(&mut scene, last_base + last_height - (base + height));
                SurfaceCall {
                    window: scene.call().window,
                    ..surface
                }
            }
            _ => surface,
        }
    }

    /// A strip's factor, or the number of a refusal. A strip that should have been refused, and is not,
    /// counts as one in the sun.
    fn factor(&self, surface: &SurfaceCall) -> Result<f64, u64> {
        let flaw = self.factor;
        let plain = PlainFactor { flaw };
        match plain.answer(surface) {
            FactorAnswer { number: 0, factor } => Ok(factor),
            FactorAnswer { number: 3, .. } if flaw == FactorFlaw::Nothing => Ok(1.0),
            FactorAnswer { number, .. } => Err(number),
        }
    }

    // --- The quotient ---

    /// The quotient of two sums.
    fn quotient(&self, call: &Call, factors: &[f64], strips: &[Strip]) -> f64 {
        let heights: Vec<f64> = strips.iter().map(|strip| strip[1]).collect();
        let product = |(factor, height): (&f64, &f64)| factor * height;
        let from_the_top = |sum: Vec<f64>| sum.iter().rev().fold(0.0, |sum, x| sum + x);
        let products: Vec<f64> = factors.iter().zip(&heights).map(product).collect();
        let share = match self.flaw {
            SumsFromTheTop | SharesFromTheTop => from_the_top(products),
            FusedProducts => {
                let each = factors.iter().zip(&heights);
                each.fold(0.0, |sum, (factor, height)| factor.mul_add(*height, sum))
            }
            _ => products.iter().fold(0.0, |sum, x| sum + x),
        };
        let whole = match self.flaw {
            SumsFromTheTop | WholeFromTheTop => from_the_top(heights),
            DividedByTopLessBase => {
                let [base, height] = strips[strips.len() - 1];
                base + height - strips[0][0]
            }
            DarkStripsLeftOut => {
                let lit = factors.iter().zip(&heights).filter(|(f, _)| **f > 0.0);
                lit.fold(0.0, |sum, (_, height)| sum + height)
            }
            _ => heights.iter().fold(0.0, |sum, x| sum + x),
        };
        match self.is(ByTheInverse) {
            true => share * (1.0 / whole),
            false if whole == 0.0 => 0.0,
            false => self.after(call, share / whole),
        }
    }

    /// What is made of an answer.
    fn after(&self, call: &Call, answer: f64) -> f64 {
        match self.flaw {
            DarkBelowZero if answer == 0.0 => -f64::from_bits(1),
            BrightAboveOne if answer == 1.0 && call.heights.len() > 8 => ulps_from(1.0, 1),
            _ => answer,
        }
    }

    /// The sum of factors, each by its part of the whole.
    fn by_parts(&self, factors: &[f64], strips: &[Strip]) -> f64 {
        let whole: f64 = strips.iter().map(|strip| strip[1]).sum();
        let each = factors.iter().zip(strips);
        each.fold(0.0, |sum, (factor, strip)| {
            sum + factor * (strip[1] / whole)
        })
    }

    fn of_factors(&self, call: &Call, factors: &[f64], strips: &[Strip]) -> f64 {
        let count = factors.len();
        let least = factors.iter().copied().fold(f64::INFINITY, f64::min);
        let greatest = factors.iter().copied().fold(0.0, f64::max);
        match self.flaw {
            PlainMean => factors.iter().sum::<f64>() / count as f64,
            WeightedByParts => self.by_parts(factors, strips),
            OneStripPlain if count == 1 => factors[0],
            LeastFactor => least,
            GreatestFactor => greatest,
            LowestAlone => factors[0],
            HighestAlone => factors[count - 1],
            LastLeftOut if count > 1 => {
                self.quotient(call, &factors[..count - 1], &strips[..count - 1])
            }
            TwelfthLeftOut if count == 12 => self.quotient(call, &factors[..11], &strips[..11]),
            NoneBeyondTheStrips => self.quotient(call, factors, strips).clamp(least, greatest),
            _ => self.quotient(call, factors, strips),
        }
    }

    // --- The answer ---

    /// The number that a call is refused with by its numbers alone, or its strips.
    fn checked(&self, call: &Call) -> Result<Vec<Strip>, u64> {
        let edition_fine = self.edition(call.edition).is_some();
        if !edition_fine && !self.is(EditionAfterStrips) {
            return Err(WRONG_EDITION);
        }
        if !self.numbers_fine(&call.numbers) {
            let objects_first = self.is(SunAfterObjects) && self.objects_refused(call);
            return Err(if objects_first { 4 } else { 3 });
        }
        if self.is(NoneTakenAsOne) && call.heights.is_empty() {
            return Ok(vec![]);
        }
        let strips = self.strips(call);
        let strips = strips.ok_or_else(|| self.strips_refused(call))?;
        match edition_fine {
            true => Ok(strips),
            false => Err(WRONG_EDITION),
        }
    }

    fn answer(&self, call: &Call) -> Result<f64, u64> {
        let strips = self.checked(call)?;
        if strips.is_empty() {
            return Ok(1.0);
        }
        let edition = self.edition(call.edition).ok_or(WRONG_EDITION)?;
        let call = Call {
            edition,
            ..call.clone()
        };
        let each = strips
            .iter()
            .map(|&strip| self.surface(&call, &strips, strip));
        let factors = each.map(|surface| self.factor(&surface));
        let factors = factors.collect::<Result<Vec<f64>, u64>>()?;
        if outside_beam(&call.strip(strips[0]).numbers) {
            match self.flaw {
                SharesOutsideTheBeam => return Ok(self.by_parts(&factors, &strips)),
                NoSectorOutsideTheBeam if call.sectors.is_empty() => return Err(10),
                _ => {}
            }
        }
        Ok(self.of_factors(&call, &factors, &strips))
    }
}

fn answer_of(plain: Plain, call: &Call) -> FactorAnswer {
    match plain.answer(call) {
        Ok(factor) => FactorAnswer { number: 0, factor },
        Err(number) => FactorAnswer {
            number,
            factor: match plain.flaw {
                FactorKeptWhereRefused => 1.0,
                _ => 0.0,
            },
        },
    }
}

/// The words with which it must be found, its name for messages, and the function.
pub type Wrong = (String, &'static str, StripsCall);

/// A function with a flaw, of the strips or of the factor.
macro_rules! engine {
    ($name:expr, $flaw:expr, $factor:expr, $what:expr) => {{
        unsafe extern "C" fn wrong(
            edition: u64,
            altitude: f64,
            azimuth: f64,
            tilt: f64,
            orientation: f64,
            base_height: f64,
            width: f64,
            heights: *const u8,
            heights_len: usize,
            sectors: *const u8,
            sectors_len: usize,
            window: *const u8,
            window_len: usize,
        ) -> FactorAnswer {
            let list = |start, len| unsafe { std::slice::from_raw_parts(start, len) }.to_vec();
            let call = Call {
                edition,
                numbers: [altitude, azimuth, tilt, orientation, base_height, width],
                heights: list(heights, heights_len),
                sectors: list(sectors, sectors_len),
                window: list(window, window_len),
            };
            if $flaw == HeightsWrittenTo && heights_len == 8 * MOST_STRIPS {
                unsafe { heights.cast_mut().add(40).write(call.heights[40] ^ 1) };
            }
            let plain = Plain {
                flaw: $flaw,
                factor: $factor,
            };
            answer_of(plain, &call)
        }
        (String::from($name), $what, wrong as StripsCall)
    }};
}

/// Functions with flaws of the strips, one each.
macro_rules! flawed {
    ($name:expr; $($flaw:ident),* $(,)?) => {
        vec![$(engine!($name, $flaw, FactorFlaw::Nothing, stringify!($flaw))),*]
    };
}

/// Functions with flaws of the factor, one each.
macro_rules! by_factors {
    ($name:expr; $($flaw:ident),* $(,)?) => {
        vec![$(engine!($name, Nothing, FactorFlaw::$flaw, stringify!($flaw))),*]
    };
}

/// The plain form without a flaw, which has to pass.
pub fn without_flaw() -> StripsCall {
    let all: Vec<Wrong> = flawed!("strips"; Nothing);
    all[0].2
}

/// Functions, the calls by which each is found, and whether the random ones alone find each too.
pub struct Group {
    pub cases: fn() -> Vec<Call>,
    pub by_chance: bool,
    pub engines: Vec<Wrong>,
}

fn group(cases: fn() -> Vec<Call>, by_chance: bool, engines: Vec<Wrong>) -> Group {
    Group {
        cases,
        by_chance,
        engines,
    }
}

fn about_checks() -> Vec<Group> {
    let counts = flawed!("strips"; ThirteenTaken, TwelveRefused, NoneTakenAsOne, NoneRefusedAsObject,
        PartWordIgnored, CountOfOneByte, HeightsWrittenTo);
    let numbers = by_factors!("strips"; AzimuthWithin180, MinusZeroOutOfRange, GreatestWidthOpen);
    let heights = flawed!("strips"; LeastHeightOpen, GreatestHeightOpen, NanHeightTaken,
        OnlyFirstHeightChecked, LastHeightNotChecked);
    let bases = flawed!("strips"; OnlyFirstBaseChecked, LastBaseNotChecked, GreatestBaseOpen,
        MinusZeroBaseRefused, TopOfLastChecked, WholeHeightChecked, BasesBySumOfHeights);
    let faults = flawed!("strips"; EditionZeroTaken, EditionNotLookedAt, EditionAfterStrips,
        SunAfterObjects, StripsAfterObjects, StripsAfterTheWalk, FactorKeptWhereRefused,
        RevealPassed);
    vec![
        group(edges::counts, false, counts),
        group(edges::numbers, false, numbers),
        group(edges::heights, false, heights),
        group(edges::bases, false, bases),
        group(edges::faults, true, faults),
    ]
}

fn about_answers() -> Vec<Group> {
    let outside = [
        flawed!("strips"; SharesOutsideTheBeam, NoSectorOutsideTheBeam, WeightedByParts),
        by_factors!("strips"; RevealOutsideBeam),
    ];
    let editions = flawed!("strips"; EditionOneForTwo, EditionTwoForOne);
    let strips = flawed!("strips"; BasesNotSummed, BasesBySumOfHeights, BasesFromTheTop,
        BasesByOwnHeight, WholeHeightForEach, WindowOverhangFromTheTop,
        WindowOverhangOnTheTopAlone, LastLeftOut, TwelfthLeftOut);
    let sums = flawed!("strips"; SumsFromTheTop, SharesFromTheTop, WholeFromTheTop,
        DividedByTopLessBase, PlainMean, WeightedByParts, FusedProducts, ByTheInverse,
        OneStripPlain, LeastFactor, GreatestFactor, LowestAlone, HighestAlone,
        NoneBeyondTheStrips, DarkStripsLeftOut, DarkBelowZero);
    let lists = by_factors!("strips"; BeamEndOpen, FirstNotMatched, LastGapTaken, TurnedBeforeGap,
        RevealBeforeWalk, SectorCountNine, UnusedTripleNotLookedAt, SpareWordNotLookedAt,
        BaseHeightLeftOut, NearObstaclesEarly, FinDistanceLeftOut);
    vec![
        group(edges::outside, false, outside.concat()),
        group(edges::all, true, editions),
        group(edges::sums, true, strips),
        group(edges::sums, true, sums),
        group(edges::lists, false, lists),
    ]
}

/// What the comparison has to find.
pub fn groups() -> Vec<Group> {
    about_checks().into_iter().chain(about_answers()).collect()
}

/// What the factor calls of the strips have to find, tried alone.
pub fn unlike_their_factors() -> Vec<Wrong> {
    let name = "strips and their factor calls";
    let strips = flawed!(name; BasesNotSummed, SumsFromTheTop, OneStripPlain, RevealPassed);
    let factors = by_factors!(name; BaseHeightLeftOut, TurnedBeforeGap);
    [strips, factors].concat()
}

/// What each law has to find, tried alone.
pub fn lawless(law: Law) -> Vec<Wrong> {
    let name = &format!("strips, {}", law.name());
    let factors = match law {
        Law::Range => vec![],
        Law::Reordered => by_factors!(name; NearObstaclesEarly, LastObjectCounts),
        Law::Repeated => by_factors!(name; ExtentsAdded, SixteenthLeftOut),
        Law::Enlarged => by_factors!(name; LastObjectCounts, NearObstacleReplaces),
        Law::Emptied => by_factors!(name; OneByAQuotient, SkyNeverWhole),
        Law::OtherEdition => by_factors!(name; FinSidesExchanged, FinDistanceLeftOut),
    };
    let strips = match law {
        Law::Range => flawed!(name; DarkBelowZero, BrightAboveOne),
        Law::Enlarged => flawed!(name; DarkStripsLeftOut),
        Law::Emptied => flawed!(name; WeightedByParts, BrightAboveOne),
        _ => vec![],
    };
    [factors, strips].concat()
}

/// What each law about sizes has to find, tried alone; some of them also that dark strips are left out
/// of the sum of heights.
pub fn lawless_sizes(law: SizeLaw) -> Vec<Wrong> {
    let name = &format!("strips, {}", law.name());
    let factors = match law {
        SizeLaw::TallerDistantObstacle => by_factors!(name;
            TallDistantObstacleDropped, DistantObstacleHeightTurned, SubnormalSizeRefused),
        SizeLaw::NearerDistantObstacle => by_factors!(name;
            CloseDistantObstacleDropped, DistantObstacleDistanceTurned),
        SizeLaw::DeeperWindowOverhang => by_factors!(name;
            DeepWindowOverhangDropped, WindowOverhangDepthTurned),
        SizeLaw::TallerNearObstacle => by_factors!(name;
            TallNearObstacleDropped, NearObstacleHeightTurned),
        SizeLaw::NearerNearObstacle => by_factors!(name;
            CloseNearObstacleDropped, NearObstacleDistanceTurned),
        SizeLaw::ClearerNearObstacle => by_factors!(name; ClearTakenAsOpaque, TransparencyTurned),
        SizeLaw::LowerDistantOverhang => by_factors!(name;
            LowDistantOverhangDropped, DistantOverhangHeightTurned),
        SizeLaw::FartherDistantOverhang => by_factors!(name;
            FarDistantOverhangDropped, DistantOverhangDistanceTurned),
        SizeLaw::NearerWindowOverhang => by_factors!(name;
            WindowOverhangAtTheEdgeDropped, WindowOverhangDistanceTurned),
        SizeLaw::NearerFin => by_factors!(name; FinAtTheEdgeDropped, FinDistanceTurned),
        SizeLaw::DeeperFin => by_factors!(name; DeepFinDropped, FinDepthTurned),
        SizeLaw::Several => by_factors!(name;
            TallDistantObstacleDropped, ClearTakenAsOpaque, FinAtTheEdgeDropped),
    };
    let strips = match law {
        SizeLaw::TallerDistantObstacle
        | SizeLaw::LowerDistantOverhang
        | SizeLaw::TallerNearObstacle
        | SizeLaw::Several => flawed!(name; DarkStripsLeftOut),
        _ => vec![],
    };
    [factors, strips].concat()
}

/// What refused calls with other sizes have to find.
pub fn other_refusals() -> Vec<Wrong> {
    by_factors!("strips, factor of a refused call,"; GapOfTallObjectsTurned,
        TurnOfTallObjectsNoSector, NoSectorOfTallObjectsGap, RevealBesideTallObjectsNoSector)
}

/// What the counts of the laws about sizes have to find: that nothing ever changed.
pub fn sizes_not_looked_at() -> Vec<Wrong> {
    by_factors!("strips, factor: pairs,"; FactorOneAlways)
}
