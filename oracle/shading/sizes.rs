//! The laws about sizes, tried on two calls that are alike but for the size of an object, or of several:
//! on one side of it the factor is never larger. Where a call is refused for its sectors or a reveal, so
//! is the other, by the same number. And that what the laws ask is needed.

use super::call::*;
use super::editions::EDITIONS;
use super::handles::*;
use super::laws::extents_are_numbers;
use super::scenes::Aim;
use crate::comparison::{shown, Outcome, Settings};
use crate::pilgartze::FactorAnswer;
use crate::random::Random;

/// What may be changed. Each law says that the factor is then never larger, that of a clearer near
/// obstacle that it is never smaller.
#[derive(Clone, Copy, Debug, PartialEq)]
pub enum SizeLaw {
    TallerDistantObstacle,
    NearerDistantObstacle,
    DeeperWindowOverhang,
    /// This and the next one of transparency 0 or −0.0.
    TallerNearObstacle,
    NearerNearObstacle,
    ClearerNearObstacle,
    LowerDistantOverhang,
    FartherDistantOverhang,
    NearerWindowOverhang,
    NearerFin,
    DeeperFin,
    /// Several objects, each by one of these, near obstacles made less clear.
    Several,
}
use SizeLaw::*;

pub const SIZE_LAWS: [SizeLaw; 12] = [
    TallerDistantObstacle,
    NearerDistantObstacle,
    DeeperWindowOverhang,
    TallerNearObstacle,
    NearerNearObstacle,
    ClearerNearObstacle,
    LowerDistantOverhang,
    FartherDistantOverhang,
    NearerWindowOverhang,
    NearerFin,
    DeeperFin,
    Several,
];

/// Those of one object.
pub const SINGLE: &[SizeLaw] = SIZE_LAWS.split_at(11).0;

/// What a law is about: objects of a list and of some kinds, a field of theirs, and whether they shade
/// more as it grows.
pub struct Handle {
    pub distant: bool,
    pub kinds: &'static [u64],
    pub place: usize,
    pub darker_upwards: bool,
}

impl SizeLaw {
    /// The name under which it is found broken.
    pub fn name(self) -> &'static str {
        match self {
            TallerDistantObstacle => "factor with a taller distant obstacle",
            NearerDistantObstacle => "factor with a nearer distant obstacle",
            DeeperWindowOverhang => "factor with a deeper window overhang",
            TallerNearObstacle => "factor with a taller near obstacle",
            NearerNearObstacle => "factor with a nearer near obstacle",
            ClearerNearObstacle => "factor with a clearer near obstacle",
            LowerDistantOverhang => "factor with a lower distant overhang",
            FartherDistantOverhang => "factor with a farther distant overhang",
            NearerWindowOverhang => "factor with a nearer window overhang",
            NearerFin => "factor with a nearer fin",
            DeeperFin => "factor with a deeper fin",
            Several => "factor with several other sizes",
        }
    }

    /// The name without the factor, for a line of counts.
    pub fn words(self) -> &'static str {
        let name = self.name();
        name.trim_start_matches("factor with ")
    }

    /// Of several objects there is none.
    pub fn handle(self) -> Option<Handle> {
        const OBSTACLES: &[u64] = &[OBSTACLE];
        const OVERHANGS: &[u64] = &[OVERHANG];
        const FINS: &[u64] = &[RIGHT_FIN, LEFT_FIN];
        let (distant, kinds, place, darker_upwards) = match self {
            TallerDistantObstacle => (true, OBSTACLES, SIZE, true),
            NearerDistantObstacle => (true, OBSTACLES, DISTANCE, false),
            DeeperWindowOverhang => (false, OVERHANGS, SIZE, true),
            TallerNearObstacle => (false, OBSTACLES, SIZE, true),
            NearerNearObstacle => (false, OBSTACLES, DISTANCE, false),
            ClearerNearObstacle => (false, OBSTACLES, TRANSPARENCY, false),
            LowerDistantOverhang => (true, OVERHANGS, SIZE, false),
            FartherDistantOverhang => (true, OVERHANGS, DISTANCE, true),
            NearerWindowOverhang => (false, OVERHANGS, DISTANCE, false),
            NearerFin => (false, FINS, DISTANCE, false),
            DeeperFin => (false, FINS, SIZE, true),
            Several => return None,
        };
        Some(Handle {
            distant,
            kinds,
            place,
            darker_upwards,
        })
    }

    /// Whether it is about that object.
    fn is_about(self, call: &Call, object: Object) -> bool {
        self.handle().is_none_or(|handle| {
            handle.distant == object.distant && handle.kinds.contains(&object.kind(call))
        })
    }

    /// Whether it asks that nothing gets through.
    fn is_of_opaque(self) -> bool {
        matches!(self, TallerNearObstacle | NearerNearObstacle)
    }

    fn lets_change(self, call: &Call, object: Object) -> bool {
        let asked = || !self.is_of_opaque() || object.double(call, TRANSPARENCY) == 0.0;
        self.is_about(call, object) && asked()
    }

    /// The law by which an object is changed: this one or, of several, one of those that may.
    fn any_for(self, random: &mut Random, call: &Call, object: Object) -> Option<SizeLaw> {
        if self != Several {
            return Some(self);
        }
        let able = |law: &SizeLaw| law.lets_change(call, object);
        let laws: Vec<SizeLaw> = SINGLE.iter().copied().filter(able).collect();
        any_of(random, &laws)
    }

    /// Changes an object, or some.
    pub fn change(self, random: &mut Random, call: &mut Call, drag: &Drag) {
        let all = objects(random, call);
        let able = |object: &Object| self.lets_change(call, *object);
        let able: Vec<Object> = all.iter().copied().filter(able).collect();
        let only = match self != Several && random.below(4) != 0 {
            true => Some(random.below(able.len().max(1))),
            false => None,
        };
        for (k, &object) in able.iter().enumerate() {
            if only.map_or(random.below(2) != 0, |only| k != only) {
                continue;
            }
            let law = self.any_for(random, call, object);
            if let Some(handle) = law.and_then(SizeLaw::handle) {
                let rival = all[random.below(all.len())];
                let up = handle.darker_upwards == drag.darker;
                let value = drag.value(random, call, [object, rival], handle.place, up);
                object.set(call, handle.place, value);
            }
        }
    }
}

fn any_of<T: Copy>(random: &mut Random, all: &[T]) -> Option<T> {
    match all.len() {
        0 => None,
        count => Some(all[random.below(count)]),
    }
}

// --- Counting ---

/// How many pairs of calls were tried for each law, how many of them had different factors in each
/// edition, and how many of these were a few ulps apart; a pair of the same calls does not count.
#[derive(Default)]
struct SizePairs {
    tried: [u64; SIZE_LAWS.len()],
    changed: [[u64; EDITIONS.len()]; SIZE_LAWS.len()],
    by_ulps: [u64; SIZE_LAWS.len()],
    /// Pairs that were refused 8 to 11.
    refused: [u64; 4],
    /// Calls on which no law was tried, as an extent might be NaN.
    skipped: u64,
}

/// What is printed of those that are left out.
pub const SKIPPED: &str = "sizes not tried: an extent might be NaN";

/// The numbers of a walk that ends at no sector, and of a reveal.
pub const REFUSED: std::ops::RangeInclusive<u64> = 8..=11;

impl SizePairs {
    fn note(&mut self, law: SizeLaw, edition: u64, nearby: bool, changed: bool) {
        self.tried[law as usize] += 1;
        let place = EDITIONS.iter().position(|&known| known == edition);
        if let (Some(place), true) = (place, changed) {
            self.changed[law as usize][place] += 1;
            self.by_ulps[law as usize] += nearby as u64;
        }
    }

    /// The line of a law. None of its counts may be 0.
    fn report_law(&self, settings: &Settings, law: SizeLaw) -> Outcome {
        let place = law as usize;
        let (tried, [first, second]) = (self.tried[place], self.changed[place]);
        let by_ulps = self.by_ulps[place];
        let words = law.words();
        let line = format!("{words:<30} {tried:>10} {first:>10} {second:>10} {by_ulps:>10}");
        if [tried, first, second, by_ulps].contains(&0) {
            return Err(format!(
                "factor: pairs, other factors by edition, by ulps: {line}"
            ));
        }
        settings.heading(&format!("    {line}"));
        Ok(())
    }

    fn report(&self, settings: &Settings, laws: &[SizeLaw]) -> Outcome {
        settings.heading("    sizes: pairs, other factors in editions 1 and 2, by a few ulps");
        for &law in laws {
            self.report_law(settings, law)?;
        }
        for (number, count) in REFUSED.zip(self.refused) {
            if count == 0 {
                return Err(format!("factor: no pair with other sizes refused {number}"));
            }
            settings.detail(&format!("other sizes, both refused {number}"), count);
        }
        settings.detail(SKIPPED, self.skipped);
        Ok(())
    }
}

// --- Trying ---

/// Whether the factors of two calls are in order, the other being on the darker side or not.
pub fn in_order(darker: bool, factor: f64, other: f64) -> bool {
    match darker {
        true => other <= factor,
        false => factor <= other,
    }
}

/// A law, and the sun by which sizes are aimed.
pub struct Trial {
    pub law: SizeLaw,
    pub aim: Aim,
}

impl Trial {
    /// One of the laws that are about an object of the call, if there is one and no extent is NaN.
    fn any(laws: &[SizeLaw], skipped: &mut u64, random: &mut Random, call: &Call) -> Option<Trial> {
        let aim = Aim::half_shaded(&call.numbers);
        if !extents_are_numbers(&aim) {
            *skipped += 1;
            return None;
        }
        let law = any_law(laws, random, call)?;
        Some(Trial { law, aim })
    }

    pub fn drag(&self, darker: bool, nearby: bool) -> Drag<'_> {
        Drag {
            aim: &self.aim,
            darker,
            nearby,
        }
    }

    /// The call to begin with: as it is, or with a near obstacle that one cannot see through, or with
    /// an object twice.
    fn first_call(&self, random: &mut Random, call: &Call) -> Call {
        let mut first = call.clone();
        let mut about = objects(random, call);
        about.retain(|&object| self.law.is_about(call, object));
        let Some(object) = any_of(random, &about) else {
            return first;
        };
        if self.law.is_of_opaque() && random.below(2) == 0 {
            object.set(&mut first, TRANSPARENCY, [0.0, -0.0][random.below(2)]);
        }
        if random.below(8) == 0 {
            object.repeat(&mut first);
        }
        first
    }

    /// The call with other sizes on that side, if there are any.
    fn other_call(
        &self,
        random: &mut Random,
        call: &Call,
        darker: bool,
        nearby: bool,
    ) -> Option<Call> {
        let mut other = call.clone();
        let drag = self.drag(darker, nearby);
        self.law.change(random, &mut other, &drag);
        (other != *call).then_some(other)
    }

    /// Of a call that was accepted with this factor: somewhere else, and then by a few ulps from there.
    fn try_accepted(
        &self,
        pairs: &mut SizePairs,
        random: &mut Random,
        call: &Call,
        mut factor: f64,
        mut answer: impl FnMut(&Call) -> Result<FactorAnswer, String>,
    ) -> Outcome {
        let mut last = self.first_call(random, call);
        if last != *call {
            let got = answer(&last)?;
            if got.number != 0 {
                return Err(self.broken(call, factor, &last, got));
            }
            factor = got.factor;
        }
        for nearby in [false, true] {
            let darker = random.below(2) == 0;
            let Some(other) = self.other_call(random, &last, darker, nearby) else {
                continue;
            };
            let got = answer(&other)?;
            if got.number != 0 || !in_order(darker, factor, got.factor) {
                return Err(self.broken(&last, factor, &other, got));
            }
            pairs.note(self.law, call.edition, nearby, got.factor != factor);
            (last, factor) = (other, got.factor);
        }
        Ok(())
    }

    /// Of a call that was refused 8 to 11: with other sizes it is refused by the same number.
    fn try_refused(
        &self,
        pairs: &mut SizePairs,
        random: &mut Random,
        call: &Call,
        number: u64,
        mut answer: impl FnMut(&Call) -> Result<FactorAnswer, String>,
    ) -> Outcome {
        let darker = random.below(2) == 0;
        let Some(other) = self.other_call(random, call, darker, false) else {
            return Ok(());
        };
        let got = answer(&other)?;
        if got.number != number {
            return Err(format!(
                "factor of a refused call, number {number}\n{}\nand with other sizes, number {}\n{}",
                call.shown(),
                got.number,
                other.shown(),
            ));
        }
        pairs.refused[(number - REFUSED.start()) as usize] += 1;
        Ok(())
    }

    /// That the law is broken, in words.
    fn broken(&self, call: &Call, factor: f64, other: &Call, got: FactorAnswer) -> String {
        format!(
            "{} breaks the law\n{}\n  gives {}, and\n{}\n  gives {}, number {}",
            self.law.name(),
            call.shown(),
            shown(factor),
            other.shown(),
            shown(got.factor),
            got.number,
        )
    }
}

/// One of the laws that are about an object of the call.
pub fn any_law(laws: &[SizeLaw], random: &mut Random, call: &Call) -> Option<SizeLaw> {
    let all = objects(random, call);
    let is_about = |law: &SizeLaw| all.iter().any(|&object| law.is_about(call, object));
    let laws: Vec<SizeLaw> = laws.iter().copied().filter(is_about).collect();
    any_of(random, &laws)
}

/// The laws that are tried, and what came of it.
pub struct Sizes<'a> {
    laws: &'a [SizeLaw],
    random: Random,
    pairs: SizePairs,
}

impl<'a> Sizes<'a> {
    pub fn new(laws: &'a [SizeLaw], random: Random) -> Self {
        Sizes {
            laws,
            random,
            pairs: SizePairs::default(),
        }
    }

    /// Tries one on a call that was accepted, or refused 8 to 11, with this answer.
    pub fn try_on(
        &mut self,
        call: &Call,
        got: FactorAnswer,
        answer: impl FnMut(&Call) -> Result<FactorAnswer, String>,
    ) -> Outcome {
        let refused = REFUSED.contains(&got.number);
        if self.laws.is_empty() || (got.number != 0 && !refused) {
            return Ok(());
        }
        let (pairs, random) = (&mut self.pairs, &mut self.random);
        let Some(trial) = Trial::any(self.laws, &mut pairs.skipped, random, call) else {
            return Ok(());
        };
        match refused {
            true => trial.try_refused(pairs, random, call, got.number, answer),
            false => trial.try_accepted(pairs, random, call, got.factor, answer),
        }
    }

    pub fn report(&self, settings: &Settings) -> Outcome {
        match self.laws {
            [] => Ok(()),
            laws => self.pairs.report(settings, laws),
        }
    }
}

// --- What the laws ask is needed ---

/// A surface to the south with the sun before it, of width 1, and one sector all around.
fn to_the_south(edition: u64, altitude: f64, height: f64, distant: [u64; 3]) -> Scene {
    Scene {
        edition,
        numbers: [altitude, 0.0, 90.0, 180.0, 0.0, height, 1.0],
        sectors: vec![sector(0.0, 360.0, &[distant])],
        window: vec![],
    }
}

/// A distant obstacle at altitude 135, which no call accepts: the tangent is −1.0000000000000002
/// (BFF0000000000001), so 4 metres away it shades all of 4 metres and 1 metre away half of it.
fn sun_behind(edition: u64) -> [Call; 2] {
    [4.0f64, 1.0].map(|distance| {
        let obstacle = [OBSTACLE, 1.0f64.to_bits(), distance.to_bits()];
        to_the_south(edition, 135.0, 4.0, obstacle).call()
    })
}

/// A near obstacle of transparency 5e-324 below a distant overhang that shades the upper half of 3
/// metres, with the sun at the horizon. Its heights are 1.4999999999999998 (3FF7FFFFFFFFFFFF) and 1.5
/// (3FF8000000000000): either and 1.5 make 3, so that nothing is in the sun, but what is seen through
/// it rounds to 5e-324 and to 1e-323, a third of which to 0 and to 5e-324.
fn hardly_clear(edition: u64) -> [Call; 2] {
    [0x3FF7_FFFF_FFFF_FFFF, 0x3FF8_0000_0000_0000].map(|height| {
        let overhang = [OVERHANG, 1.5f64.to_bits(), 1.0f64.to_bits()];
        let mut scene = to_the_south(edition, 0.0, 3.0, overhang);
        scene.window = vec![[OBSTACLE, height, 1.0f64.to_bits(), 1]];
        scene.call()
    })
}

/// The factors of both calls, by the answers of one side.
fn must_rise(what: &str, answers: [FactorAnswer; 2], factors: [f64; 2]) -> Outcome {
    let got = answers.map(|answer| (answer.number, answer.factor.to_bits()));
    match got == factors.map(|factor| (0, factor.to_bits())) {
        true => Ok(()),
        false => Err(format!("factor without a premise, {what}: {answers:?}")),
    }
}

/// Where the tangent is below 0 a nearer distant obstacle can raise the factor, of which the published
/// function alone can be asked; and so can a taller near obstacle whose transparency is not 0.
pub fn premises_are_needed(
    settings: &Settings,
    mut published: impl FnMut(&Call) -> Result<FactorAnswer, String>,
    mut answer: impl FnMut(&Call) -> Result<FactorAnswer, String>,
) -> Outcome {
    let least = f64::from_bits(1);
    let mut raised = 0;
    for edition in EDITIONS {
        let [farther, nearer] = &sun_behind(edition);
        let answers = [published(farther)?, published(nearer)?];
        must_rise("sun behind, Rust", answers, [0.0, 0.5])?;
        let [lower, taller] = &hardly_clear(edition);
        let answers = [published(lower)?, published(taller)?];
        must_rise("hardly clear, Rust", answers, [0.0, least])?;
        let answers = [answer(lower)?, answer(taller)?];
        must_rise("hardly clear, Rattle", answers, [0.0, least])?;
        raised += 3;
    }
    settings.detail("raised where a premise does not hold", raised);
    Ok(())
}
