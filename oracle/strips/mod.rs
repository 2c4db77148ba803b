//! Tall glazing in strips, in both editions: a plain form over the published factor against Rattle,
//! number and factor, bit for bit; the answer against the factor calls of its strips; and the factor's
//! laws on the same calls.

pub mod call;
pub mod edges;
pub mod lent;
mod met;
pub mod scenes;
pub mod self_test;
pub mod wrong;

use crate::comparison::{same, shown, Outcome, Settings, Tally, With};
use crate::pilgartze::{bytes_of, doubles_of, FactorAnswer, MOST_STRIPS};
use crate::published::strips::{judge_strips, quotient, Strip, StripsJudged};
use crate::random::Random;
use crate::shading::call::Call as SurfaceCall;
use crate::shading::laws::{try_laws, Law, Pairs, LAWS};
use crate::shading::sizes::{SizeLaw, Sizes, SIZE_LAWS};
use crate::shading::smaller as smaller_surface;
use call::Call;
use lent::{Lent, Library};
use met::Met;

/// However many calls there are at the edges, this many random ones at least.
const LEAST: usize = 20_000;

/// The laws are tried on one in so many calls: an odd number, as those at the edges are in one edition
/// and in the other by turns.
const LAWS_EVERY: u64 = 3;

fn judged(call: &Call) -> StripsJudged {
    let Call {
        edition, numbers, ..
    } = call;
    judge_strips(
        *edition,
        numbers,
        &call.heights,
        &call.sectors,
        &call.window,
    )
}

fn answer_shown(answer: FactorAnswer) -> String {
    format!("{}, {}", answer.number, shown(answer.factor))
}

fn same_answer(a: FactorAnswer, b: FactorAnswer) -> bool {
    a.number == b.number && same(a.factor, b.factor)
}

// --- A difference ---

/// Fewer strips: without one of them; of a list that is far too long its first half, or all but the last.
fn fewer(heights: &[f64]) -> Vec<Vec<f64>> {
    let count = heights.len();
    let without = |place: usize| [&heights[..place], &heights[place + 1..]].concat();
    match count {
        0 | 1 => vec![],
        count if count > 2 * MOST_STRIPS => vec![heights[..count / 2].to_vec(), without(count - 1)],
        count => (0..count).map(without).collect(),
    }
}

/// The call without some of its strips, one of its records, or one object of a sector.
fn smaller(call: &Call) -> Vec<Call> {
    let whole = call.heights.len() % 8 == 0;
    let lists = match whole {
        true => fewer(&doubles_of(&call.heights)),
        false => vec![], // a part of a word stays as it is
    };
    let of_fewer = lists.into_iter().map(|heights| Call {
        heights: bytes_of(&heights),
        ..call.clone()
    });
    let surfaces = smaller_surface(&call.strip([0.0, 1.0]));
    let with_less = surfaces.iter().map(|surface| call.with(surface));
    of_fewer.chain(with_less).collect()
}

/// A difference, with the smallest call by which it is found.
fn difference(call: &Call, lent: &mut Lent) -> String {
    let mut differ = |call: &Call| {
        let (right, got) = (judged(call).answer, lent.call(call).ok()?);
        (!same_answer(right, got)).then_some((right, got))
    };
    let mut smallest = call.clone();
    while let Some(smaller) = smaller(&smallest)
        .into_iter()
        .find(|call| differ(call).is_some())
    {
        smallest = smaller;
    }
    match differ(&smallest) {
        Some((right, got)) => format!(
            "{}\n  plain form {}\n  Rattle     {}",
            smallest.shown(),
            answer_shown(right),
            answer_shown(got)
        ),
        None => format!("{}\n  differs once and not again", call.shown()),
    }
}

// --- Strip by strip ---

/// How many answers were held to the factor calls of the strips.
#[derive(Default)]
struct StripByStrip {
    accepted: u64,
    refused: u64,
}

impl StripByStrip {
    /// Each strip by itself has the number of the call, and of an accepted one the answer is the
    /// quotient of their factors.
    fn hold(&mut self, lent: &Lent, call: &Call, strips: &[Strip], got: FactorAnswer) -> Outcome {
        let each = strips.iter().map(|&strip| lent.factor(&call.strip(strip)));
        let each: Vec<FactorAnswer> = each.collect();
        let factors: Vec<f64> = each.iter().map(|answer| answer.factor).collect();
        let told = each.iter().all(|answer| answer.number == got.number);
        if !told || got.number == 0 && !same(quotient(&factors, strips), got.factor) {
            let each: Vec<String> = each.into_iter().map(answer_shown).collect();
            return Err(format!(
                "strips and their factor calls differ\n{}\n  all together {}\n  one by one   {}",
                call.shown(),
                answer_shown(got),
                each.join("; ")
            ));
        }
        match got.number {
            0 => self.accepted += 1,
            _ => self.refused += 1,
        }
        Ok(())
    }

    fn report(&self, settings: &Settings) -> Outcome {
        let counts = [("accepted", self.accepted), ("refused", self.refused)];
        for (what, count) in counts {
            if count == 0 {
                return Err(format!("strips: no call {what} strip by strip"));
            }
            settings.detail(&format!("strips, {what}, and so strip by strip"), count);
        }
        Ok(())
    }
}

// --- The laws ---

/// The factor's laws on two calls of the strips. What is changed is aimed at one strip.
struct Laws<'a> {
    laws: &'a [Law],
    pairs: Pairs,
    sizes: Sizes<'a>,
    random: Random,
}

impl Laws<'_> {
    fn hold(
        &mut self,
        lent: &mut Lent,
        call: &Call,
        strips: &[Strip],
        got: FactorAnswer,
    ) -> Outcome {
        let strip = call.strip(strips[self.random.below(strips.len())]);
        let (laws, pairs, random) = (self.laws, &mut self.pairs, &mut self.random);
        let mut answer = |other: &SurfaceCall| lent.call(&call.with(other));
        let mut outcome = Ok(());
        if got.number == 0 {
            outcome = try_laws(laws, pairs, random, &strip, got.factor, &mut answer);
        }
        outcome
            .and_then(|()| self.sizes.try_on(&strip, got, answer))
            .map_err(|words| format!("strips, {words}\nin the strips of\n{}", call.shown()))
    }

    fn report(&self, settings: &Settings) -> Outcome {
        let pairs = self.pairs.report(settings, "strips, ", self.laws);
        pairs
            .and_then(|()| self.sizes.report(settings))
            .map_err(|words| format!("strips, {words}"))
    }
}

// --- The section ---

/// What is to be tried.
#[derive(Clone, Copy)]
pub struct Plan<'a> {
    /// The calls at the edges, which come first, and how many random ones there are behind them.
    pub edges: &'a [Call],
    pub random: usize,
    /// Whether answers are compared with the plain form, and with the factor calls of the strips.
    pub compared: bool,
    pub by_strips: bool,
    pub laws: &'a [Law],
    pub sizes: &'a [SizeLaw],
}

/// All edges, then the random ones; which of both each is.
fn calls<'a>(
    random: &'a mut Random,
    edges: &'a [Call],
    more: usize,
) -> impl Iterator<Item = (Call, bool)> + 'a {
    let edges = edges.iter().map(|call| (call.clone(), false));
    edges.chain((0..more).map(|_| (scenes::any_call(random), true)))
}

/// What is tried, and what came of it so far.
struct Trial<'a> {
    plan: Plan<'a>,
    lent: Lent,
    tally: Tally,
    met: Met,
    by_strips: StripByStrip,
    laws: Laws<'a>,
}

impl<'a> Trial<'a> {
    fn new(settings: &Settings, library: &Library, plan: Plan<'a>) -> Self {
        let laws = Laws {
            laws: plan.laws,
            pairs: Pairs::default(),
            sizes: Sizes::new(plan.sizes, settings.random("sizes in strips")),
            random: settings.random("laws of the strips"),
        };
        Trial {
            plan,
            lent: Lent::new(*library),
            tally: Tally::default(),
            met: Met::default(),
            by_strips: StripByStrip::default(),
            laws,
        }
    }

    fn compare(&mut self, call: &Call, by_chance: bool, got: FactorAnswer) -> Outcome {
        let judged = judged(call);
        if !same_answer(judged.answer, got) {
            let words = difference(call, &mut self.lent);
            let cases = self.tally.compared;
            return Err(format!("strips differs after {cases} cases\n{words}"));
        }
        self.met.note(&judged, by_chance);
        self.tally.both_nan += got.factor.is_nan() as u64;
        Ok(())
    }

    fn try_on(&mut self, call: &Call, by_chance: bool) -> Outcome {
        let got = self.lent.call(call)?;
        if self.plan.compared {
            self.compare(call, by_chance, got)?;
        }
        self.tally.compared += 1;
        let Some(strips) = call.strips() else {
            return Ok(());
        };
        if self.plan.by_strips {
            self.by_strips.hold(&self.lent, call, &strips, got)?;
        }
        match self.tally.compared % LAWS_EVERY {
            0 => self.laws.hold(&mut self.lent, call, &strips, got),
            _ => Ok(()),
        }
    }

    fn report(&self, settings: &Settings) -> Outcome {
        settings.report("strips", With::PlainForm, self.tally)?;
        if self.plan.compared {
            self.met.report(settings)?;
        }
        if self.plan.by_strips {
            self.by_strips.report(settings)?;
        }
        self.laws.report(settings)
    }
}

pub fn run(settings: &Settings, library: &Library, plan: Plan) -> Outcome {
    let mut trial = Trial::new(settings, library, plan);
    let mut random = settings.random("strips");
    for (call, by_chance) in calls(&mut random, plan.edges, plan.random) {
        trial.try_on(&call, by_chance)?;
    }
    trial.report(settings)
}

pub fn section(settings: &Settings, library: &Library) -> Outcome {
    settings
        .heading("tall glazing in strips: a plain form over the published factor against Rattle");
    let edges = edges::all();
    let plan = Plan {
        edges: &edges,
        random: settings.count.saturating_sub(edges.len()).max(LEAST),
        compared: true,
        by_strips: true,
        laws: &LAWS,
        sizes: &SIZE_LAWS,
    };
    run(settings, library, plan)
}
