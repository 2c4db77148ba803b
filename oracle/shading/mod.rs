//! The direct shading factor of one step, in both editions: the specification's checks and the
//! published Rust against Rattle, number and factor, bit for bit; and the factor's laws on the same
//! calls.

pub mod call;
pub mod edges;
pub mod editions;
pub mod handles;
pub mod laws;
pub mod scenes;
pub mod self_test;
pub mod sizes;
pub mod walks;
pub mod wrong;
mod wrong_sizes;

use crate::comparison::{same, shown, Outcome, Settings, Tally, With};
use crate::guarded::{Guarded, Side};
use crate::pilgartze::{factor_by, FactorAnswer, FactorCall, Surface};
use crate::published::shading::{Judge, Judged, Numbers, MOST_SECTORS, SECTOR_WORDS};
use crate::random::Random;
use call::{Call, Scene, COUNT, TRIPLES};
use editions::{has_fins_on_both_sides, other_edition, FinsMet, Seen};
use laws::{try_laws, Law, Pairs, LAWS};
use sizes::{premises_are_needed, SizeLaw, Sizes, SIZE_LAWS};
use walks::Walks;

/// For each case of other functions, this many calls.
const TIMES: usize = 5;

/// However many calls there are at the edges, this many random ones at least.
const LEAST: usize = 20_000;

/// The function with the lists between guard pages.
struct Lent {
    function: FactorCall,
    sectors: Guarded,
    window: Guarded,
    turn: usize,
}

impl Lent {
    fn new(function: FactorCall) -> Self {
        let most = 8 * SECTOR_WORDS * (MOST_SECTORS + 4);
        Lent {
            function,
            sectors: Guarded::holding(most),
            window: Guarded::holding(most),
            turn: 0,
        }
    }

    /// Each list against the front or the back of its pages, and looked at afterwards.
    fn call(&mut self, call: &Call) -> Result<FactorAnswer, String> {
        self.turn += 1;
        let side = |bit: usize| match self.turn >> bit & 1 {
            0 => Side::Front,
            _ => Side::Back,
        };
        let lists = [
            (&mut self.sectors, &call.sectors, &call.window, side(0)),
            (&mut self.window, &call.window, &call.sectors, side(1)),
        ];
        let [sectors, window] = lists.map(|(pages, list, other, side)| {
            let offset = pages.offset(side, list.len());
            pages.bytes()[offset..offset + list.len()].copy_from_slice(list);
            pages.lend("factor", side, list.len(), other.len())
        });
        let lent = |start: *mut u8, list: &[u8]| unsafe {
            std::slice::from_raw_parts(start.cast_const(), list.len())
        };
        let lists = [lent(sectors, &call.sectors), lent(window, &call.window)];
        let answer = call_with(self.function, call.edition, &call.numbers, lists);
        for (start, list) in [(sectors, &call.sectors), (window, &call.window)] {
            // whatever the call was promised not to do, the list is read anew
            if lent(std::hint::black_box(start), list) != &list[..] {
                return Err(format!("factor changes a list\n{}", call.shown()));
            }
        }
        Ok(answer)
    }
}

/// The lists are sectors and window.
pub fn call_with(
    function: FactorCall,
    edition: u64,
    numbers: &Numbers,
    [sectors, window]: [&[u8]; 2],
) -> FactorAnswer {
    let &[altitude, azimuth, tilt, orientation, base_height, height, width] = numbers;
    let sun = [altitude, azimuth];
    let surface = Surface {
        tilt,
        orientation,
        base_height,
        height,
        width,
    };
    unsafe { factor_by(function, edition, sun, &surface, sectors, window) }
}

fn judged(judge: &mut Judge, call: &Call) -> Judged {
    judge.answer(call.edition, &call.numbers, &call.sectors, &call.window)
}

/// How many calls came out in each way.
#[derive(Default)]
struct Met {
    numbers: [u64; 15],
    outside: u64,
    one: u64,
    zero: u64,
    between: u64,
    nan: u64,
    walks: Walks,
    /// Of the random calls.
    fins: FinsMet,
}

impl Met {
    fn note(&mut self, judge: &Judge, call: &Call, judged: &Judged, by_chance: bool) {
        self.note_answer(judged);
        if by_chance {
            self.note_fins(judge, call, judged);
        }
    }

    fn note_answer(&mut self, judged: &Judged) {
        let FactorAnswer { number, factor } = judged.answer;
        self.numbers[number as usize] += 1;
        judged.walked.map(|walked| self.walks.note(walked));
        if number == 0 {
            match factor {
                _ if judged.walked.is_none() => self.outside += 1,
                f if f.is_nan() => self.nan += 1,
                1.0 => self.one += 1,
                0.0 => self.zero += 1,
                _ => self.between += 1,
            }
        }
    }

    /// Notes the fins of a random call.
    fn note_fins(&mut self, judge: &Judge, call: &Call, judged: &Judged) {
        let mut seen = Seen::default();
        if has_fins_on_both_sides(&call.window) {
            seen.note(&call.numbers, judged.walked.is_some());
            if judged.answer.number == 0 && judged.walked.is_some() {
                let other = judge.factor_in(other_edition(call.edition));
                seen.other = !other.is_ok_and(|other| same(judged.answer.factor, other));
            }
        }
        self.fins.note(call.edition, &seen);
    }

    fn report(&self, settings: &Settings) -> Outcome {
        let number = |number: usize, word: &str| {
            let words = format!("number {number}{word}");
            (words, self.numbers[number])
        };
        let counts = [
            number(0, ", accepted"),
            number(3, ", sun or surface"),
            number(4, ", object"),
            number(8, ", gap"),
            number(9, ", turned"),
            number(10, ", no sector"),
            number(11, ", reveal"),
            number(14, ", edition"),
            (String::from("outside the beam, 1"), self.outside),
            (String::from("inside the beam, exactly 1"), self.one),
            (String::from("inside the beam, exactly 0"), self.zero),
            (
                String::from("inside the beam, between 0 and 1"),
                self.between,
            ),
        ];
        for (what, count) in &counts {
            if *count == 0 {
                return Err(format!("factor: no call had {what}"));
            }
            settings.detail(what, *count);
        }
        settings.detail("NaN factor", self.nan);
        self.fins.report(settings, "factor")?;
        self.walks.report(settings, "factor")
    }
}

/// A difference, with the smallest call by which it is found: records are left out as long as there
/// is a difference without them.
fn difference(call: &Call, judge: &mut Judge, lent: &mut Lent) -> String {
    let mut differ = |call: &Call| {
        let right = judged(judge, call).answer;
        let got = lent.call(call).ok()?;
        let same = right.number == got.number && same(right.factor, got.factor);
        (!same).then_some((right, got))
    };
    let mut smallest = call.clone();
    while let Some(smaller) = smaller(&smallest)
        .into_iter()
        .find(|call| differ(call).is_some())
    {
        smallest = smaller;
    }
    let answer = |answer: FactorAnswer| format!("{}, {}", answer.number, shown(answer.factor));
    match differ(&smallest) {
        Some((right, got)) => format!(
            "{}\n  Rust   {}\n  Rattle {}",
            smallest.shown(),
            answer(right),
            answer(got)
        ),
        None => format!("{}\n  differs once and not again", call.shown()),
    }
}

/// The call without one of its records, or without one object of a sector.
pub fn smaller(call: &Call) -> Vec<Call> {
    let scene = Scene::of(call);
    if scene.call() != *call {
        return vec![]; // part records stay as they are
    }
    let mut all = vec![];
    for place in 0..scene.sectors.len() {
        let mut fewer = scene.clone();
        fewer.sectors.remove(place);
        all.push(fewer.call());
        let count = scene.sectors[place][COUNT];
        if (1..=8).contains(&count) {
            let mut fewer = scene.clone();
            fewer.sectors[place][COUNT] = count - 1;
            fewer.sectors[place][TRIPLES + 3 * (count as usize - 1)..].fill(0);
            all.push(fewer.call());
        }
    }
    for place in 0..scene.window.len() {
        let mut fewer = scene.clone();
        fewer.window.remove(place);
        all.push(fewer.call());
    }
    all
}

/// What is to be tried.
#[derive(Clone, Copy)]
pub struct Plan<'a> {
    /// The calls at the edges, which come first.
    pub edges: &'a [Call],
    /// Whether answers are compared; else the laws are tried alone.
    pub compared: bool,
    pub laws: &'a [Law],
    pub sizes: &'a [SizeLaw],
}

/// All edges, then random calls up to the count; which of both each is.
fn calls<'a>(
    random: &'a mut Random,
    edges: &'a [Call],
    count: usize,
) -> impl Iterator<Item = (Call, bool)> + 'a {
    let more = count.saturating_sub(edges.len()).max(LEAST);
    let edges = edges.iter().map(|call| (call.clone(), false));
    edges.chain((0..more).map(|_| (scenes::any_call_of_any_edition(random), true)))
}

pub fn run(settings: &Settings, function: FactorCall, plan: Plan) -> Outcome {
    let (compared, laws) = (plan.compared, plan.laws);
    let mut judge = Judge::new();
    let mut lent = Lent::new(function);
    let mut met = Met::default();
    let mut tally = Tally::default();
    let mut pairs = Pairs::default();
    let mut sizes = Sizes::new(plan.sizes, settings.random("sizes"));
    let mut random = settings.random("laws of the factor");
    let mut factor_random = settings.random("factor");
    for (call, by_chance) in calls(&mut factor_random, plan.edges, TIMES * settings.count) {
        let got = lent.call(&call)?;
        if compared {
            let judged = judged(&mut judge, &call);
            let right = judged.answer;
            if right.number != got.number || !same(right.factor, got.factor) {
                let words = difference(&call, &mut judge, &mut lent);
                let cases = tally.compared;
                return Err(format!("factor differs after {cases} cases\n{words}"));
            }
            met.note(&judge, &call, &judged, by_chance);
            tally.both_nan += right.factor.is_nan() as u64;
        }
        tally.compared += 1;
        if got.number == 0 {
            let answer = |call: &Call| lent.call(call);
            try_laws(laws, &mut pairs, &mut random, &call, got.factor, answer)?;
        }
        sizes.try_on(&call, got, |call: &Call| lent.call(call))?;
    }
    settings.report("factor", With::Published, tally)?;
    if compared {
        met.report(settings)?;
    }
    pairs.report(settings, "", laws)?;
    sizes.report(settings)
}

/// The published function by itself, whether or not the sun is in range.
fn published(call: &Call) -> Result<FactorAnswer, String> {
    let mut judge = Judge::new();
    let judged = judge.of_any_sun(call.edition, &call.numbers, &call.sectors, &call.window);
    let answer = judged.map(|judged| judged.answer);
    answer.ok_or_else(|| format!("lists that are not as described\n{}", call.shown()))
}

pub fn section(settings: &Settings, function: FactorCall) -> Outcome {
    settings.heading("the direct shading factor of one step: published Rust against Rattle");
    let plan = Plan {
        edges: &edges::all(),
        compared: true,
        laws: &LAWS,
        sizes: &SIZE_LAWS,
    };
    run(settings, function, plan)?;
    let mut lent = Lent::new(function);
    premises_are_needed(settings, published, |call| lent.call(call))
}
