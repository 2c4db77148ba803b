//! Cases for functions of several arguments: each argument has places at which something changes,
//! and a range in which the useful ones lie.

use crate::comparison::{compare, Outcome, Settings, With};
use crate::random::{chief_edges, ulps_from, Random};

pub struct Argument {
    places: Vec<f64>,
    edges: Vec<f64>,
    low: f64,
    high: f64,
    whole: Option<Whole>,
}

/// A whole number from `least` to `greatest`: all that an argument of such a type can be.
#[derive(Clone, Copy)]
struct Whole {
    least: i64,
    greatest: i64,
}

impl Argument {
    /// A double, for the most part from `low` to `high`.
    pub fn double(low: f64, high: f64, places: &[f64]) -> Self {
        Argument {
            places: places.to_vec(),
            edges: chief_edges(),
            low,
            high,
            whole: None,
        }
    }

    /// A whole number from `least` to `greatest`, for the most part from `low` to `high`.
    pub fn whole(low: i64, high: i64, least: i64, greatest: i64) -> Self {
        let mut places = vec![least, low, low + 1, high - 1, high, greatest];
        places.retain(|place| (least..=greatest).contains(place));
        Argument {
            places: places.iter().map(|&place| place as f64).collect(),
            edges: vec![],
            low: low as f64,
            high: high as f64,
            whole: Some(Whole { least, greatest }),
        }
    }

    /// 0 or 1.
    pub fn flag() -> Self {
        Argument::whole(0, 1, 0, 1)
    }

    /// Half of all draws are uniform in the range; the others are places and their neighbours,
    /// whole numbers, and any double at all.
    pub fn draw(&self, random: &mut Random) -> f64 {
        if let Some(Whole { least, greatest }) = self.whole {
            let (low, high) = match random.below(8) {
                0 => (least, greatest),
                _ => (self.low as i64, self.high as i64),
            };
            return (low + random.below((high - low + 1) as usize) as i64) as f64;
        }
        match random.below(16) {
            0..=7 => random.uniform(self.low, self.high),
            8..=10 => self.places[random.below(self.places.len())],
            11 | 12 => {
                let place = self.places[random.below(self.places.len())];
                ulps_from(place, random.below(9) as i64 - 4)
            }
            13 => random.uniform(self.low, self.high + 1.0).floor(),
            14 => self.edges[random.below(self.edges.len())],
            _ => random.any_double(),
        }
    }
}

/// Combinations of places are all tried where they are no more than this.
const FEW: usize = 20_000;

/// Each place with each, where these are few enough; each place and each edge of every argument,
/// with the others drawn; then random cases up to the count.
fn cases<'a, const I: usize>(
    random: &'a mut Random,
    arguments: &'a [Argument; I],
    count: usize,
) -> impl Iterator<Item = [f64; I]> + 'a {
    let all: usize = arguments.iter().map(|a| a.places.len()).product();
    let combinations = if all <= FEW { all } else { 0 };
    let together = (0..combinations).map(|mut n| {
        std::array::from_fn(|i| {
            let places = &arguments[i].places;
            let place = places[n % places.len()];
            n /= places.len();
            place
        })
    });

    let singles: Vec<(usize, f64)> = (0..I)
        .flat_map(|i| {
            let both = arguments[i].places.iter().chain(&arguments[i].edges);
            both.map(move |&x| (i, x))
        })
        .collect();
    let more = count.saturating_sub(combinations + singles.len());
    let drawn = singles
        .into_iter()
        .map(Some)
        .chain((0..more).map(|_| None))
        .map(move |single| {
            let mut case = std::array::from_fn(|i| arguments[i].draw(random));
            if let Some((i, x)) = single {
                case[i] = x;
            }
            case
        });
    together.chain(drawn)
}

/// A place and its nearest neighbours on both sides.
pub fn around(places: &[f64]) -> Vec<f64> {
    let near = |&place: &f64| (-2..=2).map(move |steps| ulps_from(place, steps));
    places.iter().flat_map(near).collect()
}

/// Compares one published function: on aimed cases, then on those of its arguments.
pub fn compare_function<const I: usize>(
    settings: &Settings,
    name: &str,
    aimed: impl Iterator<Item = [f64; I]>,
    arguments: [Argument; I],
    rust: impl Fn([f64; I]) -> f64,
    rattle: impl Fn([f64; I]) -> f64,
) -> Outcome {
    let mut random = settings.random(name);
    let inputs = aimed.chain(cases(&mut random, &arguments, settings.count));
    let tally = compare(name, inputs, |input| [rust(input)], |input| [rattle(input)])?;
    settings.report(name, With::Published, tally)
}
