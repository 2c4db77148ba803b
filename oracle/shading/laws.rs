//! The laws of the factor, tried on accepted calls: it lies from 0 to 1, the same objects in another
//! order or number give the same double, more objects never give a larger one, and none give 1; both
//! calls in the same edition. And what both editions have in common.

use super::call::*;
use super::editions::{editions_agree, has_left_fin, other_edition};
use super::scenes::Aim;
use crate::comparison::{same, shown, Outcome, Settings};
use crate::pilgartze::FactorAnswer;
use crate::published::shading::*;
use crate::random::Random;

#[derive(Clone, Copy, PartialEq)]
pub enum Law {
    /// From 0 to 1, of a call by itself.
    Range,
    /// The others are of two calls: the same objects in another order,
    Reordered,
    /// some of them more than once,
    Repeated,
    /// with further ones,
    Enlarged,
    /// without any,
    Emptied,
    /// in the other edition, with left fins where these shade alike in both.
    OtherEdition,
}

pub const LAWS: [Law; 6] = [
    Law::Range,
    Law::Reordered,
    Law::Repeated,
    Law::Enlarged,
    Law::Emptied,
    Law::OtherEdition,
];

impl Law {
    /// The name under which it is found broken.
    pub fn name(self) -> &'static str {
        match self {
            Law::Range => "factor in range",
            Law::Reordered => "factor reordered",
            Law::Repeated => "factor repeated",
            Law::Enlarged => "factor enlarged",
            Law::Emptied => "factor emptied",
            Law::OtherEdition => "factor in the other edition",
        }
    }

    pub fn words(self) -> &'static str {
        match self {
            Law::Range => "law: from 0 to 1",
            Law::Reordered => "law: objects reordered, the same",
            Law::Repeated => "law: objects repeated, the same",
            Law::Enlarged => "law: objects added, no larger",
            Law::Emptied => "law: no objects, exactly 1",
            Law::OtherEdition => "law: other edition, the same",
        }
    }

    /// Where the law lets the factors differ, those that do.
    fn words_where_changed(self) -> Option<&'static str> {
        match self {
            Law::Enlarged => Some("law: objects added, smaller"),
            Law::Emptied => Some("law: no objects, smaller with them"),
            _ => None,
        }
    }

    /// Whether the law says something of calls with that sun and these objects.
    fn applies(self, call: &Call) -> bool {
        let alike = || editions_agree(&call.numbers) && has_left_fin(&call.window);
        self != Law::OtherEdition || alike()
    }

    /// The other call's lists, or its edition.
    pub fn change(self, random: &mut Random, scene: &mut Scene) {
        match self {
            Law::Range => {}
            Law::Reordered => reorder(random, scene),
            Law::Repeated => repeat(random, scene),
            Law::Enlarged => enlarge(random, scene),
            Law::Emptied => empty(scene),
            Law::OtherEdition => scene.edition = other_edition(scene.edition),
        }
    }

    pub fn holds(self, factor: f64, other: f64) -> bool {
        match self {
            Law::Range => 0.0 <= factor && factor <= 1.0,
            Law::Reordered | Law::Repeated | Law::OtherEdition => same(factor, other),
            Law::Enlarged => other <= factor,
            Law::Emptied => same(other, 1.0),
        }
    }
}

/// How many pairs of calls were tried for each law; a pair of the same calls does not count. How many
/// of them had different factors.
#[derive(Default)]
pub struct Pairs {
    tried: [u64; LAWS.len()],
    changed: [u64; LAWS.len()],
    skipped: u64,
}

impl Pairs {
    /// Prints them, behind a name where there is one. None of a kind is an error.
    pub fn report(&self, settings: &Settings, name: &str, laws: &[Law]) -> Outcome {
        for &law in laws {
            let tried = (law.words(), self.tried[law as usize]);
            let changed = law
                .words_where_changed()
                .map(|words| (words, self.changed[law as usize]));
            for (words, count) in [tried].into_iter().chain(changed) {
                if count == 0 {
                    return Err(format!("factor: no case of the {words}"));
                }
                settings.detail(&format!("{name}{words}"), count);
            }
        }
        let skipped = format!("{name}laws not tried: an extent might be NaN");
        settings.detail(&skipped, self.skipped);
        Ok(())
    }
}

/// Whether no extent can be NaN, by a simple test that is enough: all lengths are at most 10,000,
/// so where the tangents are moderate and the cosine is not tiny no operation overflows, and none
/// divides 0 by 0.
pub fn extents_are_numbers(aim: &Aim) -> bool {
    aim.tan_altitude.abs() < 1e100
        && aim.tan_difference.abs() < 1e100
        && aim.cos_difference.abs() > 1e-100
}

/// The counted triples of a sector.
fn objects(sector: &Sector) -> Vec<[u64; 3]> {
    let counted = sector[TRIPLES..]
        .chunks_exact(3)
        .take(sector[COUNT] as usize);
    counted.map(|triple| triple.try_into().unwrap()).collect()
}

fn set_objects(sector: &mut Sector, objects: &[[u64; 3]]) {
    sector[COUNT] = objects.len() as u64;
    sector[TRIPLES..].fill(0);
    for (place, triple) in sector[TRIPLES..].chunks_exact_mut(3).zip(objects) {
        place.copy_from_slice(triple);
    }
}

fn shuffle<T>(random: &mut Random, list: &mut [T]) {
    for last in (1..list.len()).rev() {
        list.swap(last, random.below(last + 1));
    }
}

pub fn reorder(random: &mut Random, scene: &mut Scene) {
    for sector in &mut scene.sectors {
        let mut list = objects(sector);
        shuffle(random, &mut list);
        set_objects(sector, &list);
    }
    shuffle(random, &mut scene.window);
}

/// Up to `most` objects by repeating some of those that are there.
fn repeat_some<T: Copy>(random: &mut Random, list: &mut Vec<T>, most: usize) {
    if !list.is_empty() {
        for _ in 0..random.below(most - list.len() + 1) {
            let object = list[random.below(list.len())];
            list.insert(random.below(list.len() + 1), object);
        }
    }
}

pub fn repeat(random: &mut Random, scene: &mut Scene) {
    for sector in &mut scene.sectors {
        let mut list = objects(sector);
        repeat_some(random, &mut list, MOST_OBJECTS);
        set_objects(sector, &list);
    }
    repeat_some(random, &mut scene.window, MOST_WINDOW_OBJECTS);
}

/// More objects, but for reveals, which are refused.
pub fn enlarge(random: &mut Random, scene: &mut Scene) {
    let aim = Aim::new(random, &scene.numbers);
    for sector in &mut scene.sectors {
        let mut list = objects(sector);
        for _ in 0..random.below(3).min(MOST_OBJECTS - list.len()) {
            let object = aim.distant_object(random);
            list.insert(random.below(list.len() + 1), object);
        }
        set_objects(sector, &list);
    }
    let window = &mut scene.window;
    for _ in 0..random.below(3).min(MOST_WINDOW_OBJECTS - window.len()) {
        let kind = random.below(REVEAL as usize) as u64;
        let object = aim.window_object(random, kind);
        window.insert(random.below(window.len() + 1), object);
    }
}

pub fn empty(scene: &mut Scene) {
    for sector in &mut scene.sectors {
        set_objects(sector, &[]);
    }
    scene.window.clear();
}

/// Tries the laws on a call that was accepted with this factor.
pub fn try_laws(
    laws: &[Law],
    pairs: &mut Pairs,
    random: &mut Random,
    call: &Call,
    factor: f64,
    mut answer: impl FnMut(&Call) -> Result<FactorAnswer, String>,
) -> Outcome {
    if !extents_are_numbers(&Aim::half_shaded(&call.numbers)) {
        pairs.skipped += 1;
        return Ok(());
    }
    let accepted = FactorAnswer { number: 0, factor };
    let scene = Scene::of(call);
    for &law in laws.iter().filter(|law| law.applies(call)) {
        let mut other = scene.clone();
        law.change(random, &mut other);
        let other = other.call();
        let got = match (law, other == *call) {
            (Law::Range, _) => accepted,
            (_, true) => continue,
            (_, false) => answer(&other)?,
        };
        if got.number != 0 || !law.holds(factor, got.factor) {
            return Err(format!(
                "{} breaks the law\n{}\n  gives {}, and\n{}\n  gives {}, number {}",
                law.name(),
                call.shown(),
                shown(factor),
                other.shown(),
                shown(got.factor),
                got.number,
            ));
        }
        pairs.tried[law as usize] += 1;
        pairs.changed[law as usize] += !same(factor, got.factor) as u64;
    }
    Ok(())
}
