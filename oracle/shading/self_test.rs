//! The comparison of the factor and its laws tried on themselves: the published Rust and a plain form
//! must pass, and each wrong function must be found. The library is not called.

use super::laws::LAWS;
use super::sizes::{premises_are_needed, SIZE_LAWS};
use super::walks::{all_ends, Walks};
use super::{edges, published, run as section, wrong, Lent, Plan};
use crate::comparison::{Outcome, Settings};
use crate::published::interface;

/// What a section says of a wrong function must begin with the name under which it is to be found.
fn told(&(name, what, _): &wrong::Wrong, outcome: Outcome) -> Outcome {
    match outcome {
        Ok(()) => Err(format!("self-test: {what} was not found")),
        Err(words) if words.starts_with(&format!("{name} ")) => Ok(()),
        Err(words) => Err(format!(
            "self-test: {what} was found in the wrong place: {words}"
        )),
    }
}

/// A section finds each of these functions. How many they are.
fn each_found(
    settings: &Settings,
    plan: Plan,
    functions: &[wrong::Wrong],
) -> Result<usize, String> {
    for wrong in functions {
        told(wrong, section(settings, wrong.2, plan))?;
    }
    Ok(functions.len())
}

/// The same, and it lets the published Rust pass.
fn found(settings: &Settings, plan: Plan, functions: &[wrong::Wrong]) -> Result<usize, String> {
    section(settings, interface::factor, plan)
        .map_err(|words| format!("self-test, the published factor: {words}"))?;
    each_found(settings, plan, functions)
}

/// The laws about sizes, each of which is tried alone, refused calls, and those that lack a premise.
fn sizes_found(seed: u64) -> Result<usize, String> {
    let settings = &Settings {
        seed,
        count: 20_000,
        print: false,
    };
    let plan = Plan {
        edges: &[],
        compared: false,
        laws: &[],
        sizes: &SIZE_LAWS,
    };
    let mut count = found(settings, plan, &wrong::other_refusals())?;
    count += each_found(settings, plan, &wrong::sizes_not_looked_at())?;
    for law in SIZE_LAWS {
        let sizes = &[law];
        count += each_found(settings, Plan { sizes, ..plan }, &wrong::lawless_sizes(law))?;
    }
    Ok(count + premises_missed_found(settings)?)
}

/// The calls that lack a premise: a factor that does not rise must be found, in Rattle's place and, as
/// it refuses such a sun, in that of the published Rust.
fn premises_missed_found(settings: &Settings) -> Result<usize, String> {
    let missed = wrong::premises_missed();
    for wrong in &missed {
        let mut lent = Lent::new(wrong.2);
        let mut answer = |call: &_| lent.call(call);
        told(wrong, premises_are_needed(settings, published, &mut answer))?;
        told(wrong, premises_are_needed(settings, answer, published))?;
    }
    Ok(missed.len())
}

/// A place that no walk ended at is an error, whichever it is.
fn every_place_is_asked_for(settings: &Settings) -> Outcome {
    let places = all_ends().count();
    for missing in 0..=places {
        let mut walks = Walks::default();
        let met = all_ends().enumerate().filter(|&(k, _)| k != missing);
        met.for_each(|(_, walked)| walks.note(walked));
        if walks.report(settings, "factor").is_ok() != (missing == places) {
            return Err(format!("self-test: place {missing} of the walks' ends"));
        }
    }
    Ok(())
}

pub fn run(seed: u64) -> Outcome {
    let settings = &Settings {
        seed,
        count: 60_000,
        print: false,
    };
    every_place_is_asked_for(settings)?;
    let edges = edges::all();
    let plan = Plan {
        edges: &edges,
        compared: true,
        laws: &[],
        sizes: &[],
    };
    let by_chance = Plan { edges: &[], ..plan };
    section(settings, wrong::without_flaw(), plan)
        .map_err(|words| format!("self-test, the plain factor: {words}"))?;
    let mut count = found(settings, plan, &wrong::factor())?;
    count += found(settings, plan, &wrong::about_editions())?;
    found(settings, by_chance, &wrong::about_editions())?;
    for law in LAWS {
        let alone = Plan {
            compared: false,
            laws: &[law],
            ..plan
        };
        count += found(settings, alone, &wrong::lawless(law))?;
    }
    count += sizes_found(seed)?;
    println!("self-test: {count} wrong factors found");
    Ok(())
}
