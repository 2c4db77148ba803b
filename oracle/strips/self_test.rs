//! The comparison of the strips and their laws tried on themselves: the judge and a plain form must
//! pass, and each wrong function must be found. The library is not called.

use super::lent::Library;
use super::{edges, met, run as section, wrong, Plan};
use crate::comparison::{Outcome, Settings};
use crate::pilgartze::StripsCall;
use crate::published::interface;
use crate::shading::laws::LAWS;
use crate::shading::sizes::SIZE_LAWS;

/// Random calls for each function, and for each that breaks a law: these are tried on some calls alone.
const CALLS: usize = 60_000;
const CALLS_FOR_LAWS: usize = 5 * CALLS;

/// Nothing but the comparison, with no calls yet.
const PLAN: Plan = Plan {
    edges: &[],
    random: 0,
    compared: true,
    by_strips: false,
    laws: &[],
    sizes: &[],
};

/// The function with the published factor beside it.
fn library(strips: StripsCall) -> Library {
    Library {
        strips,
        factor: interface::factor,
    }
}

/// The section finds each of these functions, under the name that each has. How many they are.
fn found(settings: &Settings, plan: Plan, functions: &[wrong::Wrong]) -> Result<usize, String> {
    for (name, what, function) in functions {
        match section(settings, &library(*function), plan) {
            Ok(()) => return Err(format!("self-test: {what} was not found in the strips")),
            Err(words) if words.starts_with(&format!("{name} ")) => {}
            Err(words) => {
                return Err(format!(
                    "self-test: {what} in the strips was found in the wrong place: {words}"
                ))
            }
        }
    }
    Ok(functions.len())
}

/// The judge and the plain form pass with all that is tried; a comparison of nothing is an error.
fn right_ones_pass(settings: &Settings) -> Outcome {
    let plan = Plan {
        edges: &edges::all(),
        random: CALLS,
        by_strips: true,
        laws: &LAWS,
        sizes: &SIZE_LAWS,
        ..PLAN
    };
    for function in [interface::strips, wrong::without_flaw()] {
        section(settings, &library(function), plan)
            .map_err(|words| format!("self-test, the plain strips: {words}"))?;
    }
    match section(settings, &library(interface::strips), PLAN) {
        Ok(()) => Err(String::from("self-test: a comparison of no strips passes")),
        Err(_) => Ok(()),
    }
}

/// By the comparison, with the calls of each group alone, and by random ones alone where these do.
fn differences_found(settings: &Settings) -> Result<usize, String> {
    let mut count = 0;
    for group in wrong::groups() {
        let plan = Plan {
            edges: &(group.cases)(),
            ..PLAN
        };
        count += found(settings, plan, &group.engines)?;
        if group.by_chance {
            let plan = Plan {
                random: CALLS,
                ..PLAN
            };
            found(settings, plan, &group.engines)?;
        }
    }
    Ok(count)
}

/// By the factor calls of the strips and by the laws, each of which is tried alone, on random calls.
fn lawless_found(settings: &Settings) -> Result<usize, String> {
    let plan = Plan {
        random: CALLS_FOR_LAWS,
        compared: false,
        ..PLAN
    };
    let by_strips = Plan {
        by_strips: true,
        ..plan
    };
    let mut count = found(settings, by_strips, &wrong::unlike_their_factors())?;
    for law in LAWS {
        let laws = &[law];
        count += found(settings, Plan { laws, ..plan }, &wrong::lawless(law))?;
    }
    let all = Plan {
        sizes: &SIZE_LAWS,
        ..plan
    };
    count += found(settings, all, &wrong::other_refusals())?;
    let fewer = Plan {
        random: CALLS,
        ..all
    };
    count += found(settings, fewer, &wrong::sizes_not_looked_at())?;
    for law in SIZE_LAWS {
        let sizes = &[law];
        count += found(settings, Plan { sizes, ..plan }, &wrong::lawless_sizes(law))?;
    }
    Ok(count)
}

pub fn run(seed: u64) -> Outcome {
    let settings = &Settings {
        seed,
        count: CALLS,
        print: false,
    };
    met::every_count_is_asked_for(settings)?;
    right_ones_pass(settings)?;
    let count = differences_found(settings)? + lawless_found(settings)?;
    println!("self-test: {count} wrong strips found");
    Ok(())
}
