//! Nanoseconds for one factor call: Rattle's, through the static library, beside the published Rust
//! with the stand-ins. Both are given the same lists of bytes and check them.
//!
//! Each line is measured over calls that differ in the sun's altitude and divided by their number.
//! Before that both sides' answers are compared, number and factor.

use std::process::ExitCode;

#[path = "../oracle/arguments.rs"]
#[allow(dead_code)]
mod arguments;
#[path = "../oracle/shading/call.rs"]
#[allow(dead_code)]
mod call;
#[path = "../oracle/comparison.rs"]
#[allow(dead_code)]
mod comparison;
mod measure;
#[path = "../oracle/pilgartze.rs"]
#[allow(dead_code)]
mod pilgartze;
#[path = "../oracle/probes.rs"]
#[allow(dead_code)]
mod probes;
#[path = "../oracle/random.rs"]
#[allow(dead_code)]
mod random;
#[path = "../oracle/stand_ins.rs"]
#[allow(dead_code)]
mod stand_ins;
#[path = "../oracle/support.rs"]
#[macro_use]
#[allow(dead_code)]
mod support;
#[path = "../oracle/published.rs"]
#[allow(dead_code)]
mod published;
mod scenes;

use call::Call;
use comparison::same;
use pilgartze::FactorAnswer;
use published::shading::Judge;
use scenes::{calls_of, nanoseconds, rattle};

/// The library alone.
fn measure_alone(sectors: usize, objects: usize, near: usize) -> Result<(), String> {
    let (name, calls) = calls_of(sectors, objects, near);
    let mut sum = 0.0;
    for call in &calls {
        match rattle(call) {
            FactorAnswer { number: 0, factor } => sum += factor,
            _ => return Err(format!("{name}: refused\n{}", call.shown())),
        }
    }
    let name = format!("a factor call, ns: {name}");
    measure::alone(&name, sum, || nanoseconds(&calls, rattle));
    Ok(())
}

fn measure_calls(sectors: usize, objects: usize, near: usize) -> Result<(), String> {
    let (name, calls) = calls_of(sectors, objects, near);
    let mut judge = Judge::new();
    let mut rust = |call: &Call| {
        judge
            .answer(call.edition, &call.numbers, &call.sectors, &call.window)
            .answer
    };
    for call in &calls {
        let (ours, theirs) = (rattle(call), rust(call));
        if ours.number != 0 || theirs.number != 0 || !same(ours.factor, theirs.factor) {
            return Err(format!("{name}: the answers differ\n{}", call.shown()));
        }
    }
    measure::line(
        &name,
        || nanoseconds(&calls, rattle),
        || nanoseconds(&calls, &mut rust),
    );
    Ok(())
}

fn run() -> Result<(), String> {
    if measure::wants_alone() {
        measure_alone(36, 2, 4)?;
        measure_alone(36, 8, 16)?;
        return measure_alone(1, 0, 0);
    }
    measure::heading("a factor call, its lists checked");
    for objects in [0, 1, 2, 4, 8] {
        measure_calls(1, objects, 0)?;
    }
    for near in [1, 4, 16] {
        measure_calls(1, 0, near)?;
    }
    measure_calls(36, 2, 4)?;
    measure_calls(36, 8, 16)
}

fn main() -> ExitCode {
    match run() {
        Ok(()) => ExitCode::SUCCESS,
        Err(words) => {
            eprintln!("bench: {words}");
            ExitCode::from(1)
        }
    }
}
