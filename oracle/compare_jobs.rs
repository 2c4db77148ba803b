//! The judge of the library `pilgartze`: whole jobs, single steps, the factor and the strips against the
//! published Rust, byte by byte.
//!
//!     compare_jobs [--seed N] [--count N] [--jobs N]   compares; stops at the first difference
//!     compare_jobs --self-test [--seed N]              shows that the comparison can fail
//!
//! A count of 1,000,000 means 3,000 random jobs, beside those at the edges, short ones aimed at the
//! sun and some whole years, 5,000,000 calls of the factor and 1,000,000 of the strips.
//!
//! Exit status: 0 no difference; 1 a difference, or a comparison of nothing; 2 bad usage; 3 an
//! access outside a buffer. `oracle/run` builds this program and runs it both ways.

// What these modules have for the other program is not used here.
#[allow(dead_code)]
mod arguments;
#[allow(dead_code)]
mod comparison;
#[allow(dead_code)]
mod guarded;
mod jobs;
#[allow(dead_code)]
mod pilgartze;
#[allow(dead_code)]
mod probes;
#[allow(dead_code)]
mod random;
#[allow(dead_code)]
mod shading;
#[allow(dead_code)]
mod stand_ins;
#[allow(dead_code)]
mod strips;
#[macro_use]
#[allow(dead_code)]
mod support;
#[allow(dead_code)]
#[allow(unused_imports)]
mod published;

use comparison::{whole_number, Outcome, Settings};
use jobs::lent::LIBRARY;
use jobs::{Fixed, Plan};
use pilgartze::FACTOR;
use shading::laws::LAWS;
use shading::sizes::SIZE_LAWS;
use std::process::ExitCode;

const YEARS: usize = 20;

struct Arguments {
    settings: Settings,
    jobs: Option<usize>,
    self_test: bool,
}

fn arguments() -> Result<Arguments, String> {
    let settings = Settings {
        seed: 1,
        count: 1_000_000,
        print: true,
    };
    let mut arguments = Arguments {
        settings,
        jobs: None,
        self_test: false,
    };
    let mut words = std::env::args().skip(1);
    while let Some(word) = words.next() {
        let mut number = || {
            let value = words.next().and_then(|value| whole_number(&value));
            value.ok_or(format!("{word} needs a whole number"))
        };
        match word.as_str() {
            "--self-test" => arguments.self_test = true,
            "--seed" => arguments.settings.seed = number()?,
            "--count" => {
                let count = number()? as usize;
                if count == 0 {
                    return Err(String::from("--count needs a number above 0"));
                }
                arguments.settings.count = count;
            }
            "--jobs" => arguments.jobs = Some(number()? as usize),
            _ => return Err(format!("{word} is not known")),
        }
    }
    Ok(arguments)
}

fn run(arguments: &Arguments) -> Outcome {
    let settings = &arguments.settings;
    if arguments.self_test {
        shading::self_test::run(settings.seed)?;
        strips::self_test::run(settings.seed)?;
        return jobs::self_test::run(settings.seed);
    }
    let jobs = arguments
        .jobs
        .unwrap_or((settings.count * 3).div_ceil(1000));
    println!("seed {}, {jobs} random jobs", settings.seed);
    let fixed = Fixed::all();
    let plan = Plan {
        fixed: &fixed,
        jobs,
        years: YEARS,
        aimed: Plan::aimed_for(&fixed, YEARS),
        compared: true,
        laws: &LAWS,
        sizes: &SIZE_LAWS,
        by_the_hour: true,
        leaf_days: true,
    };
    jobs::section(settings, &LIBRARY, plan)?;
    shading::section(settings, FACTOR)?;
    strips::section(settings, &strips::lent::LIBRARY)?;
    println!("no difference");
    Ok(())
}

fn main() -> ExitCode {
    let arguments = match arguments() {
        Ok(arguments) => arguments,
        Err(words) => {
            eprintln!("compare_jobs: {words}");
            return ExitCode::from(2);
        }
    };
    match run(&arguments) {
        Ok(()) => ExitCode::SUCCESS,
        Err(words) => {
            eprintln!("compare_jobs: {words}");
            ExitCode::from(1)
        }
    }
}
