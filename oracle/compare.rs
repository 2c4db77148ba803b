//! The judge: Rattle's functions against Rust's, case by case and bit for bit.
//!
//!     compare [--seed N] [--count N]     compares; stops at the first difference
//!     compare --listings PROGRAM ..      compares what a program makes of shade listings
//!     compare --self-test [--seed N]     shows that the comparisons can fail
//!
//! Exit status: 0 no difference; 1 a difference, or a comparison of nothing; 2 bad usage; 3 an
//! access outside a buffer. `oracle/run` builds this program and runs it both ways.

mod arguments;
mod comparison;
mod guarded;
mod listing;
mod numbers;
#[allow(dead_code)] // the library itself is not linked here
mod pilgartze;
mod probes;
#[allow(dead_code)] // tables of days are lent by the other program
mod random;
mod self_test;
#[allow(dead_code)] // the factor is compared by the other program
mod shading;
mod stand_ins;
#[macro_use]
mod support;
#[allow(dead_code)] // the published items are cut for later sections too
mod published;
mod words;

use comparison::{whole_number, Outcome, Settings};
use listing::Program;
use std::path::PathBuf;
use std::process::ExitCode;

/// The sections, in the order in which they are run. A new one is added here.
const SECTIONS: [fn(&Settings) -> Outcome; 6] = [
    |settings| published::sanity::section(settings),
    |settings| {
        let (least, most) = (published::min_of_2, published::max_of_2);
        numbers::least_and_most(settings, &probes::LIBRARY, least, most)
    },
    |settings| numbers::section(settings, &probes::LIBRARY),
    |settings| words::section(settings, &probes::LIBRARY),
    |settings| published::sun::section(settings, &probes::LIBRARY),
    |settings| published::irradiance::section(settings, &probes::LIBRARY),
];

struct Arguments {
    settings: Settings,
    self_test: bool,
    listings: Option<PathBuf>,
    // what the self-test has this program do
    read_outside: Option<String>,
    shade_listing: Option<String>,
}

fn arguments() -> Result<Arguments, String> {
    let settings = Settings {
        seed: 1,
        count: 1_000_000,
        print: true,
    };
    let mut arguments = Arguments {
        settings,
        self_test: false,
        listings: None,
        read_outside: None,
        shade_listing: None,
    };
    let mut words = std::env::args().skip(1);
    while let Some(word) = words.next() {
        let mut next = || words.next().ok_or(format!("{word} needs a value"));
        match word.as_str() {
            "--self-test" => arguments.self_test = true,
            "--listings" => arguments.listings = Some(next()?.into()),
            "--read-outside" => arguments.read_outside = Some(next()?),
            "--shade-listing" => arguments.shade_listing = Some(next()?),
            "--seed" => {
                let seed = whole_number(&next()?);
                arguments.settings.seed = seed.ok_or("--seed needs a whole number")?;
            }
            "--count" => {
                let count = whole_number(&next()?).filter(|&count| count > 0);
                arguments.settings.count = count.ok_or("--count needs a number above 0")? as usize;
            }
            _ => return Err(format!("{word} is not known")),
        }
    }
    Ok(arguments)
}

fn run(arguments: &Arguments) -> Outcome {
    let settings = &arguments.settings;
    if let Some(side) = &arguments.read_outside {
        return self_test::read_outside(side);
    }
    if let Some(way) = &arguments.shade_listing {
        return listing::wrong::listing(way);
    }
    if arguments.self_test {
        return self_test::run(settings.seed);
    }
    if let Some(path) = &arguments.listings {
        let program = Program {
            path,
            arguments: &[],
        };
        return listing::run(settings, &program);
    }
    println!(
        "seed {}, {} cases for each function",
        settings.seed, settings.count
    );
    for section in SECTIONS {
        section(settings)?;
    }
    settings.report_all();
    println!("no difference");
    Ok(())
}

fn main() -> ExitCode {
    let arguments = match arguments() {
        Ok(arguments) => arguments,
        Err(words) => {
            eprintln!("compare: {words}");
            return ExitCode::from(2);
        }
    };
    match run(&arguments) {
        Ok(()) => ExitCode::SUCCESS,
        Err(words) => {
            eprintln!("compare: {words}");
            ExitCode::from(1)
        }
    }
}
