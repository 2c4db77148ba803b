//! The part of the comparison that needs none of the published texts: Rattle's functions on doubles
//! against the stand-ins, and those on lists of bytes against plain forms.
//!
//!     compare_stand_ins [--seed N] [--count N]   compares; stops at the first difference
//!
//! `compare` makes the same comparisons beside its own; that they can fail is shown there. Exit
//! status: 0 no difference; 1 a difference, or a comparison of nothing; 2 bad usage; 3 an access
//! outside a buffer. `oracle/run --without-published` builds this program and runs it.

#[allow(dead_code)] // what these modules have for the other program is not used here
mod comparison;
#[allow(dead_code)]
mod guarded;
#[allow(dead_code)]
mod numbers;
#[allow(dead_code)]
mod probes;
#[allow(dead_code)]
mod random;
#[allow(dead_code)]
mod stand_ins;
mod words;

use comparison::{whole_number, Outcome, Settings};
use std::process::ExitCode;

fn settings() -> Result<Settings, String> {
    let mut settings = Settings {
        seed: 1,
        count: 1_000_000,
        print: true,
    };
    let mut words = std::env::args().skip(1);
    while let Some(word) = words.next() {
        let number = words.next().and_then(|value| whole_number(&value));
        match (word.as_str(), number) {
            ("--seed", Some(seed)) => settings.seed = seed,
            ("--count", Some(count)) if count > 0 => settings.count = count as usize,
            _ => return Err(format!("{word} is not known, or lacks its number")),
        }
    }
    Ok(settings)
}

fn run(settings: &Settings) -> Outcome {
    println!(
        "seed {}, {} cases for each function",
        settings.seed, settings.count
    );
    numbers::section(settings, &probes::LIBRARY)?;
    words::section(settings, &probes::LIBRARY)?;
    settings.report_all();
    println!("no difference");
    Ok(())
}

fn main() -> ExitCode {
    let settings = match settings() {
        Ok(settings) => settings,
        Err(words) => {
            eprintln!("compare_stand_ins: {words}");
            return ExitCode::from(2);
        }
    };
    match run(&settings) {
        Ok(()) => ExitCode::SUCCESS,
        Err(words) => {
            eprintln!("compare_stand_ins: {words}");
            ExitCode::from(1)
        }
    }
}
