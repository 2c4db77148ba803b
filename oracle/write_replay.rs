//! Writes answers of the published Rust for the program `replay`, which holds Rattle's code to them.
//!
//!     write_replay FOLDER [SEED]
//!
//! `oracle/README.md` has the files' format. The same seed gives the same files.

// What these modules have for the other programs is not used here.
#[allow(dead_code)]
mod arguments;
#[allow(dead_code)]
mod comparison;
#[allow(dead_code)]
mod guarded;
#[allow(dead_code)]
mod jobs;
#[allow(dead_code)]
mod listing;
#[allow(dead_code)]
mod pilgartze;
#[allow(dead_code)]
mod probes;
#[allow(dead_code)]
mod random;
mod replay;
#[allow(dead_code)]
mod shading;
#[allow(dead_code)]
mod stand_ins;
#[allow(dead_code)]
mod strips;
#[macro_use]
#[allow(dead_code)]
mod support;
#[allow(dead_code)]
#[allow(unused_imports)]
mod published;

use comparison::Settings;
use replay::file::File;
use std::path::Path;
use std::process::ExitCode;

fn write(folder: &Path, settings: &Settings) -> Result<(), String> {
    let files: [(&str, fn(&Settings) -> Result<File, String>); 6] = [
        ("runs", replay::runs::file),
        ("factors", replay::factors::file),
        ("leaves", replay::leaves::file),
        ("listings", replay::listings::file),
        ("days", replay::days::file),
        ("strips", replay::strips::file),
    ];
    for (name, file) in files {
        let file = file(settings)?;
        let path = folder.join(name);
        std::fs::write(&path, &file.bytes).map_err(|e| format!("{}: {e}", path.display()))?;
        println!("{name} {}, {} bytes", file.records, file.bytes.len());
    }
    Ok(())
}

fn main() -> ExitCode {
    let words: Vec<String> = std::env::args().skip(1).collect();
    let seed = words.get(1).map_or(Ok(1), |word| word.parse());
    let (Some(folder), Ok(seed), true) = (words.first(), seed, words.len() <= 2) else {
        eprintln!("write_replay: FOLDER [SEED]");
        return ExitCode::from(2);
    };
    let settings = Settings {
        seed,
        count: 100_000,
        print: true,
    };
    match write(Path::new(folder), &settings) {
        Ok(()) => ExitCode::SUCCESS,
        Err(words) => {
            eprintln!("write_replay: {words}");
            ExitCode::from(1)
        }
    }
}
