//! Nanoseconds for a call of twelve strips, three times: beside the published Rust, which is given the
//! same lists of bytes, checks them once, takes the published factor of each strip and then the
//! quotient; beside one factor call of the library for the surface whole; and beside twelve of them, one
//! for each strip, with the quotient.
//!
//! The scenes are those of the factor calls (`scenes.rs`), their surface cut into strips of equal
//! height. Each line is measured over calls that differ in the sun's altitude and divided by their
//! number. Before that all three answers are compared, number and factor.

use std::hint::black_box;
use std::process::ExitCode;

#[path = "../oracle/arguments.rs"]
#[allow(dead_code)]
mod arguments;
#[path = "../oracle/shading/call.rs"]
#[allow(dead_code)]
mod call;
#[path = "../oracle/comparison.rs"]
#[allow(dead_code)]
mod comparison;
mod measure;
#[path = "../oracle/pilgartze.rs"]
#[allow(dead_code)]
mod pilgartze;
#[path = "../oracle/probes.rs"]
#[allow(dead_code)]
mod probes;
#[path = "../oracle/random.rs"]
#[allow(dead_code)]
mod random;
#[path = "../oracle/stand_ins.rs"]
#[allow(dead_code)]
mod stand_ins;
#[path = "../oracle/support.rs"]
#[macro_use]
#[allow(dead_code)]
mod support;
#[path = "../oracle/published.rs"]
#[allow(dead_code)]
mod published;
mod scenes;

use call::Call;
use comparison::same;
use pilgartze::{bytes_of, strips_by, FactorAnswer, TallGlazing, MOST_STRIPS, STRIPS};
use published::shading::{Numbers, BASE_HEIGHT, HEIGHT};
use published::strips::judge_strips;
use scenes::{calls_of, nanoseconds};

/// A call with its surface in strips.
struct Cut {
    /// The surface whole.
    call: Call,
    heights: Vec<u8>,
    /// The numbers of each strip, the lowest first; the lists are the call's.
    strips: Vec<Numbers>,
}

/// In twelve strips of the same height.
fn cut(call: Call) -> Cut {
    let height = call.numbers[HEIGHT] / MOST_STRIPS as f64;
    let mut strip = call.numbers;
    strip[HEIGHT] = height;
    let mut strips = vec![];
    for _ in 0..MOST_STRIPS {
        strips.push(strip);
        strip[BASE_HEIGHT] += height;
    }
    Cut {
        call,
        heights: bytes_of(&[height; MOST_STRIPS]),
        strips,
    }
}

fn rattle(of: &Cut) -> FactorAnswer {
    let &[altitude, azimuth, tilt, orientation, base_height, _, width] = &of.call.numbers;
    let glazing = TallGlazing {
        tilt,
        orientation,
        base_height,
        width,
        heights: &of.heights,
    };
    let (edition, sun) = (of.call.edition, [altitude, azimuth]);
    let (sectors, window) = (&of.call.sectors, &of.call.window);
    unsafe { strips_by(black_box(STRIPS), edition, sun, &glazing, sectors, window) }
}

/// By a factor call of the library for each strip; the first refusal, where there is one.
fn by_factors(of: &Cut) -> FactorAnswer {
    let (mut share, mut whole) = (0.0, 0.0);
    for strip in &of.strips {
        let answer = scenes::rattle_of(&of.call, strip);
        if answer.number != 0 {
            return answer;
        }
        share += answer.factor * strip[HEIGHT];
        whole += strip[HEIGHT];
    }
    FactorAnswer {
        number: 0,
        factor: share / whole,
    }
}

fn rust(of: &Cut) -> FactorAnswer {
    let &[altitude, azimuth, tilt, orientation, base_height, _, width] = &of.call.numbers;
    let numbers = [altitude, azimuth, tilt, orientation, base_height, width];
    let (sectors, window) = (&of.call.sectors, &of.call.window);
    judge_strips(of.call.edition, &numbers, &of.heights, sectors, window).answer
}

/// How many sectors there are, objects in each, and objects at the window. With eight in a sector no
/// strip is lit.
const SCENES: [(usize, usize, usize); 3] = [(36, 2, 4), (36, 8, 16), (1, 8, 16)];

/// The calls of one line, with its name.
struct Line {
    name: String,
    cuts: Vec<Cut>,
}

fn lines() -> [Line; 3] {
    SCENES.map(|(sectors, objects, near)| {
        let (name, calls) = calls_of(sectors, objects, near);
        Line {
            name,
            cuts: calls.into_iter().map(cut).collect(),
        }
    })
}

/// An error where an answer differs.
fn compared(line: &Line) -> Result<(), String> {
    for each in &line.cuts {
        let ours = rattle(each);
        let alike = |other: FactorAnswer| other.number == 0 && same(ours.factor, other.factor);
        if ours.number != 0 || !alike(by_factors(each)) || !alike(rust(each)) {
            let shown = each.call.shown();
            return Err(format!("{}: the answers differ\n{shown}", line.name));
        }
    }
    Ok(())
}

/// Whether the lowest and the highest strip have different factors.
fn differing(of: &Cut) -> bool {
    let ends = [of.strips[0], of.strips[MOST_STRIPS - 1]];
    let [lowest, highest] = ends.map(|strip| scenes::rattle_of(&of.call, &strip).factor);
    lowest != highest
}

/// The library alone, for `bench/compare`.
fn measure_alone(line: &Line) -> Result<(), String> {
    let Line { name, cuts } = line;
    let mut sum = 0.0;
    for each in cuts {
        match rattle(each) {
            FactorAnswer { number: 0, factor } => sum += factor,
            _ => return Err(format!("{name}: refused\n{}", each.call.shown())),
        }
    }
    let name = format!("twelve strips, ns: {name}");
    measure::alone(&name, sum, || nanoseconds(cuts, rattle));
    Ok(())
}

/// The strips beside something else.
fn measure_beside(lines: &[Line], other: fn(&Cut) -> FactorAnswer) {
    for Line { name, cuts } in lines {
        measure::line(
            name,
            || nanoseconds(cuts, rattle),
            || nanoseconds(cuts, other),
        );
    }
}

fn heading(other: &str, short: &str) {
    println!("\n| the library alone | twelve strips, ns | {other}, ns | strips / {short} |");
    println!("|---|---:|---:|---:|");
}

/// That in each call all strips have one factor is an error: these would measure little.
fn run() -> Result<(), String> {
    let lines = lines();
    if measure::wants_alone() {
        return lines.iter().try_for_each(measure_alone);
    }
    lines.iter().try_for_each(compared)?;
    if !lines.iter().any(|line| line.cuts.iter().any(differing)) {
        return Err("no strips differ".to_string());
    }
    measure::heading("twelve strips in one call, its lists checked");
    measure_beside(&lines, rust);
    heading("one factor call", "one call");
    measure_beside(&lines, |of| scenes::rattle(&of.call));
    heading("twelve factor calls", "twelve calls");
    measure_beside(&lines, by_factors);
    Ok(())
}

fn main() -> ExitCode {
    match run() {
        Ok(()) => ExitCode::SUCCESS,
        Err(words) => {
            eprintln!("bench: {words}");
            ExitCode::from(1)
        }
    }
}
