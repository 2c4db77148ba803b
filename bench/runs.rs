//! Microseconds for a whole run of the library and for one step, beside the published Rust's
//! original form: tables of all hours of the year, then step by step. All is of edition 1 but for the
//! lines that say otherwise. Then the library alone: a year of quarter-hours beside one of hours, and a
//! year with a summer and a winter list beside one with the same list all the year.
//!
//! Both sides are given the same numbers and lists, at a site in the south of England. Before a line
//! is measured their rows and sums are compared, bit for bit; with two lists each row is held to the
//! published Rust's with the list of its day. The library checks all that it is given; copying the lists
//! that the published record takes over does not count.

use std::hint::black_box;
use std::process::ExitCode;

#[path = "../oracle/comparison.rs"]
#[allow(dead_code)]
mod comparison;
mod library;
#[allow(dead_code)]
mod measure;
#[path = "../oracle/pilgartze.rs"]
#[allow(dead_code)]
mod pilgartze;
#[path = "../oracle/random.rs"]
#[allow(dead_code)]
mod random;
#[path = "../oracle/stand_ins.rs"]
#[allow(dead_code)]
mod stand_ins;
#[path = "../oracle/support.rs"]
#[macro_use]
#[allow(dead_code)]
mod support;
#[allow(dead_code)]
mod published_run;

use comparison::{all_shown, same};
use library::Lent;
use pilgartze::{EDITION_1, EDITION_2};
use random::Random;

pub struct Site {
    pub latitude: f64,
    pub longitude: f64,
    pub timezone: i32,
    pub conversion_needed: bool,
    pub first_leaf_day: u64,
    pub last_leaf_day: u64,
}

/// Leaves on the trees from 20 April to 31 October.
pub const SITE: Site = Site {
    latitude: 51.5,
    longitude: -0.5,
    timezone: 0,
    conversion_needed: true,
    first_leaf_day: 109,
    last_leaf_day: 303,
};

pub struct Surface {
    pub tilt: f64,
    pub orientation: f64,
    pub base_height: f64,
    pub height: f64,
    pub width: f64,
}

/// A window, to the south-east.
pub const SURFACE: Surface = Surface {
    tilt: 90.0,
    orientation: 135.0,
    base_height: 1.0,
    height: 1.5,
    width: 1.2,
};

const HOURS: usize = 8760;
/// In the morning of 21 June, with the sun on the window.
const ONE_HOUR: f64 = (171 * 24 + 9) as f64;
/// How often a call for one step is repeated in a round.
const REPEATED: usize = 100;

/// A value for each hour of the year.
#[derive(Clone)]
pub struct Series {
    pub diffuse: Vec<f64>,
    pub direct: Vec<f64>,
    pub reflectivity: Vec<f64>,
}

/// Kind, height, distance.
pub type DistantObject = (u64, f64, f64);

pub struct Sector {
    pub start: f64,
    pub end: f64,
    pub objects: Vec<DistantObject>,
}

/// Kind, height or depth, distance, and an obstacle's transparency.
pub type WindowObject = (u64, f64, f64, f64);

pub struct Job {
    pub edition: u64,
    pub series: Series,
    pub start: f64,
    pub end: f64,
    pub step: f64,
    pub summer: Vec<Sector>,
    /// None where it is the summer's.
    pub winter: Option<Vec<Sector>>,
    pub window: Vec<WindowObject>,
}

/// Altitude, azimuth, direct, diffuse, total, factor.
pub type Row = [f64; 6];

fn series() -> Series {
    let mut random = Random::new(1, "runs");
    let mut between = |high: f64| (0..HOURS).map(|_| random.uniform(0.0, high)).collect();
    Series {
        diffuse: between(400.0),
        direct: between(900.0),
        reflectivity: between(1.0),
    }
}

/// How many sectors there are, objects in each, and objects at the window.
#[derive(Clone, Copy)]
struct Lists(usize, usize, usize);

impl Lists {
    fn name(self) -> String {
        match self {
            Lists(1, 0, 0) => "no objects".to_string(),
            Lists(sectors, objects, near) => format!("{sectors} × {objects} objects and {near}"),
        }
    }

    /// Sectors of equal width all round, and objects by turns of every kind, the first so high.
    fn sectors(self, height: f64) -> Vec<Sector> {
        let Lists(sectors, objects, _) = self;
        let bound = |k: usize| 360.0 * k as f64 / sectors as f64;
        let distant = |k: usize| (k as u64 % 2, height + k as f64 / 4.0, 4.0 + k as f64);
        let sector = |k: usize| Sector {
            start: bound(k),
            end: bound(k + 1),
            objects: (0..objects).map(distant).collect(),
        };
        (0..sectors).map(sector).collect()
    }

    fn job(self, start: f64, end: f64, step: f64) -> Job {
        let Lists(_, _, near) = self;
        let at_window = |k: usize| {
            let (kind, transparency) = [(1, 0.0), (0, 0.5), (2, 0.0), (3, 0.0)][k % 4];
            let (size, distance) = (0.5 + k as f64 / 16.0, 0.25 + k as f64 / 32.0);
            (kind, size, distance, transparency)
        };
        Job {
            edition: EDITION_1,
            series: series(),
            start,
            end,
            step,
            summer: self.sectors(3.0),
            winter: None,
            window: (0..near).map(at_window).collect(),
        }
    }

    fn year(self, step: f64) -> Job {
        self.job(0.0, HOURS as f64, step)
    }

    /// A year of hours, with a winter list of its own, of lower objects.
    fn two_lists(self, winter: Lists) -> Job {
        Job {
            winter: Some(winter.sectors(2.5)),
            ..self.year(1.0)
        }
    }

    fn one_step(self) -> Job {
        self.job(ONE_HOUR, ONE_HOUR + 1.0, 1.0)
    }
}

/// An error where the library's rows are not the published Rust's.
fn alike(rattle: &[Row], rust: &[Row]) -> Result<(), String> {
    if rattle.len() != rust.len() {
        return Err(format!("{} rows, not {}", rattle.len(), rust.len()));
    }
    for (step, (ours, theirs)) in rattle.iter().zip(rust).enumerate() {
        if !ours.iter().zip(theirs).all(|(&a, &b)| same(a, b)) {
            return Err(format!(
                "step {step} differs\n  Rust   {}\n  Rattle {}",
                all_shown(theirs),
                all_shown(ours)
            ));
        }
    }
    Ok(())
}

/// The rows and the sum by the published Rust, with these sectors.
fn published(job: &Job, sectors: &[Sector]) -> Result<(Vec<Row>, f64), String> {
    let mut rows = vec![];
    let sum = published_run::run(job, published_run::given(job, sectors), &mut rows)
        .map_err(|error| format!("the published Rust refuses: {}", error.0))?;
    Ok((rows, sum))
}

/// An error where the library does not give these rows and this sum.
fn held(job: &Job, rows: &[Row], sum: f64) -> Result<(), String> {
    let mut lent = Lent::new(job, rows.len());
    let (count, ours) = lent.run()?;
    alike(&lent.rows(), rows)?;
    if count != rows.len() || !same(ours, sum) {
        return Err(format!("{count} steps, sums {ours:?} and {sum:?}"));
    }
    Ok(())
}

/// The rows of a job with one list, the same on both sides. That no step is shaded is an error: lists
/// that count for nothing would measure little.
fn compared(job: &Job) -> Result<Vec<Row>, String> {
    let (rows, sum) = published(job, &job.summer)?;
    held(job, &rows, sum)?;
    if !job.window.is_empty() && rows.iter().all(|row| row[5] == 1.0) {
        return Err("no step is shaded".to_string());
    }
    Ok(rows)
}

fn in_leaf(hour: usize) -> bool {
    let day = (hour / 24) as u64;
    SITE.first_leaf_day <= day && day <= SITE.last_leaf_day
}

/// A year of hours with two lists: each row is the published Rust's with the list of its day. That the
/// lists give the same throughout a season is an error.
fn compared_seasons(job: &Job, winter: &[Sector]) -> Result<(), String> {
    let (in_summer, _) = published(job, &job.summer)?;
    let (in_winter, _) = published(job, winter)?;
    let (mut rows, mut sum, mut differing) = (vec![], 0.0, [0, 0]);
    for (hour, (summer, winter)) in in_summer.into_iter().zip(in_winter).enumerate() {
        let row = if in_leaf(hour) { summer } else { winter };
        sum += (row[5] * row[2]) * job.step;
        differing[in_leaf(hour) as usize] += (summer != winter) as usize;
        rows.push(row);
    }
    if differing.contains(&0) {
        return Err(format!("{differing:?} rows differ between the lists"));
    }
    held(job, &rows, sum)
}

/// Microseconds of a run by the published Rust.
fn rust(job: &Job, rows: &mut Vec<Row>) -> f64 {
    let given = published_run::given(job, &job.summer);
    measure::nanoseconds(|| {
        black_box(published_run::run(black_box(job), given, black_box(rows))).unwrap();
    }) / 1000.0
}

/// Microseconds of a run by the library.
fn rattle(lent: &mut Lent) -> f64 {
    measure::nanoseconds(|| {
        black_box(black_box(lent).run()).unwrap();
    }) / 1000.0
}

/// Microseconds of one call, where it is a short one.
fn repeated(mut call: impl FnMut()) -> f64 {
    measure::nanoseconds(|| (0..REPEATED).for_each(|_| call())) / 1000.0 / REPEATED as f64
}

fn print(name: &str, (one, other): (f64, f64)) {
    let digits = if one < 100.0 { 2 } else { 0 };
    let ratio = one / other;
    let places = if ratio < 0.1 { 5 } else { 2 };
    println!("| {name} | {one:.digits$} | {other:.0} | {ratio:.places$} |");
}

fn measure_year(what: &str, edition: u64, lists: Lists, step: f64) -> Result<(), String> {
    let name = format!("{what}, {}", lists.name());
    let job = Job {
        edition,
        ..lists.year(step)
    };
    let mut rows = compared(&job).map_err(|words| format!("{name}: {words}"))?;
    let mut lent = Lent::new(&job, rows.len());
    print(
        &name,
        measure::medians(|| rattle(&mut lent), || rust(&job, &mut rows)),
    );
    Ok(())
}

fn measure_one_step(lists: Lists) -> Result<(), String> {
    let job = lists.one_step();
    let name = |what: &str| format!("{what}, {}", lists.name());
    let named = |words: String| format!("{}: {words}", name("one step"));
    let mut rows = compared(&job).map_err(named)?;
    let mut lent = Lent::new(&job, 1);
    lent.step().map_err(named)?;
    alike(&lent.rows(), &rows).map_err(named)?;

    let by_step = measure::medians(
        || repeated(|| black_box(black_box(&mut lent).step()).unwrap()),
        || rust(&job, &mut rows),
    );
    print(&name("one step, by `pilgartze_step`"), by_step);
    let by_run = measure::medians(
        || {
            repeated(|| {
                black_box(black_box(&mut lent).run()).unwrap();
            })
        },
        || rust(&job, &mut rows),
    );
    print(
        &name("one step, by a run and so with its table of days"),
        by_run,
    );
    Ok(())
}

/// The library alone: the hour's sun and factor are worked out once an hour in both.
fn measure_quarter_hours(lists: Lists) {
    let (quarters, hours) = (lists.year(0.25), lists.year(1.0));
    let mut quarters = Lent::new(&quarters, 4 * HOURS);
    let mut hours = Lent::new(&hours, HOURS);
    println!("| the library alone | quarter-hours, µs | hours, µs | quarter-hours / hours |");
    println!("|---|---:|---:|---:|");
    print(
        &format!("a year, {}", lists.name()),
        measure::medians(|| rattle(&mut quarters), || rattle(&mut hours)),
    );
}

/// The library alone: the same year with two lists and with one.
fn measure_seasons(lists: Lists) -> Result<(), String> {
    let Lists(sectors, objects, near) = lists;
    let year = lists.year(1.0);
    let mut one_list = Lent::new(&year, HOURS);
    println!("| the library alone | two lists, µs | one list, µs | two lists / one list |");
    println!("|---|---:|---:|---:|");
    for bare in [objects, 1] {
        let name = format!(
            "a year, {sectors} × {objects} objects in summer, {sectors} × {bare} in winter, and {near}"
        );
        let job = lists.two_lists(Lists(sectors, bare, near));
        compared_seasons(&job, job.winter.as_deref().expect("a winter list"))
            .map_err(|words| format!("{name}: {words}"))?;
        let mut two_lists = Lent::new(&job, HOURS);
        let (two, one) = measure::medians(|| rattle(&mut two_lists), || rattle(&mut one_list));
        println!("| {name} | {two:.0} | {one:.0} | {:.3} |", two / one);
    }
    Ok(())
}

/// The library alone: a year of hours with two lists.
fn measure_seasons_alone(lists: Lists) -> Result<(), String> {
    let job = lists.two_lists(lists);
    let mut lent = Lent::new(&job, HOURS);
    lent.run()?;
    let name = format!("a year of hours, two lists, µs: {}", lists.name());
    measure::alone(&name, lent.shaded(), || rattle(&mut lent));
    Ok(())
}

/// The library alone: a year by hours in both editions and by quarter-hours, a run of one step, and the step by itself.
fn measure_alone(lists: Lists) -> Result<(), String> {
    for (what, edition, step, count) in [
        ("a year of hours", EDITION_1, 1.0, HOURS),
        ("a year of hours, edition 2", EDITION_2, 1.0, HOURS),
        ("a year of quarter-hours", EDITION_1, 0.25, 4 * HOURS),
    ] {
        let year = Job {
            edition,
            ..lists.year(step)
        };
        let mut lent = Lent::new(&year, count);
        lent.run()?;
        let name = format!("{what}, µs: {}", lists.name());
        measure::alone(&name, lent.shaded(), || rattle(&mut lent));
    }
    let hour = lists.one_step();
    let mut lent = Lent::new(&hour, 1);
    lent.run()?;
    let name = format!("a run of one step, µs: {}", lists.name());
    measure::alone(&name, lent.shaded(), || {
        repeated(|| {
            black_box(black_box(&mut lent).run()).unwrap();
        })
    });
    lent.step()?;
    let factor = lent.rows()[0][5];
    let name = format!("`pilgartze_step`, µs: {}", lists.name());
    measure::alone(&name, factor, || {
        repeated(|| black_box(black_box(&mut lent).step()).unwrap())
    });
    Ok(())
}

fn run() -> Result<(), String> {
    let (usual, heavy, none) = (Lists(36, 2, 4), Lists(36, 8, 16), Lists(1, 0, 0));
    if measure::wants_alone() {
        [usual, heavy, none]
            .into_iter()
            .try_for_each(measure_alone)?;
        return measure_seasons_alone(usual);
    }
    println!("| a run, beside the original form | Rattle, µs | Rust, µs | Rattle / Rust |");
    println!("|---|---:|---:|---:|");
    measure_year("a year of hours", EDITION_1, usual, 1.0)?;
    measure_year("a year of hours, edition 2", EDITION_2, usual, 1.0)?;
    measure_year("a year of hours", EDITION_1, heavy, 1.0)?;
    measure_year("a year of hours", EDITION_1, none, 1.0)?;
    measure_year("a year of quarter-hours", EDITION_1, usual, 0.25)?;
    measure_one_step(usual)?;
    measure_one_step(heavy)?;
    println!();
    measure_quarter_hours(usual);
    println!();
    measure_seasons(usual)
}

fn main() -> ExitCode {
    match run() {
        Ok(()) => ExitCode::SUCCESS,
        Err(words) => {
            eprintln!("bench: {words}");
            ExitCode::from(1)
        }
    }
}
