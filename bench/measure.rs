//! Measuring two sides in turns.

/// Rounds for each side; odd, so that there is a middle one.
pub const ROUNDS: usize = 51;

/// Rounds for one side by itself.
const ROUNDS_ALONE: usize = 5;

fn median(mut times: Vec<f64>) -> f64 {
    times.sort_by(f64::total_cmp);
    times[times.len() / 2]
}

#[repr(C)]
struct Timespec {
    seconds: i64,
    nanoseconds: i64,
}

extern "C" {
    fn clock_gettime(clock: i32, time: *mut Timespec) -> i32;
}

/// Linux's clock that goes while this thread is on a processor, so that waiting for others' work on
/// a loaded machine does not count.
const THREAD_CLOCK: i32 = 3;

fn now() -> i64 {
    let mut time = Timespec {
        seconds: 0,
        nanoseconds: 0,
    };
    let failed = unsafe { clock_gettime(THREAD_CLOCK, &mut time) };
    assert_eq!(failed, 0, "the thread's clock");
    time.seconds * 1_000_000_000 + time.nanoseconds
}

/// Nanoseconds of the processor's time that something takes.
pub fn nanoseconds(what: impl FnOnce()) -> f64 {
    let start = now();
    what();
    (now() - start) as f64
}

/// The medians of both sides. Their rounds are taken in turns, so that a slow spell of the machine
/// meets both.
pub fn medians(mut one: impl FnMut() -> f64, mut other: impl FnMut() -> f64) -> (f64, f64) {
    let (mut one_times, mut other_times) = (vec![], vec![]);
    one(); // the first round of each side warms up and does not count
    other();
    for turn in 0..ROUNDS {
        // each side goes first in every other turn
        if turn % 2 == 0 {
            one_times.push(one());
            other_times.push(other());
        } else {
            other_times.push(other());
            one_times.push(one());
        }
    }
    (median(one_times), median(other_times))
}

/// The median of one side by itself, for `bench/compare`, which takes the turns. Its line has the name,
/// the time and what the answers add up to, so that two libraries' can be held to each other.
pub fn alone(name: &str, answers: f64, mut side: impl FnMut() -> f64) {
    side(); // warms up
    let times = (0..ROUNDS_ALONE).map(|_| side()).collect();
    println!("{name}\t{}\t{:016X}", median(times), answers.to_bits());
}

/// Whether the program is asked for its own side alone.
pub fn wants_alone() -> bool {
    std::env::args().nth(1).as_deref() == Some("--alone")
}

/// Measures both sides and prints a line of the table: the medians and their ratio.
pub fn line(name: &str, rattle: impl FnMut() -> f64, rust: impl FnMut() -> f64) {
    let (rattle, rust) = medians(rattle, rust);
    println!(
        "| {name} | {rattle:.2} | {rust:.2} | {:.2} |",
        rattle / rust
    );
}

pub fn heading(first: &str) {
    println!("| {first} | Rattle, ns | Rust, ns | Rattle / Rust |");
    println!("|---|---:|---:|---:|");
}
