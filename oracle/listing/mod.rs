//! The shade listing: a program that is given listings, whole and damaged, against what the
//! specification and the published Rust make of them, byte for byte.

pub mod expected;
pub mod texts;
pub mod wrong;

use crate::comparison::{Outcome, Settings};
use crate::random::Random;
use expected::{expected, Answers};
use std::io::{ErrorKind, Read, Write};
use std::os::fd::{AsRawFd, RawFd};
use std::process::{ChildStdin, Command, Stdio};
use std::sync::mpsc;
use std::time::{Duration, Instant};
use texts::{listings, Listing, Pieces, NAMES};

/// A program that takes a listing on its standard input, with its arguments.
pub struct Program<'a> {
    pub path: &'a std::path::Path,
    pub arguments: &'a [&'a str],
}

/// A program that takes longer for a listing is stopped.
const PATIENCE: Duration = Duration::from_secs(60);

extern "C" {
    fn ioctl(file: RawFd, request: u64, ...) -> i32;
    fn poll(files: *mut Polled, count: u64, milliseconds: i32) -> i32;
}

const FIONREAD: u64 = 0x541B; // Linux
const POLLERR: i16 = 8;

/// The C library's `struct pollfd`.
#[repr(C)]
struct Polled {
    file: RawFd,
    asked: i16,
    found: i16,
}

/// Nobody reads from the pipe any more.
fn abandoned(pipe: &ChildStdin) -> bool {
    let mut polled = Polled {
        file: pipe.as_raw_fd(),
        asked: 0,
        found: 0,
    };
    unsafe { poll(&mut polled, 1, 0) == 1 && polled.found & POLLERR != 0 }
}

/// Waits for the program to have read all that was written, so that it reads the next piece by
/// itself; but not for long, and not where it has stopped reading.
fn wait_until_read(pipe: &ChildStdin) {
    let start = Instant::now();
    let mut unread = 0i32;
    while unsafe { ioctl(pipe.as_raw_fd(), FIONREAD, &mut unread as *mut i32) } == 0
        && unread > 0
        && start.elapsed() < Duration::from_millis(20)
        && !abandoned(pipe)
    {
        std::thread::yield_now();
    }
}

/// A program may stop reading before the end, as one may at a wrong names line: the rest is then
/// not written, and what it has answered is compared all the same.
fn write_in_pieces(
    mut pipe: ChildStdin,
    bytes: &[u8],
    pieces: Pieces,
    mut random: Random,
) -> std::io::Result<()> {
    let mut rest = bytes;
    while !rest.is_empty() {
        let len = match pieces {
            Pieces::Whole => rest.len(),
            Pieces::Of(len) => len,
            Pieces::UpTo(most) => 1 + random.below(most),
        };
        let (piece, later) = rest.split_at(len.min(rest.len()));
        match pipe.write_all(piece).and_then(|_| pipe.flush()) {
            Err(error) if error.kind() == ErrorKind::BrokenPipe => return Ok(()),
            written => written?,
        }
        if pieces != Pieces::Whole {
            wait_until_read(&pipe);
        }
        rest = later;
    }
    Ok(())
}

/// What the program writes to its standard output.
fn output_of(program: &Program, listing: &Listing, random: Random) -> Result<Vec<u8>, String> {
    let name = program.path.display();
    let mut child = Command::new(program.path)
        .args(program.arguments)
        .stdin(Stdio::piped())
        .stdout(Stdio::piped())
        .spawn()
        .map_err(|error| format!("{name} cannot be run: {error}"))?;
    let input = child.stdin.take().expect("a pipe was asked for");
    let mut output = child.stdout.take().expect("a pipe was asked for");
    let (sender, receiver) = mpsc::channel();
    std::thread::scope(|scope| {
        let writer = scope.spawn(|| write_in_pieces(input, &listing.bytes, listing.pieces, random));
        scope.spawn(move || {
            let mut bytes = vec![];
            let read = output.read_to_end(&mut bytes);
            // nobody waits for it any more where the program was stopped
            let _ = sender.send(read.map(|_| bytes));
        });
        let bytes = receiver.recv_timeout(PATIENCE);
        if bytes.is_err() {
            let _ = child.kill();
        }
        let status = child.wait().map_err(|error| error.to_string())?;
        let bytes = bytes.map_err(|_| format!("{name} does not end"))?;
        let bytes = bytes.map_err(|error| error.to_string())?;
        let written = writer.join().expect("the writer does not panic");
        written.map_err(|error| format!("{name} cannot be written to: {error}"))?;
        match status.success() {
            true => Ok(bytes),
            false => Err(format!("{name} fails: {status}")),
        }
    })
}

/// A line for a message, not too long.
fn shown(line: Option<&[u8]>) -> String {
    let Some(line) = line else {
        return String::from("no line");
    };
    let start = &line[..line.len().min(400)];
    let more = if start.len() < line.len() { ".." } else { "" };
    format!("{}{more} ({} bytes)", start.escape_ascii(), line.len())
}

/// The first line in which two outputs differ, with the listing's line that it answers.
fn difference(listing: &Listing, right: &[u8], got: &[u8]) -> String {
    let split = |bytes: &[u8]| -> Vec<Vec<u8>> {
        bytes
            .split(|&byte| byte == b'\n')
            .map(<[u8]>::to_vec)
            .collect()
    };
    let (input, right, got) = (split(&listing.bytes), split(right), split(got));
    let differs = |&place: &usize| right.get(place) != got.get(place);
    let place = (0..right.len().max(got.len())).find(differs).unwrap_or(0);
    let line = |lines: &[Vec<u8>]| shown(lines.get(place).map(Vec::as_slice));
    format!(
        "listing differs: {}, written in pieces: {:?}\n  line {} of {}\n  listing  {}\n  \
         expected {}\n  got      {}",
        listing.what,
        listing.pieces,
        place + 1,
        input.len(),
        line(&input),
        line(&right),
        line(&got),
    )
}

/// A listing's bytes in a file beside this program, to be tried again.
fn kept(listing: &Listing) -> String {
    let path = std::env::current_exe().map(|path| path.with_file_name("listing"));
    match path.and_then(|path| std::fs::write(&path, &listing.bytes).map(|_| path)) {
        Ok(path) => format!("\n  the whole listing is in {}", path.display()),
        Err(_) => String::new(),
    }
}

/// All listings; the first difference ends it.
pub fn run(settings: &Settings, program: &Program) -> Outcome {
    settings
        .heading("shade listings: the program against the specification and the published Rust");
    let mut answers = Answers::default();
    let mut seeds = settings.random("pieces");
    let (mut count, mut bytes) = (0, 0);
    for listing in listings(settings) {
        let right = expected(&listing.bytes, &mut answers);
        let got = output_of(program, &listing, Random::new(seeds.word(), "pieces"))?;
        if right != got {
            let kept = match settings.print {
                true => kept(&listing),
                false => String::new(),
            };
            return Err(difference(&listing, &right, &got) + &kept);
        }
        count += 1;
        bytes += listing.bytes.len();
    }
    if settings.print {
        println!(
            "  {:<44} {count:>12} listings, {bytes} bytes",
            "shade listing"
        );
    }
    answers.report(settings)
}
