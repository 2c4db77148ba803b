//! Listings, whole and damaged in every way.

use crate::comparison::Settings;
use crate::published::shading::*;
use crate::random::{Random, NAN_PATTERNS};
use crate::shading::call::OBSTACLE;
use crate::shading::scenes::{any_numbers, edges_of_range, Aim};

pub const NAMES: &str =
    "altitude azimuth base height width tilt orientation shade distance transparency";

/// In what pieces a listing is written to the program.
#[derive(Clone, Copy, Debug, PartialEq)]
pub enum Pieces {
    Whole,
    /// All of one length, each once the one before was read.
    Of(usize),
    /// Of any length up to one, likewise.
    UpTo(usize),
}

pub struct Listing {
    pub what: &'static str,
    pub bytes: Vec<u8>,
    pub pieces: Pieces,
}

// --- Lines ---

/// The places of a line's values that sun and surface have in a call.
const NUMBERS: [usize; 7] = [0, 1, 5, 6, 2, 3, 4];
const SHADE: usize = 7;
const DISTANCE: usize = 8;
const TRANSPARENCY: usize = 9;

fn line_of(values: &[f64; 10]) -> Vec<u8> {
    let words = values.map(|x| format!("{:016X}", x.to_bits()));
    words.join(" ").into_bytes()
}

fn any_values(random: &mut Random) -> [f64; 10] {
    let numbers = any_numbers(random);
    let [_, shade, distance, transparency] =
        Aim::new(random, &numbers).window_object(random, OBSTACLE);
    let mut values = [0.0; 10];
    for (place, x) in NUMBERS.into_iter().zip(numbers) {
        values[place] = x;
    }
    values[SHADE] = f64::from_bits(shade);
    values[DISTANCE] = f64::from_bits(distance);
    values[TRANSPARENCY] = f64::from_bits(transparency);
    values
}

fn range_of(place: usize) -> (f64, f64) {
    match place {
        SHADE => (0.0, 1000.0),
        DISTANCE => (0.0, 10_000.0),
        TRANSPARENCY => (0.0, 1.0),
        _ => RANGES[NUMBERS.iter().position(|&number| number == place).unwrap()],
    }
}

/// One value at an edge of its range, in it or not.
fn value_at_an_edge(random: &mut Random) -> [f64; 10] {
    let mut values = any_values(random);
    let place = random.below(10);
    let edges = edges_of_range(range_of(place));
    values[place] = match random.below(4) {
        0 => f64::from_bits(NAN_PATTERNS[random.below(NAN_PATTERNS.len())]),
        1 => random.any_double(),
        _ => edges[random.below(edges.len())],
    };
    values
}

/// A sun that no sector has, inside the beam.
fn between_the_sectors(random: &mut Random) -> [f64; 10] {
    let mut values = any_values(random);
    let (azimuth, orientation) =
        [(180.0, 0.0), (-180.0, 360.0), (200.0, 10.0), (360.0, 180.0)][random.below(4)];
    values[NUMBERS[AZIMUTH]] = azimuth;
    values[NUMBERS[ORIENTATION]] = orientation;
    values
}

fn any_place(random: &mut Random, line: &[u8]) -> usize {
    random.below(line.len().max(1))
}

/// The place of one of the spaces.
fn any_space(random: &mut Random) -> usize {
    16 + 17 * random.below(9)
}

/// A line that is not as described, though it may be so by chance.
fn damaged(random: &mut Random, mut line: Vec<u8>) -> Vec<u8> {
    let place = any_place(random, &line);
    let space = any_space(random);
    match random.below(24) {
        0 => line.make_ascii_lowercase(),
        1 => line[place].make_ascii_lowercase(),
        2 => line.insert(space, b' '),
        3 => line.insert(0, b' '),
        4 => line.push(b' '),
        5 => line.push(b'\r'),
        6 => line[space] = b'\t',
        7 => line[place] = b"/:@G`g-+.xX,;_ \x00\x0B\x0C\r\x7F\x80\xA0\xFF"[random.below(23)],
        8 => line[place] = random.below(256) as u8,
        9 => drop(line.remove(place)),
        10 => drop(line.remove(space)),
        11 => line.insert(place, b'0'),
        12 => line.truncate(place),
        13 => line.truncate(space),
        14 => drop(line.drain(..17)),
        15 => line.extend(b" 0000000000000000"),
        16 => line.extend_from_slice(&[b" ", &line.clone()[..]].concat()),
        17 => line.clear(),
        18 => line = vec![b' '; random.below(200)],
        19 => line = NAMES.into(),
        20 => line.extend("\u{a0}\u{2028}".bytes()),
        21 => line = [b"\xEF\xBB\xBF", &line[..]].concat(),
        22 => line = long_line(random, &line),
        _ => line.swap(place, space),
    }
    line
}

/// Up to some 100,000 bytes.
fn long_line(random: &mut Random, line: &[u8]) -> Vec<u8> {
    let len = match random.below(4) {
        0 => [255, 256, 257, 4095, 4096, 4097, 65_535, 65_536, 65_537][random.below(9)],
        1 => random.below(100_000),
        _ => random.below(2_000),
    };
    let more: Vec<u8> = match random.below(4) {
        0 => vec![b'0'; len],
        1 => vec![b' '; len],
        2 => line.iter().chain(b" ").copied().cycle().take(len).collect(),
        _ => (0..len)
            .map(|_| random.below(256) as u8)
            .filter(|&byte| byte != b'\n')
            .collect(),
    };
    match random.below(2) {
        0 => [line, &more[..]].concat(),
        _ => [&more[..], line].concat(),
    }
}

fn any_line(random: &mut Random) -> Vec<u8> {
    match random.below(16) {
        0..=7 => line_of(&any_values(random)),
        8 | 9 => line_of(&value_at_an_edge(random)),
        10 => line_of(&between_the_sectors(random)),
        n => {
            let values = match n {
                11 => value_at_an_edge(random),
                _ => any_values(random),
            };
            damaged(random, line_of(&values))
        }
    }
}

// --- Listings ---

fn with_names(lines: &[Vec<u8>]) -> Vec<u8> {
    let mut bytes = Vec::from(NAMES);
    bytes.push(b'\n');
    for line in lines {
        bytes.extend(line);
        bytes.push(b'\n');
    }
    bytes
}

/// The specification's own line: at altitude 0, a near obstacle of 1 m before a height of 2 m.
fn example() -> Vec<u8> {
    line_of(&[0.0, 0.0, 0.0, 2.0, 1.0, 90.0, 180.0, 1.0, 1.0, 0.5])
}

fn any_pieces(random: &mut Random, len: usize) -> Pieces {
    match (random.below(8), len) {
        (0, _) => Pieces::Whole,
        (1, 0..=2_000) => Pieces::Of(1),
        (1, 2_001..=200_000) => Pieces::Of([169, 170, 171, 511][random.below(4)]),
        (2 | 3, 0..=20_000) => Pieces::UpTo(40),
        (4, _) => Pieces::Of([4095, 4096, 4097, 65_536][random.below(4)]),
        (5, _) => Pieces::UpTo(65_536),
        _ => Pieces::UpTo(4_000),
    }
}

fn joined(parts: &[&[u8]]) -> Vec<u8> {
    parts.concat()
}

/// What a listing is, and its bytes.
type Known = (&'static str, Vec<u8>);

/// Names and the example, with empty lines or without some of it.
fn known_lines(names: &[u8], line: &[u8]) -> Vec<Known> {
    vec![
        ("the example", joined(&[names, b"\n", line, b"\n"])),
        (
            "the example without its last line feed",
            joined(&[names, b"\n", line]),
        ),
        ("no input", vec![]),
        ("names alone", joined(&[names, b"\n"])),
        ("names alone, no line feed", names.to_vec()),
        ("names and an empty line", joined(&[names, b"\n\n"])),
        (
            "names, an empty line and the example",
            joined(&[names, b"\n\n", line, b"\n"]),
        ),
        (
            "the example and an empty line",
            joined(&[names, b"\n", line, b"\n\n"]),
        ),
    ]
}

/// Line feeds alone, and carriage returns.
fn known_line_ends(names: &[u8], line: &[u8]) -> Vec<Known> {
    vec![
        ("a line feed", b"\n".to_vec()),
        ("three line feeds", b"\n\n\n".to_vec()),
        ("a carriage return", b"\r\n".to_vec()),
        ("carriage returns", joined(&[names, b"\r\n", line, b"\r\n"])),
        (
            "carriage returns after the names",
            joined(&[names, b"\n", line, b"\r\n", line]),
        ),
    ]
}

/// Names that are missing, out of place or not alone, and bytes that do not belong.
fn known_misplaced(names: &[u8], line: &[u8]) -> Vec<Known> {
    vec![
        (
            "an empty line before the names",
            joined(&[b"\n", names, b"\n", line, b"\n"]),
        ),
        ("no names", joined(&[line, b"\n", line, b"\n"])),
        (
            "names twice",
            joined(&[names, b"\n", names, b"\n", line, b"\n"]),
        ),
        (
            "names and the line in one",
            joined(&[names, b" ", line, b"\n"]),
        ),
        (
            "a byte order mark",
            joined(&[b"\xEF\xBB\xBF", names, b"\n", line, b"\n"]),
        ),
        ("a space and no more", joined(&[names, b"\n "])),
        (
            "a zero byte at the end",
            joined(&[names, b"\n", line, b"\n\0"]),
        ),
        (
            "names in two lines",
            joined(&[&names[..8], b"\n", &names[9..], b"\n", line, b"\n"]),
        ),
    ]
}

/// Short listings whose answer the specification gives in so many words, each byte by byte and
/// whole.
fn known() -> Vec<Known> {
    let names = NAMES.as_bytes();
    let line = &example();
    [
        known_lines(names, line),
        known_line_ends(names, line),
        known_misplaced(names, line),
    ]
    .concat()
}

/// Every byte at each place of a line.
fn every_byte(mut random: Random) -> impl Iterator<Item = Listing> {
    let line = example();
    (0..=line.len()).map(move |place| {
        let lines: Vec<Vec<u8>> = (0..=255)
            .map(|byte| {
                let mut line = line.clone();
                match line.get_mut(place) {
                    Some(there) => *there = byte,
                    None => line.push(byte),
                }
                line
            })
            .collect();
        let bytes = with_names(&lines);
        Listing {
            what: "every byte at a place",
            pieces: any_pieces(&mut random, bytes.len()),
            bytes,
        }
    })
}

/// A names line that is wrong in one place, or longer.
fn wrong_names(mut random: Random) -> impl Iterator<Item = Listing> {
    let right = NAMES.len();
    (0..4 * right + 40).map(move |turn| {
        let mut names: Vec<u8> = NAMES.into();
        let place = turn % right;
        match turn / right {
            0 => names[place] ^= 0x20, // the other case; a space becomes a zero byte
            1 => drop(names.remove(place)),
            2 => names.insert(place, names[place]),
            3 => names[place] = random.below(256) as u8,
            _ => match turn % 8 {
                0 => names.push([b' ', b'\r', b'\t', 0, 0xFF][random.below(5)]),
                1 => names.insert(0, b' '),
                2 => names.truncate(random.below(right)),
                3 => names.extend(b" transparency"),
                4 => names = names.iter().copied().cycle().take(100_000).collect(),
                5 => {
                    names = (0..random.below(100_000))
                        .map(|_| random.word() as u8)
                        .collect()
                }
                6 => {
                    names = NAMES
                        .replacen("tilt orientation", "orientation tilt", 1)
                        .into()
                }
                _ => names.make_ascii_uppercase(),
            },
        }
        let lines = [example(), example()];
        let mut bytes = names;
        bytes.extend(&with_names(&lines)[right..]);
        Listing {
            what: "a wrong names line",
            pieces: any_pieces(&mut random, bytes.len()),
            bytes,
        }
    })
}

fn any_listing(random: &mut Random) -> Listing {
    let count = match random.below(8) {
        0 => random.below(3),
        1..=3 => random.below(20),
        4..=6 => random.below(300),
        _ => random.below(4_000),
    };
    let lines: Vec<Vec<u8>> = (0..count).map(|_| any_line(random)).collect();
    let mut bytes = with_names(&lines);
    match random.below(8) {
        0 => drop(bytes.pop()),
        1 => bytes.truncate(random.below(bytes.len() + 1)),
        _ => {}
    }
    Listing {
        what: "a random listing",
        pieces: any_pieces(random, bytes.len()),
        bytes,
    }
}

/// The listings of the specification's words, byte by byte and otherwise.
fn known_listings() -> impl Iterator<Item = Listing> {
    known().into_iter().flat_map(|(what, bytes)| {
        [Pieces::Of(1), Pieces::UpTo(7), Pieces::Whole].map(|pieces| Listing {
            what,
            bytes: bytes.clone(),
            pieces,
        })
    })
}

/// All listings, a random one for each thousand cases of other functions.
pub fn listings(settings: &Settings) -> impl Iterator<Item = Listing> {
    let mut random = settings.random("listings");
    known_listings()
        .chain(wrong_names(settings.random("names")))
        .chain((0..settings.count / 1000).map(move |_| any_listing(&mut random)))
        .chain(every_byte(settings.random("every byte")))
}
