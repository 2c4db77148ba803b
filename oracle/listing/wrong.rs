//! Shade listings written by this program itself, rightly or wrong in one small way each. The
//! self-test runs it so, and has to find every wrong one.

use super::expected::{judged, values};
use super::NAMES;
use crate::comparison::Outcome;
use crate::published::shading::Judge;
use std::io::{Read, Write};

macro_rules! ways {
    ($($way:ident)*) => {
        #[derive(Clone, Copy, PartialEq)]
        enum Way {
            $($way),*
        }
        /// What is said of each on the command line.
        const WAYS: &[(&str, Way)] = &[$((stringify!($way), Way::$way)),*];
    };
}

ways! {
    Right
    RightAndDoneAtWrongNames
    HeaderMissing
    HeaderOnlyWithLines
    NoInputAccepted
    NamesNotLookedAt
    NamesInAnyCase
    NamesTrimmed
    NamesByTheirStart
    WrongNamesGoOn
    LowerCaseTaken
    TabTaken
    DoubleSpaceTaken
    LeadingSpaceTaken
    TrailingSpaceTaken
    CarriageReturnDropped
    SpacesNotLookedAt
    ElevenTaken
    SignTaken
    HighBitDropped
    ZeroByteEnds
    EmptyLineSkipped
    LastLineDropped
    LineAfterTheLast
    RefusalEnds
    RefusalWithAFactor
    RangeBeforeLine
    TiltAfterOrientation
    AzimuthOf180Taken
    LowerCaseWritten
    LeastByteFirst
    LastLineFeedMissing
    ReadIsALine
    ShortReadIsTheEnd
    LongLineCut
    LongLineDropped
}
use Way::*;

/// The wrong ways by their names, and the right ones, of which the second stops reading at a wrong
/// names line.
pub const RIGHT: [&str; 2] = [WAYS[0].0, WAYS[1].0];
pub fn wrong_ways() -> impl Iterator<Item = &'static str> {
    WAYS[RIGHT.len()..].iter().map(|&(name, _)| name)
}

fn line_as(way: Way, line: &[u8]) -> Vec<u8> {
    let without = |what: &[u8]| line.strip_suffix(what).unwrap_or(line).to_vec();
    match way {
        LowerCaseTaken => line.to_ascii_uppercase(),
        TabTaken => line
            .iter()
            .map(|&b| if b == b'\t' { b' ' } else { b })
            .collect(),
        DoubleSpaceTaken => {
            let mut line = line.to_vec();
            line.dedup_by(|a, b| *a == b' ' && *b == b' ');
            line
        }
        LeadingSpaceTaken => line.strip_prefix(b" ").unwrap_or(line).to_vec(),
        TrailingSpaceTaken => without(b" "),
        CarriageReturnDropped => without(b"\r"),
        SpacesNotLookedAt if line.len() == 169 => {
            let space = |(place, &byte)| if place % 17 == 16 { b' ' } else { byte };
            line.iter().enumerate().map(space).collect()
        }
        ElevenTaken => line[..line.len().min(169)].to_vec(),
        SignTaken => String::from_utf8_lossy(line).replace('+', "0").into_bytes(),
        HighBitDropped => line.iter().map(|&byte| byte & 0x7F).collect(),
        ZeroByteEnds => line
            .split(|&byte| byte == 0)
            .next()
            .unwrap_or(line)
            .to_vec(),
        _ => line.to_vec(),
    }
}

fn answer(way: Way, judge: &mut Judge, line: &[u8]) -> String {
    let line = line_as(way, line);
    let Some(mut values) = values(&line) else {
        let first = line.split(|&byte| byte == b' ').next().unwrap_or(&[]);
        let zeros = " 0000000000000000".repeat(9);
        let altitude = values(&[first, zeros.as_bytes()].concat()).map(|values| values[0]);
        return match altitude {
            Some(x) if way == RangeBeforeLine && !(0.0..=90.0).contains(&x) => "3 -".into(),
            _ => "12 -".into(),
        };
    };
    if way == TiltAfterOrientation {
        values.swap(5, 6);
    }
    if way == AzimuthOf180Taken && values[1] == 180.0 {
        values[1] = 179.999;
    }
    let (number, factor) = judged(judge, &values);
    let bits = match way {
        LeastByteFirst => factor.to_bits().swap_bytes(),
        _ => factor.to_bits(),
    };
    match number {
        0 if way == LowerCaseWritten => format!("0 {bits:016x}"),
        0 => format!("0 {bits:016X}"),
        _ if way == RefusalWithAFactor => format!("{number} 0000000000000000"),
        _ => format!("{number} -"),
    }
}

/// Whether the names line is there as a whole, and wrong.
fn wrong_names(reads: &[Vec<u8>]) -> bool {
    let bytes = || reads.iter().flatten().copied();
    let line = bytes().take_while(|&byte| byte != b'\n');
    bytes().any(|byte| byte == b'\n') && !line.eq(NAMES.bytes())
}

/// All that is read, read by read.
fn reads(way: Way) -> std::io::Result<Vec<Vec<u8>>> {
    let mut input = std::io::stdin().lock();
    let mut buffer = vec![0; 1 << 16];
    let mut reads = vec![];
    loop {
        match input.read(&mut buffer)? {
            0 => return Ok(reads),
            len => reads.push(buffer[..len].to_vec()),
        }
        if way == RightAndDoneAtWrongNames && wrong_names(&reads) {
            return Ok(reads);
        }
    }
}

fn lines(way: Way, mut reads: Vec<Vec<u8>>) -> Vec<Vec<u8>> {
    match way {
        ReadIsALine => reads.iter_mut().for_each(|read| {
            if read.last() != Some(&b'\n') {
                read.push(b'\n');
            }
        }),
        ShortReadIsTheEnd => reads.truncate(1),
        _ => {}
    }
    let all = reads.concat();
    let mut lines: Vec<Vec<u8>> = all
        .split(|&byte| byte == b'\n')
        .map(<[u8]>::to_vec)
        .collect();
    let unended = lines
        .pop()
        .filter(|line| !line.is_empty() || way == LineAfterTheLast);
    lines.extend(unended.filter(|_| way != LastLineDropped));
    match way {
        EmptyLineSkipped => lines.retain(|line| !line.is_empty()),
        LongLineDropped => lines.retain(|line| line.len() <= 4096),
        LongLineCut => {
            let parts = |line: &Vec<u8>| match line.len() {
                0..=4096 => vec![line.clone()],
                _ => line.chunks(4096).map(<[u8]>::to_vec).collect(),
            };
            lines = lines.iter().flat_map(parts).collect();
        }
        _ => {}
    }
    lines
}

fn names_fine(way: Way, line: &[u8]) -> bool {
    match way {
        NamesNotLookedAt => true,
        NamesInAnyCase => line.eq_ignore_ascii_case(NAMES.as_bytes()),
        NamesTrimmed => line.trim_ascii() == NAMES.as_bytes(),
        NamesByTheirStart => line.starts_with(NAMES.as_bytes()),
        _ => line == NAMES.as_bytes(),
    }
}

fn output(way: Way, lines: &[Vec<u8>]) -> String {
    let mut judge = Judge::new();
    let mut output = String::new();
    if way != HeaderMissing && (way != HeaderOnlyWithLines || lines.len() > 1) {
        output += "number factor\n";
    }
    let names = lines.first().is_some_and(|line| names_fine(way, line));
    if !names && !(way == NoInputAccepted && lines.is_empty()) {
        output += "12 -\n";
        if way != WrongNamesGoOn {
            return output;
        }
    }
    for line in lines.iter().skip(1) {
        let answer = answer(way, &mut judge, line);
        output += &answer;
        output += "\n";
        if way == RefusalEnds && !answer.starts_with("0 ") {
            break;
        }
    }
    if way == LastLineFeedMissing {
        output.pop();
    }
    output
}

/// Reads a listing and writes its factors, in that way.
pub fn listing(way: &str) -> Outcome {
    let way = WAYS.iter().find(|(name, _)| *name == way);
    let &(_, way) = way.ok_or("usage: --shade-listing WAY")?;
    let reads = reads(way).map_err(|error| error.to_string())?;
    let output = output(way, &lines(way, reads));
    let written = std::io::stdout().write_all(output.as_bytes());
    written.map_err(|error| error.to_string())
}
