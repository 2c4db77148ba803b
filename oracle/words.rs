//! Words, doubles and hexadecimal digits in lent lists of bytes.
//!
//! Each call gets a buffer against one end of a guarded page. Afterwards the answer and the whole
//! page are compared with what the plain functions below give: the bytes that a call leaves alone
//! as much as those it stores.

use crate::comparison::{same, shown, Outcome, Settings, Tally, With};
use crate::guarded::{Guarded, Side, PAGE};
use crate::probes::{Digits, Probes};
use crate::random::{chief_edges, Random, NAN_PATTERNS};

// --- The same functions, plainly ---

/// Where the k-th whole word stands, if there is one. A part word at the end counts for nothing.
fn word_range(len: usize, k: usize) -> Option<std::ops::Range<usize>> {
    let start = k.checked_mul(8)?;
    let end = start.checked_add(8)?;
    (end <= len).then_some(start..end)
}

pub fn word_count(bytes: &[u8]) -> usize {
    bytes.len() / 8
}

/// Least byte first; 0 where there is no such word.
pub fn word_at(bytes: &[u8], k: usize) -> u64 {
    match word_range(bytes.len(), k) {
        Some(range) => u64::from_le_bytes(bytes[range].try_into().unwrap()),
        None => 0,
    }
}

pub fn double_at(bytes: &[u8], k: usize) -> f64 {
    f64::from_bits(word_at(bytes, k))
}

pub fn store_word(bytes: &mut [u8], k: usize, w: u64) {
    if let Some(range) = word_range(bytes.len(), k) {
        bytes[range].copy_from_slice(&w.to_le_bytes());
    }
}

/// There is one NaN, and this is how it is written.
pub fn store_double(bytes: &mut [u8], k: usize, x: f64) {
    let bits = if x.is_nan() {
        0x7FF8_0000_0000_0000
    } else {
        x.to_bits()
    };
    store_word(bytes, k, bits);
}

fn digits_range(len: usize, at: usize) -> Option<std::ops::Range<usize>> {
    let end = at.checked_add(16)?;
    (end <= len).then_some(at..end)
}

/// Sixteen upper-case hexadecimal digits, the highest first.
pub fn digits_at(bytes: &[u8], at: usize) -> Digits {
    let none = Digits { found: 0, word: 0 };
    let Some(range) = digits_range(bytes.len(), at) else {
        return none;
    };
    let mut word = 0;
    for &byte in &bytes[range] {
        let digit = match byte {
            b'0'..=b'9' => byte - b'0',
            b'A'..=b'F' => byte - b'A' + 10,
            _ => return none,
        };
        word = word << 4 | digit as u64;
    }
    Digits { found: 1, word }
}

pub fn store_digits(bytes: &mut [u8], at: usize, w: u64) {
    if let Some(range) = digits_range(bytes.len(), at) {
        for (place, byte) in bytes[range].iter_mut().enumerate() {
            *byte = b"0123456789ABCDEF"[(w >> (60 - 4 * place)) as usize & 15];
        }
    }
}

// --- Cases ---

const LONGEST: usize = 40;

/// One call's buffer and arguments. `place` is the k of a word or the `at` of digits.
#[derive(Clone)]
struct Case {
    side: Side,
    bytes: Vec<u8>,
    place: usize,
    word: u64,
}

impl Case {
    fn shown(&self) -> String {
        let Case {
            side,
            bytes,
            place,
            word,
        } = self;
        let len = bytes.len();
        format!(
            "  length {len} at the page's {side:?}, place {place}, word {word:016X}\n  bytes  {bytes:02X?}"
        )
    }
}

/// Places at which a sum or a product could wrap around to one inside the buffer.
const FAR_PLACES: [usize; 12] = [
    usize::MAX,
    usize::MAX - 7,
    usize::MAX - 14,
    usize::MAX - 15,
    usize::MAX - 16,
    usize::MAX / 8,
    usize::MAX / 8 + 1,
    usize::MAX / 8 + 2,
    usize::MAX / 2,
    usize::MAX / 2 + 1,
    1 << 32,
    1 << 61,
];

/// Every length with every place up to just past the end, and the far ones, at both ends.
fn each_shape(places: fn(usize) -> usize) -> Vec<(Side, usize, usize)> {
    let mut shapes = vec![];
    for side in [Side::Front, Side::Back] {
        for len in 0..=LONGEST {
            let near = 0..=places(len) + 2;
            shapes.extend(near.chain(FAR_PLACES).map(|place| (side, len, place)));
        }
    }
    shapes
}

fn any_word(random: &mut Random) -> u64 {
    match random.below(8) {
        0 => 0,
        1 => u64::MAX,
        2 => 1 << random.below(64),
        3 => NAN_PATTERNS[random.below(NAN_PATTERNS.len())],
        4 => {
            let chief = chief_edges();
            chief[random.below(chief.len())].to_bits()
        }
        _ => random.word(),
    }
}

fn any_bytes(random: &mut Random, len: usize) -> Vec<u8> {
    let words = (0..len / 8 + 1).flat_map(|_| any_word(random).to_le_bytes());
    let mut bytes: Vec<u8> = words.collect();
    bytes.truncate(len);
    bytes
}

/// Bytes that are digits for the most part, damaged in one place in half of all cases.
fn any_text(random: &mut Random, len: usize) -> Vec<u8> {
    // Off the ends of the digits' ranges, lower case, spaces and line ends, and high bits.
    const DAMAGE: &[u8] = b"/:@G`abcdefg \t\r\n-+.x\x00\x7F\x80\xB0\xC1\xFF";
    let mut bytes: Vec<u8> = (0..len)
        .map(|_| b"0123456789ABCDEF"[random.below(16)])
        .collect();
    if len > 0 && random.below(2) == 0 {
        let place = random.below(len);
        bytes[place] = match random.below(4) {
            0 => random.below(256) as u8,
            _ => DAMAGE[random.below(DAMAGE.len())],
        };
    }
    bytes
}

/// All shapes a few times over, then shapes at random up to the count.
fn cases(
    random: &mut Random,
    count: usize,
    places: fn(usize) -> usize,
    bytes: fn(&mut Random, usize) -> Vec<u8>,
) -> impl Iterator<Item = Case> + '_ {
    let shapes = each_shape(places);
    let ordered = 4 * shapes.len();
    (0..ordered.max(count)).map(move |turn| {
        let pick = if turn < ordered {
            turn % shapes.len()
        } else {
            random.below(shapes.len())
        };
        let (side, len, place) = shapes[pick];
        Case {
            side,
            bytes: bytes(random, len),
            place,
            word: any_word(random),
        }
    })
}

/// Every value of a byte at every one of sixteen digits' places.
fn each_damage(random: &mut Random) -> impl Iterator<Item = Case> + '_ {
    let places = [(Side::Front, 0), (Side::Back, 0), (Side::Back, 5)];
    let each = places
        .into_iter()
        .flat_map(|place| (0..16 * 256).map(move |n| (place, n)));
    each.map(move |((side, at), n)| {
        let mut bytes: Vec<u8> = (0..16 + at)
            .map(|_| b"0123456789ABCDEF"[random.below(16)])
            .collect();
        bytes[at + n / 256] = (n % 256) as u8;
        Case {
            side,
            bytes,
            place: at,
            word: 0,
        }
    })
}

/// What a call gives back.
#[derive(Clone, Copy)]
enum Answer {
    Nothing,
    Count(usize),
    Word(u64),
    Double(f64),
    Digits(Digits),
}

impl Answer {
    fn same(self, other: Answer) -> bool {
        match (self, other) {
            (Answer::Nothing, Answer::Nothing) => true,
            (Answer::Count(a), Answer::Count(b)) => a == b,
            (Answer::Word(a), Answer::Word(b)) => a == b,
            (Answer::Double(a), Answer::Double(b)) => same(a, b),
            (Answer::Digits(a), Answer::Digits(b)) => a == b,
            _ => false,
        }
    }

    fn is_nan(self) -> bool {
        matches!(self, Answer::Double(x) if x.is_nan())
    }

    fn shown(self) -> String {
        match self {
            Answer::Nothing => String::from("no answer"),
            Answer::Count(count) => count.to_string(),
            Answer::Word(word) => format!("{word:016X}"),
            Answer::Double(x) => shown(x),
            Answer::Digits(Digits { found, word }) => format!("found {found}, word {word:016X}"),
        }
    }
}

/// A guarded page, and beside it what its bytes should be.
struct Page {
    guarded: Guarded,
    expected: Vec<u8>,
}

impl Page {
    fn filled(settings: &Settings) -> Page {
        let mut filling = settings.random("page");
        let mut expected = vec![0u8; PAGE];
        expected.fill_with(|| filling.word() as u8);
        let mut guarded = Guarded::holding(PAGE);
        guarded.bytes().copy_from_slice(&expected);
        Page { guarded, expected }
    }

    /// Puts a case's bytes in their place on both sides: where that is.
    fn hold(&mut self, case: &Case) -> std::ops::Range<usize> {
        let len = case.bytes.len();
        let offset = self.guarded.offset(case.side, len);
        let range = offset..offset + len;
        self.expected[range.clone()].copy_from_slice(&case.bytes);
        self.guarded.bytes()[range.clone()].copy_from_slice(&case.bytes);
        range
    }

    /// The first byte that is not as it should be, counted from the buffer's start.
    fn other_byte(&mut self, offset: usize) -> Option<String> {
        let Page { guarded, expected } = self;
        let found = guarded.bytes();
        if found == &expected[..] {
            return None;
        }
        let at = (0..PAGE).find(|&at| found[at] != expected[at]).unwrap();
        Some(format!(
            "byte {}: Rust {:02X}, Rattle {:02X}",
            at as isize - offset as isize,
            expected[at],
            found[at],
        ))
    }
}

/// Runs the cases of one function. `rattle` gets the buffer's address; `rust` gets the same bytes
/// elsewhere. Their answers are compared, then the page with what it should be.
fn compare(
    settings: &Settings,
    name: &'static str,
    cases: impl Iterator<Item = Case>,
    rust: impl Fn(&mut [u8], &Case) -> Answer,
    rattle: impl Fn(*mut u8, usize, &Case) -> Answer,
) -> Outcome {
    let mut page = Page::filled(settings);
    let mut tally = Tally::default();
    for case in cases {
        let (range, len) = (page.hold(&case), case.bytes.len());
        let right = rust(&mut page.expected[range.clone()], &case);
        let start = page.guarded.lend(name, case.side, len, case.place);
        let got = rattle(start, len, &case);

        let compared = tally.compared;
        if !right.same(got) {
            return Err(format!(
                "{name} differs after {compared} cases\n{}\n  Rust   {}\n  Rattle {}",
                case.shown(),
                right.shown(),
                got.shown(),
            ));
        }
        if let Some(other) = page.other_byte(range.start) {
            return Err(format!(
                "{name} leaves other bytes after {compared} cases\n{}\n  {other}",
                case.shown(),
            ));
        }
        tally.compared += 1;
        tally.both_nan += right.is_nan() as u64;
    }
    settings.report(name, With::PlainForm, tally)
}

/// How many words, or digits, a list of that length may have places for.
const WORDS: fn(usize) -> usize = |len| len / 8;
const DIGITS: fn(usize) -> usize = |len| len;

/// Words and doubles read.
fn words_read(settings: &Settings, probes: &Probes) -> Outcome {
    let count = settings.count;
    compare(
        settings,
        "word_count",
        cases(&mut settings.random("word_count"), count, WORDS, any_bytes),
        |bytes, _| Answer::Count(word_count(bytes)),
        |start, len, _| Answer::Count(unsafe { (probes.word_count)(start, len) }),
    )?;
    compare(
        settings,
        "word_at",
        cases(&mut settings.random("word_at"), count, WORDS, any_bytes),
        |bytes, case| Answer::Word(word_at(bytes, case.place)),
        |start, len, case| Answer::Word(unsafe { (probes.word_at)(start, len, case.place) }),
    )?;
    compare(
        settings,
        "double_at",
        cases(&mut settings.random("double_at"), count, WORDS, any_bytes),
        |bytes, case| Answer::Double(double_at(bytes, case.place)),
        |start, len, case| Answer::Double(unsafe { (probes.double_at)(start, len, case.place) }),
    )
}

/// Words and doubles stored.
fn words_stored(settings: &Settings, probes: &Probes) -> Outcome {
    let count = settings.count;
    compare(
        settings,
        "store_word",
        cases(&mut settings.random("store_word"), count, WORDS, any_bytes),
        |bytes, case| {
            store_word(bytes, case.place, case.word);
            Answer::Nothing
        },
        |start, len, case| {
            unsafe { (probes.store_word)(start, len, case.place, case.word) };
            Answer::Nothing
        },
    )?;
    compare(
        settings,
        "store_double",
        cases(
            &mut settings.random("store_double"),
            count,
            WORDS,
            any_bytes,
        ),
        |bytes, case| {
            store_double(bytes, case.place, f64::from_bits(case.word));
            Answer::Nothing
        },
        |start, len, case| {
            let x = f64::from_bits(case.word);
            unsafe { (probes.store_double)(start, len, case.place, x) };
            Answer::Nothing
        },
    )
}

/// Hexadecimal digits read and stored.
fn digits(settings: &Settings, probes: &Probes) -> Outcome {
    let count = settings.count;
    compare(
        settings,
        "digits_at",
        each_damage(&mut settings.random("damaged digits")).chain(cases(
            &mut settings.random("digits_at"),
            count,
            DIGITS,
            any_text,
        )),
        |bytes, case| Answer::Digits(digits_at(bytes, case.place)),
        |start, len, case| Answer::Digits(unsafe { (probes.digits_at)(start, len, case.place) }),
    )?;
    compare(
        settings,
        "store_digits",
        cases(
            &mut settings.random("store_digits"),
            count,
            DIGITS,
            any_text,
        ),
        |bytes, case| {
            store_digits(bytes, case.place, case.word);
            Answer::Nothing
        },
        |start, len, case| {
            unsafe { (probes.store_digits)(start, len, case.place, case.word) };
            Answer::Nothing
        },
    )
}

pub fn section(settings: &Settings, probes: &Probes) -> Outcome {
    settings.heading("words and digits in lists of bytes: plain Rust against Rattle");
    words_read(settings, probes)?;
    words_stored(settings, probes)?;
    digits(settings, probes)
}
