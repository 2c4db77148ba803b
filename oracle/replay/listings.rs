//! Short shade listings, whole and damaged.

use super::file::{File, Record};
use crate::comparison::Settings;
use crate::listing::expected::{expected, Answers};
use crate::listing::texts::{listings, Pieces};

const KIND: u64 = 4;
const LONGEST: usize = 4_000;
const HEADING: &[u8] = b"number factor\n";

/// So many of the known ones, of those with other names and of the random ones.
const EACH: usize = 10;

pub fn file(settings: &Settings) -> Result<File, String> {
    let mut answers = Answers::default();
    let mut file = File::default();
    let mut met: Vec<(bool, usize)> = vec![(true, 0), (false, 0)];
    for listing in listings(settings) {
        let random = listing.what == "a random listing";
        let (_, count) = &mut met[!random as usize];
        let long = listing.bytes.len() > LONGEST || random && listing.bytes.len() < 500;
        if long || *count == EACH || !random && listing.pieces != Pieces::Whole {
            continue;
        }
        *count += 1;
        let right = expected(&listing.bytes, &mut answers);
        let right = right
            .strip_prefix(HEADING)
            .expect("the heading comes first");
        let mut record = Record::new(KIND);
        record
            .word(listing.bytes.len() as u64)
            .word(right.len() as u64)
            .list(&listing.bytes)
            .list(right);
        file.push(&record);
    }
    match file.records == 2 * EACH {
        true => Ok(file),
        false => Err(String::from("too few short listings")),
    }
}
