//! The table of days, whole.

use super::file::{File, Record};
use crate::comparison::Settings;
use crate::published::days::day_table;

const KIND: u64 = 5;

pub fn file(_settings: &Settings) -> Result<File, String> {
    let mut file = File::default();
    file.push(Record::new(KIND).list(day_table()));
    Ok(file)
}
