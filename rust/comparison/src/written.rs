//! Rules that write as many letters as they can, or one less, on letters of every size.

use crate::Counts;
use std::ops::RangeInclusive;
use tables::{Table, WRITTEN_PLACES};

/// The numbers of written letters that are counted.
const COUNTED: RangeInclusive<usize> = WRITTEN_PLACES - 1..=WRITTEN_PLACES;
/// How many processes a letter can have.
pub const SIZES: RangeInclusive<usize> = 1..=4;

/// The name of the rules' situations.
const RULE_NAME: &str = "rules";

/// The situations that a comparison of tables is for.
pub fn rule_situations() -> impl Iterator<Item = String> {
    written_situations(RULE_NAME)
}

/// Counts the rules of a table.
pub fn note_rules(table: &Table, counts: &mut Counts) {
    for rule in &table.rules {
        note_written(RULE_NAME, table, rule.letter, rule.written.len(), counts);
    }
}

/// The situations of a rule, or of what is named else and comes from one: each number of written
/// letters that is counted, for a letter of each size.
pub fn written_situations(name: &str) -> impl Iterator<Item = String> {
    let each = COUNTED.flat_map(|written| SIZES.map(move |size| (written, size)));
    each.map(move |(written, size)| situation(name, written, size))
}

/// Counts what has the name, and so many written letters in the place of a letter.
pub fn note_written(name: &str, table: &Table, letter: u8, written: usize, counts: &mut Counts) {
    if COUNTED.contains(&written) {
        let bits = table.letters[usize::from(letter)];
        counts.meet(situation(name, written, bits.count_ones() as usize));
    }
}

fn situation(name: &str, written: usize, size: usize) -> String {
    format!("{name} of {written} letters for one of {size} processes")
}
