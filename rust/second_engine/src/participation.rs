//! Who takes part in steps (request 2.5): where a rule fires, the processes of its letter.

use crate::group::{Locations, PROCESSES};
use crate::table::Table;

/// The processes that take part in a step by the rule of this number.
pub fn participants(table: &Table, rule: u16) -> Locations {
    let letter = table.rules[usize::from(rule)].letter;
    table.letters[usize::from(letter)]
}

/// For each process, how many of the fires it takes part in.
pub fn step_counts(table: &Table, fires: &[u16]) -> [usize; PROCESSES] {
    std::array::from_fn(|process| {
        let takes_part = |rule: &&u16| participants(table, **rule).contains(process);
        fires.iter().filter(takes_part).count()
    })
}
