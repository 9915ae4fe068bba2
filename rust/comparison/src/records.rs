//! The records of a log, as far as comparisons look into them.

use second_engine::RECORD_BYTES;
use tables::{Group, Transition};

/// The transitions of a log that has whole records alone.
pub fn transitions(log: &[u8]) -> impl Iterator<Item = Transition> {
    log.chunks_exact(RECORD_BYTES).map(transition_of)
}

/// The transition of a record.
pub fn transition_of(record: &[u8]) -> Transition {
    let group = |from: usize| -> Group { std::array::from_fn(|process| record[from + process]) };
    Transition {
        letter: record[0],
        before: group(1),
        after: group(5),
    }
}
