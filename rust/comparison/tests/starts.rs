//! How many records a plain search of the start's path tries, worked by hand.

use comparison::records_tried;
use second_engine::{Answer, RECORD_BYTES, answer, scratch_needed};
use tables::{Table, group, named, searches};

const RECORDS: usize = 2_000;
const MOST: usize = 5_000;

/// The records tried for a table whose limit has at most 2,000 records.
fn tried(table: &Table) -> usize {
    let mut log = vec![0; RECORD_BYTES * RECORDS];
    let mut scratch = vec![0; scratch_needed(log.len())];
    let transitions = match answer(&table.bytes(), &mut log, &mut scratch) {
        Answer::Reachable { transitions, .. } | Answer::Unreachable { transitions, .. } => {
            transitions
        }
        Answer::Refused(refusal) => panic!("{refusal:?}"),
    };
    log.truncate(RECORD_BYTES * transitions as usize);
    records_tried(table, &log, MOST)
}

/// A letter that leads from each of two states to both, and a third state that none leads to.
fn branching(letters: usize, goal: u8) -> Table {
    let mut table = Table::new(1, 3, 3);
    let letter = table.letter(1);
    for before in 0..2 {
        for after in 0..2 {
            table.rule(letter, [before; 4], [after; 4], &[]);
        }
    }
    table.pile = vec![letter; letters];
    table.accepting.push(group(&[goal]));
    table
}

#[test]
fn nothing_to_read() {
    assert_eq!(tried(&named::start_pile(0)), 0);
    assert_eq!(tried(&searches::one_record()), 0);
}

#[test]
fn first_path() {
    assert_eq!(tried(&named::t()), 1);
    assert_eq!(tried(&named::start_pile(64)), 64);
    assert_eq!(tried(&branching(9, 0)), 9);
}

/// The last record alone is tried twice.
#[test]
fn second_path() {
    assert_eq!(tried(&branching(9, 1)), 10);
}

/// Two records are tried at the first letter, four at the second, and so on.
#[test]
fn no_path() {
    assert_eq!(tried(&branching(0, 2)), 0);
    assert_eq!(tried(&branching(3, 2)), 2 + 4 + 8);
    assert_eq!(tried(&branching(10, 2)), 2_046);
    assert_eq!(tried(&branching(12, 2)), MOST);
}

/// Copied states are accepted as the plain ones are.
#[test]
fn copied_goal() {
    assert_eq!(tried(&named::staying(1)), 2);
    assert_eq!(tried(&searches::two_worlds()), MOST);
}
