//! The copied automaton of request 2.6: its records, the groups that accept, and refusals 7 and 10.

use crate::calls::{answered, ran, walked};
use second_engine::{Answer, Desk, RECORD_BYTES, Refusal, Run, Walk};
use tables::{Group, NO_PART, Process, Table, bench, damage, group, named};

const LOG: usize = RECORD_BYTES * 4_000;
const ZERO: Group = [0; 4];

fn reachable(transitions: u32, rounds: u32, steps: u32) -> Answer {
    Answer::Reachable {
        transitions,
        rounds,
        steps,
    }
}

fn unreachable(transitions: u32, rounds: u32) -> Answer {
    Answer::Unreachable {
        transitions,
        rounds,
    }
}

fn answer_of(table: &Table) -> Answer {
    answered(&table.bytes(), LOG).0
}

/// Letter, before, after and round of a record.
type Row = (u8, Group, Group, u8);

fn row(bytes: &[u8]) -> Row {
    let [letter, round] = [bytes[0], bytes[9]];
    (letter, group(&bytes[1..5]), group(&bytes[5..9]), round)
}

fn rows_of(table: &Table) -> Vec<Row> {
    let (given, log) = answered(&table.bytes(), LOG);
    let (Answer::Reachable { transitions, .. } | Answer::Unreachable { transitions, .. }) = given
    else {
        panic!("{given:?}");
    };
    let records = log.chunks(RECORD_BYTES).take(transitions as usize);
    records.map(row).collect()
}

#[test]
fn re_entry_is_unreachable() {
    let table = named::re_entry();
    let (given, log) = answered(&table.bytes(), 3 * RECORD_BYTES);
    assert_eq!(given, unreachable(3, 1));
    let n = NO_PART;
    let no_path = [n; 12];
    let from_plain = [0, 0, n, n, n, 3, n, n, n, 0, 0, n, n];
    let from_copied = [0, 2, n, n, n, 3, n, n, n, 0, 0, n, n];
    let by_rule = [1, 1, n, n, n, 1, n, n, n, 1, 0, 0, 0];
    let mut expected = Vec::new();
    for (record, steps) in [(from_plain, 0), (from_copied, 0), (by_rule, 1)] {
        expected.extend([&record[..], &no_path, &[steps, 0, 0]].concat());
    }
    assert_eq!(log, expected);
    let no_run = Refusal {
        number: 16,
        place: 0,
    };
    assert_eq!(ran(&table.bytes(), LOG, 5).0, Run::Refused(no_run));
}

/// The copies are numbered after the states of their process.
#[test]
fn four_states_are_copied() {
    let table = named::re_entry_of(4);
    assert_eq!(answer_of(&table), unreachable(3, 1));
    let expected = [
        (0, group(&[0]), group(&[5]), 0),
        (0, group(&[4]), group(&[5]), 0),
        (1, group(&[1]), group(&[1]), 1),
    ];
    assert_eq!(rows_of(&table), expected);
}

/// Five states are too many, also at a process that no re-entering transition has.
#[test]
fn five_states_are_refused() {
    let cases = [
        (named::re_entry_of(5), 24),
        (named::re_entry_of(8), 24),
        (named::staying(5), 10),
    ];
    for (table, place) in cases {
        let bytes = table.bytes();
        let refusal = Refusal { number: 7, place };
        assert_eq!(answer_of(&table), Answer::Refused(refusal));
        assert_eq!(ran(&bytes, LOG, 5).0, Run::Refused(refusal));
        let refused = Walk::Refused {
            refusal,
            counts: [0; 4],
            rest: 0,
        };
        assert_eq!(walked(&bytes, &[], 5).0, refused);
        assert_eq!(Desk::open(&bytes).err(), Some(refusal));
    }
    assert_eq!(answer_of(&named::staying(4)), reachable(6, 0, 0));
}

/// Five states alone are no fault, and neither is re-entry alone.
#[test]
fn narrow_or_leaving_tables_are_accepted() {
    let first_round = |table: &Table| {
        let records = rows_of(table).into_iter();
        records.filter(|(.., round)| *round == 0).count()
    };
    assert_eq!(first_round(&damage::re_entering()), 8 + 4 + 2);
    let mut table = damage::sound();
    assert_eq!(first_round(&table), 3);
    table.processes[2].all = 5;
    assert_eq!(first_round(&table), 3);
}

/// Without re-entry the records have the table's own states, whatever their number.
#[test]
fn tables_without_re_entry_are_not_copied() {
    let both = |state| group(&[NO_PART, state]);
    let expected = [
        (1, both(0), both(1), 0),
        (1, both(1), both(1), 0),
        (0, group(&[0]), group(&[1]), 1),
    ];
    assert_eq!(rows_of(&named::idle_station()), expected);
}

/// One transition of each number of processes, and one that would need no copy beside it.
#[test]
fn a_transition_has_a_copy_for_every_mixture() {
    for size in 1..=4 {
        let mut table = Table::new(4, 1, 2);
        let letter = table.letter((1 << size) - 1);
        table.transition(letter, ZERO, ZERO);
        assert_eq!(answer_of(&table), unreachable(1 << size, 0));
        let other = table.letter(0b0111);
        table.transition(other, ZERO, [1; 4]);
        assert_eq!(answer_of(&table), unreachable((1 << size) + 8, 0));
        let copied = |(_, _, after, _): &Row| {
            after
                .iter()
                .all(|&state| (2..4).contains(&state) || state == NO_PART)
        };
        assert!(rows_of(&table).iter().all(copied));
    }
}

/// The items fall in the order of records, and the processes have different numbers of states.
#[test]
fn round_zero_is_in_order() {
    let mut table = Table::new(2, 1, 1);
    table.processes[1] = Process { line: 2, all: 3 };
    let letters = [0b11, 0b10].map(|bits| table.letter(bits));
    table.transition(letters[1], ZERO, group(&[0, 0]));
    table.transition(letters[0], group(&[0, 2]), group(&[0, 1]));
    table.transition(letters[0], group(&[0, 1]), group(&[0, 2]));
    table.transition(letters[0], group(&[0, 1]), group(&[0, 0]));
    let mut expected = Vec::new();
    for first in [0, 1] {
        for (second, after) in [(1, 3), (1, 5), (2, 4), (4, 3), (4, 5), (5, 4)] {
            expected.push((0, group(&[first, second]), group(&[1, after]), 0));
        }
    }
    for second in [0, 3] {
        let second = group(&[NO_PART, second]);
        expected.push((1, second, group(&[NO_PART, 3]), 0));
    }
    assert_eq!(rows_of(&table), expected);
}

#[test]
fn round_zero_alone_can_be_too_long() {
    let refused = Answer::Refused(Refusal {
        number: 10,
        place: 0,
    });
    for (table, records) in [(named::staying(1), 6), (bench::copied(), 3_200)] {
        let bytes = table.bytes();
        assert_eq!(table.round_zero().len(), records);
        for length in [
            0,
            RECORD_BYTES * table.watch.len(),
            RECORD_BYTES * records - 1,
        ] {
            assert_eq!(answered(&bytes, length), (refused, vec![0; length]));
        }
    }
    let exact = answered(&named::staying(1).bytes(), 6 * RECORD_BYTES).0;
    assert_eq!(exact, reachable(6, 0, 0));
}

/// The rule's record leads to a mixed group, from which the automaton goes on.
#[test]
fn rules_lead_to_mixed_groups() {
    let table = named::mixed_goal();
    let expected = [
        (0, group(&[0]), group(&[2]), 0),
        (0, group(&[2]), group(&[2]), 0),
        (1, group(&[0, 0]), group(&[2, 1]), 1),
    ];
    assert_eq!(rows_of(&table), expected);
    let (given, _, page) = ran(&table.bytes(), LOG, 1);
    let run = Run::Reachable {
        transitions: 3,
        rounds: 1,
        steps: 1,
        peak: 2,
    };
    assert_eq!((given, page), (run, vec![0]));
}

/// With letters of one process each, some on the pile, every mixture is reached and accepted; in
/// other states it is not.
#[test]
fn mixed_groups_accept_as_plain_ones() {
    let mut table = Table::new(4, 2, 2);
    for process in 0..4 {
        let letter = table.letter(1 << process);
        table.transition(letter, ZERO, ZERO);
    }
    for marks in 0..16 {
        table.pile = (0..4).filter(|process| marks >> process & 1 == 1).collect();
        table.accepting = vec![ZERO];
        assert_eq!(answer_of(&table), reachable(8, 0, 0));
        table.accepting = vec![[1, 0, 0, 0], [0, 0, 1, 0], [1; 4]];
        assert_eq!(answer_of(&table), unreachable(8, 0));
    }
}

/// A walk and a desk know the table's own automaton and its states.
#[test]
fn walks_see_no_copy() {
    let mixed = named::mixed_goal().bytes();
    let walked_of = |table: &[u8], rules: &[u16]| match walked(table, rules, 2).0 {
        Walk::Walked {
            states, watched, ..
        } => (states, watched),
        refused => panic!("{refused:?}"),
    };
    assert_eq!(walked_of(&mixed, &[]), (group(&[0, 0]), false));
    assert_eq!(walked_of(&mixed, &[0]), (group(&[0, 1]), true));
    let staying = named::staying(1).bytes();
    assert_eq!(walked_of(&staying, &[]), (group(&[0, 0]), true));
    let re_entry = named::re_entry().bytes();
    assert_eq!(walked_of(&re_entry, &[]), (group(&[0]), false));
    let mut desk = Desk::open(&mixed).expect("an accepted table");
    assert_eq!(desk.fire(0), Ok(0b11));
    assert_eq!((desk.states(), desk.pile()), (group(&[0, 1]), vec![0, 0]));
}
