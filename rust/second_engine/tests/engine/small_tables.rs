//! The small tables of document 01 and those of requests 2.2 and 2.4, with the counts of 2.5.

use crate::calls::{answered, ran, walked};
use second_engine::{Answer, RECORD_BYTES, Refusal, Run, Walk, answer};
use tables::{Table, group, named};

const LOG: usize = RECORD_BYTES * 2_000;
const PAGE: usize = 10_000;

fn refused(number: u8, place: usize) -> Refusal {
    Refusal { number, place }
}

/// The run call's figures and the rules of the run.
fn run_of(table: &Table) -> (Run, Vec<u16>) {
    let (given, _, mut page) = ran(&table.bytes(), LOG, PAGE);
    if let Run::Reachable { steps, .. } = given {
        let rest = page.split_off(steps as usize);
        assert!(rest.iter().all(|&number| number == 0));
    }
    (given, page)
}

fn reachable(transitions: u32, rounds: u32, steps: u32, peak: u32) -> Run {
    Run::Reachable {
        transitions,
        rounds,
        steps,
        peak,
    }
}

#[test]
fn t_gives_its_listing() {
    assert_eq!(named::t().bytes().len(), 76);
    assert_eq!(run_of(&named::t()), (reachable(3, 2, 3, 1), vec![0, 1, 2]));
}

#[test]
fn t_log_is_exact() {
    let (_, log) = answered(&named::t().bytes(), 92);
    let n = 0xFF;
    let first = [1, 0, n, n, n, 1, n, n, n, 1, 0, 1, 0];
    let second = [2, n, 0, n, n, n, 1, n, n, 1, 0, 2, 0];
    let third = [0, 0, 0, n, n, 1, 1, n, n, 2, 0, 0, 0];
    let mut expected = first.to_vec();
    expected.extend([n, n, n, n, n, n, n, n, n, n, n, n, 1, 0, 0]);
    expected.extend(second);
    expected.extend([n, n, n, n, n, n, n, n, n, n, n, n, 1, 0, 0]);
    expected.extend(third);
    expected.extend([0, 0, 1, 0, n, n, n, n, n, n, n, n, 3, 0, 0]);
    expected.extend([0; 8]);
    assert_eq!(log, expected);
}

#[test]
fn t_variants() {
    let unreachable = Answer::Unreachable {
        transitions: 1,
        rounds: 1,
    };
    let table = named::t_without_rule_2();
    assert_eq!(answered(&table.bytes(), LOG).0, unreachable);
    assert_eq!(run_of(&table).0, Run::Refused(refused(16, 0)));
    let (given, _) = answered(&named::t_without_accepting().bytes(), LOG);
    assert!(matches!(given, Answer::Unreachable { transitions: 3, .. }));
    let at_goal = named::t_at_goal();
    assert_eq!(run_of(&at_goal), (reachable(3, 2, 0, 0), vec![]));
}

#[test]
fn t_with_short_logs_and_scratch() {
    let bytes = named::t().bytes();
    assert!(matches!(answered(&bytes, 84).0, Answer::Reachable { .. }));
    assert_eq!(answered(&bytes, 83).0, Answer::Refused(refused(10, 0)));
    assert_eq!(answered(&bytes, 83).1, vec![0; 83]);
    let mut log = [7; 84];
    let mut scratch = vec![7; 34_030];
    let given = answer(&bytes, &mut log, &mut scratch[..34_029]);
    assert_eq!(given, Answer::Refused(refused(15, 0)));
    assert_eq!((log, scratch[0]), ([7; 84], 7));
    let given = answer(&bytes, &mut log, &mut scratch);
    assert!(matches!(given, Answer::Reachable { .. }));
}

#[test]
fn old_t_is_read_with_six_places() {
    let bytes = named::old_t();
    assert_eq!(bytes.len(), 70);
    assert_eq!(answered(&bytes, LOG).0, Answer::Refused(refused(5, 12)));
}

/// A table without rules has the same bytes whatever places a rule has.
#[test]
fn tables_without_rules_read_alike() {
    let bytes = [
        1, 1, 2, 2, 1, 4, 0, 0, 255, 255, 255, 1, 255, 255, 255, 5, 1, 255, 255, 255, 6, 0, 255,
        255, 255, 7, 0, 8,
    ];
    let (given, _, page) = ran(&bytes, RECORD_BYTES, 1);
    assert_eq!((given, page), (reachable(1, 0, 0, 1), vec![0]));
}

/// Rule 0's path is the records of the six letters that it writes, in their order.
#[test]
fn six_written_letters_have_six_places() {
    let table = named::six_written();
    let run: Vec<u16> = (0..7).collect();
    assert_eq!(run_of(&table), (reachable(7, 2, 7, 2), run));
    let (_, log) = answered(&table.bytes(), 7 * RECORD_BYTES);
    let last = &log[6 * RECORD_BYTES..];
    let path = [0, 0, 1, 0, 2, 0, 3, 0, 4, 0, 5, 0];
    assert_eq!(last[..13], [0, 0, 0, 0, 0, 2, 2, 2, 2, 2, 0, 0, 0]);
    assert_eq!(last[13..], [&path[..], &[7, 0, 0]].concat());
}

#[test]
fn empty_file_is_cut() {
    assert_eq!(answered(&[], LOG).0, Answer::Refused(refused(1, 0)));
}

#[test]
fn t_walks() {
    let bytes = named::t().bytes();
    let walk_of = |rules: &[u16]| walked(&bytes, rules, 3);
    let end = Walk::Walked {
        states: [1, 1, 0xFF, 0xFF],
        length: 0,
        watched: true,
        counts: [2, 2, 0, 0],
        rest: 3,
    };
    assert_eq!(walk_of(&[0, 2, 1]), (end, vec![0, 0, 0]));
    let middle = Walk::Walked {
        states: [0, 1, 0xFF, 0xFF],
        length: 1,
        watched: false,
        counts: [1, 2, 0, 0],
        rest: 2,
    };
    assert_eq!(walk_of(&[0, 2]), (middle, vec![1, 0, 0]));
    let idle = Walk::Refused {
        refusal: refused(12, 0),
        counts: [0; 4],
        rest: 0,
    };
    assert_eq!(walk_of(&[1]), (idle, vec![0, 0, 0]));
    let later = Walk::Refused {
        refusal: refused(12, 2),
        counts: [2, 1, 0, 0],
        rest: 2,
    };
    assert_eq!(walk_of(&[0, 1, 1, 2]), (later, vec![2, 0, 0]));
    let unknown = Walk::Refused {
        refusal: refused(13, 1),
        counts: [1, 1, 0, 0],
        rest: 1,
    };
    assert_eq!(walk_of(&[0, 3, 1]), (unknown, vec![1, 2, 0]));
}

#[test]
fn full_piles() {
    let bytes = named::t().bytes();
    let refused_at = |rest| Walk::Refused {
        refusal: refused(14, 0),
        counts: [0; 4],
        rest,
    };
    assert_eq!(walked(&bytes, &[0, 1, 2], 0), (refused_at(3), vec![]));
    assert_eq!(walked(&bytes, &[0, 1, 2], 1), (refused_at(0), vec![0]));
    let given = walked(&bytes, &[0, 1, 2], 2).0;
    assert!(matches!(given, Walk::Walked { watched: true, .. }));
}

/// Each process has part in the letter of rule 0, in one of its own and in one of two.
#[test]
fn processes_count_their_letters() {
    let bytes = named::six_written().bytes();
    let counts_of = |rules: &[u16]| match walked(&bytes, rules, 6).0 {
        Walk::Walked { counts, .. } | Walk::Refused { counts, .. } => counts,
    };
    assert_eq!(counts_of(&[]), [0; 4]);
    assert_eq!(counts_of(&[0]), [1; 4]);
    assert_eq!(counts_of(&[0, 4, 3]), [1, 1, 2, 2]);
    assert_eq!(counts_of(&[0, 4, 3, 6, 1]), [2, 1, 3, 3]);
    assert_eq!(counts_of(&[0, 4, 3, 6, 1, 5, 2]), [2, 1, 3, 3]);
    assert_eq!(counts_of(&[0, 1, 2, 3, 4, 5, 6]), [3; 4]);
}

#[test]
fn doubling() {
    let (given, run) = run_of(&named::doubling(3));
    assert_eq!(given, reachable(3, 3, 7, 3));
    assert_eq!(run, [0, 1, 2, 2, 1, 2, 2]);
    for (letters, expected) in [(19, 524_287), (20, 1_000_001), (32, 1_000_001)] {
        let bytes = named::doubling(letters).bytes();
        let (given, _) = answered(&bytes, LOG);
        assert!(matches!(given, Answer::Reachable { steps, .. } if steps == expected));
        let (given, log, page) = ran(&bytes, LOG, 524_286);
        assert_eq!(given, Run::Refused(refused(11, 0)));
        assert_eq!(log, answered(&bytes, LOG).1);
        assert!(page.iter().any(|&number| number != 0));
    }
    let (given, _, _) = ran(&named::doubling(19).bytes(), LOG, 524_287);
    assert_eq!(given, reachable(19, 19, 524_287, 19));
    let (given, _, _) = ran(&named::doubling(20).bytes(), LOG, 1_200_000);
    assert_eq!(given, Run::Refused(refused(11, 0)));
}

#[test]
fn idle_processes_have_their_part_in_the_peak() {
    let table = named::idle_station();
    assert_eq!(run_of(&table), (reachable(3, 1, 1, 3), vec![0]));
    assert_eq!(table.longest_word(&[0]), 4);
}

#[test]
fn letters_of_different_processes_are_not_added() {
    let table = named::spread_word();
    let run = [0, 1, 2, 3].repeat(4);
    assert_eq!(table.longest_word(&run), 16);
    assert_eq!(run_of(&table), (reachable(4, 1, 16, 4), run));
}

/// Rule 0 writes a letter of both processes and one of process 1, which has both then.
#[test]
fn letters_of_several_processes_count_at_each() {
    let mut table = Table::new(2, 1, 1);
    let [first, both, second] = [0b11, 0b11, 0b10].map(|bits| table.letter(bits));
    let states = group(&[0, 0]);
    table.rule(first, states, states, &[both, second]);
    table.rule(both, states, states, &[]);
    table.rule(second, states, states, &[]);
    table.accepting.push(states);
    table.pile.push(first);
    assert_eq!(run_of(&table), (reachable(3, 2, 3, 2), vec![0, 1, 2]));
}

#[test]
fn edges_of_pile_and_count() {
    let number = |table: Table| match answered(&table.bytes(), LOG).0 {
        Answer::Refused(refusal) => refusal.number,
        _ => 0,
    };
    assert_eq!(number(named::start_pile(64)), 0);
    assert_eq!(number(named::start_pile(65)), 4);
    for count in 0..=6 {
        assert_eq!(number(named::count(count as usize)), 0);
        let figures = reachable(2, 2 - u32::from(count == 0), count + 1, count.max(1));
        assert_eq!(run_of(&named::count(count as usize)).0, figures);
    }
    assert_eq!(number(named::count(7)), 5);
    assert_eq!(run_of(&named::start_pile(64)).0, reachable(3, 3, 64, 64));
    assert_eq!(run_of(&named::smallest()).0, Run::Refused(refused(16, 0)));
}
