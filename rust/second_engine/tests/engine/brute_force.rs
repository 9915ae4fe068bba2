//! Small random tables against the plain definitions and against a search.

use crate::calls::{Seed, answered, log_of, ran, walked};
use crate::naive::{self, Configuration, PathEnd, Record};
use second_engine::{Answer, RECORD_BYTES, Refusal, Run, Walk};
use std::collections::BTreeSet;
use tables::random::{self, Shape};
use tables::{Table, WRITTEN_PLACES};

const LOG: usize = RECORD_BYTES * 1_000 + 5;

/// What has been compared.
#[derive(Default, Debug)]
struct Tally {
    reachable: usize,
    unreachable: usize,
    /// Tables with too many paths or records.
    skipped: usize,
    /// Tables for which the search met a watched configuration.
    found: usize,
    most_rounds: u16,
    most_steps: u64,
    /// Tables with a record that several reasons add in its first round.
    choices: usize,
    /// Tables with a run whose peak is below the greatest length of the word.
    spread: usize,
    /// Tables with a record whose path has every place, by the processes of its letter.
    full_paths: [usize; 5],
    /// Copied tables that are reachable, and those that are not.
    copied_reachable: usize,
    copied_unreachable: usize,
    /// Copied tables whose start is accepted in a mixed group.
    mixed: usize,
    /// Unreachable ones that saturation without a copy would call reachable.
    misled: usize,
}

/// The bytes of all records.
fn records_bytes(records: &[Record]) -> Vec<u8> {
    records.iter().flat_map(Record::bytes).collect()
}

/// Compares answer and run with the definitions; gives the run if there is one.
fn compare_calls(table: &Table, records: &[Record], path: Option<&[u16]>) -> Option<Vec<u16>> {
    let bytes = table.bytes();
    let transitions = records.len() as u32;
    let rounds = u32::from(records.last().map_or(0, |record| record.round));
    let expected_log = log_of(&records_bytes(records), LOG);
    let (answer, log) = answered(&bytes, LOG);
    assert_eq!(log, expected_log);
    let Some(path) = path else {
        let unreachable = Answer::Unreachable {
            transitions,
            rounds,
        };
        assert_eq!(answer, unreachable);
        let (run, log, _) = ran(&bytes, LOG, 10);
        let no_run = Refusal {
            number: 16,
            place: 0,
        };
        assert_eq!((run, log), (Run::Refused(no_run), expected_log));
        return None;
    };
    let steps = naive::start_steps(records, path);
    let reachable = Answer::Reachable {
        transitions,
        rounds,
        steps: steps as u32,
    };
    assert_eq!(answer, reachable);
    let (run, log, page) = ran(&bytes, LOG, 2_000);
    assert_eq!(log, expected_log);
    if steps > 2_000 {
        let long_run = Refusal {
            number: 11,
            place: 0,
        };
        assert_eq!(run, Run::Refused(long_run));
        return None;
    }
    let rules = naive::unfold(records, path);
    assert_eq!(rules.len() as u64, steps);
    assert_eq!(page[..rules.len()], rules);
    assert!(page[rules.len()..].iter().all(|&number| number == 0));
    let reachable = Run::Reachable {
        transitions,
        rounds,
        steps: steps as u32,
        peak: replay(table, &rules) as u32,
    };
    assert_eq!(run, reachable);
    Some(rules)
}

/// Replays a run by the definition of firing and by the engine's walk; gives its peak.
fn replay(table: &Table, rules: &[u16]) -> usize {
    let mut at = Configuration::start(table);
    let mut peak = at.height(table);
    let mut room = at.word.len();
    let mut counts = [0; 4];
    for &rule in rules {
        let next = at.fire(table, &table.rules[usize::from(rule)]);
        at = next.expect("every rule of a run fires");
        naive::count_step(table, rule, &mut counts);
        peak = peak.max(at.height(table));
        room = room.max(at.word.len());
    }
    assert!(at.watched(table));
    let (walk, pile) = walked(&table.bytes(), rules, room);
    let expected = Walk::Walked {
        states: at.states,
        length: at.word.len(),
        watched: true,
        counts,
        rest: rules.len(),
    };
    assert_eq!(walk, expected);
    assert_eq!(pile, log_of(&at.word, room));
    peak
}

/// Compares one table; tables with too many paths are skipped.
fn compare(table: &Table, budget: usize, tally: &mut Tally) {
    let solved = naive::saturate(table, budget).and_then(|records| {
        let path = naive::start_path(table, &records, budget)?;
        Some((records, path))
    });
    let Some((records, path)) = solved.filter(|(records, _)| records.len() <= 1_000) else {
        tally.skipped += 1;
        return;
    };
    let run = compare_calls(table, &records, path.as_ref().map(|(path, _)| &path[..]));
    let is_spread = |run: Vec<u16>| table.peak(&run) < table.longest_word(&run);
    tally.spread += usize::from(run.is_some_and(is_spread));
    match &path {
        Some((path, _)) => {
            tally.reachable += 1;
            let steps = naive::start_steps(&records, path);
            tally.most_steps = tally.most_steps.max(steps);
        }
        None => tally.unreachable += 1,
    }
    let rounds = records.last().map_or(0, |record| record.round);
    tally.most_rounds = tally.most_rounds.max(rounds);
    tally.choices += usize::from(records.iter().any(|record| record.choices > 1));
    let full = records
        .iter()
        .filter(|record| record.path.len() == WRITTEN_PLACES);
    let sizes: BTreeSet<usize> = full.map(|record| letter_size(table, record)).collect();
    for size in sizes {
        tally.full_paths[size] += 1;
    }
    if table.is_copied() {
        note_copied(table, path, budget, tally);
    }
}

/// Notes what is special about a copied table, by the start's path in its limit.
fn note_copied(table: &Table, path: Option<PathEnd>, budget: usize, tally: &mut Tally) {
    let Some((_, end)) = path else {
        tally.copied_unreachable += 1;
        tally.misled += usize::from(accepts_without_copy(table, budget));
        return;
    };
    tally.copied_reachable += 1;
    tally.mixed += usize::from(table.is_mixed(end));
}

/// Whether the start is accepted if the table's own automaton is saturated.
fn accepts_without_copy(table: &Table, budget: usize) -> bool {
    let records = naive::saturate_from(table, table.watch.clone(), budget);
    let path = records.and_then(|records| naive::start_path(table, &records, budget)?);
    path.is_some()
}

/// How many processes the record's letter has.
fn letter_size(table: &Table, record: &Record) -> usize {
    let letter = usize::from(record.transition.letter);
    table.letters[letter].count_ones() as usize
}

/// Compares random tables of one shape.
fn compare_shape(shape: &Shape, seeds: std::ops::Range<u64>) -> Tally {
    let mut tally = Tally::default();
    for seed in seeds.map(Seed) {
        let table = random::table(&mut seed.rng(), shape);
        compare(&table, 20_000, &mut tally);
    }
    println!("{tally:?}");
    tally
}

#[test]
fn tiny_tables_follow_the_definitions() {
    let tally = compare_shape(&Shape::TINY, 0..6_000);
    assert!(tally.reachable > 2_000 && tally.unreachable > 2_000);
    assert!(tally.spread > 100 && tally.skipped < 100);
    assert!(tally.full_paths[1..=3].iter().all(|&count| count > 10));
    assert!(tally.copied_reachable > 500 && tally.copied_unreachable > 500);
    assert!(tally.mixed > 100 && tally.misled > 20);
}

#[test]
fn dense_tables_follow_the_definitions() {
    let tally = compare_shape(&Shape::DENSE, 50_000..53_000);
    assert!(tally.reachable > 1_000 && tally.unreachable > 600);
    assert!(tally.choices > 1_000 && tally.skipped < 500);
    assert!(tally.mixed > 30 && tally.misled > 5);
}

#[test]
fn middle_tables_follow_the_definitions() {
    let tally = compare_shape(&Shape::MIDDLE, 100_000..101_000);
    assert!(tally.reachable > 300 && tally.unreachable > 300);
    assert!(tally.choices > 300 && tally.spread > 100 && tally.skipped < 150);
    assert!(tally.full_paths[1..=4].iter().all(|&count| count > 10));
    assert!(tally.mixed > 30 && tally.misled > 5);
}

#[test]
fn slow_tables_follow_the_definitions() {
    let mut tally = Tally::default();
    for seed in (200_000..200_150).map(Seed) {
        compare(&random::slow(&mut seed.rng()), 20_000, &mut tally);
    }
    println!("{tally:?}");
    assert!(tally.most_rounds > 100, "{tally:?}");
}

#[test]
fn search_agrees_with_the_answer() {
    let mut tally = Tally::default();
    for seed in (300_000..306_000).map(Seed) {
        let table = random::table(&mut seed.rng(), &Shape::TINY);
        let found = naive::search(&table, 8, 8, 200);
        tally.found += usize::from(found);
        match answered(&table.bytes(), LOG).0 {
            Answer::Reachable { .. } => tally.reachable += 1,
            Answer::Unreachable { .. } => {
                tally.unreachable += 1;
                assert!(!found);
            }
            Answer::Refused(_) => tally.skipped += 1,
        }
    }
    println!("{tally:?}");
    // Nearly all runs of tiny tables are short: the search must find most of them.
    assert!(tally.found * 10 > tally.reachable * 9, "{tally:?}");
    assert!(tally.unreachable > 1_500, "{tally:?}");
}
