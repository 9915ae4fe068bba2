//! Large tables: full logs, many rounds, deep reasons, long runs, kinds at their ceilings.

use crate::calls::{Seed, answered, ran, walked};
use second_engine::{Answer, RECORD_BYTES, Refusal, Run, Walk};
use std::collections::{HashMap, HashSet};
use tables::random::{self, Shape};
use tables::{Group, Rng, Table, Transition, WRITTEN_PLACES, bench, overlay, searches};

const FULL: usize = RECORD_BYTES * 65_535;
/// Where the path of a record begins.
const PATH: usize = 13;

/// A record as it stands in the log.
struct Record {
    letter: u8,
    before: Group,
    after: Group,
    round: u16,
    rule: u16,
    path: Vec<u16>,
    steps: u32,
}

fn record(bytes: &[u8]) -> Record {
    let group = |at: usize| -> Group { std::array::from_fn(|process| bytes[at + process]) };
    let number = |at: usize| u16::from_le_bytes([bytes[at], bytes[at + 1]]);
    let path = (0..WRITTEN_PLACES).map(|place| number(PATH + 2 * place));
    let steps = PATH + 2 * WRITTEN_PLACES;
    Record {
        letter: bytes[0],
        before: group(1),
        after: group(5),
        round: number(9),
        rule: number(11),
        path: path.take_while(|&number| number != 0xFFFF).collect(),
        steps: u32::from_le_bytes([bytes[steps], bytes[steps + 1], bytes[steps + 2], 0]),
    }
}

impl Record {
    fn transition(&self) -> Transition {
        Transition {
            letter: self.letter,
            before: self.before,
            after: self.after,
        }
    }
}

/// Checks a log for itself: the order, every reason with its rounds and steps, and that no rule
/// adds anything more.
fn audit(table: &Table, log: &[u8], transitions: u32) {
    let (filled, rest) = log.split_at(RECORD_BYTES * transitions as usize);
    assert!(rest.iter().all(|&byte| byte == 0));
    let records: Vec<Record> = filled.chunks(RECORD_BYTES).map(record).collect();
    let key = |r: &Record| (r.round, r.letter, r.before, r.after);
    assert!(records.is_sorted_by(|one, next| key(one) < key(next)));
    let mut watch = table.round_zero();
    watch.sort();
    let first = records.iter().filter(|r| r.round == 0);
    assert!(first.map(Record::transition).eq(watch));
    for record in &records {
        audit_reason(table, &records, record);
    }
    audit_closed(table, &records);
}

fn audit_reason(table: &Table, records: &[Record], record: &Record) {
    if record.round == 0 {
        assert_eq!((record.rule, record.steps), (0xFFFF, 0));
        assert!(record.path.is_empty());
        return;
    }
    let rule = &table.rules[usize::from(record.rule)];
    assert_eq!((record.letter, record.before), (rule.letter, rule.before));
    let path: Vec<&Record> = record
        .path
        .iter()
        .map(|&n| &records[usize::from(n)])
        .collect();
    assert!(
        path.iter()
            .map(|r| r.letter)
            .eq(rule.written.iter().copied())
    );
    let mut states = rule.after;
    for step in &path {
        let bits = table.letters[usize::from(step.letter)];
        assert_eq!(tables::restrict(states, bits), step.before);
        states = overlay(states, step.after);
    }
    assert_eq!(states, record.after);
    // The path needs the round before: else the record had been added earlier.
    let last = path.iter().map(|r| r.round).max().unwrap_or(0);
    assert_eq!(record.round, last + 1);
    let steps = 1 + path.iter().map(|r| r.steps).sum::<u32>();
    assert_eq!(record.steps, steps.min(1_000_001));
}

fn audit_closed(table: &Table, records: &[Record]) {
    let mut ends: HashMap<(u8, Group), Vec<Group>> = HashMap::new();
    for record in records {
        let place = (record.letter, record.before);
        ends.entry(place).or_default().push(record.after);
    }
    for rule in &table.rules {
        let mut reached = HashSet::from([rule.after]);
        for &letter in &rule.written {
            let bits = table.letters[usize::from(letter)];
            let next = |states: &Group| {
                let place = (letter, tables::restrict(*states, bits));
                let ends = ends.get(&place).cloned().unwrap_or_default();
                let states = *states;
                ends.into_iter().map(move |end| overlay(states, end))
            };
            reached = reached.iter().flat_map(next).collect();
        }
        let held = ends.get(&(rule.letter, rule.before));
        let held: HashSet<Group> = held.into_iter().flatten().copied().collect();
        assert!(reached.is_subset(&held));
    }
}

/// Audits a table's log, and replays its run if it has one of at most a million steps; gives
/// the answer.
fn check(table: &Table) -> Answer {
    let bytes = table.bytes();
    let (given, log) = answered(&bytes, FULL);
    match given {
        Answer::Reachable {
            transitions,
            rounds,
            steps,
        } => {
            audit(table, &log, transitions);
            if steps <= 1_000_000 {
                let (run, _, page) = ran(&bytes, FULL, steps as usize);
                let reachable = Run::Reachable {
                    transitions,
                    rounds,
                    steps,
                    peak: table.peak(&page) as u32,
                };
                assert_eq!(run, reachable);
                check_replay(table, &page);
            }
        }
        Answer::Unreachable { transitions, .. } => audit(table, &log, transitions),
        Answer::Refused(_) => assert!(log.iter().all(|&byte| byte == 0)),
    }
    given
}

/// The run ends watched in a pile buffer for its longest word, and is refused in a shorter one.
fn check_replay(table: &Table, rules: &[u16]) {
    let bytes = table.bytes();
    let room = table.longest_word(rules);
    let (walk, _) = walked(&bytes, rules, room);
    assert!(matches!(walk, Walk::Walked { watched: true, .. }));
    if room > 0 {
        let (walk, _) = walked(&bytes, rules, room - 1);
        assert!(matches!(walk, Walk::Refused { refusal, .. } if refusal.number == 14));
    }
}

fn reachable(transitions: u32, rounds: u32, steps: u32) -> Answer {
    Answer::Reachable {
        transitions,
        rounds,
        steps,
    }
}

fn unreachable(transitions: u32, rounds: u32) -> Answer {
    Answer::Unreachable {
        transitions,
        rounds,
    }
}

const SHORT_LOG: Answer = Answer::Refused(Refusal {
    number: 10,
    place: 0,
});

#[test]
fn full_logs() {
    let last = bench::wide(65_535, 2);
    assert_eq!(check(&last), reachable(65_535, 2, 5));
    assert_eq!(answered(&last.bytes(), FULL - 1).0, SHORT_LOG);
    let beyond = answered(&last.bytes(), FULL + 100);
    assert_eq!(beyond.0, reachable(65_535, 2, 5));
    assert!(beyond.1[FULL..].iter().all(|&byte| byte == 0));
    let over = bench::wide(65_536, 2).bytes();
    assert_eq!(answered(&over, FULL).0, SHORT_LOG);
    assert_eq!(
        answered(&over, FULL + 100 * RECORD_BYTES),
        (SHORT_LOG, vec![0; FULL + 100 * RECORD_BYTES])
    );
}

#[test]
fn exact_sizes_in_between() {
    for (records, rounds) in [(128, 2), (500, 3), (2_000, 5), (5_000, 20), (40_000, 4)] {
        let table = bench::wide(records, rounds);
        let given = check(&table);
        let Answer::Reachable {
            transitions,
            rounds: given_rounds,
            ..
        } = given
        else {
            panic!("{given:?}");
        };
        assert_eq!((transitions, given_rounds), (records as u32, rounds as u32));
        assert_eq!(
            answered(&table.bytes(), RECORD_BYTES * records - 1).0,
            SHORT_LOG
        );
    }
}

#[test]
fn many_rounds() {
    assert_eq!(check(&bench::slow(187, 4)), reachable(1_508, 1_500, 1_508));
    assert_eq!(
        check(&bench::odometer(4, 15)),
        reachable(3_855, 3_840, 4_158)
    );
}

#[test]
fn benchmark_tables() {
    assert_eq!(check(&bench::counter()), reachable(1_623, 1_536, 3_094));
    assert_eq!(check(&bench::products()), reachable(65_535, 2, 5));
    assert_eq!(check(&bench::many_paths()), reachable(96, 2, 65));
    assert_eq!(check(&bench::chain()), reachable(200, 200, 200));
    assert_eq!(check(&bench::one_rule()), reachable(220, 1, 1));
    assert_eq!(check(&bench::copied()), reachable(3_300, 1, 1));
    assert_eq!(check(&bench::mixed(30_302, 0, 1)), reachable(821, 6, 1));
    assert_eq!(
        check(&bench::mixed(44_284, 200, 64)),
        reachable(2_990, 8, 66)
    );
}

#[test]
fn searched_tables() {
    assert_eq!(check(&searches::one_record()), unreachable(1, 1));
    assert_eq!(check(&searches::copied_word()), unreachable(3_300, 1));
    assert_eq!(check(&searches::two_worlds()), unreachable(1_921, 1));
    assert_eq!(check(&searches::wide_chain()), reachable(190, 1, 64));
    assert_eq!(check(&searches::deep_word()), reachable(96, 1, 64));
    assert_eq!(check(&searches::dense_search()), unreachable(1_433, 6));
    assert_eq!(check(&searches::six_paths()), reachable(192, 3, 33));
    assert_eq!(check(&searches::shared_head()), reachable(216, 3, 10));
    assert_eq!(check(&searches::hard_1()), reachable(156, 5, 94));
    assert_eq!(check(&searches::hard_2()), reachable(197, 5, 67));
    assert_eq!(check(&searches::product_word()), reachable(61_472, 2, 320));
}

#[test]
fn growing_tables() {
    let figures = |table: Table| match answered(&table.bytes(), FULL).0 {
        Answer::Reachable {
            transitions,
            rounds,
            ..
        } => (transitions, rounds),
        given => panic!("{given:?}"),
    };
    let records = bench::more_records().into_iter().map(figures);
    let expected = (10..=16).map(|power| ((1 << power) - 1, 2));
    assert!(records.eq(expected));
    let rounds = bench::more_rounds()
        .into_iter()
        .map(|table| figures(table).1);
    assert!(rounds.eq([100, 200, 400, 800, 1_600, 3_200, 4_000]));
}

#[test]
fn deep_reasons() {
    let table = bench::odometer(8, 15);
    let (run, _, page) = ran(&table.bytes(), FULL, 66_046);
    let expected = Run::Reachable {
        transitions: 61_471,
        rounds: 61_440,
        steps: 66_046,
        peak: 4_096,
    };
    assert_eq!(run, expected);
    assert_eq!(table.longest_word(&page), 4_607);
    check_replay(&table, &page);
    assert_eq!(answered(&bench::odometer(8, 16).bytes(), FULL).0, SHORT_LOG);
}

#[test]
fn longest_runs() {
    assert_eq!(
        check(&bench::long_run(1_000_000)),
        reachable(19, 19, 1_000_000)
    );
    let longer = bench::long_run(1_000_001);
    assert_eq!(check(&longer), reachable(19, 19, 1_000_001));
    let refused = Run::Refused(Refusal {
        number: 11,
        place: 0,
    });
    let log = RECORD_BYTES * 19;
    assert_eq!(ran(&longer.bytes(), log, 1_100_000).0, refused);
    let (given, _, page) = ran(&bench::long_run(1_000_000).bytes(), log, 1_100_000);
    assert!(matches!(given, Run::Reachable { .. }));
    assert!(page[1_000_000..].iter().all(|&number| number == 0));
}

#[test]
fn full_kinds() {
    let full = bench::full_table();
    assert_eq!(full.bytes().len(), 5_930);
    check(&full);
    check(&bench::full_pile());
    let mut at_ceiling = [0; 8];
    for seed in (500_000..500_060).map(Seed) {
        for kind in [1, 2, 3, 4, 5, 7] {
            let table = random::at_ceiling(&mut seed.rng(), kind);
            let counts = [
                (1, table.processes.len() == 4),
                (2, table.letters.len() == 32),
                (3, table.rules.len() == 200),
                (4, table.watch.len() == 200),
                (5, table.accepting.len() == 64),
                (7, table.pile.len() == 64),
            ];
            let full = counts.contains(&(kind, true));
            at_ceiling[usize::from(kind)] += usize::from(full);
            check(&table);
        }
    }
    println!("tables at the ceiling by kind {at_ceiling:?}");
    assert!([1, 2, 3, 4, 5, 7].iter().all(|&kind| at_ceiling[kind] > 5));
}

/// Checks random tables; counts those reachable, unreachable and refused.
fn check_random(seeds: std::ops::Range<u64>, make: impl Fn(&mut Rng) -> Table) -> [usize; 3] {
    let mut verdicts = [0; 3];
    for seed in seeds.map(Seed) {
        let verdict = match check(&make(&mut seed.rng())) {
            Answer::Reachable { .. } => 0,
            Answer::Unreachable { .. } => 1,
            Answer::Refused(_) => 2,
        };
        verdicts[verdict] += 1;
    }
    println!("reachable, unreachable, refused: {verdicts:?}");
    verdicts
}

#[test]
fn large_random_tables() {
    let verdicts = check_random(600_000..600_060, |rng| random::table(rng, &Shape::LARGE));
    assert!(verdicts[0] > 10 && verdicts[1] > 10);
}

#[test]
fn wide_random_tables() {
    let verdicts = check_random(611_000..611_060, random::wide);
    assert!(verdicts[0] > 10 && verdicts[2] > 1);
}
