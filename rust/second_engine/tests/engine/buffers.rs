//! Lent buffers of all lengths: what they decide and what they hold afterwards.

use crate::calls::{Seed, answered, junk, junk_page, log_of, ran, walked};
use crate::naive::{Configuration, count_step};
use second_engine::{
    Answer, RECORD_BYTES, Refusal, Run, WALK_SCRATCH, Walk, answer, run, scratch_needed, walk,
};
use tables::random::{self, Shape};
use tables::{Rng, Table, named};

const REFUSED: fn(u8) -> Refusal = |number| Refusal { number, place: 0 };

/// The number of records and the steps, if the limit is not too large for these tests.
fn figures(given: Answer) -> Option<(usize, Option<u32>)> {
    match given {
        Answer::Reachable {
            transitions, steps, ..
        } => Some((transitions as usize, Some(steps))),
        Answer::Unreachable { transitions, .. } => Some((transitions as usize, None)),
        Answer::Refused(_) => None,
    }
}

fn random_table(rng: &mut Rng) -> Table {
    let shape = *rng.pick(&[Shape::TINY, Shape::DENSE, Shape::MIDDLE]);
    random::table(rng, &shape)
}

#[test]
fn logs_around_the_limit() {
    for seed in (400_000..401_000).map(Seed) {
        let mut rng = seed.rng();
        let bytes = random_table(&mut rng).bytes();
        let (given, log) = answered(&bytes, RECORD_BYTES * 1_000);
        let Some((records, _)) = figures(given) else {
            continue;
        };
        let exact = RECORD_BYTES * records;
        let filled = &log[..exact];
        for length in [exact, exact + rng.between(1, 60)] {
            assert_eq!(answered(&bytes, length), (given, log_of(filled, length)));
        }
        if records > 0 {
            let length = rng.below(exact);
            let short = Answer::Refused(REFUSED(10));
            assert_eq!(answered(&bytes, length), (short, vec![0; length]));
            let (given, log, page) = ran(&bytes, length, 7);
            assert_eq!((given, log), (Run::Refused(REFUSED(10)), vec![0; length]));
            assert_eq!(page, ran(&[], length, 7).2);
        }
    }
}

#[test]
fn pages_around_the_steps() {
    for seed in (410_000..411_000).map(Seed) {
        let mut rng = seed.rng();
        let bytes = random_table(&mut rng).bytes();
        let (given, log) = answered(&bytes, RECORD_BYTES * 1_000);
        let Some((_, Some(steps))) = figures(given) else {
            continue;
        };
        let steps = steps as usize;
        let (exact, exact_log, rules) = ran(&bytes, log.len(), steps);
        assert!(matches!(exact, Run::Reachable { steps: s, .. } if s as usize == steps));
        assert_eq!(exact_log, log);
        let (given, _, page) = ran(&bytes, log.len(), steps + 3);
        assert_eq!(given, exact);
        assert_eq!(page, [&rules[..], &[0; 3]].concat());
        if steps > 0 {
            let length = rng.below(steps);
            let (given, short_log, page) = ran(&bytes, log.len(), length);
            assert_eq!(given, Run::Refused(REFUSED(11)));
            assert_eq!(short_log, log);
            assert_eq!(page, ran(&[], log.len(), length).2);
        }
    }
}

#[test]
fn scratch_of_all_lengths() {
    let bytes = named::t().bytes();
    let mut rng = Rng::new(3);
    for (log_length, records) in [
        (0, 0),
        (27, 0),
        (28, 1),
        (83, 2),
        (84, 3),
        (100, 3),
        (28 * 65_535 - 1, 65_534),
        (28 * 65_535, 65_535),
        (28 * 65_535 + 500, 65_535),
    ] {
        let needed = scratch_needed(log_length);
        assert_eq!(needed, 34_000 + 10 * records);
        for length in [0, 33_999, needed - 1] {
            let before = junk(&mut rng, log_length);
            let (mut log, mut scratch) = (before.clone(), vec![9; length]);
            let mut page = junk_page(&mut rng, 5);
            let given = answer(&bytes, &mut log, &mut scratch);
            assert_eq!(given, Answer::Refused(REFUSED(15)));
            let unchanged = page.clone();
            let given = run(&bytes, &mut log, &mut scratch, &mut page);
            assert_eq!(given, Run::Refused(REFUSED(15)));
            assert_eq!((log, page), (before, unchanged));
            assert_eq!(scratch, vec![9; length]);
        }
        for length in [needed, needed + 999] {
            let (mut log, mut scratch) = (vec![9; log_length], vec![9; length]);
            let given = answer(&bytes, &mut log, &mut scratch);
            assert_eq!(given == Answer::Refused(REFUSED(10)), records < 3);
            assert_eq!(scratch, vec![0; length]);
            assert!(log.iter().skip(84).all(|&byte| byte == 0));
        }
    }
}

#[test]
fn an_empty_limit_needs_no_log() {
    let mut table = named::smallest();
    let none = Answer::Unreachable {
        transitions: 0,
        rounds: 0,
    };
    assert_eq!(answered(&table.bytes(), 0).0, none);
    table.accepting.push(table.start);
    let empty_run = Run::Reachable {
        transitions: 0,
        rounds: 0,
        steps: 0,
        peak: 0,
    };
    assert_eq!(ran(&table.bytes(), 0, 0).0, empty_run);
}

#[test]
fn short_walk_scratch() {
    let bytes = named::t().bytes();
    for length in [0, WALK_SCRATCH - 1] {
        // Too short a scratch hides too short a pile.
        for room in [0, 5] {
            let (mut pile, mut scratch) = (vec![9; room], vec![9; length]);
            let given = walk(&bytes, &[0, 7], &mut pile, &mut scratch);
            let refused = Walk::Refused {
                refusal: REFUSED(15),
                counts: [0; 4],
                rest: 2,
            };
            assert_eq!(given, refused);
            assert_eq!((pile, scratch), (vec![9; room], vec![9; length]));
        }
    }
    let mut scratch = vec![9; WALK_SCRATCH + 50];
    walk(&bytes, &[], &mut [9; 5], &mut scratch);
    assert_eq!(scratch, vec![0; WALK_SCRATCH + 50]);
}

/// A list of rules: most of them fire in their turn, some don't, some the table lacks.
fn random_list(rng: &mut Rng, table: &Table) -> Vec<u16> {
    let mut at = Configuration::start(table);
    let mut list = Vec::new();
    for _ in 0..rng.below(12) {
        let fires = |&number: &usize| at.fire(table, &table.rules[number]).is_some();
        let firing: Vec<usize> = (0..table.rules.len()).filter(fires).collect();
        let number = match rng.below(30) {
            0 => table.rules.len() + rng.below(3),
            1 => rng.below(table.rules.len() + 1),
            2 => 0xFFFF,
            _ if firing.is_empty() => rng.below(table.rules.len() + 1),
            _ => *rng.pick(&firing),
        };
        if let Some(rule) = table.rules.get(number) {
            at = at.fire(table, rule).unwrap_or(at);
        }
        list.push(number as u16);
    }
    list
}

/// The walk by the definitions: what the call gives and the pile it leaves.
fn expected_walk(table: &Table, list: &[u16], room: usize) -> (Walk, Vec<u8>) {
    let mut at = Configuration::start(table);
    let mut counts = [0; 4];
    if at.word.len() > room {
        let given = Walk::Refused {
            refusal: REFUSED(14),
            counts,
            rest: list.len(),
        };
        return (given, vec![0xA5; room]);
    }
    for (place, &rule) in list.iter().enumerate() {
        at = match at.step(table, rule, room) {
            Ok(next) => next,
            Err(number) => {
                let given = Walk::Refused {
                    refusal: Refusal { number, place },
                    counts,
                    rest: place,
                };
                return (given, log_of(&at.word, room));
            }
        };
        count_step(table, rule, &mut counts);
    }
    let given = Walk::Walked {
        states: at.states,
        length: at.word.len(),
        watched: at.watched(table),
        counts,
        rest: list.len(),
    };
    (given, log_of(&at.word, room))
}

#[test]
fn walks_follow_the_definitions() {
    let mut met = [0; 17];
    let mut watched = 0;
    for seed in (420_000..430_000).map(Seed) {
        let mut rng = seed.rng();
        let table = random_table(&mut rng);
        let list = random_list(&mut rng, &table);
        let room = match rng.below(3) {
            0 => table.pile.len() + rng.below(3),
            1 => rng.below(10),
            _ => 60,
        };
        let expected = expected_walk(&table, &list, room);
        assert_eq!(walked(&table.bytes(), &list, room), expected);
        match expected.0 {
            Walk::Walked { watched: w, .. } => watched += usize::from(w),
            Walk::Refused {
                refusal, counts, ..
            } => met[usize::from(refusal.number)] += usize::from(counts != [0; 4]),
        }
    }
    println!("refusals after steps by number {met:?}, watched {watched}");
    assert!(met[12] > 500 && met[13] > 500 && met[14] > 500 && watched > 100);
}
