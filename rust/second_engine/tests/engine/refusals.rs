//! Refusals 1 to 9 by all three calls.

use crate::calls::Seed;
use crate::reader::judge;
use second_engine::{Answer, Refusal, Run, Walk, answer, run, walk};
use std::collections::BTreeMap;
use tables::random::{self, Shape};
use tables::{BODY, Rng, bench, damage, named, starts};

/// The refusal that all three calls give for a refused table. No buffer may change, and the
/// buffers' own faults, an empty scratch among them, may not show.
fn refusal_of(table: &[u8], scratch_length: usize) -> Option<Refusal> {
    let mut log = [0xA5; 30];
    let mut scratch = vec![0xA5; scratch_length];
    let mut page = [0xA5A5; 3];
    let mut pile = [0xA5; 3];
    let Answer::Refused(refusal) = answer(table, &mut log, &mut scratch) else {
        return None;
    };
    if refusal.number > 9 {
        return None;
    }
    let given = run(table, &mut log, &mut scratch, &mut page);
    assert_eq!(given, Run::Refused(refusal));
    let given = walk(table, &[0, 1], &mut pile, &mut scratch);
    let refused = Walk::Refused {
        refusal,
        counts: [0; 4],
        rest: 2,
    };
    assert_eq!(given, refused);
    assert_eq!((log, page, pile), ([0xA5; 30], [0xA5A5; 3], [0xA5; 3]));
    assert!(scratch.iter().all(|&byte| byte == 0xA5));
    Some(refusal)
}

fn pair(refusal: Option<Refusal>) -> Option<(u8, usize)> {
    refusal.map(|Refusal { number, place }| (number, place))
}

#[test]
fn specimens_meet_their_refusals() {
    assert_eq!(judge(&damage::sound().bytes()), None);
    assert_eq!(refusal_of(&damage::sound().bytes(), 0), None);
    for specimen in damage::specimens() {
        let expected = Some((specimen.number, specimen.place));
        let name = &specimen.name;
        assert_eq!(judge(&specimen.bytes), expected, "{name}");
        assert_eq!(pair(refusal_of(&specimen.bytes, 0)), expected, "{name}");
        assert_eq!(
            pair(refusal_of(&specimen.bytes, 34_100)),
            expected,
            "{name}"
        );
    }
}

#[test]
fn named_tables_are_judged_alike() {
    let named = named::all().into_iter().map(|(_, table)| table);
    for table in named.chain(bench::all().into_iter().map(|(_, table)| table)) {
        let bytes = table.bytes();
        assert_eq!(pair(refusal_of(&bytes, 0)), judge(&bytes));
    }
}

#[test]
fn random_tables_are_accepted() {
    for seed in (700_000..702_000).map(Seed) {
        for table in [random::any(&mut seed.rng()), starts::table(&mut seed.rng())] {
            let bytes = table.bytes();
            assert_eq!(judge(&bytes), None);
            assert_eq!(refusal_of(&bytes, 0), None);
        }
    }
}

/// The first re-entering transition is refused, whether or not a wide process is its letter's.
#[test]
fn random_wide_re_entries_are_refused() {
    let mut outside = 0;
    for seed in (710_000..711_000).map(Seed) {
        let mut rng = seed.rng();
        let shape = *rng.pick(&[Shape::TINY, Shape::DENSE, Shape::MIDDLE]);
        let table = random::wide_re_entry(&mut rng, &shape);
        let bytes = table.bytes();
        let first = table.watch.iter().position(|watch| table.re_enters(watch));
        let first = first.expect("a re-entering transition");
        let items = table.items();
        let before = items.iter().take_while(|item| item[0] < 4).count() + first;
        let expected = Some((7, items[..before].concat().len()));
        assert_eq!(judge(&bytes), expected);
        assert_eq!(pair(refusal_of(&bytes, 0)), expected);
        let bits = table.letters[usize::from(table.watch[first].letter)];
        outside += usize::from(bits & table.wide_processes() == 0);
    }
    println!("wide processes outside the letter {outside}");
    assert!(outside > 100);
}

/// How many items come before the refused one: of its kind for refusals 4 to 8, in all for the
/// others.
fn items_before(file: &[u8], number: u8, place: usize) -> usize {
    let mut at = 0;
    let mut count = 0;
    while at < place {
        let like = file.get(place) == Some(&file[at]);
        count += usize::from(like || !(4..=8).contains(&number));
        at += 1 + BODY[usize::from(file[at])];
    }
    count
}

#[test]
fn random_damage_is_judged_alike() {
    let mut rng = Rng::new(1);
    println!("seed {}", rng.seed());
    // For each refusal, how many items came before the refused one, and how often.
    let mut met: BTreeMap<u8, BTreeMap<usize, usize>> = BTreeMap::new();
    let full = bench::full_table();
    for round in 0..20_000 {
        let table = match round % 40 {
            0 => full.clone(),
            1 => random::wide_re_entry(&mut rng, &Shape::TINY),
            2..30 => random::table(&mut rng, &Shape::TINY),
            _ => random::table(&mut rng, &Shape::MIDDLE),
        };
        let bytes = damage::damaged(&mut rng, &table);
        let expected = judge(&bytes);
        assert_eq!(pair(refusal_of(&bytes, 0)), expected, "{bytes:?}");
        if let Some((number, place)) = expected {
            let before = items_before(&bytes, number, place);
            *met.entry(number).or_default().entry(before).or_default() += 1;
        }
    }
    // The least number of items before a refused one: a crowd needs four processes, a twin its
    // first, a leftover a process, a start and an end.
    let least = [0, 0, 0, 4, 0, 0, 0, 1, 3];
    for (number, least) in (1..).zip(least) {
        let places = &met[&number];
        assert_eq!(places.keys().next(), Some(&least), "refusal {number}");
        assert!(places.len() > 1, "refusal {number} at later items");
    }
    for (number, places) in met {
        let total: usize = places.values().sum();
        println!("refusal {number}: {total} tables");
        assert!(total > 50, "refusal {number} is rare: {total}");
    }
}

#[test]
fn random_bytes_are_judged_alike() {
    let mut rng = Rng::new(2);
    println!("seed {}", rng.seed());
    for _ in 0..20_000 {
        let mut bytes = vec![0; rng.below(40)];
        for byte in &mut bytes {
            *byte = *rng.pick(&[1, 1, 2, 6, 8, 0, 3, 4, 5, 7, 255, 9]);
        }
        assert_eq!(pair(refusal_of(&bytes, 0)), judge(&bytes), "{bytes:?}");
    }
}
