//! The desk of request 2.1, with the counts of request 2.5.

use crate::calls::Seed;
use crate::naive::{Configuration, count_step, participants};
use second_engine::{COUNT_CEILING, DESK_PILE, Desk, NAMES, Refusal};
use tables::random::{self, Shape};
use tables::{NO_PART, Rng, Table, WRITTEN_PLACES, damage, named};

fn opened(table: &Table) -> Desk {
    Desk::open(&table.bytes()).expect("an accepted table")
}

fn refused<T>(number: u8) -> Result<T, Refusal> {
    Err(Refusal { number, place: 0 })
}

/// The first two processes' states, and the pile.
fn sight(desk: &Desk) -> ([u8; 2], Vec<u8>) {
    let [first, second, ..] = desk.states();
    ([first, second], desk.pile())
}

/// One process of one state: rule n writes the only letter n times.
fn heap() -> Table {
    let mut table = Table::new(1, 1, 1);
    let letter = table.letter(1);
    for count in 0..=WRITTEN_PLACES {
        table.rule(letter, [0; 4], [0; 4], &vec![letter; count]);
    }
    table.pile.push(letter);
    table
}

#[test]
fn t_fires() {
    let mut desk = opened(&named::t());
    assert_eq!(desk.states(), [0, 0, NO_PART, NO_PART]);
    assert_eq!(sight(&desk), ([0, 0], vec![0]));
    assert_eq!(desk.firing(), [0]);
    assert_eq!(desk.fire(1), refused(12));
    assert_eq!(sight(&desk), ([0, 0], vec![0]));
    assert_eq!(desk.counts(), [0; 4]);
    for (rule, bits, counts, states, pile) in [
        (0, 0b11, [1, 1, 0, 0], [0, 0], &[1, 2][..]),
        (2, 0b10, [1, 2, 0, 0], [0, 1], &[1]),
        (1, 0b01, [2, 2, 0, 0], [1, 1], &[]),
    ] {
        assert_eq!(desk.fire(rule), Ok(bits));
        assert_eq!(desk.counts(), counts);
        assert_eq!(sight(&desk), (states, pile.to_vec()));
    }
    assert_eq!(desk.firing(), []);
    assert_eq!(desk.fire(0), refused(12));
    for absent in [3, 256, 0xFFFF] {
        assert_eq!(desk.fire(absent), refused(13));
    }
    assert_eq!(sight(&desk), ([1, 1], vec![]));
    assert_eq!(desk.counts(), [2, 2, 0, 0]);
}

#[test]
fn refused_tables_have_no_desk() {
    for specimen in damage::specimens() {
        let (number, place) = (specimen.number, specimen.place);
        let given = Desk::open(&specimen.bytes).err();
        let expected = Some(Refusal { number, place });
        assert_eq!(given, expected, "{}", specimen.name);
    }
    assert_eq!(opened(&named::start_pile(64)).pile().len(), 64);
}

#[test]
fn piles_have_room_for_256_letters() {
    let mut desk = opened(&heap());
    for _ in 0..51 {
        assert_eq!(desk.fire(6), Ok(1));
    }
    assert_eq!(desk.pile(), [0; DESK_PILE]);
    for rule in 2..=6 {
        assert_eq!(desk.fire(rule), refused(14));
    }
    assert_eq!(desk.fire(1), Ok(1));
    assert_eq!(desk.pile(), [0; 256]);
    assert_eq!(desk.firing(), [0, 1, 2, 3, 4, 5, 6]);
    assert_eq!(desk.fire(0), Ok(1));
    assert_eq!(desk.fire(3), refused(14));
    assert_eq!(desk.fire(2), Ok(1));
    assert_eq!(desk.pile(), [0; 256]);
    assert_eq!(desk.counts(), [54, 0, 0, 0]);
}

/// An idle rule that would write too much is idle.
#[test]
fn idle_comes_before_full() {
    let mut table = heap();
    let other = table.letter(1);
    table.rule(other, [0; 4], [0; 4], &[0; WRITTEN_PLACES]);
    let mut desk = opened(&table);
    for _ in 0..51 {
        assert_eq!(desk.fire(6), Ok(1));
    }
    assert_eq!(desk.fire(7), refused(12));
    assert_eq!(desk.fire(6), refused(14));
}

#[test]
fn names_are_checked() {
    let mut desk = opened(&named::t());
    for name in 0..8 {
        assert_eq!(desk.return_to(name), refused(17));
        assert_eq!(desk.forget(name), refused(17));
    }
    for name in [8, 9, 0xFF] {
        assert_eq!(desk.save(name), refused(18));
        assert_eq!(desk.return_to(name), refused(18));
        assert_eq!(desk.forget(name), refused(18));
    }
    assert_eq!(desk.save(7), Ok(()));
    assert_eq!(desk.return_to(6), refused(17));
    assert_eq!(desk.return_to(7), Ok(()));
    assert_eq!(desk.forget(7), Ok(()));
    assert_eq!(desk.forget(7), refused(17));
    assert_eq!(desk.return_to(7), refused(17));
}

#[test]
fn a_return_keeps_every_name() {
    let mut desk = opened(&named::t());
    assert_eq!(desk.save(0), Ok(()));
    assert_eq!(desk.fire(0), Ok(0b11));
    assert_eq!(desk.save(1), Ok(()));
    assert_eq!(desk.fire(2), Ok(0b10));
    assert_eq!(desk.save(2), Ok(()));
    let stands = [([0, 0], vec![0]), ([0, 0], vec![1, 2]), ([0, 1], vec![1])];
    for name in [0, 2, 2, 1, 0, 1] {
        assert_eq!(desk.return_to(name), Ok(()));
        assert_eq!(sight(&desk), stands[usize::from(name)]);
    }
    // Fires go on from the noted history, and a name does not follow them.
    assert_eq!(desk.fire(1), Ok(0b01));
    assert_eq!(sight(&desk), ([1, 0], vec![2]));
    assert_eq!(desk.return_to(1), Ok(()));
    assert_eq!(sight(&desk), stands[1]);
}

#[test]
fn saving_over_a_name_replaces_it() {
    let mut desk = opened(&named::t());
    assert_eq!(desk.save(3), Ok(()));
    assert_eq!(desk.save(4), Ok(()));
    assert_eq!(desk.fire(0), Ok(0b11));
    assert_eq!(desk.save(3), Ok(()));
    assert_eq!(desk.forget(4), Ok(()));
    assert_eq!(desk.return_to(4), refused(17));
    assert_eq!(sight(&desk), ([0, 0], vec![1, 2]));
    assert_eq!(desk.fire(1), Ok(0b01));
    assert_eq!(desk.return_to(3), Ok(()));
    assert_eq!(sight(&desk), ([0, 0], vec![1, 2]));
}

/// Only a fire and a return that are not refused change the counts.
#[test]
fn a_return_begins_the_counts_again() {
    let mut desk = opened(&named::t());
    assert_eq!(desk.fire(0), Ok(0b11));
    assert_eq!(desk.save(0), Ok(()));
    assert_eq!(desk.save(1), Ok(()));
    assert_eq!(desk.forget(1), Ok(()));
    assert_eq!(desk.counts(), [1, 1, 0, 0]);
    assert_eq!(desk.fire(0), refused(12));
    assert_eq!(desk.return_to(1), refused(17));
    assert_eq!(desk.forget(1), refused(17));
    assert_eq!(desk.save(8), refused(18));
    assert_eq!(desk.counts(), [1, 1, 0, 0]);
    assert_eq!(desk.return_to(0), Ok(()));
    assert_eq!(desk.counts(), [0; 4]);
    assert_eq!(desk.fire(2), Ok(0b10));
    assert_eq!(desk.counts(), [0, 1, 0, 0]);
}

#[test]
fn counts_stop_at_the_ceiling() {
    let before = [COUNT_CEILING - 1, COUNT_CEILING - 2, 0, 0];
    let mut desk = Desk::resume(&named::t().bytes(), before).expect("an accepted table");
    assert_eq!(desk.save(0), Ok(()));
    assert_eq!(desk.counts(), before);
    for (rule, counts) in [
        (0, [4_294_967_295, 4_294_967_294, 0, 0]),
        (1, [4_294_967_295, 4_294_967_294, 0, 0]),
        (2, [4_294_967_295, 4_294_967_295, 0, 0]),
    ] {
        assert!(desk.fire(rule).is_ok());
        assert_eq!(desk.counts(), counts);
    }
    assert_eq!(desk.return_to(0), Ok(()));
    assert_eq!(desk.counts(), [0; 4]);
}

/// The desk by the definitions: configurations and counts, not histories, are kept.
struct Plain {
    at: Configuration,
    named: [Option<Configuration>; NAMES],
    counts: [usize; 4],
    /// How often a count stopped at the ceiling.
    stops: usize,
}

impl Plain {
    fn fire(&mut self, table: &Table, rule: u16) -> Result<u8, Refusal> {
        match self.at.step(table, rule, DESK_PILE) {
            Ok(next) => self.at = next,
            Err(number) => return refused(number),
        }
        count_step(table, rule, &mut self.counts);
        for count in &mut self.counts {
            self.stops += usize::from(*count > COUNT_CEILING);
            *count = COUNT_CEILING.min(*count);
        }
        Ok(participants(table, rule))
    }

    fn save(&mut self, name: u8) -> Result<(), Refusal> {
        match self.named.get_mut(usize::from(name)) {
            Some(place) => *place = Some(self.at.clone()),
            None => return refused(18),
        }
        Ok(())
    }

    fn return_to(&mut self, name: u8) -> Result<(), Refusal> {
        match self.named.get(usize::from(name)) {
            Some(Some(named)) => self.at = named.clone(),
            Some(None) => return refused(17),
            None => return refused(18),
        }
        self.counts = [0; 4];
        Ok(())
    }

    fn forget(&mut self, name: u8) -> Result<(), Refusal> {
        match self.named.get_mut(usize::from(name)) {
            Some(None) => return refused(17),
            Some(place) => *place = None,
            None => return refused(18),
        }
        Ok(())
    }
}

/// One call at both desks, which must give the same.
fn call(rng: &mut Rng, table: &Table, desk: &mut Desk, plain: &mut Plain) {
    let firing = desk.firing();
    let name = rng.below(10) as u8;
    match rng.below(12) {
        0 | 1 => assert_eq!(desk.save(name), plain.save(name)),
        2 | 3 => assert_eq!(desk.return_to(name), plain.return_to(name)),
        4 => assert_eq!(desk.forget(name), plain.forget(name)),
        turn => {
            let rule = match turn {
                5 => rng.below(table.rules.len() + 2) as u16,
                _ if firing.is_empty() => 0,
                _ => *rng.pick(&firing),
            };
            assert_eq!(desk.fire(rule), plain.fire(table, rule));
        }
    }
}

/// What a desk has counted: nothing, or about as much as it can.
fn any_counts(rng: &mut Rng) -> [usize; 4] {
    match rng.below(3) {
        0 => std::array::from_fn(|_| COUNT_CEILING - rng.below(4)),
        _ => [0; 4],
    }
}

#[test]
fn desks_follow_the_definitions() {
    let mut stops = 0;
    for seed in (430_000..432_000).map(Seed) {
        let mut rng = seed.rng();
        let shape = *rng.pick(&[Shape::TINY, Shape::DENSE, Shape::MIDDLE]);
        let table = random::table(&mut rng, &shape);
        let counts = any_counts(&mut rng);
        let mut desk = Desk::resume(&table.bytes(), counts).expect("an accepted table");
        let mut plain = Plain {
            at: Configuration::start(&table),
            named: Default::default(),
            counts,
            stops: 0,
        };
        for _ in 0..rng.below(60) {
            call(&mut rng, &table, &mut desk, &mut plain);
            assert_eq!(desk.states(), plain.at.states);
            assert_eq!(desk.pile(), plain.at.word);
            assert_eq!(desk.counts(), plain.counts);
        }
        stops += plain.stops;
    }
    println!("counts that stopped {stops}");
    assert!(stops > 500);
}
