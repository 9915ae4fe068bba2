//! Sequences of calls at a desk, and what the second engine's desk gives for them.

use second_engine::{COUNT_CEILING, Desk};
use tables::{Rng, Table, WRITTEN_PLACES, group, named};

/// A call with its rule or its name.
#[derive(Clone, Copy)]
pub enum DeskCall {
    Fire(u16),
    Save(u8),
    Return(u8),
    Forget(u8),
}

/// For each process the steps that a desk has counted.
pub type Counts = [usize; 4];

/// A table, and a desk on it: what it has counted, and its calls.
type Sequence = (Table, Counts, Vec<DeskCall>);

/// Nothing, or about as much as a desk can count.
pub fn random_counts(rng: &mut Rng) -> Counts {
    match rng.below(2) {
        0 => [0; 4],
        _ => std::array::from_fn(|_| COUNT_CEILING - rng.below(3)),
    }
}

/// The rules of the list fired in turn, with calls about names in between.
pub fn random(rng: &mut Rng, rules: &[u16]) -> Vec<DeskCall> {
    let mut calls = Vec::new();
    for &rule in rules {
        for _ in 0..rng.below(4) {
            calls.push(about_a_name(rng));
        }
        calls.push(DeskCall::Fire(rule));
    }
    calls.push(about_a_name(rng));
    calls.push(DeskCall::Return(rng.below(2) as u8));
    calls
}

/// Mostly one of two names, at times the last one or a bad one.
fn about_a_name(rng: &mut Rng) -> DeskCall {
    let name = *rng.pick(&[0, 0, 0, 1, 1, 7, 8, 255]);
    *rng.pick(&[
        DeskCall::Save(name),
        DeskCall::Save(name),
        DeskCall::Return(name),
        DeskCall::Forget(name),
    ])
}

/// A pile of 64 letters is brought to 256 by rule 0, which adds five, and once by rule 1, which adds
/// two. Then rule 0 and rule 2, which would add one letter, are refused, and rule 3, which adds none,
/// fires.
pub fn filling() -> Sequence {
    let mut table = Table::new(1, 1, 1);
    let letter = table.letter(1);
    let state = group(&[0]);
    for count in [WRITTEN_PLACES, 3, 2, 1] {
        table.rule(letter, state, state, &vec![letter; count]);
    }
    table.pile = vec![letter; 64];
    let mut calls = vec![DeskCall::Fire(0); 38];
    calls.extend([1, 0, 2, 3].map(DeskCall::Fire));
    (table, [0; 4], calls)
}

/// Table T: the first count comes to the ceiling with rule 0 and stops there with rule 1, the
/// second comes to it with rule 2, and a return begins both again.
pub fn stopping() -> Sequence {
    let counts = [COUNT_CEILING - 1, COUNT_CEILING - 2, 0, 0];
    let mut calls = vec![DeskCall::Save(0)];
    calls.extend([0, 1, 2].map(DeskCall::Fire));
    calls.extend([DeskCall::Return(0), DeskCall::Fire(0)]);
    (named::t(), counts, calls)
}

/// The calls as the definitions name them.
pub fn text(calls: &[DeskCall]) -> String {
    let items = calls.iter().map(|call| match call {
        DeskCall::Fire(rule) => format!("fires {rule} ∷ "),
        DeskCall::Save(name) => format!("saves {name} ∷ "),
        DeskCall::Return(name) => format!("returns {name} ∷ "),
        DeskCall::Forget(name) => format!("forgets {name} ∷ "),
    });
    format!("({}[])", items.collect::<String>())
}

pub fn wide_counts(counts: Counts) -> [u64; 4] {
    counts.map(|count| count as u64)
}

/// Number and place of the opening's refusal, 0 and 0 if there is none; then for each call the
/// refusal's number, the bits of the processes that took part, and after it the counts and where
/// the desk stands, states and word.
pub fn trace(table: &[u8], counts: Counts, calls: &[DeskCall]) -> Vec<Vec<u64>> {
    let mut desk = match Desk::resume(table, counts) {
        Ok(desk) => desk,
        Err(refusal) => return vec![vec![u64::from(refusal.number), refusal.place as u64]],
    };
    let mut lists = vec![vec![0, 0]];
    for &call in calls {
        let given = match call {
            DeskCall::Fire(rule) => desk.fire(rule),
            DeskCall::Save(name) => desk.save(name).map(|()| 0),
            DeskCall::Return(name) => desk.return_to(name).map(|()| 0),
            DeskCall::Forget(name) => desk.forget(name).map(|()| 0),
        };
        let told = match given {
            Ok(bits) => [0, bits],
            Err(refusal) => [refusal.number, 0],
        };
        let mut list = told.map(u64::from).to_vec();
        list.extend(wide_counts(desk.counts()));
        list.extend(desk.states().into_iter().chain(desk.pile()).map(u64::from));
        lists.push(list);
    }
    lists
}
