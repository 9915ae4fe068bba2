//! Random tables, some with rules that let the pile grow above any height.

use comparison::RULES;
use tables::{Rng, Table, WRITTEN_PLACES, drop_twin};

/// The most letters of a start pile.
const PILE: usize = 64;
/// How many rules are added at most.
const ADDED: usize = 3;

/// A random table; in a quarter of them the pile can grow.
pub fn random_table(rng: &mut Rng, number: usize) -> Table {
    let mut table = comparison::random_table(rng, number);
    if rng.chance(1, 4) {
        let_grow(rng, &mut table);
    }
    table
}

/// Puts a letter on top of the start pile and adds rules that fire on it there: they keep it on
/// top and write other letters below it.
fn let_grow(rng: &mut Rng, table: &mut Table) {
    if table.letters.is_empty() {
        table.letter(1);
    }
    let letter = rng.below(table.letters.len()) as u8;
    table.pile.truncate(PILE - 1);
    table.pile.insert(0, letter);
    table.rules.truncate(RULES - ADDED);
    let bits = table.letters[usize::from(letter)];
    let within = |other: &u8| table.letters[usize::from(*other)] & !bits == 0;
    let letters: Vec<u8> = (0..table.letters.len() as u8).filter(within).collect();
    for _ in 0..rng.between(1, ADDED) {
        let mut written = vec![letter];
        let below = rng.between(1, WRITTEN_PLACES - 1);
        written.extend((0..below).map(|_| *rng.pick(&letters)));
        table.rule(letter, table.start, table.start, &written);
        drop_twin(&mut table.rules);
    }
    let by = rng.below(table.rules.len());
    table.rules.rotate_left(by);
}
