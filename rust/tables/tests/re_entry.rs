//! Random tables whose watch transitions lead back into line states: how many there are, and what
//! they have.

use tables::random::{self, Shape};
use tables::{NARROW, Rng, Table};

const SHAPES: [Shape; 4] = [Shape::TINY, Shape::DENSE, Shape::MIDDLE, Shape::LARGE];
/// How many tables of each shape.
const EACH: usize = 1_000;

/// Random tables of a shape that have a copied automaton.
fn copied_tables(shape: &Shape) -> Vec<Table> {
    let rng = &mut Rng::new(1);
    let tables = (0..EACH).map(|_| random::table(rng, shape));
    tables.filter(Table::is_copied).collect()
}

#[test]
fn about_a_third_re_enter() {
    for shape in &SHAPES {
        let copied = copied_tables(shape);
        println!("{} of {EACH}, {shape:?}", copied.len());
        assert!((EACH / 4..EACH * 2 / 5).contains(&copied.len()));
        assert!(copied.iter().all(|table| table.wide_processes() == 0));
    }
}

/// Four states are met, and transitions of every number of processes with all their copies.
#[test]
fn copies_are_of_every_size() {
    let mut widest = 0;
    let mut sizes = [0; 5];
    for table in copied_tables(&Shape::MIDDLE) {
        let states = table.processes.iter().map(|process| process.all);
        widest += usize::from(states.max() == Some(NARROW));
        let size = |letter: u8| table.letters[usize::from(letter)].count_ones() as usize;
        let mut copies = 0;
        for watch in &table.watch {
            sizes[size(watch.letter)] += 1;
            copies += 1 << size(watch.letter);
        }
        assert_eq!(table.round_zero().len(), copies);
    }
    println!("tables of four states {widest}, transitions by size {sizes:?}");
    assert!(widest > 100 && sizes[1..].iter().all(|&count| count > 50));
}

#[test]
fn wide_ones_have_a_wide_process() {
    let rng = &mut Rng::new(2);
    for shape in &SHAPES {
        let table = random::wide_re_entry(rng, shape);
        assert!(table.is_copied() && table.wide_processes() != 0);
    }
}
