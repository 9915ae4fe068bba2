//! Compares the proved engine with the second engine on named, random and damaged tables: for
//! each call every figure, every lent buffer and the part of the list handed back. They hold random
//! bytes before, and the buffers have lengths around every bound. Argument: a seed.
//!
//! It fails too if a situation that it is for was never met.

mod bounds;
mod engines;
mod facts;
mod figures;
mod lists;
mod participation;
mod reasons;
mod situations;
mod trials;

use comparison::{Case, Counts, Make, Program, RULES, Tally, note_copy};
use engines::Pool;
use facts::Facts;
use std::process::ExitCode;
use tables::{Rng, Table, starts};
use trials::Trials;

/// How many random tables there are to one whose start is hard to search.
const STARTS: usize = 50;

const PROGRAM: Program = Program {
    name: "outcome_tests",
    random: random_table,
    each: 23_500,
    situations: situations::all,
    others: Tally::default,
};

fn main() -> ExitCode {
    PROGRAM.main(comparer)
}

fn random_table(rng: &mut Rng, number: usize) -> Table {
    match number % STARTS {
        0 => starts::table(rng),
        _ => comparison::random_table(rng, number),
    }
}

/// Makes all calls on each table, with buffers filled from a pool.
fn comparer(seed: u64) -> impl FnMut(&Case, &mut Counts) -> Result<(), String> {
    let pool = Pool::new(&mut Rng::new(seed));
    move |case, counts| compare_one(&pool, case, counts)
}

/// Makes all calls on one table.
fn compare_one(pool: &Pool, case: &Case, counts: &mut Counts) -> Result<(), String> {
    let mut rng = Rng::new(!case.seed);
    let facts = Facts::of(&case.bytes, &mut rng);
    let mut rules = RULES;
    let mut start = Vec::new();
    match &case.make {
        Make::Random(table) if facts.accepted => {
            situations::note_shape(table, &facts, counts);
            rules = table.rules.len();
            start = situations::of_start(table, &facts);
        }
        Make::Damaged if !facts.accepted => counts.meet(situations::REFUSED),
        _ => (),
    }
    let table = facts.accepted.then(|| Table::read(&case.bytes));
    let copied = table.filter(Table::is_copied);
    if let Some(table) = &copied {
        note_copy(table, &facts.log, counts);
    }
    let mut trials = Trials {
        pool,
        name: &case.name,
        table: &case.bytes,
        facts: &facts,
        copied: copied.as_ref(),
        rules,
        start,
        rng,
        counts,
    };
    trials.all()
}
