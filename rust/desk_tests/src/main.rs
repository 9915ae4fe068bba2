//! Compares the proved engine's desk with the second engine's in random sequences of calls on
//! named, random and damaged tables: what every call gives, and the states, the whole pile and the
//! counts after it. Argument: a seed.
//!
//! It fails too if a situation that it is for was never met.

mod choice;
mod desks;
mod growth;
mod histories;
mod sequence;
mod situations;

use comparison::{Case, Counts, Program, Tally, note_refusal};
use desks::Desks;
use second_engine::Refusal;
use sequence::Sequence;
use std::process::ExitCode;
use tables::{Rng, Table};

/// Each accepted table has a sequence.
const PROGRAM: Program = Program {
    name: "desk_tests",
    random: growth::random_table,
    each: 20_000,
    situations: situations::all,
    others: Tally::default,
};

fn main() -> ExitCode {
    PROGRAM.main(|_| compare_one)
}

/// Opens both desks on one table and makes a sequence of calls.
fn compare_one(case: &Case, counts: &mut Counts) -> Result<(), String> {
    let desks = match Desks::open(&case.bytes)? {
        Ok(desks) => desks,
        Err(Refusal { number, place }) => {
            counts.meet(situations::refused("opening", number));
            note_refusal(&case.name, &case.bytes, number, place, counts);
            return Ok(());
        }
    };
    counts.meet(situations::SEQUENCES);
    if Table::read(&case.bytes).is_copied() {
        counts.meet(situations::COPIED);
    }
    let mut sequence = Sequence::new(&case.bytes, desks, counts)?;
    sequence.run(&mut Rng::new(!case.seed))
}
