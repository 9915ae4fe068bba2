//! Compares the proved engine's plans with the second engine's: what they give, and every place of
//! the list, which holds random numbers before. Random plans on named, random and damaged tables,
//! then every figure at its bounds and beyond them. Argument: a seed.
//!
//! It fails too if a situation that it is for was never met.

mod bounds;
mod choice;
mod facts;
mod faults;
mod open;
mod order;
mod situations;
mod weeks;

use comparison::{Case, Counts, Make, Program, random_table};
use second_engine::Desk;
use std::process::ExitCode;
use tables::{Rng, Table, named};

/// Each table has a plan.
const PROGRAM: Program = Program {
    name: "plan_tests",
    random: random_table,
    each: 10_000,
    situations: situations::all,
    others: bounds::tally,
};

fn main() -> ExitCode {
    PROGRAM.main(|_| compare_one)
}

/// Makes a plan on one table. One on a refused table is made as for another table.
fn compare_one(case: &Case, counts: &mut Counts) -> Result<(), String> {
    let model = match Desk::open(&case.bytes) {
        Ok(_) => Table::read(&case.bytes),
        Err(_) => named::six_written(),
    };
    if matches!(case.make, Make::Random(_)) {
        counts.meet(situations::RANDOM);
    }
    let order = choice::any_order(&mut Rng::new(!case.seed), &case.bytes, &model);
    let given = order.compare();
    let given = given.map_err(|text| format!("{text}order {order:?}\n"))?;
    situations::note(&order, &model, &given, counts);
    Ok(())
}
