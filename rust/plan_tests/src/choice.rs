//! A random order on a table.

use crate::faults::Fault;
use crate::open::{Open, WEEK, bits_of};
use crate::order::Order;
use crate::weeks;
use roskavel::{LONGEST_STEP, START_BOUND};
use tables::{Rng, Table};

/// The most steps of a run.
const STEPS: usize = 60;

/// An order on a table, with figures for those of `model`, which is the same if it is accepted.
pub fn any_order(rng: &mut Rng, table: &[u8], model: &Table) -> Order {
    let hours = weeks::any(rng, model.processes.len());
    let longest = longest_openings(model, &Open::of(&hours, model.processes.len()));
    let mut lengths: Vec<u16> = longest.iter().map(|&most| any_length(rng, most)).collect();
    let rules = 0..model.rules.len() as u16;
    let fits = |&rule: &u16| usize::from(lengths[usize::from(rule)]) <= longest[usize::from(rule)];
    let (fitting, others): (Vec<u16>, Vec<u16>) = rules.partition(fits);
    let run = any_run(rng, &fitting, &others);
    // Lengths of rules that the table lacks.
    lengths.extend((0..rng.below(4)).map(|_| *rng.pick(&[0, 1_441, 0xFFFF])));
    let mut order = Order {
        table: table.to_vec(),
        hours,
        lengths,
        start: any_start(rng),
        places: run.len() + rng.below(8).saturating_sub(3),
        run,
    };
    if rng.chance(1, 8) {
        rng.pick(&Fault::all(&order, model)).apply(&mut order);
    }
    order
}

/// For how many minutes on end the processes of each rule are open at most.
fn longest_openings(table: &Table, open: &Open) -> Vec<usize> {
    let mut by_bits = [None; 16];
    let rules = 0..table.rules.len() as u16;
    let longest = rules.map(|rule| {
        let bits = bits_of(table, rule);
        *by_bits[usize::from(bits)].get_or_insert_with(|| open.longest(bits))
    });
    longest.collect()
}

/// A length within its bounds, often about as long as the longest opening.
fn any_length(rng: &mut Rng, longest: usize) -> u16 {
    let most = usize::from(LONGEST_STEP);
    let length = match rng.below(8) {
        0 => 1,
        1 => most,
        2 => longest,
        3 => longest + 1,
        4 => rng.between(1, 30),
        5 => rng.between(1, most),
        _ => rng.between(1, longest.max(1)),
    };
    length.clamp(1, most) as u16
}

/// A run of rules that fit some opening, with another one in it at times.
fn any_run(rng: &mut Rng, fitting: &[u16], others: &[u16]) -> Vec<u16> {
    let steps = rng.between(0, STEPS);
    let steps = rng.between(0, steps);
    let rules = if fitting.is_empty() { others } else { fitting };
    if steps == 0 || rules.is_empty() {
        return Vec::new();
    }
    let mut run: Vec<u16> = (0..steps).map(|_| *rng.pick(rules)).collect();
    if !others.is_empty() && rng.chance(1, 4) {
        run[rng.below(steps)] = *rng.pick(others);
    }
    run
}

/// A start within its bounds: at them, near them, about a week's end, near minute 0, or anywhere.
fn any_start(rng: &mut Rng) -> i64 {
    let mut below = |bound: i64| rng.below(bound as usize) as i64;
    let distance = match below(8) {
        0 => START_BOUND,
        1 => START_BOUND - below(100),
        2 => WEEK * below(99) + below(60),
        3..6 => below(2 * WEEK),
        _ => below(START_BOUND),
    };
    if rng.chance(1, 2) {
        -distance
    } else {
        distance
    }
}
