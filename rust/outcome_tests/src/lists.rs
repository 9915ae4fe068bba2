//! Lists of rules to walk.

use crate::facts::Facts;
use comparison::{absent, rule};
use second_engine::{Refusal, WALK_SCRATCH, Walk, walk};
use tables::Rng;

/// What is special about a list.
pub const NAMES: [&str; 6] = [
    "list is the run",
    "list is empty",
    "list of random rules",
    "list fires, then is idle",
    "list fires, then is absent",
    "list of any numbers",
];

const IDLE_RULE: u8 = 12;
/// How often a list is tried to be made longer, and a rule to be found that is idle.
const TRIES: usize = 8;
/// The longest part of a run that other lists begin with.
const PREFIX: usize = 40;

/// A list and its name; `rules` is how many rules the table has, or a guess.
pub fn any(rng: &mut Rng, table: &[u8], facts: &Facts, rules: usize) -> (&'static str, Vec<u16>) {
    let first = usize::from(facts.run.is_empty());
    let index = rng.between(first, NAMES.len() - 1);
    let list = match index {
        0 => facts.run.clone(),
        1 => Vec::new(),
        2 => (0..rng.below(12)).map(|_| rule(rng, rules)).collect(),
        3 => {
            let mut list = firing(rng, table, facts, rules);
            add_idle(rng, table, &mut list, rules);
            add_more(rng, &mut list);
            list
        }
        4 => {
            let mut list = firing(rng, table, facts, rules);
            list.push(absent(rng, rules));
            add_more(rng, &mut list);
            list
        }
        _ => (0..rng.below(12)).map(|_| rng.draw() as u16).collect(),
    };
    (NAMES[index], list)
}

/// A list that fires: a part of the run, then random rules.
fn firing(rng: &mut Rng, table: &[u8], facts: &Facts, rules: usize) -> Vec<u16> {
    let length = rng.below(facts.run.len().min(PREFIX) + 1);
    let mut list = facts.run[..length].to_vec();
    for _ in 0..TRIES {
        list.push(rule(rng, rules));
        if refusal(table, &list).is_some() {
            list.pop();
        }
    }
    list
}

/// Adds a rule that is idle, if one is found.
fn add_idle(rng: &mut Rng, table: &[u8], list: &mut Vec<u16>, rules: usize) {
    for _ in 0..TRIES {
        list.push(rule(rng, rules));
        if refusal(table, list).is_some_and(|refusal| refusal.number == IDLE_RULE) {
            return;
        }
        list.pop();
    }
}

/// Adds some numbers, so that more than one is handed back.
fn add_more(rng: &mut Rng, list: &mut Vec<u16>) {
    for _ in 0..rng.below(4) {
        list.push(rng.draw() as u16);
    }
}

/// How a walk with ample buffers is refused.
fn refusal(table: &[u8], list: &[u16]) -> Option<Refusal> {
    let mut pile = [0; 1_024];
    match walk(table, list, &mut pile, &mut [0; WALK_SCRATCH]) {
        Walk::Refused { refusal, .. } => Some(refusal),
        Walk::Walked { .. } => None,
    }
}
