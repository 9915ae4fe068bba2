//! Which call to make next.

use crate::desks::Call;
use comparison::{absent, rule};
use tables::Rng;

/// Any call; of the rules that the table has, those that fire most often.
pub fn any_call(rng: &mut Rng, rules: usize, firing: &[u16]) -> Call {
    match rng.below(16) {
        0..9 => Call::Fire(any_rule(rng, rules, firing)),
        9..12 => Call::Save(any_name(rng)),
        12..15 => Call::Return(any_name(rng)),
        _ => Call::Forget(any_name(rng)),
    }
}

fn any_rule(rng: &mut Rng, rules: usize, firing: &[u16]) -> u16 {
    match rng.below(16) {
        0 => absent(rng, rules),
        1 | 2 => rule(rng, rules),
        _ if firing.is_empty() => rule(rng, rules),
        _ => *rng.pick(firing),
    }
}

/// A name, the first three more often, so that they are used again; some are bad.
fn any_name(rng: &mut Rng) -> u8 {
    let name = match rng.below(16) {
        0 => *rng.pick(&[8, 9, 16, 255]),
        1 => rng.between(8, 255),
        2..8 => rng.below(3),
        _ => rng.below(8),
    };
    name as u8
}
