//! Numbers of rules, those that a table lacks among them.

use tables::Rng;

/// The most rules of a table.
pub const RULES: usize = 200;

/// One of so many rules.
pub fn rule(rng: &mut Rng, rules: usize) -> u16 {
    rng.below(rules.max(1)) as u16
}

/// A number that the table lacks: the next, one with the low byte of a rule, or any.
pub fn absent(rng: &mut Rng, rules: usize) -> u16 {
    match rng.below(4) {
        0 => rules as u16,
        1 => 256 + rule(rng, rules),
        2 => 0xFFFF,
        _ => rng.between(RULES, 0xFFFF) as u16,
    }
}
