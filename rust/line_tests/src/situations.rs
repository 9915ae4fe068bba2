//! The situations that the comparison is for: all of them must be met.

use comparison::{
    Demand, copy_situations, on_copy, peak_situations, refusal_situations, rule_situations,
};

pub const REACHABLE: &str = "reachable";
pub const UNREACHABLE: &str = "unreachable";
pub const EMPTY_RUN: &str = "runs of no step";
pub const USUAL_RUN: &str = "runs of some steps";
pub const FULL_PAGE: &str = "runs of 10,000 steps, as many as the page holds";
pub const PAST_PAGE: &str = "runs of 10,001 steps";
pub const PAST_CAP: &str = "runs above 1,000,000 steps";
pub const FULL_LOG: &str = "limits of 2,000 records, as many as the log holds";
pub const PAST_LOG: &str = "limits of 2,001 records";
pub const EMPTY_INPUT: &str = "inputs of no byte";
pub const LONG_INPUT: &str = "inputs longer than the buffer of line";
pub const RUN_REFUSED: &str = "run refused 11";

/// Those that must be met on copied tables too.
const ON_COPIES: [&str; 4] = [REACHABLE, UNREACHABLE, EMPTY_RUN, USUAL_RUN];

const OTHERS: [&str; 8] = [
    FULL_PAGE,
    PAST_PAGE,
    PAST_CAP,
    FULL_LOG,
    PAST_LOG,
    EMPTY_INPUT,
    LONG_INPUT,
    RUN_REFUSED,
];

/// A whole table refused.
pub fn refused(number: u8) -> String {
    format!("refused {number}")
}

/// Every situation that must be met. Refusals 15 and 16 cannot be: the scratch of `line` is long
/// enough, and it asks for a run where there is one. Refusals 12 to 14 belong to the walk.
pub fn all() -> Vec<Demand> {
    let mut names: Vec<String> = (1..=10).map(refused).collect();
    let others = ON_COPIES.into_iter().chain(OTHERS).chain(peak_situations());
    names.extend(others.map(str::to_string));
    names.extend(ON_COPIES.map(on_copy));
    names.extend(copy_situations());
    names.extend(refusal_situations().chain(rule_situations()));
    names.into_iter().map(Demand::once).collect()
}
