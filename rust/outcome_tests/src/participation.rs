//! The counts of walks: the situations that a comparison of them is for.

use comparison::Counts;
use roskavel::Walk;
use tables::{NO_PART, Rule, Table};

/// The refusals of a walk at a step, and those before its first step.
const AT_A_STEP: [u8; 3] = [12, 13, 14];
const BEFORE_STEPS: [u8; 11] = [1, 2, 3, 4, 5, 6, 7, 8, 9, 14, 15];

const DIFFERENT: &str = "walk ended with different counts";

/// The situation of a walk whose counts are not those of the processes that a rule is said to have,
/// and the bits of these.
type Other = (&'static str, fn(&Table, &Rule) -> u8);

const OTHERS: [Other; 3] = [
    ("walk counts other than by written letters", of_written),
    ("walk counts other than by first processes", of_first),
    ("walk counts other than by changed states", of_changed),
];

pub fn situations() -> Vec<String> {
    let mut names = vec![DIFFERENT.to_string()];
    names.extend(AT_A_STEP.map(refused_with_counts));
    names.extend(BEFORE_STEPS.map(refused_before_steps));
    names.extend([0, 1, 2, 3].map(with_count));
    names.extend(OTHERS.map(|(name, _)| name.to_string()));
    names
}

/// Counts the situations that a walk along a list meets.
pub fn note_walk(table: &[u8], list: &[u16], walk: &Walk, met: &mut Counts) {
    match *walk {
        Walk::Walked { states, counts, .. } => {
            let is_other = |process| states[process] != NO_PART && counts[process] != counts[0];
            if (1..4).any(is_other) {
                met.meet(DIFFERENT);
            }
            note_counts(table, list, counts, met);
        }
        Walk::Refused {
            refusal, rest: [], ..
        } => {
            if !list.is_empty() {
                met.meet(refused_before_steps(refusal.number()));
            }
        }
        Walk::Refused {
            refusal, counts, ..
        } => {
            if counts != [0; 4] {
                met.meet(refused_with_counts(refusal.number()));
            }
            note_counts(table, &list[..refusal.place], counts, met);
        }
    }
}

/// Counts what is special about the counts of these fires.
fn note_counts(table: &[u8], fires: &[u16], counts: [usize; 4], met: &mut Counts) {
    let table = Table::read(table);
    for process in (0..4).filter(|&process| counts[process] > 0) {
        met.meet(with_count(process));
    }
    for (name, bits) in OTHERS {
        if count(&table, fires, bits) != counts {
            met.meet(name);
        }
    }
}

/// For each process the fires whose rule is said to have it.
fn count(table: &Table, fires: &[u16], bits: fn(&Table, &Rule) -> u8) -> [usize; 4] {
    let mut counts = [0; 4];
    for &number in fires {
        let bits = bits(table, &table.rules[usize::from(number)]);
        for (process, count) in counts.iter_mut().enumerate() {
            *count += usize::from(bits >> process & 1);
        }
    }
    counts
}

/// The processes that the rule's letter and all written ones have.
fn of_written(table: &Table, rule: &Rule) -> u8 {
    let bits = |letter: u8| table.letters[usize::from(letter)];
    let written = rule.written.iter();
    written.fold(bits(rule.letter), |all, &letter| all & bits(letter))
}

/// The first process of the rule's letter.
fn of_first(table: &Table, rule: &Rule) -> u8 {
    let bits = table.letters[usize::from(rule.letter)];
    bits & bits.wrapping_neg()
}

/// The processes whose states the rule changes.
fn of_changed(_: &Table, rule: &Rule) -> u8 {
    let changed = (0..4).filter(|&process| rule.before[process] != rule.after[process]);
    changed.map(|process| 1 << process).sum()
}

fn refused_with_counts(number: u8) -> String {
    format!("walk refused {number} with counts")
}

fn refused_before_steps(number: u8) -> String {
    format!("walk refused {number} before its first step")
}

fn with_count(process: usize) -> String {
    format!("walk with a count of process {process}")
}
