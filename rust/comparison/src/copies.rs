//! Tables whose watch automaton is copied (request 2.6): the situations that comparisons of them
//! are for.

use crate::written::SIZES;
use crate::{Counts, transitions};
use std::collections::BTreeSet;
use tables::{Group, NARROW, Table, Transition, overlay, restrict};

/// A situation, and whether a copied table with these transitions of its limit meets it.
type Feature = (&'static str, fn(&Table, &[Transition]) -> bool);

const FEATURES: [Feature; 5] = [
    ("copied tables with a process of 4 states", has_four_states),
    ("copied tables with a leaving transition", has_leaving),
    ("copied tables with a mixed record", has_mixed_record),
    ("copied tables accepted only mixed", accepts_mixed),
    ("copied tables accepted only uncopied", accepts_uncopied),
];

const ROUND_ZERO: &str = "refused 10 by the copies of round 0 alone";

/// Limits of more records are not looked into.
const RECORDS: usize = 100;

/// The situations that a comparison of answers is for, beside those of `on_copy`.
pub fn copy_situations() -> impl Iterator<Item = String> {
    let features = FEATURES.iter().map(|(name, _)| name.to_string());
    let sizes = SIZES.map(of_size);
    features.chain(sizes).chain([ROUND_ZERO.to_string()])
}

/// What is met on a table whose automaton is copied.
pub fn on_copy(situation: &str) -> String {
    format!("{situation} on a copied table")
}

fn of_size(size: usize) -> String {
    format!("copied transitions of {size} processes")
}

/// Counts what is special about a copied table and its limit, by the log's records.
pub fn note_copy(table: &Table, log: &[u8], counts: &mut Counts) {
    for watch in &table.watch {
        let bits = table.letters[usize::from(watch.letter)];
        counts.meet(of_size(bits.count_ones() as usize));
    }
    let limit: Vec<Transition> = transitions(log).collect();
    if limit.len() <= RECORDS {
        for (name, _) in FEATURES.iter().filter(|(_, met)| met(table, &limit)) {
            counts.meet(*name);
        }
    }
}

/// Counts a copied table that was refused 10, if a log of so many records has room for its watch
/// transitions, but not for their copies.
pub fn note_short_log(table: &Table, records: usize, counts: &mut Counts) {
    if table.watch.len() <= records && records < table.round_zero().len() {
        counts.meet(ROUND_ZERO);
    }
}

fn has_four_states(table: &Table, _: &[Transition]) -> bool {
    table.processes.iter().any(|process| process.all == NARROW)
}

/// Whether some watch transition does not re-enter; it is copied like the others.
fn has_leaving(table: &Table, _: &[Transition]) -> bool {
    table.watch.iter().any(|watch| !table.re_enters(watch))
}

/// Whether a rule's record leads to plain and copied states.
fn has_mixed_record(table: &Table, limit: &[Transition]) -> bool {
    limit.iter().any(|record| table.is_mixed(record.after))
}

/// Whether the start is accepted, and in no group of plain or of copied states alone.
fn accepts_mixed(table: &Table, limit: &[Transition]) -> bool {
    let ends = accepting_ends(table, limit);
    !ends.is_empty() && ends.iter().all(|&end| table.is_mixed(end))
}

/// Whether the start is not accepted, but were if the table's own automaton were saturated.
fn accepts_uncopied(table: &Table, limit: &[Transition]) -> bool {
    accepting_ends(table, limit).is_empty() && !accepting_ends(table, &saturated(table)).is_empty()
}

/// The groups in which these transitions accept the start.
fn accepting_ends(table: &Table, known: &[Transition]) -> BTreeSet<Group> {
    let mut ends = ends(table, known, table.start, &table.pile);
    ends.retain(|&end| table.accepting.contains(&table.plain(end)));
    ends
}

/// The groups that paths of known transitions over a word lead to.
fn ends(table: &Table, known: &[Transition], start: Group, word: &[u8]) -> BTreeSet<Group> {
    let mut ends = BTreeSet::from([start]);
    for &letter in word {
        let bits = table.letters[usize::from(letter)];
        let read: Vec<&Transition> = known.iter().filter(|next| next.letter == letter).collect();
        let after = |&end: &Group| {
            let fitting = read
                .iter()
                .filter(move |next| next.before == restrict(end, bits));
            fitting.map(move |next| overlay(end, next.after))
        };
        ends = ends.iter().flat_map(after).collect();
    }
    ends
}

/// The table's own watch transitions and all that the rules add to them.
fn saturated(table: &Table) -> Vec<Transition> {
    let mut all = table.watch.clone();
    loop {
        let known = all.clone();
        for rule in &table.rules {
            for after in ends(table, &known, rule.after, &rule.written) {
                all.push(Transition {
                    letter: rule.letter,
                    before: rule.before,
                    after,
                });
            }
        }
        all.sort();
        all.dedup();
        if all.len() == known.len() {
            return all;
        }
    }
}
