//! The situations that the comparison is for: all of them must be met.

use crate::facts::Facts;
use crate::reasons::{Several, note_paths, path_situations};
use crate::{bounds, lists, participation};
use comparison::{
    Counts, Demand, copy_situations, note_peak, note_rules, on_copy, peak_situations,
    refusal_situations, rule_situations, situations_of_start, start_situations,
};
use tables::Table;

/// How many random tables must be accepted, and how many damaged ones refused.
const LEAST: usize = 20_000;
/// How many random tables must have a copied automaton.
const LEAST_COPIED: usize = 5_000;
/// The most records of a limit whose reasons are counted, and of one whose start is searched.
const COUNTED: usize = 60;
const SEARCHED: usize = 5_000;

const ACCEPTED: &str = "random tables accepted";
pub const REFUSED: &str = "damaged tables refused";
const COPIED: &str = "random tables copied";

/// Outcomes of calls, which must be met on copied tables too.
const OUTCOMES: [&str; 7] = [
    "answer reachable",
    "answer unreachable",
    "run without steps",
    "run with steps",
    "walk watched at once",
    "walk watched after steps",
    "walk not watched",
];

/// Runs and limits out of the common.
const FEATURES: [&str; 5] = [
    "run too long for any page",
    "limits of 100 rounds or more",
    "limits above 65,535 records",
    "limits with several rules for a record",
    "limits with several paths for a record",
];

/// Counts a random accepted table and what is special about it.
pub fn note_shape(table: &Table, facts: &Facts, counts: &mut Counts) {
    counts.meet(ACCEPTED);
    if table.is_copied() {
        counts.meet(COPIED);
    }
    counts.meet(format!("tables of {} processes", table.processes.len()));
    let ceilings = [
        (1, table.processes.len(), 4),
        (2, table.letters.len(), 32),
        (3, table.rules.len(), 200),
        (4, table.watch.len(), 200),
        (5, table.accepting.len(), 64),
        (7, table.pile.len(), 64),
    ];
    for (kind, _, _) in ceilings
        .iter()
        .filter(|(_, count, ceiling)| count == ceiling)
    {
        counts.meet(format!("tables with kind {kind} at its ceiling"));
    }
    note_peak(table, &facts.run, counts);
    note_rules(table, counts);
    note_paths(table, &facts.log, counts);
    if facts.rounds >= 100 {
        counts.meet("limits of 100 rounds or more");
    }
    if facts.records > roskavel::RECORD_CEILING {
        counts.meet("limits above 65,535 records");
    }
    if facts.records <= COUNTED {
        let several = Several::of(table, &facts.log);
        if several.rules {
            counts.meet("limits with several rules for a record");
        }
        if several.paths {
            counts.meet("limits with several paths for a record");
        }
    }
}

/// What is special about the start of a random accepted table.
pub fn of_start(table: &Table, facts: &Facts) -> Vec<String> {
    match facts.records <= SEARCHED {
        true => situations_of_start(table, &facts.log, facts.reachable),
        false => Vec::new(),
    }
}

/// Every situation that must be met.
pub fn all() -> Vec<Demand> {
    let refusals = [
        ("answer", &[10, 15][..]),
        ("run", &[10, 11, 15, 16]),
        ("walk", &[12, 13, 14, 15]),
    ];
    let mut names: Vec<String> = Vec::new();
    for (call, later) in refusals {
        let numbers = (1..=9).chain(later.iter().copied());
        names.extend(numbers.map(|number| format!("{call} refused {number}")));
    }
    names.extend((1..=4).map(|count| format!("tables of {count} processes")));
    let kinds = [1, 2, 3, 4, 5, 7];
    names.extend(kinds.map(|kind| format!("tables with kind {kind} at its ceiling")));
    names.extend(OUTCOMES.map(str::to_string));
    names.extend(OUTCOMES.map(on_copy));
    names.extend(FEATURES.map(str::to_string));
    names.extend(copy_situations());
    names.extend(participation::situations());
    names.extend(peak_situations().map(str::to_string));
    names.extend(rule_situations().chain(path_situations()));
    names.extend(refusal_situations());
    names.extend(start_situations());
    names.extend(bounds::names());
    names.extend(lists::NAMES.map(str::to_string));
    let mut situations: Vec<_> = names.into_iter().map(Demand::once).collect();
    situations.extend([ACCEPTED, REFUSED].map(|name| Demand::new(name, LEAST)));
    situations.push(Demand::new(COPIED, LEAST_COPIED));
    situations
}
