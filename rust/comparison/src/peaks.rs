//! Figures that are like the peak of a run, and the runs that tell it from them.

use crate::Counts;
use tables::Table;

/// The situation of a run whose peak is not the figure, and the figure.
type Other = (&'static str, fn(&Table, &[u16]) -> usize);

const OTHERS: [Other; 3] = [
    ("peaks below the longest word", Table::longest_word),
    ("peaks of idle processes", of_busy),
    ("peaks by letters beyond their first process", of_first),
];

/// The situations that a comparison of runs is for.
pub fn peak_situations() -> impl Iterator<Item = &'static str> {
    OTHERS.iter().map(|(name, _)| *name)
}

/// Counts what is special about the peak of a run that has steps.
pub fn note_peak(table: &Table, run: &[u16], counts: &mut Counts) {
    if run.is_empty() {
        return;
    }
    let peak = table.peak(run);
    for (name, _) in OTHERS.iter().filter(|(_, other)| other(table, run) != peak) {
        counts.meet(*name);
    }
}

/// The peak without the idle processes, which have no part in any letter that the run reads.
fn of_busy(table: &Table, run: &[u16]) -> usize {
    let rules = run.iter().map(|&number| &table.rules[usize::from(number)]);
    let bits = rules.map(|rule| table.letters[usize::from(rule.letter)]);
    let busy = bits.fold(0, |busy, bits| busy | bits);
    let processes = (0..table.processes.len()).filter(|process| busy >> process & 1 == 1);
    let longest = processes.map(|process| table.longest_own_pile(run, process));
    longest.max().unwrap_or(0)
}

/// The peak if each letter counts at its first process alone, except in the start's own piles.
fn of_first(table: &Table, run: &[u16]) -> usize {
    let first = |process| table.longest_part(run, |bits| bits.trailing_zeros() == process);
    let longest = (0..table.processes.len() as u32).map(first).max();
    longest.unwrap_or(0).max(table.peak(&[]))
}
