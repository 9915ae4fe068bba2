//! The peak of a run: how high the own piles of the processes grow along it.

use crate::table::Table;

/// The greatest length of any process's own pile along a run, the start included. All processes
/// count, also those that the run leaves alone.
pub fn peak(table: &Table, run: &[u16]) -> usize {
    let peaks = (0..table.processes.len()).map(|process| own_peak(table, run, process));
    peaks.max().unwrap_or(0)
}

/// The greatest length of one process's own pile along a run: the rules on letters that the
/// process has part in fire on that pile.
fn own_peak(table: &Table, run: &[u16], process: usize) -> usize {
    let letters = table.letters.iter();
    let part: Vec<bool> = letters.map(|letter| letter.contains(process)).collect();
    let is_own = |letter: &u8| part[usize::from(*letter)];
    // Bottom first: its top is the last letter.
    let mut pile: Vec<u8> = table.pile.iter().rev().copied().filter(is_own).collect();
    let mut peak = pile.len();
    let rules = run.iter().map(|&number| &table.rules[usize::from(number)]);
    for rule in rules.filter(|rule| is_own(&rule.letter)) {
        let top = pile.pop();
        debug_assert_eq!(top, Some(rule.letter), "the letter tops the own pile");
        pile.extend(rule.written.iter().rev().copied().filter(is_own));
        peak = peak.max(pile.len());
    }
    peak
}
