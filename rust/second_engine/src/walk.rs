//! Walking the system along a list of rules, and watching where it ends.

use crate::group::Group;
use crate::table::{Rule, Table};
use std::collections::BTreeSet;

/// A configuration (document 01: situation).
pub struct Configuration {
    pub states: Group,
    /// The pile's word, bottom first: its top is the last letter.
    word: Vec<u8>,
}

impl Configuration {
    /// The table's start.
    pub fn start(table: &Table) -> Self {
        Configuration {
            states: table.start,
            word: table.pile.iter().rev().copied().collect(),
        }
    }

    /// The length of the pile's word.
    pub fn height(&self) -> usize {
        self.word.len()
    }

    /// The pile's word, top first.
    pub fn pile(&self) -> impl Iterator<Item = u8> {
        self.word.iter().rev().copied()
    }

    /// The word's index of the letter that the rule would remove, if the rule fires: its before
    /// states match, and above its letter's first occurrence no letter shares a process with
    /// it, so that the letter tops the own pile of each of its processes.
    pub fn redex(&self, table: &Table, rule: &Rule) -> Option<usize> {
        if table.restrict(rule.letter, self.states) != rule.before {
            return None;
        }
        let locations = table.letters[usize::from(rule.letter)];
        let shares = |&letter: &u8| !table.letters[usize::from(letter)].is_disjoint(locations);
        let index = self.word.iter().rposition(shares)?;
        (self.word[index] == rule.letter).then_some(index)
    }

    /// Fires the rule: the letter at `index` is removed, the written letters go in front of
    /// all that remains, the states change.
    pub fn fire(&mut self, table: &Table, rule: &Rule, index: usize) {
        self.word.remove(index);
        self.word.extend(rule.written.iter().rev());
        self.states = table.step(rule.letter, self.states, rule.after);
    }

    /// Whether the table's own watch automaton accepts: some path from the states reads the whole
    /// pile and ends in an accepting global state.
    pub fn watched(&self, table: &Table) -> bool {
        let mut reached = BTreeSet::from([self.states]);
        for letter in self.pile() {
            reached = successors(table, letter, &reached);
            if reached.is_empty() {
                return false;
            }
        }
        table.accepting.iter().any(|end| reached.contains(end))
    }
}

/// Where the watch transitions on `letter` lead from a set of global states.
fn successors(table: &Table, letter: u8, from: &BTreeSet<Group>) -> BTreeSet<Group> {
    let mut reached = BTreeSet::new();
    for transition in table.watch.iter().filter(|watch| watch.letter == letter) {
        for &group in from {
            if table.restrict(letter, group) == transition.before {
                reached.insert(table.step(letter, group, transition.after));
            }
        }
    }
    reached
}
