//! The copy of the watch automaton (request 2.6). Where a watch transition leads back into a line
//! state, each process has a copy of every state, and the copy is saturated: all its transitions
//! lead to copied states, so none leads into a line state. By Lemma 10 it accepts the same
//! configurations.

use crate::group::{Group, Locations, PROCESSES};
use crate::table::{Table, Transition};

/// The transitions of round 0: the watch transitions or, if one of them re-enters, their copies.
pub fn round_zero(table: &Table) -> Vec<Transition> {
    let mut watch = table.watch.iter();
    if watch.any(|transition| table.re_enters(transition)) {
        let copies = |transition| copies(table, transition);
        table.watch.iter().flat_map(copies).collect()
    } else {
        table.watch.clone()
    }
}

/// The transition from plain or copied states, in every mixture, to copied ones only.
fn copies(table: &Table, transition: &Transition) -> impl Iterator<Item = Transition> {
    let Transition {
        letter,
        before,
        after,
    } = *transition;
    let locations = table.letters[usize::from(letter)];
    subsets(locations).map(move |marked| Transition {
        letter,
        before: before.copied(marked),
        after: after.copied(locations),
    })
}

/// All sets of processes within `locations`.
fn subsets(locations: Locations) -> impl Iterator<Item = Locations> {
    let sets = (0..1 << PROCESSES).map(Locations::from_bits);
    sets.filter(move |set| set.is_subset(locations))
}

/// Whether a global state is accepting: plain, copied or mixed, if its plain version is.
pub fn accepts(table: &Table, group: Group) -> bool {
    let plain = group.plain(table.everyone());
    table.accepting.contains(&plain)
}
