//! The copy of the watch automaton (request 2.6): which tables have one, and its transitions and
//! groups by their numbers.

use crate::model::{Group, NO_PART, Table, Transition};

/// The most states of a process whose states can be copied.
pub const NARROW: u8 = 4;

impl Table {
    /// Whether a watch transition leads back into a line state.
    pub fn re_enters(&self, watch: &Transition) -> bool {
        // NO_PART is above every line state.
        let mut places = watch.after.iter().zip(&self.processes);
        places.any(|(&state, process)| state < process.line)
    }

    /// Whether some watch transition re-enters, so that the copy is saturated.
    pub fn is_copied(&self) -> bool {
        self.watch.iter().any(|watch| self.re_enters(watch))
    }

    /// The bits of the processes whose states can't be copied.
    pub fn wide_processes(&self) -> u8 {
        let processes = self.processes.iter().enumerate();
        let wide = processes.filter(|(_, process)| process.all > NARROW);
        wide.map(|(number, _)| 1 << number).sum()
    }

    /// The transitions of round 0, in file order: the watch transitions, or the copies of each.
    pub fn round_zero(&self) -> Vec<Transition> {
        if !self.is_copied() {
            return self.watch.clone();
        }
        let copies = |watch| self.copies(watch);
        self.watch.iter().flat_map(copies).collect()
    }

    /// The transition from plain or copied states, in every mixture, to copied ones only.
    fn copies(&self, watch: &Transition) -> Vec<Transition> {
        let bits = self.letters[usize::from(watch.letter)];
        let marks = (0..=bits).filter(|marks| marks & !bits == 0);
        let copy = |marks| Transition {
            letter: watch.letter,
            before: self.copied(watch.before, marks),
            after: self.copied(watch.after, bits),
        };
        marks.map(copy).collect()
    }

    /// The group with copied states at the processes of `bits`.
    fn copied(&self, group: Group, bits: u8) -> Group {
        std::array::from_fn(|process| match bits >> process & 1 {
            1 => self.processes[process].all + group[process],
            _ => group[process],
        })
    }

    /// The plain version of a group: place by place the state, or the one that it is the copy of.
    pub fn plain(&self, group: Group) -> Group {
        let mut plain = group;
        for (state, process) in plain.iter_mut().zip(&self.processes) {
            if *state != NO_PART && *state >= process.all {
                *state -= process.all;
            }
        }
        plain
    }

    /// Whether a group has plain states and copied ones.
    pub fn is_mixed(&self, group: Group) -> bool {
        let plain = self.plain(group);
        let has_part = |&process: &usize| group[process] != NO_PART;
        let is_copied = |process| group[process] != plain[process];
        let places: Vec<bool> = (0..4).filter(has_part).map(is_copied).collect();
        places.contains(&true) && places.contains(&false)
    }
}
