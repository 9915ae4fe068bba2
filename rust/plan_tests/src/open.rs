//! The minutes in which processes are open.

use roskavel::WEEK_MINUTES;
use second_engine::{Hours, Window};
use tables::Table;

pub const WEEK: i64 = WEEK_MINUTES as i64;

/// For each minute of the week the bits of the processes that are open.
pub struct Open(Vec<u8>);

impl Open {
    /// By good hours of so many processes.
    pub fn of(hours: &Hours, processes: usize) -> Open {
        let mut open = vec![0; WEEK as usize];
        for process in 0..processes {
            for window in counted(hours, process) {
                for bits in &mut open[usize::from(window.opens)..usize::from(window.closes)] {
                    *bits |= 1 << process;
                }
            }
        }
        Open(open)
    }

    /// Whether all processes of `bits` are open in a minute.
    pub fn has(&self, bits: u8, minute: i64) -> bool {
        self.0[minute.rem_euclid(WEEK) as usize] & bits == bits
    }

    /// For how many minutes on end all processes of `bits` are open at most, up to a week.
    pub fn longest(&self, bits: u8) -> usize {
        let (mut longest, mut length) = (0, 0);
        for open in self.0.iter().chain(&self.0) {
            length = if open & bits == bits { length + 1 } else { 0 };
            longest = longest.max(length);
        }
        longest.min(self.0.len())
    }
}

/// The windows of a process that count.
pub fn counted(hours: &Hours, process: usize) -> &[Window] {
    &hours.windows[process][..usize::from(hours.counts[process])]
}

/// The bits of the processes of a rule's letter.
pub fn bits_of(table: &Table, rule: u16) -> u8 {
    let letter = table.rules[usize::from(rule)].letter;
    table.letters[usize::from(letter)]
}
