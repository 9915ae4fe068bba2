//! How long the word and its parts become along a run.

use crate::model::Table;

impl Table {
    /// The greatest length of the word along a run: a walk's pile buffer must be as long.
    pub fn longest_word(&self, run: &[u16]) -> usize {
        self.longest_part(run, |_| true)
    }

    /// The greatest length of a process's own pile along a run.
    pub fn longest_own_pile(&self, run: &[u16], process: usize) -> usize {
        self.longest_part(run, |bits| bits >> process & 1 == 1)
    }

    /// The greatest length of any process's own pile along a run.
    pub fn peak(&self, run: &[u16]) -> usize {
        let processes = 0..self.processes.len();
        let longest = processes.map(|process| self.longest_own_pile(run, process));
        longest.max().unwrap_or(0)
    }

    /// The greatest length along a run of the word's part that is `counted`, which is told by the
    /// process bits of its letters.
    pub fn longest_part(&self, run: &[u16], counted: impl Fn(u8) -> bool) -> usize {
        let is_counted = |letter: &&u8| counted(self.letters[usize::from(**letter)]);
        let count = |letters: &[u8]| letters.iter().filter(is_counted).count();
        let mut length = count(&self.pile);
        let mut longest = length;
        for &number in run {
            let rule = &self.rules[usize::from(number)];
            length = length - count(&[rule.letter]) + count(&rule.written);
            longest = longest.max(length);
        }
        longest
    }
}
