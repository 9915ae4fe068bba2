//! What decides the lengths to try on a table, by the second engine with ample buffers.

use second_engine::{
    Answer, RECORD_BYTES, RECORD_CEILING, Run, WALK_SCRATCH, Walk, answer, run, scratch_needed,
    walk,
};
use tables::{Rng, Table, WRITTEN_PLACES};

/// Records that most limits fit in.
const USUAL: usize = 2_000;
/// The most letters of a start pile.
const PILE_CEILING: usize = 64;

/// An accepted table's figures; those of a refused one are made up.
#[derive(Default)]
pub struct Facts {
    pub accepted: bool,
    /// The records of the limit, one above the ceiling if they are more.
    pub records: usize,
    pub rounds: usize,
    pub reachable: bool,
    pub steps: usize,
    /// The length of the start pile.
    pub start: usize,
    /// The greatest length of the word along the run; without one, that after a first rule.
    pub longest: usize,
    /// The run, or nothing if there is none or it is too long.
    pub run: Vec<u16>,
    /// The log of the limit, or nothing if it has too many records.
    pub log: Vec<u8>,
}

impl Facts {
    pub fn of(table: &[u8], rng: &mut Rng) -> Facts {
        let mut pile = [0; PILE_CEILING];
        let Walk::Walked { length: start, .. } =
            walk(table, &[], &mut pile, &mut [0; WALK_SCRATCH])
        else {
            return Facts::made_up(rng);
        };
        let mut facts = Facts {
            accepted: true,
            records: RECORD_CEILING + 1,
            start,
            longest: start + WRITTEN_PLACES - 1,
            ..Facts::default()
        };
        if !facts.learn_limit(table, USUAL) {
            facts.learn_limit(table, RECORD_CEILING);
        }
        facts.learn_run(table);
        facts
    }

    fn made_up(rng: &mut Rng) -> Facts {
        Facts {
            records: rng.below(20),
            steps: rng.below(10),
            start: rng.below(10),
            longest: rng.between(10, 12),
            ..Facts::default()
        }
    }

    /// True if the limit fits in so many records.
    fn learn_limit(&mut self, table: &[u8], records: usize) -> bool {
        let mut log = vec![0; RECORD_BYTES * records];
        let mut scratch = vec![0; scratch_needed(log.len())];
        let (transitions, rounds, steps) = match answer(table, &mut log, &mut scratch) {
            Answer::Reachable {
                transitions,
                rounds,
                steps,
            } => {
                self.reachable = true;
                (transitions, rounds, steps)
            }
            Answer::Unreachable {
                transitions,
                rounds,
            } => (transitions, rounds, 0),
            Answer::Refused(_) => return false,
        };
        self.records = transitions as usize;
        self.rounds = rounds as usize;
        self.steps = steps as usize;
        log.truncate(RECORD_BYTES * self.records);
        self.log = log;
        true
    }

    fn learn_run(&mut self, table: &[u8]) {
        let mut log = vec![0; self.log.len()];
        let mut scratch = vec![0; scratch_needed(log.len())];
        let mut page = vec![0; self.steps];
        if let Run::Reachable { .. } = run(table, &mut log, &mut scratch, &mut page) {
            self.longest = Table::read(table).longest_word(&page);
            self.run = page;
        }
    }
}
