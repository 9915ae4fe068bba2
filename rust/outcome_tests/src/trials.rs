//! The calls made on one table, and the situations that they meet.

use crate::bounds::{Length, around};
use crate::engines::Pool;
use crate::facts::Facts;
use crate::lists;
use crate::participation::note_walk;
use comparison::{Counts, note_refusal, note_short_log, on_copy};
use roskavel::{Answer, Cause, Refusal, Run, STEP_CEILING, Walk};
use second_engine::{RECORD_BYTES, WALK_SCRATCH, log_capacity, scratch_needed};
use tables::{Rng, Table};

/// From this product of records and rounds on a call takes seconds.
const DEAR: usize = 1 << 30;

/// A table, and what is used in all calls on it.
pub struct Trials<'t> {
    pub pool: &'t Pool,
    pub name: &'t str,
    pub table: &'t [u8],
    pub facts: &'t Facts,
    /// The table, if its automaton is copied.
    pub copied: Option<&'t Table>,
    /// How many rules the table has, or a guess.
    pub rules: usize,
    /// What is special about the start.
    pub start: Vec<String>,
    pub rng: Rng,
    pub counts: &'t mut Counts,
}

impl Trials<'_> {
    /// Makes all calls, fewer where they cost more, up to the first difference.
    pub fn all(&mut self) -> Result<(), String> {
        let often = match self.facts.records * (8 + self.facts.rounds) {
            _ if !self.facts.accepted => 1,
            0..4_000 => 6,
            4_000..40_000 => 3,
            40_000..DEAR => 1,
            _ => return self.exact_run(),
        };
        for _ in 0..often {
            self.answer()?;
            self.run()?;
            self.walk()?;
            self.walk()?;
        }
        Ok(())
    }

    fn answer(&mut self) -> Result<(), String> {
        let [log, scratch] = self.log_and_scratch();
        let lengths = [log.value, scratch.value];
        let names = [&scratch.name[..], &log.name];
        match self.pool.answer(&mut self.rng, self.table, lengths)? {
            Answer::Reachable { .. } => self.searched("answer reachable", &names),
            Answer::Unreachable { .. } => self.searched("answer unreachable", &names),
            Answer::Refused(refusal) => {
                self.note_log(refusal, log.value);
                self.refused("answer", refusal, &names);
            }
        }
        Ok(())
    }

    /// The run call with buffers that just serve.
    fn exact_run(&mut self) -> Result<(), String> {
        let log = RECORD_BYTES * self.facts.records;
        let lengths = [log, scratch_needed(log), self.facts.steps];
        let ran = self.pool.run(&mut self.rng, self.table, lengths);
        ran.map(|_| ())
    }

    fn run(&mut self) -> Result<(), String> {
        let [log, scratch] = self.log_and_scratch();
        let page = around(&mut self.rng, "page", self.facts.steps);
        let lengths = [log.value, scratch.value, page.value];
        let names = [&scratch.name[..], &log.name, &page.name];
        match self.pool.run(&mut self.rng, self.table, lengths)? {
            Run::Reachable { steps: 0, .. } => self.searched("run without steps", &names),
            Run::Reachable { .. } => self.searched("run with steps", &names),
            Run::Refused(refusal) => {
                self.note_log(refusal, log.value);
                if refusal.cause == Cause::LongRun && page.value > STEP_CEILING {
                    self.meet("run too long for any page", &[]);
                }
                self.refused("run", refusal, &names);
            }
        }
        Ok(())
    }

    fn walk(&mut self) -> Result<(), String> {
        let (list_name, list) = lists::any(&mut self.rng, self.table, self.facts, self.rules);
        let pile = match self.rng.below(2) {
            0 => around(&mut self.rng, "start pile", self.facts.start),
            _ => around(&mut self.rng, "longest pile", self.facts.longest),
        };
        let scratch = around(&mut self.rng, "walk scratch", WALK_SCRATCH);
        let lengths = [pile.value, scratch.value];
        let names = [&scratch.name[..], &pile.name, list_name];
        let walked = self.pool.walk(&mut self.rng, self.table, &list, lengths)?;
        note_walk(self.table, &list, &walked, self.counts);
        match walked {
            Walk::Walked { watched: true, .. } if !list.is_empty() => {
                self.meet("walk watched after steps", &names);
            }
            Walk::Walked { watched: true, .. } => self.meet("walk watched at once", &names),
            Walk::Walked { .. } => self.meet("walk not watched", &names),
            Walk::Refused { refusal, .. } => self.refused("walk", refusal, &names),
        }
        Ok(())
    }

    fn log_and_scratch(&mut self) -> [Length; 2] {
        let log = around(&mut self.rng, "log", RECORD_BYTES * self.facts.records);
        let needed = scratch_needed(log.value);
        let scratch = around(&mut self.rng, "scratch", needed);
        [log, scratch]
    }

    /// Counts a refusal and, of the names of lengths, those that the call came to look at. They
    /// are given in the order in which it does.
    fn refused(&mut self, call: &str, refusal: Refusal, names: &[&str]) {
        let seen = match refusal.cause {
            Cause::ShortScratch => 1,
            Cause::ShortLog | Cause::NoRun => 2,
            Cause::FullPile if refusal.place == 0 => 2,
            Cause::LongRun | Cause::FullPile | Cause::IdleRule | Cause::NoRule => 3,
            _ => 0,
        };
        let number = refusal.number();
        self.meet(&format!("{call} refused {number}"), &names[..seen]);
        note_refusal(self.name, self.table, number, refusal.place, self.counts);
    }

    /// Counts a log of this length that is too short for the copies of round 0 alone.
    fn note_log(&mut self, refusal: Refusal, log: usize) {
        if let Some(table) = self.copied
            && refusal.cause == Cause::ShortLog
        {
            note_short_log(table, log_capacity(log), self.counts);
        }
    }

    /// Counts a call that came to search the start's path.
    fn searched(&mut self, outcome: &str, names: &[&str]) {
        for situation in self.start.clone() {
            self.meet(&situation, &[]);
        }
        self.meet(outcome, names);
    }

    fn meet(&mut self, outcome: &str, names: &[&str]) {
        self.counts.meet(outcome.to_string());
        if self.copied.is_some() {
            self.counts.meet(on_copy(outcome));
        }
        for name in names {
            self.counts.meet(name.to_string());
        }
    }
}
