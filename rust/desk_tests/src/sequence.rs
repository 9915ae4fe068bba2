//! A sequence of calls at both desks.

use crate::choice::any_call;
use crate::desks::{Call, Desks, Stand};
use crate::histories::Histories;
use crate::situations::{OTHER_COUNTS, Step};
use comparison::Counts;
use second_engine::{DESK_PILE, NAMES, WALK_SCRATCH, Walk, walk};
use tables::Rng;

/// The most calls on the way to a full pile, and the most other calls.
const CLIMB: usize = 400;
const CALLS: usize = 60;
/// What the pile buffer of a walk holds before.
const DIRT: u8 = 0xA5;

pub struct Sequence<'t> {
    table: &'t [u8],
    desks: Desks,
    /// Where the desks stand.
    stand: Stand,
    /// How many letters each rule writes.
    written: Vec<usize>,
    histories: Histories,
    /// All calls so far.
    calls: Vec<Call>,
    counts: &'t mut Counts,
}

impl<'t> Sequence<'t> {
    pub fn new(table: &'t [u8], desks: Desks, counts: &'t mut Counts) -> Result<Self, String> {
        Ok(Sequence {
            table,
            stand: desks.stand()?,
            written: desks.second.written(),
            desks,
            histories: Histories::default(),
            calls: Vec::new(),
            counts,
        })
    }

    /// Makes random calls, then returns to every name, up to the first difference.
    pub fn run(&mut self, rng: &mut Rng) -> Result<(), String> {
        let made = self.make_calls(rng);
        made.map_err(|text| format!("{text}calls {:?}\n", self.calls))
    }

    fn make_calls(&mut self, rng: &mut Rng) -> Result<(), String> {
        if rng.chance(1, 3) {
            self.climb(rng)?;
        }
        for _ in 0..rng.below(CALLS) {
            self.any_call(rng)?;
        }
        self.check_walk()?;
        for name in 0..NAMES as u8 {
            self.call(Call::Return(name))?;
        }
        self.check_walk()
    }

    /// Fires rules that write more letters than the one they remove, with other calls between,
    /// until the pile is full or none fires.
    fn climb(&mut self, rng: &mut Rng) -> Result<(), String> {
        for _ in 0..CLIMB {
            let mut adding = self.desks.second.firing();
            adding.retain(|&rule| self.written[usize::from(rule)] > 1);
            if adding.is_empty() {
                break;
            }
            if rng.chance(1, 16) {
                self.any_call(rng)?;
            } else if !self.call(Call::Fire(*rng.pick(&adding)))? {
                break;
            }
        }
        Ok(())
    }

    fn any_call(&mut self, rng: &mut Rng) -> Result<bool, String> {
        let firing = self.desks.second.firing();
        self.call(any_call(rng, self.written.len(), &firing))
    }

    /// Makes a call at both desks; false if they refuse it. They stay where they stand, with the
    /// counts that they have, unless a rule fires or they return.
    fn call(&mut self, call: Call) -> Result<bool, String> {
        self.calls.push(call);
        let given = self.desks.call(call)?;
        let stand = self.desks.stand()?;
        let leads = given.is_ok() && matches!(call, Call::Fire(_) | Call::Return(_));
        if !leads && stand != self.stand {
            return Err(format!("from {:?}\nto {stand:?}\n", self.stand));
        }
        let step = Step {
            call,
            given,
            before: &self.stand,
            after: &stand,
            histories: &self.histories,
            written: &self.written,
        };
        step.count(self.counts);
        if given.is_ok() {
            self.histories.keep(call);
        }
        self.stand = stand;
        Ok(given.is_ok())
    }

    /// The second engine's walk of the current history ends where the desks stand. Its counts are
    /// theirs and those of the history that they began to count from.
    fn check_walk(&mut self) -> Result<(), String> {
        let (current, origin) = (&self.histories.current, &self.histories.origin);
        let (walked, before) = (self.walk_of(current)?, self.walk_of(origin)?);
        let mut expected = self.stand.clone();
        for (count, before) in expected.counts.iter_mut().zip(before.counts) {
            *count += before;
        }
        if walked != expected {
            return Err(format!(
                "walk {walked:?}\ndesk {:?}\nhistory {current:?}, counted from {origin:?}\n",
                self.stand
            ));
        }
        if self.stand.has_counts() && walked.counts != self.stand.counts {
            self.counts.meet(OTHER_COUNTS);
        }
        Ok(())
    }

    /// Where the second engine's walk of a history ends, and what it counts.
    fn walk_of(&self, history: &[u16]) -> Result<Stand, String> {
        let mut pile = [DIRT; DESK_PILE];
        match walk(self.table, history, &mut pile, &mut [DIRT; WALK_SCRATCH]) {
            Walk::Walked {
                states,
                length,
                counts,
                ..
            } => Ok(Stand {
                states,
                pile: pile[..length].to_vec(),
                counts,
            }),
            refused => Err(format!("walk {refused:?}\nhistory {history:?}\n")),
        }
    }
}
