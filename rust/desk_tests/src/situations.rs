//! The situations that the comparison is for: all of them must be met.

use crate::desks::{Call, Given, Stand};
use crate::histories::Histories;
use comparison::{Counts, Demand, refusal_situations};
use second_engine::{DESK_PILE, Refusal, WRITTEN_PLACES};

/// How many sequences of calls there must be, and how many on tables with a copied automaton.
const LEAST: usize = 20_000;
const LEAST_COPIED: usize = 5_000;
pub const SEQUENCES: &str = "sequences";
pub const COPIED: &str = "sequences on copied tables";
/// The counts, not 0, are not those of a walk of the current history.
pub const OTHER_COUNTS: &str = "counts other than those of the whole history";

/// The refusals of each call at an open desk.
const REFUSALS: [(&str, &[u8]); 4] = [
    ("fire", &[12, 13, 14]),
    ("save", &[18]),
    ("return", &[17, 18]),
    ("forget", &[17, 18]),
];

/// Whether a call met a situation.
type Met = fn(&Step) -> bool;

const SITUATIONS: [(&str, Met); 24] = [
    ("fired", |step| step.fired().is_some()),
    ("fired below the top", |step| step.fired_below_the_top()),
    ("fired for all four processes", |step| {
        step.given == Ok(0b1111)
    }),
    ("fired a rule of six letters", |step| {
        let written = step.fired().map(|rule| step.written[usize::from(rule)]);
        written == Some(WRITTEN_PLACES)
    }),
    ("fired at a full pile", |step| {
        step.fired().is_some() && step.before.is_full()
    }),
    ("fired after a return", |step| {
        step.fired().is_some() && matches!(step.histories.last, Some(Call::Return(_)))
    }),
    ("fire refused 14 below a full pile", |step| {
        step.refusal().is_some_and(|refusal| refusal.number == 14) && !step.before.is_full()
    }),
    ("pile of exactly 256 letters", |step| step.after.is_full()),
    ("saved", |step| step.saved().is_some()),
    ("saved over a name", |step| {
        step.saved().is_some_and(|name| step.holds(name))
    }),
    ("saved a full pile", |step| {
        step.saved().is_some() && step.before.is_full()
    }),
    ("eight names held", |step| {
        (0..8).all(|name| step.holds(name))
    }),
    ("returned", |step| step.returned().is_some()),
    ("returned after other fires", |step| {
        step.returned_after_fires()
    }),
    ("returned twice to a name", |step| step.returned_again()),
    ("returned again after other fires", |step| {
        step.returned_again() && step.returned_after_fires()
    }),
    ("returned to a full pile", |step| {
        step.returned().is_some() && step.after.is_full()
    }),
    ("returned from a full pile", |step| {
        step.returned().is_some() && step.before.is_full()
    }),
    ("forgot", |step| step.forgot()),
    ("different counts", |step| {
        let [first, others @ ..] = step.after.counts;
        others.iter().any(|&count| count > 0 && count != first)
    }),
    ("counts at all four processes", |step| {
        !step.after.counts.contains(&0)
    }),
    ("saved with counts", |step| {
        step.saved().is_some() && step.before.has_counts()
    }),
    ("forgot with counts", |step| {
        step.forgot() && step.before.has_counts()
    }),
    ("return set counts to 0", |step| {
        step.returned().is_some() && step.before.has_counts() && !step.after.has_counts()
    }),
];

/// A call with what it gave, where the desks stood before and after it, and the histories before
/// it.
pub struct Step<'s> {
    pub call: Call,
    pub given: Given,
    pub before: &'s Stand,
    pub after: &'s Stand,
    pub histories: &'s Histories,
    /// How many letters each rule writes.
    pub written: &'s [usize],
}

impl Stand {
    fn is_full(&self) -> bool {
        self.pile.len() == DESK_PILE
    }

    pub fn has_counts(&self) -> bool {
        self.counts != [0; 4]
    }
}

impl Step<'_> {
    /// Counts the situations that the call met.
    pub fn count(&self, counts: &mut Counts) {
        if let Some(Refusal { number, .. }) = self.refusal() {
            counts.meet(refused(self.call.name(), number));
            if self.before.has_counts() {
                counts.meet(refused_with_counts(self.call.name()));
            }
        }
        for (name, _) in SITUATIONS.iter().filter(|(_, met)| met(self)) {
            counts.meet(*name);
        }
    }

    /// The refusal, if there was one.
    fn refusal(&self) -> Option<Refusal> {
        self.given.err()
    }

    /// The rule, if one was fired.
    fn fired(&self) -> Option<u16> {
        match self.call {
            Call::Fire(rule) if self.given.is_ok() => Some(rule),
            _ => None,
        }
    }

    /// The name, if one was saved.
    fn saved(&self) -> Option<u8> {
        match self.call {
            Call::Save(name) if self.given.is_ok() => Some(name),
            _ => None,
        }
    }

    /// The name, if one was returned to.
    fn returned(&self) -> Option<u8> {
        match self.call {
            Call::Return(name) if self.given.is_ok() => Some(name),
            _ => None,
        }
    }

    fn forgot(&self) -> bool {
        matches!(self.call, Call::Forget(_)) && self.given.is_ok()
    }

    /// Whether the name was held before the call.
    fn holds(&self, name: u8) -> bool {
        self.histories.noted[usize::from(name)].is_some()
    }

    /// A letter was removed that was not the first of the word.
    fn fired_below_the_top(&self) -> bool {
        let written = self.fired().map(|rule| self.written[usize::from(rule)]);
        written.is_some_and(|count| self.after.pile[count..] != self.before.pile[1..])
    }

    fn returned_after_fires(&self) -> bool {
        let noted = self.returned().map(|name| self.histories.of(name));
        noted.is_some_and(|noted| *noted != self.histories.current)
    }

    fn returned_again(&self) -> bool {
        let name = self.returned().map(usize::from);
        name.is_some_and(|name| self.histories.returns[name] > 0)
    }
}

/// The situation of a refused call.
pub fn refused(call: &str, number: u8) -> String {
    format!("{call} refused {number}")
}

/// The situation of a call that was refused where the desk had counted steps.
fn refused_with_counts(call: &str) -> String {
    format!("{call} refused with counts")
}

/// Every situation that must be met.
pub fn all() -> Vec<Demand> {
    let mut names: Vec<String> = (1..=9).map(|number| refused("opening", number)).collect();
    for (call, numbers) in REFUSALS {
        names.extend(numbers.iter().map(|&number| refused(call, number)));
        names.push(refused_with_counts(call));
    }
    names.extend(SITUATIONS.map(|(name, _)| name.to_string()));
    names.push(OTHER_COUNTS.to_string());
    names.extend(refusal_situations());
    let mut situations: Vec<_> = names.into_iter().map(Demand::once).collect();
    situations.push(Demand::new(SEQUENCES, LEAST));
    situations.push(Demand::new(COPIED, LEAST_COPIED));
    situations
}
