//! What answer, run and walk give, as their figures tell it.
//!
//! The readers take any figures. Those that tell neither an outcome nor a refusal are read as
//! refused, with the cause unknown: they are no verdict.

use crate::Refusal;
use crate::calls::Values;
use crate::figures::{AnswerFigures, RunFigures, WalkFigures};
use core::array;

#[cfg(doc)]
use crate::{Cause, STEP_CEILING, answer, run, walk};

// The places of the figures.
const REFUSAL: usize = 0;
const PLACE: usize = 1;

// Answer and run; the peak of run alone.
const VERDICT: usize = 2;
const TRANSITIONS: usize = 3;
const ROUNDS: usize = 4;
const STEPS: usize = 5;
const PEAK: usize = 6;

// Walk; the states and the counts are four places each.
const WATCHED: usize = 2;
const PILE_LENGTH: usize = 3;
const STATES: usize = 4;
const REST: usize = 8;
const COUNTS: usize = 9;

// The figure of a verdict.
const REACHABLE: u64 = 1;
const UNREACHABLE: u64 = 2;

// The figure that tells whether the end of a walk is watched.
const WATCHED_YES: u64 = 1;
const WATCHED_NO: u64 = 2;

/// What [`answer`] gives.
#[must_use]
#[derive(Clone, Copy, PartialEq, Eq, Hash, Debug)]
pub enum Answer {
    /// Some run leads from the start into the watched set.
    #[non_exhaustive]
    Reachable {
        /// The records of the limit automaton.
        transitions: usize,
        /// The highest round of a record.
        rounds: usize,
        /// The rules of the run that [`run`] writes; one more than [`STEP_CEILING`] if they are more
        /// than it.
        steps: usize,
    },
    /// No run does, of whatever length.
    #[non_exhaustive]
    Unreachable {
        /// The records of the limit automaton.
        transitions: usize,
        /// The highest round of a record.
        rounds: usize,
    },
    /// There is no verdict.
    Refused(Refusal),
}

/// What [`run`] gives.
#[must_use]
#[derive(Clone, Copy, PartialEq, Eq, Hash, Debug)]
pub enum Run {
    /// The first `steps` numbers of the page are a run that leads into the watched set.
    #[non_exhaustive]
    Reachable {
        /// The records of the limit automaton.
        transitions: usize,
        /// The highest round of a record.
        rounds: usize,
        /// The rules of the run.
        steps: usize,
        /// The greatest length of any one process's own pile along the run, the start included; a
        /// process's own pile is the pile without the letters that it has no part in. The pile
        /// buffer of a [`walk`], which holds the whole pile, may need more.
        peak: usize,
    },
    /// There is no run on the page; by [`Cause::NoRun`] there is none at all.
    Refused(Refusal),
}

/// What [`walk`] gives.
#[must_use]
#[derive(Clone, Copy, PartialEq, Eq, Hash, Debug)]
pub enum Walk<'l> {
    /// The end of the list.
    #[non_exhaustive]
    Walked {
        /// The state of each process, 255 where the table lacks it.
        states: [u8; 4],
        /// The letters of the pile.
        length: usize,
        /// Whether the configuration is watched.
        watched: bool,
        /// For each process the number of steps that it took part in, which are the fires of rules
        /// whose letter has it.
        counts: [usize; 4],
        /// The part of the list that is handed back, which is empty.
        rest: &'l [u16],
    },
    /// The list was not followed to its end.
    #[non_exhaustive]
    Refused {
        /// Why, and at which step.
        refusal: Refusal,
        /// The counts of the steps before the one that was refused; 0 if it was no step.
        counts: [usize; 4],
        /// The part of the caller's list that begins at the step that was refused; empty if it was
        /// no step.
        rest: &'l [u16],
    },
}

impl Answer {
    /// What the figures of an answer tell.
    pub fn of(figures: &AnswerFigures) -> Answer {
        let AnswerFigures(values) = figures;
        let told = refusal(values).and_then(|()| {
            let [transitions, rounds, steps] = at([TRANSITIONS, ROUNDS, STEPS], values);
            match values[VERDICT] {
                REACHABLE => Ok(Answer::Reachable {
                    transitions,
                    rounds,
                    steps,
                }),
                UNREACHABLE => Ok(Answer::Unreachable {
                    transitions,
                    rounds,
                }),
                _ => Err(Refusal::UNKNOWN),
            }
        });
        told.unwrap_or_else(Answer::Refused)
    }
}

impl Run {
    /// What the figures of a run tell.
    pub fn of(figures: &RunFigures) -> Run {
        let RunFigures(values) = figures;
        let told = refusal(values).and_then(|()| {
            let [transitions, rounds, steps, peak] = at([TRANSITIONS, ROUNDS, STEPS, PEAK], values);
            match values[VERDICT] {
                REACHABLE => Ok(Run::Reachable {
                    transitions,
                    rounds,
                    steps,
                    peak,
                }),
                _ => Err(Refusal::UNKNOWN),
            }
        });
        told.unwrap_or_else(Run::Refused)
    }
}

impl<'l> Walk<'l> {
    /// What the figures of a walk tell.
    pub fn of(figures: &WalkFigures<'l>) -> Walk<'l> {
        let WalkFigures { values, rules } = figures;
        let counts = at(array::from_fn(|process| COUNTS + process), values);
        let [from] = at([REST], values);
        let rest = rules.get(from..);
        let told = refusal(values).and_then(|()| {
            let [length] = at([PILE_LENGTH], values);
            Ok(Walk::Walked {
                states: states(values).ok_or(Refusal::UNKNOWN)?,
                length,
                watched: match values[WATCHED] {
                    WATCHED_YES => true,
                    WATCHED_NO => false,
                    _ => return Err(Refusal::UNKNOWN),
                },
                counts,
                rest: rest.ok_or(Refusal::UNKNOWN)?,
            })
        });
        told.unwrap_or_else(|refusal| Walk::Refused {
            refusal,
            counts,
            rest: rest.unwrap_or_default(),
        })
    }
}

/// The refusal that the figures tell, if they tell one.
fn refusal(values: &Values) -> Result<(), Refusal> {
    let [place] = at([PLACE], values);
    Refusal::check(values[REFUSAL], place)
}

/// The state of each process, unless one is no byte.
fn states(values: &Values) -> Option<[u8; 4]> {
    let mut states = [0; 4];
    for (state, &value) in states.iter_mut().zip(&values[STATES..]) {
        *state = u8::try_from(value).ok()?;
    }
    Some(states)
}

/// The figures at these places, as lengths. The archive is for machines that have both in 64 bits.
fn at<const COUNT: usize>(places: [usize; COUNT], values: &Values) -> [usize; COUNT] {
    places.map(|place| values[place] as usize)
}

#[cfg(test)]
mod tests {
    use super::{Answer, Run, Walk};
    use crate::figures::{AnswerFigures, RunFigures, WalkFigures};
    use crate::{Cause, Refusal};

    const RULES: [u16; 3] = [5, 6, 7];

    /// Figures that tell no outcome, and those of a number that is not known.
    const STRANGE: [[u64; 16]; 6] = [
        [0; 16],
        [u64::MAX; 16],
        first([0, 7, 3, 1, 1, 1, 1, 1, 1]),
        first([21, 4, 0, 0, 0, 0, 0, 0, 0]),
        first([256, 4, 1, 0, 0, 0, 0, 0, 0]),
        first([0, 0, u64::MAX, 0, 0, 0, 0, 0, 0]),
    ];

    const fn first(some: [u64; 9]) -> [u64; 16] {
        let mut all = [0; 16];
        let mut place = 0;
        while place < some.len() {
            all[place] = some[place];
            place += 1;
        }
        all
    }

    fn walk(values: [u64; 16]) -> Walk<'static> {
        Walk::of(&WalkFigures {
            values,
            rules: &RULES,
        })
    }

    #[test]
    fn strange_figures_are_no_verdict() {
        for values in STRANGE {
            let answer = Answer::of(&AnswerFigures(values));
            assert!(
                matches!(answer, Answer::Refused(refusal) if refusal.cause == Cause::Unknown),
                "{answer:?}"
            );
            let run = Run::of(&RunFigures(values));
            assert!(
                matches!(run, Run::Refused(refusal) if refusal.cause == Cause::Unknown),
                "{run:?}"
            );
            let walk = walk(values);
            assert!(
                matches!(walk, Walk::Refused { refusal, .. } if refusal.cause == Cause::Unknown),
                "{walk:?}"
            );
        }
    }

    /// A run is no answer "unreachable".
    #[test]
    fn a_run_is_reachable_or_refused() {
        let unreachable = first([0, 0, 2, 1, 1, 0, 0, 0, 0]);
        let run = Run::of(&RunFigures(unreachable));
        assert_eq!(run, Run::Refused(Refusal::UNKNOWN));
    }

    #[test]
    fn walks_with_strange_places() {
        let sound = first([0, 0, 2, 0, 1, 255, 255, 255, 3]);
        let told = walk(sound);
        assert!(matches!(
            told,
            Walk::Walked {
                watched: false,
                rest: [],
                ..
            }
        ));
        for (place, value) in [
            (2, 0),
            (2, 3),
            (4, 256),
            (7, u64::MAX),
            (8, 4),
            (8, u64::MAX),
        ] {
            let mut values = sound;
            values[place] = value;
            let told = walk(values);
            assert!(
                matches!(
                    told,
                    Walk::Refused {
                        refusal: Refusal::UNKNOWN,
                        ..
                    }
                ),
                "{place} {told:?}"
            );
        }
        let told = walk(first([12, 1, 0, 0, 0, 0, 0, 0, 1]));
        assert!(matches!(told, Walk::Refused { rest: [6, 7], .. }));
        let told = walk(first([12, 1, 0, 0, 0, 0, 0, 0, 9]));
        assert!(matches!(told, Walk::Refused { rest: [], .. }));
    }

    #[test]
    fn every_cause_is_told() {
        for cause in Cause::ALL {
            let values = first([u64::from(cause.number()), 4, 0, 0, 0, 0, 0, 0, 3]);
            let refusal = Refusal {
                cause: *cause,
                place: 4,
            };
            assert_eq!(Answer::of(&AnswerFigures(values)), Answer::Refused(refusal));
            assert_eq!(Run::of(&RunFigures(values)), Run::Refused(refusal));
        }
    }
}
