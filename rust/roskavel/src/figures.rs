//! The calls that give figures, with these as C has them: `include/roskavel.h` says what stands at
//! each place, and [`Answer::of`](crate::Answer::of), [`Run::of`](crate::Run::of) and
//! [`Walk::of`](crate::Walk::of) tell it.
//!
//! Each call's figures have a type of their own, and only the call makes them: no outcome is read
//! from another call's figures, from those of a walk along another list, or from any other numbers.
//! What the figures are before the call is of no account; `[0; 16]` will do.

use crate::calls;

pub use crate::calls::Values;

/// The figures of an answer.
#[must_use]
#[derive(Clone, Copy, PartialEq, Eq, Debug)]
pub struct AnswerFigures(pub(crate) Values);

/// The figures of a run.
#[must_use]
#[derive(Clone, Copy, PartialEq, Eq, Debug)]
pub struct RunFigures(pub(crate) Values);

/// The figures of a walk, with the list that it went along.
#[must_use]
#[derive(Clone, Copy, PartialEq, Eq, Debug)]
pub struct WalkFigures<'l> {
    pub(crate) values: Values,
    pub(crate) rules: &'l [u16],
}

impl AnswerFigures {
    /// The figures by places.
    #[must_use]
    pub fn values(&self) -> &Values {
        &self.0
    }
}

impl RunFigures {
    /// The figures by places.
    #[must_use]
    pub fn values(&self) -> &Values {
        &self.0
    }
}

impl WalkFigures<'_> {
    /// The figures by places.
    #[must_use]
    pub fn values(&self) -> &Values {
        &self.values
    }
}

/// What [`answer`](crate::answer()) does.
pub fn answer(
    table: &[u8],
    log: &mut [u8],
    scratch: &mut [u8],
    mut before: Values,
) -> AnswerFigures {
    calls::answer(table, log, scratch, &mut before);
    AnswerFigures(before)
}

/// What [`run`](crate::run()) does.
pub fn run(
    table: &[u8],
    log: &mut [u8],
    scratch: &mut [u8],
    page: &mut [u16],
    mut before: Values,
) -> RunFigures {
    calls::run(table, log, scratch, page, &mut before);
    RunFigures(before)
}

/// What [`walk`](crate::walk()) does.
pub fn walk<'l>(
    table: &[u8],
    rules: &'l [u16],
    pile: &mut [u8],
    scratch: &mut [u8],
    mut before: Values,
) -> WalkFigures<'l> {
    calls::walk(table, rules, pile, scratch, &mut before);
    WalkFigures {
        values: before,
        rules,
    }
}
