//! Why a call is refused, and where.

use core::error::Error;
use core::fmt::{self, Display, Formatter};

#[cfg(doc)]
use crate::{DESK_PILE, Desk, NAMES, STEP_CEILING, plan};

/// Why a call is refused, with document 01's number. Where nothing else is said, the place is
/// the offset of an item in the table. The place of a refusal at an open [`Desk`] is 0.
///
/// Later versions add causes.
#[non_exhaustive]
#[derive(Clone, Copy, PartialEq, Eq, PartialOrd, Ord, Hash, Debug)]
pub enum Cause {
    /// None that this crate knows: the archive gave neither an outcome nor a refusal of it. An
    /// archive that belongs to the crate never does.
    Unknown = 0,
    /// The table ends in an item, or before the end item (place: the table's length).
    Cut = 1,
    /// No such kind of item.
    Stranger = 2,
    /// An item out of turn.
    Turn = 3,
    /// More items of the kind than its ceiling.
    Crowd = 4,
    /// A byte outside its bounds.
    Value = 5,
    /// A rule that does not cooperate.
    Stray = 6,
    /// A watch transition into a state of the system, where some process of the table has more than
    /// four states.
    ReEntry = 7,
    /// A rule, watch transition or accepting group seen before.
    Twin = 8,
    /// Bytes after the end item; the first of them.
    Leftover = 9,
    /// The limit automaton has more records than the log has room for; 0.
    ShortLog = 10,
    /// The run has more steps than the page has places, or than [`STEP_CEILING`]; 0.
    LongRun = 11,
    /// A rule does not fire; its step in the list, from 0.
    IdleRule = 12,
    /// The table has no rule of this number; its step.
    NoRule = 13,
    /// The pile outgrows its buffer, or [`DESK_PILE`] letters; its step, or 0 for the start pile.
    FullPile = 14,
    /// The scratch is too short; 0.
    ShortScratch = 15,
    /// A run is asked for, but none leads into the watched set; 0.
    NoRun = 16,
    /// The desk holds no configuration of this name; 0.
    EmptyName = 17,
    /// The name is not below [`NAMES`]; 0.
    BadName = 18,
    /// A figure of a [`plan`](plan()) is outside its bounds; 0.
    BadHours = 19,
    /// A step of a plan fits no minute of any week; the first such step.
    NeverOpen = 20,
}

/// What the place of a refusal counts.
enum Unit {
    Byte,
    Step,
    /// The place tells nothing.
    None,
}

impl Cause {
    /// All causes that have a number, by number from 1.
    pub const ALL: &[Cause] = &[
        Cause::Cut,
        Cause::Stranger,
        Cause::Turn,
        Cause::Crowd,
        Cause::Value,
        Cause::Stray,
        Cause::ReEntry,
        Cause::Twin,
        Cause::Leftover,
        Cause::ShortLog,
        Cause::LongRun,
        Cause::IdleRule,
        Cause::NoRule,
        Cause::FullPile,
        Cause::ShortScratch,
        Cause::NoRun,
        Cause::EmptyName,
        Cause::BadName,
        Cause::BadHours,
        Cause::NeverOpen,
    ];

    /// The number of the cause, from 1; 0 of [`Cause::Unknown`].
    #[must_use]
    pub const fn number(self) -> u8 {
        self as u8
    }

    /// The cause in words.
    #[must_use]
    pub const fn name(self) -> &'static str {
        match self {
            Cause::Unknown => "unknown outcome",
            Cause::Cut => "cut",
            Cause::Stranger => "stranger",
            Cause::Turn => "turn",
            Cause::Crowd => "crowd",
            Cause::Value => "value",
            Cause::Stray => "stray",
            Cause::ReEntry => "re-entry",
            Cause::Twin => "twin",
            Cause::Leftover => "leftover",
            Cause::ShortLog => "short log",
            Cause::LongRun => "long run",
            Cause::IdleRule => "idle rule",
            Cause::NoRule => "no rule",
            Cause::FullPile => "full pile",
            Cause::ShortScratch => "short scratch",
            Cause::NoRun => "no run",
            Cause::EmptyName => "empty name",
            Cause::BadName => "bad name",
            Cause::BadHours => "bad hours",
            Cause::NeverOpen => "never open",
        }
    }

    /// The cause of a number that is not 0.
    fn of(number: u64) -> Cause {
        let known = Cause::ALL
            .iter()
            .find(|cause| u64::from(cause.number()) == number);
        known.copied().unwrap_or(Cause::Unknown)
    }

    fn unit(self) -> Unit {
        match self {
            Cause::Cut
            | Cause::Stranger
            | Cause::Turn
            | Cause::Crowd
            | Cause::Value
            | Cause::Stray
            | Cause::ReEntry
            | Cause::Twin
            | Cause::Leftover => Unit::Byte,
            Cause::IdleRule | Cause::NoRule | Cause::FullPile | Cause::NeverOpen => Unit::Step,
            _ => Unit::None,
        }
    }
}

impl Display for Cause {
    fn fmt(&self, to: &mut Formatter) -> fmt::Result {
        to.write_str(self.name())
    }
}

/// A refusal: its cause and its place. As text it is the cause in words, its number and, where it
/// has one, its place: `idle rule (12) at step 3`.
#[derive(Clone, Copy, PartialEq, Eq, Hash, Debug)]
pub struct Refusal {
    /// Why the call is refused.
    pub cause: Cause,
    /// Where: an offset in the table, a step of the list, or 0. [`Cause`] says which.
    pub place: usize,
}

impl Refusal {
    /// Of what is neither an outcome nor a refusal that is known here.
    pub(crate) const UNKNOWN: Refusal = Refusal {
        cause: Cause::Unknown,
        place: 0,
    };

    /// Refused, unless the number of the cause is 0.
    pub(crate) fn check(number: u64, place: usize) -> Result<(), Refusal> {
        match number {
            0 => Ok(()),
            _ => Err(Refusal {
                cause: Cause::of(number),
                place,
            }),
        }
    }

    /// The number of the cause.
    #[must_use]
    pub const fn number(&self) -> u8 {
        self.cause.number()
    }
}

impl Display for Refusal {
    fn fmt(&self, to: &mut Formatter) -> fmt::Result {
        let Refusal { cause, place } = self;
        write!(to, "{cause} ({})", cause.number())?;
        match cause.unit() {
            Unit::Byte => write!(to, " at byte {place}"),
            Unit::Step => write!(to, " at step {place}"),
            Unit::None => Ok(()),
        }
    }
}

impl Error for Refusal {}
