//! Reachability of cooperating multi-pushdown systems: the proved engine, for Rust.
//!
//! A table is a string of bytes. It lists processes, letters, rules, an automaton for the set of
//! configurations to watch, and a start. [`answer`] says whether some run leads from the start
//! into the watched set, [`run`] gives such a run, and [`walk`] follows a list of rules.
//! [`plan`](plan()) lays one on the week, by the opening hours of the processes. At a [`Desk`] rules
//! are fired one by one, with configurations saved under names to return to.
//!
//! The four calls work in buffers that the caller lends, of any length and with anything in them;
//! nothing allocates, and nothing needs the standard library. What does not serve is refused, with
//! a cause and a place. Refusals by the table (causes 1 to 9) or by [`Cause::ShortScratch`] change
//! no buffer; every other return of the first three calls leaves the scratch zero. A refused plan
//! changes nothing. No call panics.
//!
//! The crate links the archive of the proved crate `exports`, which is for x86-64:
//! `rt lib` in crates/exports writes it. Documentation builds without it.
//!
//! # Example
//!
//! Two processes with one pile: rule 0 replaces the letter 0 of both by a letter of each, and
//! rules 1 and 2 remove these. Is the configuration reached in which both are in state 1?
//!
//! ```
//! use roskavel::{Answer, Run, Walk};
//!
//! let table = [
//!     1, 2, 2, 1, 2, 2, // two processes of two states
//!     2, 0b11, 2, 0b01, 2, 0b10, // a letter of both, one of the first, one of the second
//!     3, 0, 0, 0, 255, 255, 0, 0, 255, 255, 2, 1, 2, 255, 255, 255, 255, // rule 0 writes 1 2
//!     // rules 1 and 2 write none: state 0 to 1
//!     3, 1, 0, 255, 255, 255, 1, 255, 255, 255, 0, 255, 255, 255, 255, 255, 255,
//!     3, 2, 255, 0, 255, 255, 255, 1, 255, 255, 0, 255, 255, 255, 255, 255, 255,
//!     5, 1, 1, 255, 255, // accepting
//!     6, 0, 0, 255, 255, // start
//!     7, 0, // start pile
//!     8, // end
//! ];
//! let mut log = vec![0; roskavel::log_bytes(2_000)];
//! let mut scratch = vec![0; roskavel::scratch_bytes(log.len())];
//! let mut page = [0; 10];
//!
//! match roskavel::answer(&table, &mut log, &mut scratch) {
//!     Answer::Reachable { transitions, rounds, steps, .. } => {
//!         assert_eq!((transitions, rounds, steps), (3, 2, 3));
//!     }
//!     Answer::Unreachable { .. } => panic!("unreachable"),
//!     Answer::Refused(refusal) => panic!("refused: {refusal}"),
//! }
//!
//! let given = roskavel::run(&table, &mut log, &mut scratch, &mut page);
//! assert!(matches!(given, Run::Reachable { steps: 3, peak: 1, .. }));
//! assert_eq!(page[..3], [0, 1, 2]);
//!
//! let mut pile = [0; 2];
//! let given = roskavel::walk(&table, &page[..3], &mut pile, &mut scratch);
//! let Walk::Walked { states, length, watched, counts, .. } = given else {
//!     panic!("{given:?}");
//! };
//! assert_eq!((states, length, watched), ([1, 1, 255, 255], 0, true));
//! assert_eq!(counts, [2, 2, 0, 0]); // each process took part in two of the three steps
//! ```

#![no_std]
#![deny(missing_docs, unsafe_code)]

mod calls;
mod desk;
pub mod figures;
mod outcome;
mod plan;
mod record;
mod refusal;

pub use desk::{COUNT_CEILING, DESK_PILE, Desk, NAMES, Sight};
pub use outcome::{Answer, Run, Walk};
pub use plan::{LONGEST_STEP, START_BOUND, WEEK_MINUTES, WINDOWS, Week, plan};
pub use record::{Record, Records, records};
pub use refusal::{Cause, Refusal};

/// The most letters that a rule writes, and the places of a record's path.
pub const WRITTEN_PLACES: usize = 6;
/// The bytes of one record of the log: two for each place of its path, and 16 for all else.
pub const RECORD_BYTES: usize = 16 + 2 * WRITTEN_PLACES;
/// The most records that a log is used for.
pub const RECORD_CEILING: usize = 65_535;
/// The most steps of a run that is written or planned; a count above it is given as one more than
/// it.
pub const STEP_CEILING: usize = 1_000_000;
/// The scratch that answer and run need beside an empty log, and for each record that a log has room
/// for.
const SCRATCH_BASE: usize = 34_000;
const SCRATCH_PER_RECORD: usize = 10;
/// The scratch that a walk needs.
pub const WALK_SCRATCH: usize = 2_048;

/// The bytes of a log with room for `records` records. A log is used for no more than
/// [`RECORD_CEILING`]: for more of them it is the bytes of as many.
#[must_use]
pub const fn log_bytes(records: usize) -> usize {
    RECORD_BYTES * at_most_ceiling(records)
}

/// How many records a log of `log_length` bytes has room for, at most [`RECORD_CEILING`].
#[must_use]
pub const fn log_records(log_length: usize) -> usize {
    at_most_ceiling(log_length / RECORD_BYTES)
}

/// The scratch that answer and run need beside a log of `log_length` bytes. No log needs more than
/// 689,350 bytes.
#[must_use]
pub const fn scratch_bytes(log_length: usize) -> usize {
    SCRATCH_BASE + SCRATCH_PER_RECORD * log_records(log_length)
}

const fn at_most_ceiling(records: usize) -> usize {
    if records < RECORD_CEILING {
        records
    } else {
        RECORD_CEILING
    }
}

/// Says whether the watched set can be reached from the start. The log then holds the [`records`] of
/// the limit automaton, then zeros; only zeros if refused by [`Cause::ShortLog`].
///
/// If some watch transition leads into a state of the system, each process has a copy of all its
/// states, numbered after them, and the limit is that of the copied automaton, which accepts the
/// same configurations.
///
/// Refused by the table (causes 1 to 9), then by [`Cause::ShortScratch`] if the scratch has less
/// than [`scratch_bytes`], then by [`Cause::ShortLog`].
pub fn answer(table: &[u8], log: &mut [u8], scratch: &mut [u8]) -> Answer {
    Answer::of(&figures::answer(table, log, scratch, [0; 16]))
}

/// Answers and writes a run: the page then holds its rules, then zeros. The log is left as by
/// [`answer`]; a refusal leaves the page as it was.
///
/// Refused as [`answer`] is, then by [`Cause::NoRun`], then by [`Cause::LongRun`].
pub fn run(table: &[u8], log: &mut [u8], scratch: &mut [u8], page: &mut [u16]) -> Run {
    Run::of(&figures::run(table, log, scratch, page, [0; 16]))
}

/// Follows a list of rules from the start. The pile buffer then holds the pile, top first, then
/// zeros; refused at a step, the pile before it. It is unchanged if the start pile has no room.
///
/// Refused by the table (causes 1 to 9), then by [`Cause::ShortScratch`] if the scratch has less
/// than [`WALK_SCRATCH`] bytes, then by [`Cause::FullPile`] for the start pile, and at each step by
/// [`Cause::NoRule`], [`Cause::IdleRule`] and [`Cause::FullPile`].
pub fn walk<'l>(table: &[u8], rules: &'l [u16], pile: &mut [u8], scratch: &mut [u8]) -> Walk<'l> {
    Walk::of(&figures::walk(table, rules, pile, scratch, [0; 16]))
}
