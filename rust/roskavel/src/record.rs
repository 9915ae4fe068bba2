//! The records of a log: the transitions of the limit automaton, each with its reason.

use crate::{RECORD_BYTES, WRITTEN_PLACES};
use core::fmt::{self, Debug, Formatter};
use core::iter::FusedIterator;

/// What stands for no rule, and for no place of a path.
const NONE: u16 = 0xFFFF;

/// A transition of the limit automaton, with the round and the reason that added it.
#[non_exhaustive]
#[derive(Clone, Copy, PartialEq, Eq, Hash)]
pub struct Record {
    /// The letter that the transition reads.
    pub letter: u8,
    /// The state of each process before it, 255 of one that has no part in the letter.
    pub before: [u8; 4],
    /// The state of each process after it, 255 of one that has no part in the letter.
    pub after: [u8; 4],
    /// The round that added it; 0 if it is the watch automaton's own.
    pub round: u16,
    /// The rule that added it, in round 1 or later.
    pub rule: Option<u16>,
    /// How many rules it unfolds into, at most one more than [`STEP_CEILING`](crate::STEP_CEILING).
    pub steps: u32,
    path: [u16; WRITTEN_PLACES],
}

impl Record {
    /// The numbers of the records, from 0, that read what the rule writes, in its order; empty
    /// without a rule.
    #[must_use]
    pub fn path(&self) -> &[u16] {
        let mut places = self.path.split(|&place| place == NONE);
        places.next().unwrap_or_default()
    }

    fn read(bytes: &[u8; RECORD_BYTES]) -> Record {
        let pair = |at| u16::from_le_bytes([bytes[at], bytes[at + 1]]);
        let group = |at| [bytes[at], bytes[at + 1], bytes[at + 2], bytes[at + 3]];
        let rule = pair(11);
        Record {
            letter: bytes[0],
            before: group(1),
            after: group(5),
            round: pair(9),
            rule: (rule != NONE).then_some(rule),
            path: core::array::from_fn(|place| pair(13 + 2 * place)),
            steps: u32::from_le_bytes([bytes[25], bytes[26], bytes[27], 0]),
        }
    }
}

impl Debug for Record {
    fn fmt(&self, to: &mut Formatter) -> fmt::Result {
        to.debug_struct("Record")
            .field("letter", &self.letter)
            .field("before", &self.before)
            .field("after", &self.after)
            .field("round", &self.round)
            .field("rule", &self.rule)
            .field("path", &self.path())
            .field("steps", &self.steps)
            .finish()
    }
}

/// The records of a log, in order: [`records`] gives them.
#[must_use]
#[derive(Clone, Debug)]
pub struct Records<'l> {
    rest: &'l [u8],
}

/// The records of a log that [`answer`](crate::answer) or [`run`](crate::run) has left: those up to
/// the zeros behind the last one. No record is zero, since one of round 0 has no rule, which is
/// written as 65,535.
///
/// A log that no call has written is read like any other: what it holds, up to zeros.
///
/// # Example
///
/// ```
/// # let table = [
/// #     1, 2, 2, 1, 2, 2, 2, 0b11, 2, 0b01, 2, 0b10,
/// #     3, 0, 0, 0, 255, 255, 0, 0, 255, 255, 2, 1, 2, 255, 255, 255, 255,
/// #     3, 1, 0, 255, 255, 255, 1, 255, 255, 255, 0, 255, 255, 255, 255, 255, 255,
/// #     3, 2, 255, 0, 255, 255, 255, 1, 255, 255, 0, 255, 255, 255, 255, 255, 255,
/// #     5, 1, 1, 255, 255, 6, 0, 0, 255, 255, 7, 0, 8,
/// # ];
/// use roskavel::{Answer, answer, log_bytes, records, scratch_bytes};
///
/// let mut log = vec![0; log_bytes(2_000)];
/// let mut scratch = vec![0; scratch_bytes(log.len())];
/// let Answer::Reachable { transitions, .. } = answer(&table, &mut log, &mut scratch) else {
///     panic!("no run");
/// };
/// assert_eq!(records(&log).count(), transitions);
/// for record in records(&log) {
///     println!("round {}: letter {} by rule {:?}", record.round, record.letter, record.rule);
/// }
/// ```
pub fn records(log: &[u8]) -> Records<'_> {
    Records { rest: log }
}

impl Iterator for Records<'_> {
    type Item = Record;

    fn next(&mut self) -> Option<Record> {
        match self.rest.split_first_chunk() {
            Some((bytes, rest)) if bytes != &[0; RECORD_BYTES] => {
                self.rest = rest;
                Some(Record::read(bytes))
            }
            _ => {
                self.rest = &[];
                None
            }
        }
    }

    fn size_hint(&self) -> (usize, Option<usize>) {
        (0, Some(self.rest.len() / RECORD_BYTES))
    }
}

impl FusedIterator for Records<'_> {}
