//! A desk on a table: rules are fired one by one, and configurations have names to return to.

#[cfg(doc)]
use crate::Cause;
use crate::Refusal;
use crate::calls::{self, RawDesk};
use core::fmt::{self, Debug, Formatter};

/// The most letters of a desk's pile.
pub const DESK_PILE: usize = 256;
/// How many names a desk has, from 0.
pub const NAMES: u8 = 8;
/// Where a desk's count of steps stops.
pub const COUNT_CEILING: usize = 4_294_967_295;

/// A desk, opened on a table that it keeps a copy of. It stands in a configuration, at first the
/// start, and holds up to [`NAMES`] other ones by name. It counts for each process the steps that
/// it takes part in, which are the fires of rules whose letter has it.
///
/// A save notes the history of fires so far, and a return makes a noted history the current one.
/// The desk stands where a [`walk`](crate::walk) of its current history ends. A refused call
/// changes nothing.
///
/// A desk is plain data of 8,536 bytes; a clone is a desk of its own.
///
/// # Example
///
/// ```
/// use roskavel::{Cause, Desk};
///
/// let table = [
///     1, 2, 2, 1, 2, 2, // two processes of two states
///     2, 0b11, 2, 0b01, 2, 0b10, // a letter of both, one of the first, one of the second
///     3, 0, 0, 0, 255, 255, 0, 0, 255, 255, 2, 1, 2, 255, 255, 255, 255, // rule 0 writes 1 2
///     // rules 1 and 2 write none: state 0 to 1
///     3, 1, 0, 255, 255, 255, 1, 255, 255, 255, 0, 255, 255, 255, 255, 255, 255,
///     3, 2, 255, 0, 255, 255, 255, 1, 255, 255, 0, 255, 255, 255, 255, 255, 255,
///     5, 1, 1, 255, 255, // accepting
///     6, 0, 0, 255, 255, // start
///     7, 0, // start pile
///     8, // end
/// ];
/// let mut desk = Desk::open(&table)?;
/// assert_eq!(desk.fire(0)?, 0b11); // both processes took part
/// desk.save(5)?;
/// assert_eq!(desk.fire(2)?, 0b10); // the second did
/// assert_eq!(desk.look().states, [0, 1, 255, 255]);
/// assert_eq!(desk.look().pile(), [1]);
/// assert_eq!(desk.counts(), [1, 2, 0, 0]);
///
/// desk.return_to(5)?;
/// assert_eq!(desk.look().states, [0, 0, 255, 255]);
/// assert_eq!(desk.look().pile(), [1, 2]);
/// assert_eq!(desk.counts(), [0; 4]);
///
/// let refusal = desk.fire(0).unwrap_err();
/// assert_eq!(refusal.cause, Cause::IdleRule);
/// # Ok::<(), roskavel::Refusal>(())
/// ```
#[derive(Clone)]
pub struct Desk(RawDesk);

/// The configuration that a desk stands in.
#[must_use]
#[repr(C)]
#[derive(Clone, Copy, PartialEq, Eq)]
pub struct Sight {
    /// The state of each process, 255 where the table lacks it.
    pub states: [u8; 4],
    length: usize,
    /// The word, then zeros.
    pile: [u8; DESK_PILE],
}

impl Desk {
    /// Opens a desk at the table's start, no name held and nothing counted.
    ///
    /// # Errors
    ///
    /// Refused by the table (causes 1 to 9).
    pub fn open(table: &[u8]) -> Result<Desk, Refusal> {
        calls::open(table).map(Desk)
    }

    /// Fires a rule, and gives the processes of its letter as bits, bit 0 for process 0.
    ///
    /// # Errors
    ///
    /// Refused by [`Cause::NoRule`], then [`Cause::IdleRule`], then [`Cause::FullPile`] if the pile
    /// would have more than [`DESK_PILE`] letters.
    pub fn fire(&mut self, rule: u16) -> Result<u8, Refusal> {
        let fire = calls::fire(&mut self.0, rule);
        check(fire.number).map(|()| fire.processes)
    }

    /// Saves under a name, in place of what the name held.
    ///
    /// # Errors
    ///
    /// Refused by [`Cause::BadName`].
    pub fn save(&mut self, name: u8) -> Result<(), Refusal> {
        check(calls::save(&mut self.0, name))
    }

    /// Returns to a name; every name stays held, and the counts begin again at 0.
    ///
    /// # Errors
    ///
    /// Refused by [`Cause::BadName`], then [`Cause::EmptyName`].
    pub fn return_to(&mut self, name: u8) -> Result<(), Refusal> {
        check(calls::return_to(&mut self.0, name))
    }

    /// Forgets a name.
    ///
    /// # Errors
    ///
    /// Refused by [`Cause::BadName`], then [`Cause::EmptyName`].
    pub fn forget(&mut self, name: u8) -> Result<(), Refusal> {
        check(calls::forget(&mut self.0, name))
    }

    /// Where the desk stands.
    pub fn look(&self) -> Sight {
        calls::look(&self.0)
    }

    /// For each process the number of steps that it took part in, since the desk was opened or last
    /// returned, at most [`COUNT_CEILING`]; 0 where the table lacks it.
    #[must_use]
    pub fn counts(&self) -> [usize; 4] {
        calls::count(&self.0).map(|count| count as usize)
    }
}

impl Sight {
    /// The pile's word, top first.
    #[must_use]
    pub fn pile(&self) -> &[u8] {
        &self.pile[..self.length.min(DESK_PILE)]
    }
}

impl Debug for Desk {
    fn fmt(&self, to: &mut Formatter) -> fmt::Result {
        to.debug_tuple("Desk").field(&self.look()).finish()
    }
}

impl Debug for Sight {
    fn fmt(&self, to: &mut Formatter) -> fmt::Result {
        let mut parts = to.debug_struct("Sight");
        parts.field("states", &self.states);
        parts.field("pile", &self.pile()).finish()
    }
}

/// A call at an open desk: refused, unless the number is 0.
fn check(number: u8) -> Result<(), Refusal> {
    Refusal::check(u64::from(number), 0)
}
