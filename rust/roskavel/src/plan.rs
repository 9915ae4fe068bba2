//! A run laid on the week, by the opening hours of the processes.

#[cfg(doc)]
use crate::{Cause, STEP_CEILING};
use crate::{Refusal, calls};
use core::ops::Range;

/// The minutes of a week: no window closes later.
pub const WEEK_MINUTES: u16 = 10_080;
/// The most windows of a process.
pub const WINDOWS: usize = 14;
/// The most minutes that a rule takes; the least is 1.
pub const LONGEST_STEP: u16 = 1_440;
/// How far a plan's start may be from minute 0, before or after it.
pub const START_BOUND: i64 = 1_000_000;

/// The opening hours: for each process its windows of minutes of the week, Monday 00:00 being 0.
///
/// Two weeks are equal if they have the same at every place, past the counts as well.
#[repr(C)]
#[derive(Clone, Copy, PartialEq, Eq, Debug)]
pub struct Week {
    processes: [Hours; 4],
}

/// The windows of one process, and how many of them there are.
#[repr(C)]
#[derive(Clone, Copy, PartialEq, Eq, Debug)]
struct Hours {
    windows: [Window; WINDOWS],
    count: u8,
}

#[repr(C)]
#[derive(Clone, Copy, PartialEq, Eq, Debug, Default)]
struct Window {
    opens: u16,
    closes: u16,
}

impl Week {
    /// The week with these windows of each process: `480..720` opens at minute 480 and closes at
    /// 720. More than [`WINDOWS`] of a process are refused by [`plan`], if the table has it.
    #[must_use]
    pub fn new(windows: [&[Range<u16>]; 4]) -> Week {
        Week {
            processes: windows.map(Hours::new),
        }
    }

    /// The week as C has it: all places for windows, and how many of them count. What stands past a
    /// count, or belongs to a process that the table lacks, is not looked at.
    #[must_use]
    pub fn of_places(places: [[Range<u16>; WINDOWS]; 4], counts: [u8; 4]) -> Week {
        let mut week = Week::new(places.each_ref().map(|windows| &windows[..]));
        for (hours, count) in week.processes.iter_mut().zip(counts) {
            hours.count = count;
        }
        week
    }
}

impl Hours {
    /// With more windows than there are places the count tells so.
    fn new(windows: &[Range<u16>]) -> Hours {
        let window = |place| windows.get(place).map(Window::of).unwrap_or_default();
        Hours {
            windows: core::array::from_fn(window),
            count: windows.len().min(usize::from(u8::MAX)) as u8,
        }
    }
}

impl Window {
    fn of(minutes: &Range<u16>) -> Window {
        Window {
            opens: minutes.start,
            closes: minutes.end,
        }
    }
}

/// Lays a run on the week. In its order each step begins at the first minute, not before the start
/// nor before the processes of its letter have ended their earlier steps, from which all of them
/// are open for its whole length. Whether the rules fire is not asked.
///
/// Minute 0 is Monday 00:00 of the plan's week, the minutes before it are negative, and all weeks
/// are alike. Windows that touch or overlap run on, also from Sunday into Monday.
///
/// The list of begins then holds the minute in which each step begins, and after these what it held
/// before. A refusal leaves it as it was.
///
/// # Errors
///
/// Refused by the table (causes 1 to 9), then by [`Cause::BadHours`] if one of these does not hold,
/// then by [`Cause::NeverOpen`]:
///
/// - The run has at most [`STEP_CEILING`] steps, and rules of the table alone.
/// - Each process of the table has at most [`WINDOWS`] windows. Each opens before it closes, and
///   closes at [`WEEK_MINUTES`] or before.
/// - Each rule of the table has a length, from 1 to [`LONGEST_STEP`].
/// - The start is from -[`START_BOUND`] to [`START_BOUND`].
/// - The list of begins is at least as long as the run.
///
/// # Example
///
/// ```
/// use roskavel::{Cause, Refusal, Week, plan};
///
/// let table = [
///     1, 2, 2, 1, 2, 2, // two processes of two states
///     2, 0b11, 2, 0b01, 2, 0b10, // a letter of both, one of the first, one of the second
///     3, 0, 0, 0, 255, 255, 0, 0, 255, 255, 2, 1, 2, 255, 255, 255, 255, // rule 0 writes 1 2
///     // rules 1 and 2 write none: state 0 to 1
///     3, 1, 0, 255, 255, 255, 1, 255, 255, 255, 0, 255, 255, 255, 255, 255, 255,
///     3, 2, 255, 0, 255, 255, 255, 1, 255, 255, 0, 255, 255, 255, 255, 255, 255,
///     5, 1, 1, 255, 255, // accepting
///     6, 0, 0, 255, 255, // start
///     7, 0, // start pile
///     8, // end
/// ];
/// // On Monday the first process is open from 8:00 to 12:00 and from 13:00 to 17:00, the second
/// // from 10:00 to 24:00 and, over midnight, from Sunday 22:00 to Monday 1:00.
/// let first = [480..720, 780..1_020];
/// let second = [600..1_440, 9_960..10_080, 0..60];
/// let week = Week::new([&first, &second, &[], &[]]);
/// let mut begins = [0; 3];
///
/// // Both are open at 600. The first is free at 660, but has 60 minutes left then: rule 1 waits.
/// plan(&table, &[0, 1, 2], &week, &[60, 90, 30], 0, &mut begins)?;
/// assert_eq!(begins, [600, 780, 660]);
///
/// // From Sunday 23:00 on: once over midnight, then at 10:00.
/// plan(&table, &[2, 2], &week, &[60, 90, 90], -60, &mut begins)?;
/// assert_eq!(begins, [-60, 600, 660]);
///
/// let given = plan(&table, &[0, 1, 2], &week, &[60, 241, 30], 0, &mut begins);
/// assert_eq!(given, Err(Refusal { cause: Cause::NeverOpen, place: 1 }));
/// # Ok::<(), Refusal>(())
/// ```
pub fn plan(
    table: &[u8],
    run: &[u16],
    week: &Week,
    lengths: &[u16],
    start: i64,
    begins: &mut [i64],
) -> Result<(), Refusal> {
    calls::plan(table, run, week, lengths, start, begins)
}
