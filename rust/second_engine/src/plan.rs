//! Opening hours (request 2.7): a run laid on the week. Openness is a matter of single minutes, and
//! a step tries one minute after the other; so windows that touch or overlap, also across Sunday
//! midnight, run on by themselves.

use crate::Refusal;
use crate::group::PROCESSES;
use crate::participation::participants;
use crate::table::Table;
use std::ops::RangeInclusive;

/// The minutes of a week.
pub const WEEK: i64 = 10_080;
/// How many places for windows a process has.
pub const WINDOWS: usize = 14;
/// How many minutes a rule may take.
pub const LENGTHS: RangeInclusive<u16> = 1..=1_440;
/// Where a plan may start.
pub const STARTS: RangeInclusive<i64> = -1_000_000..=1_000_000;
/// The most steps of a run that is laid.
pub const PLAN_STEPS: usize = 1_000_000;

const BAD_HOURS: u8 = 19;
const NEVER_OPEN: u8 = 20;

/// A window of minutes in the week; the closing minute is not included.
#[derive(Clone, Copy, PartialEq, Eq, Debug, Default)]
pub struct Window {
    pub opens: u16,
    pub closes: u16,
}

/// The opening hours: for each process 14 places for windows, and how many of them count.
#[derive(Clone, Copy, PartialEq, Eq, Debug, Default)]
pub struct Hours {
    pub windows: [[Window; WINDOWS]; PROCESSES],
    pub counts: [u8; PROCESSES],
}

impl Hours {
    /// The windows of a process that count.
    fn counted(&self, process: usize) -> impl Iterator<Item = &Window> {
        let count = usize::from(self.counts[process]);
        self.windows[process].iter().take(count)
    }

    fn are_good(&self, process: usize) -> bool {
        let good = |w: &Window| w.opens < w.closes && i64::from(w.closes) <= WEEK;
        usize::from(self.counts[process]) <= WINDOWS && self.counted(process).all(good)
    }

    /// Whether a process is open in each minute of the week.
    fn open_minutes(&self, process: usize) -> Vec<bool> {
        let is_open = |minute| {
            let mut windows = self.counted(process);
            windows.any(|window| (window.opens..window.closes).contains(&minute))
        };
        (0..WEEK as u16).map(is_open).collect()
    }
}

/// A step by some rule.
struct Step {
    processes: Vec<usize>,
    length: i64,
    /// What was found for each minute of the week that was tried: whether the step fits there.
    tried: Vec<Option<bool>>,
}

impl Step {
    fn of(table: &Table, rule: u16, length: u16) -> Self {
        let locations = participants(table, rule);
        let processes = (0..PROCESSES).filter(|&process| locations.contains(process));
        Step {
            processes: processes.collect(),
            length: i64::from(length),
            tried: vec![None; WEEK as usize],
        }
    }

    /// Whether all its processes are open for its whole length from a minute on.
    fn fits(&mut self, open: &[Vec<bool>], begin: i64) -> bool {
        let is_open = |minute| {
            let mut own = self.processes.iter();
            own.all(|&process| open[process][of_week(minute)])
        };
        let whole = || (begin..begin + self.length).all(is_open);
        *self.tried[of_week(begin)].get_or_insert_with(whole)
    }
}

/// The minute of the week; minute -1 is its last one.
fn of_week(minute: i64) -> usize {
    minute.rem_euclid(WEEK) as usize
}

/// Lays a run on the week: in its order each step begins at the first minute, not before the start
/// nor before all its processes have ended their earlier steps, from which they are open for its
/// whole length. The begins go to the list's first places. Refused by 1 to 9, 19 and 20, which leave
/// the list as it was.
pub fn plan(
    table: &[u8],
    run: &[u16],
    hours: &Hours,
    lengths: &[u16],
    start: i64,
    begins: &mut [i64],
) -> Result<(), Refusal> {
    let table = Table::read(table)?;
    if !are_bounded(&table, run, hours, lengths, start) || begins.len() < run.len() {
        return Err(Refusal {
            number: BAD_HOURS,
            place: 0,
        });
    }
    let open = (0..table.processes.len()).map(|process| hours.open_minutes(process));
    let open: Vec<Vec<bool>> = open.collect();
    let rules = (0..table.rules.len() as u16).zip(lengths);
    let mut steps: Vec<Step> = rules
        .map(|(rule, &length)| Step::of(&table, rule, length))
        .collect();

    let mut fits = |rule: u16, minute| steps[usize::from(rule)].fits(&open, minute);
    let never_fits = |&rule: &u16| !(0..WEEK).any(|minute| fits(rule, minute));
    if let Some(place) = run.iter().position(never_fits) {
        return Err(Refusal {
            number: NEVER_OPEN,
            place,
        });
    }

    // When each process has ended its earlier steps.
    let mut ends = [start; PROCESSES];
    for (begin, &rule) in begins.iter_mut().zip(run) {
        let step = &mut steps[usize::from(rule)];
        let own_ends = step.processes.iter().map(|&process| ends[process]);
        let bound = own_ends.fold(start, i64::max);
        let first = (bound..).find(|&minute| step.fits(&open, minute));
        *begin = first.expect("some minute of each week fits");
        for &process in &step.processes {
            ends[process] = *begin + step.length;
        }
    }
    Ok(())
}

/// Whether the figures are within the request's bounds. None is looked at of a process or a rule
/// that the table lacks.
fn are_bounded(table: &Table, run: &[u16], hours: &Hours, lengths: &[u16], start: i64) -> bool {
    let rules = table.rules.len();
    let mut processes = 0..table.processes.len();
    let mut lengths = lengths.iter().take(rules);
    STARTS.contains(&start)
        && processes.all(|process| hours.are_good(process))
        && lengths.len() == rules
        && lengths.all(|length| LENGTHS.contains(length))
        && run.len() <= PLAN_STEPS
        && run.iter().all(|&rule| usize::from(rule) < rules)
}
