//! What is special about a plan, by its order and by what both engines gave.

use crate::open::{Open, WEEK, bits_of, counted};
use crate::order::Order;
use roskavel::{LONGEST_STEP, WEEK_MINUTES, WINDOWS};
use second_engine::{WALK_SCRATCH, Walk, Window, walk};
use std::ops::Range;
use tables::Table;

const PROCESSES: usize = 4;
/// Room for the pile of a walk.
const PILE: usize = 1_024;

/// An order of good figures on an accepted table.
pub struct Plan<'p> {
    pub order: &'p Order,
    pub table: &'p Table,
    open: Open,
}

/// A step that was laid.
pub struct Step<'p> {
    plan: &'p Plan<'p>,
    bits: u8,
    pub minutes: Range<i64>,
    /// When each process has ended its earlier steps; the start if it has none.
    ends: [i64; PROCESSES],
}

/// A step that fits no minute.
pub struct Misfit<'p> {
    plan: &'p Plan<'p>,
    pub place: usize,
    bits: u8,
    length: usize,
}

impl<'p> Plan<'p> {
    pub fn new(order: &'p Order, table: &'p Table) -> Self {
        let open = Open::of(&order.hours, table.processes.len());
        Plan { order, table, open }
    }

    /// The steps of a plan that was given, with these begins.
    pub fn steps(&self, begins: &[i64]) -> Vec<Step<'_>> {
        let mut ends = [self.order.start; PROCESSES];
        let mut steps = Vec::new();
        for (&rule, &begin) in self.order.run.iter().zip(begins) {
            let step = Step {
                plan: self,
                bits: bits_of(self.table, rule),
                minutes: begin..begin + self.length_of(rule) as i64,
                ends,
            };
            for process in processes(step.bits) {
                ends[process] = step.minutes.end;
            }
            steps.push(step);
        }
        steps
    }

    /// The step at which the plan was refused.
    pub fn misfit(&self, place: usize) -> Misfit<'_> {
        let rule = self.order.run[place];
        Misfit {
            plan: self,
            place,
            bits: bits_of(self.table, rule),
            length: self.length_of(rule),
        }
    }

    fn length_of(&self, rule: u16) -> usize {
        usize::from(self.order.lengths[usize::from(rule)])
    }

    fn windows(&self, process: usize) -> &[Window] {
        counted(&self.order.hours, process)
    }

    pub fn is_without_windows(&self) -> bool {
        let mut all = 0..self.table.processes.len();
        all.all(|process| self.windows(process).is_empty())
    }

    pub fn has_bad_window_past_a_count(&self) -> bool {
        let hours = &self.order.hours;
        let past = |process: usize| &hours.windows[process][self.windows(process).len()..];
        let mut all = 0..self.table.processes.len();
        all.any(|process| !past(process).iter().all(is_good))
    }

    /// Whether a process that the table lacks has more windows than there can be, or a bad one.
    pub fn has_bad_hours_of_no_process(&self) -> bool {
        let hours = &self.order.hours;
        let is_bad = |process: usize| {
            usize::from(hours.counts[process]) > WINDOWS
                || !self.windows(process).iter().all(is_good)
        };
        (self.table.processes.len()..PROCESSES).any(is_bad)
    }

    pub fn has_bad_length_of_no_rule(&self) -> bool {
        let others = &self.order.lengths[self.table.rules.len()..];
        others
            .iter()
            .any(|length| !(1..=LONGEST_STEP).contains(length))
    }

    /// Whether the run is not one of the table.
    pub fn has_idle_rule(&self) -> bool {
        let Order { table, run, .. } = self.order;
        let walked = walk(table, run, &mut [0; PILE], &mut [0; WALK_SCRATCH]);
        matches!(walked, Walk::Refused { .. })
    }
}

impl Step<'_> {
    /// The first minute that the start and its processes' earlier steps allow.
    fn bound(&self) -> i64 {
        let own = processes(self.bits).map(|process| self.ends[process]);
        own.fold(self.plan.order.start, i64::max)
    }

    fn length(&self) -> i64 {
        self.minutes.end - self.minutes.start
    }

    pub fn takes(&self, minutes: u16) -> bool {
        self.length() == i64::from(minutes)
    }

    pub fn has_processes(&self, count: u32) -> bool {
        self.bits.count_ones() == count
    }

    pub fn crosses_midnight(&self) -> bool {
        week_of(self.minutes.start) != week_of(self.minutes.end - 1)
    }

    pub fn crosses_minute_0(&self) -> bool {
        self.minutes.contains(&-1) && self.minutes.contains(&0)
    }

    /// Whether it runs on where one window of a process closes, another opens and none is open
    /// before and after. Sunday midnight does not count.
    pub fn crosses_touching_windows(&self) -> bool {
        processes(self.bits).any(|process| self.crosses_joint(process))
    }

    fn crosses_joint(&self, process: usize) -> bool {
        let windows = self.plan.windows(process);
        windows.iter().any(|window| {
            let minute = window.closes;
            let ahead = (i64::from(minute) - self.minutes.start).rem_euclid(WEEK);
            minute < WEEK_MINUTES
                && 0 < ahead
                && ahead < self.length()
                && windows.iter().any(|next| next.opens == minute)
                && !windows
                    .iter()
                    .any(|other| other.opens < minute && minute < other.closes)
        })
    }

    /// Whether it needs windows of a process that overlap, since no one is long enough.
    pub fn crosses_overlapping_windows(&self) -> bool {
        let first = self.minutes.start.rem_euclid(WEEK);
        let holds = |window: &Window| {
            i64::from(window.opens) <= first && first + self.length() <= i64::from(window.closes)
        };
        let is_held = |process: usize| self.plan.windows(process).iter().any(holds);
        let mut own = processes(self.bits);
        !self.crosses_midnight()
            && own.any(|process| !is_held(process) && !self.crosses_joint(process))
    }

    pub fn waits_past_a_week(&self) -> bool {
        week_of(self.bound()) < week_of(self.minutes.start)
    }

    /// Whether it would fit before the end of an earlier step of one of its processes.
    pub fn is_delayed(&self) -> bool {
        let bound = self.bound();
        bound > self.plan.order.start
            && bound == self.minutes.start
            && self.plan.open.has(self.bits, bound - 1)
    }

    /// Whether it begins before the end of an earlier step of a process that it does not have.
    pub fn is_not_delayed(&self) -> bool {
        processes(!self.bits).any(|process| self.minutes.start < self.ends[process])
    }

    /// Whether its opening is just as long.
    pub fn just_fits(&self) -> bool {
        let open = |minute| self.plan.open.has(self.bits, minute);
        !open(self.minutes.start - 1) && !open(self.minutes.end)
    }
}

impl Misfit<'_> {
    fn longest_opening(&self) -> usize {
        self.plan.open.longest(self.bits)
    }

    pub fn is_too_long(&self) -> bool {
        self.longest_opening() > 0
    }

    pub fn just_misses(&self) -> bool {
        self.is_too_long() && self.longest_opening() + 1 == self.length
    }

    pub fn has_closed_process(&self) -> bool {
        processes(self.bits).any(|process| self.plan.windows(process).is_empty())
    }

    /// Whether each of its processes opens, but never all of them at once.
    pub fn is_never_together(&self) -> bool {
        !self.is_too_long() && !self.has_closed_process()
    }
}

fn processes(bits: u8) -> impl Iterator<Item = usize> {
    (0..PROCESSES).filter(move |process| bits >> process & 1 == 1)
}

fn week_of(minute: i64) -> i64 {
    minute.div_euclid(WEEK)
}

fn is_good(window: &Window) -> bool {
    window.opens < window.closes && window.closes <= WEEK_MINUTES
}
