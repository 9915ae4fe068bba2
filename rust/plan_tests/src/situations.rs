//! The situations that the random plans are for: all of them must be met.

use crate::facts::{Misfit, Plan, Step};
use crate::order::{Given, Order};
use comparison::{Counts, Demand};
use roskavel::{LONGEST_STEP, START_BOUND};
use tables::Table;

/// How many plans on random tables there must be, and how many plans that are given.
const LEAST: usize = 10_000;
const LEAST_GIVEN: usize = 5_000;
pub const RANDOM: &str = "plans on random tables";
const GIVEN: &str = "plans given";

const NEVER_OPEN: u8 = 20;
/// The refusals, the table's own first.
const REFUSALS: [u8; 11] = [1, 2, 3, 4, 5, 6, 7, 8, 9, 19, NEVER_OPEN];

// Each situation with its name.
type OfPlan = (&'static str, fn(&Plan) -> bool);
type OfStep = (&'static str, fn(&Step) -> bool);
type OfMisfit = (&'static str, fn(&Misfit) -> bool);

/// Those of a plan that is given.
const PLANS: [OfPlan; 9] = [
    ("given from a negative start", |plan| {
        plan.order.start < 0 && !plan.order.run.is_empty()
    }),
    ("given from the first start", |plan| {
        plan.order.start == -START_BOUND
    }),
    ("given from the last start", |plan| {
        plan.order.start == START_BOUND
    }),
    ("given with places left behind the run", |plan| {
        (1..plan.order.places).contains(&plan.order.run.len())
    }),
    ("given without a step, nothing open", |plan| {
        plan.order.run.is_empty() && plan.is_without_windows()
    }),
    ("given with a rule that does not fire", |plan| {
        plan.has_idle_rule()
    }),
    ("given with a bad window past a count", |plan| {
        plan.has_bad_window_past_a_count()
    }),
    ("given with bad hours of no process", |plan| {
        plan.has_bad_hours_of_no_process()
    }),
    ("given with a bad length of no rule", |plan| {
        plan.has_bad_length_of_no_rule()
    }),
];
const FALLING: &str = "given with begins that fall";

/// Those of a step that is laid.
const STEPS: [OfStep; 15] = [
    ("steps of 1 process", |step| step.has_processes(1)),
    ("steps of 2 processes", |step| step.has_processes(2)),
    ("steps of 3 processes", |step| step.has_processes(3)),
    ("steps of 4 processes", |step| step.has_processes(4)),
    ("steps of 1 minute", |step| step.takes(1)),
    ("steps of 1,440 minutes", |step| step.takes(LONGEST_STEP)),
    ("steps over Sunday midnight", |step| step.crosses_midnight()),
    ("steps over minute 0", |step| step.crosses_minute_0()),
    ("steps over touching windows", |step| {
        step.crosses_touching_windows()
    }),
    ("steps over overlapping windows", |step| {
        step.crosses_overlapping_windows()
    }),
    ("steps that just fit", |step| step.just_fits()),
    ("steps that just fit over midnight", |step| {
        step.just_fits() && step.crosses_midnight()
    }),
    ("steps that wait past a week's end", |step| {
        step.waits_past_a_week()
    }),
    ("steps delayed by an earlier step", |step| step.is_delayed()),
    ("steps not delayed by another process", |step| {
        step.is_not_delayed()
    }),
];

/// Those of a step that fits no minute.
const MISFITS: [OfMisfit; 6] = [
    ("refused 20 at the first step", |misfit| misfit.place == 0),
    ("refused 20 at a later step", |misfit| misfit.place > 0),
    ("refused 20, open but not for long enough", |misfit| {
        misfit.is_too_long()
    }),
    ("refused 20, a minute too long", |misfit| {
        misfit.just_misses()
    }),
    ("refused 20, never open together", |misfit| {
        misfit.is_never_together()
    }),
    ("refused 20, a process without windows", |misfit| {
        misfit.has_closed_process()
    }),
];

/// Counts the situations that an order on a table met.
pub fn note(order: &Order, table: &Table, given: &Given, counts: &mut Counts) {
    match given {
        Ok(begins) => note_given(&Plan::new(order, table), begins, counts),
        Err(refusal) => {
            counts.meet(refused(refusal.number));
            if refusal.number == NEVER_OPEN {
                let plan = Plan::new(order, table);
                let misfit = plan.misfit(refusal.place);
                meet(MISFITS.map(|(name, met)| (name, met(&misfit))), counts);
            }
        }
    }
}

fn note_given(plan: &Plan, begins: &[i64], counts: &mut Counts) {
    counts.meet(GIVEN);
    meet(PLANS.map(|(name, met)| (name, met(plan))), counts);
    meet([(FALLING, !begins.is_sorted())], counts);
    for step in plan.steps(begins) {
        meet(STEPS.map(|(name, met)| (name, met(&step))), counts);
    }
}

fn meet<const COUNT: usize>(situations: [(&'static str, bool); COUNT], counts: &mut Counts) {
    for (name, _) in situations.into_iter().filter(|(_, met)| *met) {
        counts.meet(name);
    }
}

/// Every situation that must be met.
pub fn all() -> Vec<Demand> {
    let mut situations = Vec::from(REFUSALS.map(|number| Demand::once(refused(number))));
    situations.extend(PLANS.map(|(name, _)| Demand::once(name)));
    situations.push(Demand::once(FALLING));
    situations.extend(STEPS.map(|(name, _)| Demand::once(name)));
    situations.extend(MISFITS.map(|(name, _)| Demand::once(name)));
    situations.push(Demand::new(RANDOM, LEAST));
    situations.push(Demand::new(GIVEN, LEAST_GIVEN));
    situations
}

fn refused(number: u8) -> String {
    format!("refused {number}")
}
