//! Single figures beyond their bounds.

use crate::open::counted;
use crate::order::Order;
use roskavel::STEP_CEILING;
use second_engine::Window;
use tables::Table;

/// A change that gives an order one bad figure.
#[derive(Clone, Copy)]
pub enum Fault {
    Count {
        process: usize,
        count: u8,
    },
    Window {
        process: usize,
        place: usize,
        window: Window,
    },
    Length {
        rule: usize,
        length: u16,
    },
    /// So many lengths only.
    Lengths(usize),
    Start(i64),
    Rule {
        step: usize,
        rule: u16,
    },
    /// One step more than a run may have.
    Steps,
    /// So many places in the list only.
    Places(usize),
}

const COUNTS: [u8; 3] = [15, 16, 255];
const LENGTHS: [u16; 3] = [0, 1_441, 65_535];
const STARTS: [i64; 6] = [-1_000_001, 1_000_001, -1 << 32, 1 << 32, i64::MIN, i64::MAX];

/// Windows that do not open before they close, or close too late.
pub const WINDOWS: [Window; 8] = [
    window(0, 0),
    window(600, 600),
    window(601, 600),
    window(10_080, 10_080),
    window(0, 10_081),
    window(10_080, 10_081),
    window(600, 65_535),
    window(65_535, 0),
];

pub const fn window(opens: u16, closes: u16) -> Window {
    Window { opens, closes }
}

impl Fault {
    /// Every fault of a good order at every place that it can have. The table is that of `model`.
    pub fn all(order: &Order, model: &Table) -> Vec<Fault> {
        let rules = model.rules.len();
        let absent = [rules as u16, 256, 65_535];
        let mut all = STARTS.map(Fault::Start).to_vec();
        for process in 0..model.processes.len() {
            all.extend(COUNTS.map(|count| Fault::Count { process, count }));
            for place in 0..counted(&order.hours, process).len() {
                all.extend(WINDOWS.map(|window| Fault::Window {
                    process,
                    place,
                    window,
                }));
            }
        }
        for rule in 0..rules {
            all.extend(LENGTHS.map(|length| Fault::Length { rule, length }));
            all.push(Fault::Lengths(rule));
        }
        for step in 0..order.run.len() {
            all.extend(absent.map(|rule| Fault::Rule { step, rule }));
            all.push(Fault::Places(step));
        }
        if rules > 0 {
            all.push(Fault::Steps);
        }
        all
    }

    pub fn apply(self, order: &mut Order) {
        match self {
            Fault::Count { process, count } => order.hours.counts[process] = count,
            Fault::Window {
                process,
                place,
                window,
            } => order.hours.windows[process][place] = window,
            Fault::Length { rule, length } => order.lengths[rule] = length,
            Fault::Lengths(count) => order.lengths.truncate(count),
            Fault::Start(start) => order.start = start,
            Fault::Rule { step, rule } => order.run[step] = rule,
            Fault::Steps => {
                order.run = vec![0; STEP_CEILING + 1];
                order.places = order.run.len();
            }
            Fault::Places(places) => order.places = places,
        }
    }

    pub fn name(self) -> &'static str {
        match self {
            Fault::Count { .. } => "more than 14 windows",
            Fault::Window { .. } => "bad window",
            Fault::Length { .. } => "length outside 1 to 1,440",
            Fault::Lengths(_) => "rule without a length",
            Fault::Start(_) => "start beyond 1,000,000",
            Fault::Rule { .. } => "rule that the table lacks",
            Fault::Steps => "run above 1,000,000 steps",
            Fault::Places(_) => "list shorter than the run",
        }
    }
}
