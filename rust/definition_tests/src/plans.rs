//! Orders of plans on small tables, as the definitions and the second engine take them.

use crate::equations::list;
use second_engine::{Hours, Refusal, STARTS, WEEK, WINDOWS, Window, plan};
use tables::random::{self, Shape};
use tables::{Rng, Table, damage, named};

/// How many random orders are given, refused 20, and on a refused table.
const GIVEN: usize = 30;
const NEVER: usize = 2;
const ON_REFUSED: usize = 6;

/// How large random tables become, and how long damaged ones.
const SHAPE: Shape = Shape {
    processes: 4,
    states: 2,
    letters: 5,
    rules: 6,
    watch: 2,
    accepting: 1,
    pile: 2,
};
const BYTES: usize = 200;

/// How many minutes of steps may be tried in a plan that is given, and in one that is refused 20:
/// the checker computes each of them.
const GIVEN_MINUTES: i64 = 12_000;
const NEVER_MINUTES: i64 = 25_000;

/// The last refusal of a table.
const LEFTOVER: u8 = 9;
const NEVER_OPEN: u8 = 20;

const ALL_WEEK: Window = window(0, 10_080);

/// Windows past a count: one that is always open, and bad ones.
const PAST: [Window; 5] = [
    ALL_WEEK,
    window(60, 60),
    window(61, 60),
    window(0, 10_081),
    window(65_535, 0),
];

/// What a plan is asked for.
pub struct Order {
    run: Vec<u16>,
    /// The first windows of each process; those behind them are `Window::default()`.
    windows: [Vec<Window>; 4],
    counts: [u8; 4],
    lengths: Vec<u16>,
    start: i64,
    /// The length of the list that is lent.
    pub places: usize,
}

/// Random orders that are given, that are refused 20 and that have each of the faults; the chosen
/// orders; orders on refused tables.
pub fn all(rng: &mut Rng) -> Vec<(Vec<u8>, Order)> {
    let mut orders = Vec::new();
    for _ in 0..GIVEN {
        orders.push(drawn(rng, Order::is_soon_given));
    }
    for _ in 0..NEVER {
        orders.push(drawn(rng, Order::is_soon_refused));
    }
    for fault in FAULTS {
        let (table, mut order) = drawn(rng, Order::has_steps);
        fault.apply(rng, &table, &mut order);
        orders.push((table, order));
    }
    orders.extend(chosen());
    let orders = orders.into_iter();
    let mut orders: Vec<_> = orders
        .map(|(table, order)| (table.bytes(), order))
        .collect();
    orders.extend((0..ON_REFUSED).map(|_| on_refused(rng)));
    orders
}

/// A table and an order on it of which the test holds.
fn drawn(rng: &mut Rng, test: fn(&Order, &[u8]) -> bool) -> (Table, Order) {
    loop {
        let table = match rng.below(4) {
            0 => named::t(),
            1 => named::six_written(),
            _ => random::table(rng, &SHAPE),
        };
        let order = any_order(rng, &table);
        if test(&order, &table.bytes()) {
            return (table, order);
        }
    }
}

/// An order on a damaged table that is refused. Half of these orders have a fault themselves.
fn on_refused(rng: &mut Rng) -> (Vec<u8>, Order) {
    loop {
        let (whole, mut order) = drawn(rng, Order::has_steps);
        let table = damage::damaged(rng, &whole);
        if rng.chance(1, 2) {
            rng.pick(&FAULTS).apply(rng, &whole, &mut order);
        }
        let refusal = order.lay(&table, &mut vec![0; order.places]).err();
        let is_refused = refusal.is_some_and(|refusal| refusal.number <= LEFTOVER);
        if is_refused && table.len() <= BYTES {
            return (table, order);
        }
    }
}

/// Orders with figures at their bounds, one without a step, one of a step that fits only over Sunday
/// midnight, and orders that are refused 20.
fn chosen() -> [(Table, Order); 8] {
    let parts: [Window; WINDOWS] = std::array::from_fn(|place| {
        let opens = 2 * place as u16;
        window(opens, opens + 2)
    });
    let fourteen = order(&[1, 1], [&parts, &[]], &[1, 28, 1], -3);
    let late = [window(8_001, 8_003)];
    let earliest = order(&[1], [&late, &[]], &[1, 2, 1], *STARTS.start());
    let longest = order(&[0, 2], [&[ALL_WEEK]; 2], &[1_440, 1, 1_440], *STARTS.end());
    let idle = order(&[], [&[]; 2], &[], 0);
    let midnight = [window(10_079, 10_080), window(0, 1)];
    let over_midnight = order(&[1], [&midnight, &[]], &[1, 2, 1], -3);
    let too_long = order(&[1], [&midnight, &[]], &[1, 3, 1], -3);
    let mut shut = order(&[1, 2], [&[ALL_WEEK]; 2], &[1; 3], 0);
    shut.counts[1] = 0;
    let (early, later) = ([window(0, 10)], [window(10, 20)]);
    let apart = order(&[1, 2, 0], [&early, &later], &[1; 3], 0);
    [
        (named::t(), fourteen),
        (named::t(), earliest),
        (named::t(), longest),
        (named::smallest(), idle),
        (named::t(), over_midnight),
        (named::t(), too_long),
        (named::t(), shut),
        (named::t(), apart),
    ]
}

/// An order with these windows of the first two processes.
fn order(run: &[u16], windows: [&[Window]; 2], lengths: &[u16], start: i64) -> Order {
    let [first, second] = windows.map(<[Window]>::to_vec);
    Order {
        run: run.to_vec(),
        counts: [first.len() as u8, second.len() as u8, 0, 0],
        windows: [first, second, vec![], vec![]],
        lengths: lengths.to_vec(),
        start,
        places: run.len() + 1,
    }
}

/// An order without a fault. Figures of what the table lacks can be anything.
fn any_order(rng: &mut Rng, table: &Table) -> Order {
    let rules = table.rules.len();
    let steps = match rules {
        0 => 0,
        _ => rng.below(6).max(rng.below(6)),
    };
    let start = any_start(rng);
    let common = near(rng, start);
    let mut lengths: Vec<u16> = (0..rules).map(|_| any_length(rng, &common)).collect();
    lengths.extend((0..rng.below(3)).map(|_| *rng.pick(&[0, 1_441, 65_535])));
    let mut order = Order {
        run: (0..steps).map(|_| rng.below(rules) as u16).collect(),
        windows: Default::default(),
        counts: [(); 4].map(|()| *rng.pick(&[0, 1, 14, 15, 255])),
        lengths,
        start,
        places: steps + rng.below(3),
    };
    for (process, windows) in order.windows.iter_mut().enumerate() {
        if process < table.processes.len() {
            *windows = match rng.below(8) {
                0 => Vec::new(),
                1 => vec![ALL_WEEK],
                2 => near(rng, start),
                _ => common.clone(),
            };
            rng.shuffle(windows);
            order.counts[process] = windows.len() as u8;
        }
        while windows.len() < WINDOWS && rng.chance(1, 3) {
            windows.push(*rng.pick(&PAST));
        }
    }
    order
}

/// A short length, as long as one of the windows or a minute longer at times.
fn any_length(rng: &mut Rng, windows: &[Window]) -> u16 {
    let mut lengths = vec![rng.between(1, 12) as u16; 3];
    for window in windows {
        let length = window.closes - window.opens;
        lengths.extend([length, length + 1]);
    }
    *rng.pick(&lengths)
}

/// A start about the end of a week, or near its bounds.
fn any_start(rng: &mut Rng) -> i64 {
    let mut below = |bound: usize| rng.below(bound) as i64;
    match below(6) {
        0 => STARTS.start() + below(3),
        1 => STARTS.end() - below(3),
        2 | 3 => below(60) - 40,
        _ => WEEK * (below(199) - 99) + below(60) - 40,
    }
}

/// Windows that are apart, touch or overlap, all of them near a minute, and most often one near the
/// week's beginning, where check 20 tries first.
fn near(rng: &mut Rng, minute: i64) -> Vec<Window> {
    let count = *rng.pick(&[1, 2, 3, 3, 11]);
    // From every edge, or every other, to the next one or the one after it.
    let (every, further) = *rng.pick(&[(2, 1), (2, 1), (1, 1), (1, 2)]);
    let any = |_| minute - 5 + rng.below(60) as i64;
    let mut edges: Vec<i64> = (0..every * (count - 1) + further + 1).map(any).collect();
    edges.sort();
    edges.dedup();
    let openings = edges.iter().zip(edges.iter().skip(further));
    let openings = openings
        .step_by(every)
        .flat_map(|(&opens, &closes)| of_week(opens, closes));
    let mut windows: Vec<Window> = openings.collect();
    if rng.chance(3, 4) {
        let opens = rng.below(100) as u16;
        windows.push(window(opens, opens + rng.between(1, 30) as u16));
    }
    windows
}

/// The windows of a week from one minute to another: two if Sunday midnight is between them.
fn of_week(opens: i64, closes: i64) -> Vec<Window> {
    let end = WEEK as u16;
    let [opens, last] = [opens, closes - 1].map(|minute| minute.rem_euclid(WEEK) as u16);
    match opens <= last {
        true => vec![window(opens, last + 1)],
        false => vec![window(opens, end), window(0, last + 1)],
    }
}

const fn window(opens: u16, closes: u16) -> Window {
    Window { opens, closes }
}

impl Order {
    fn has_steps(&self, _: &[u8]) -> bool {
        !self.run.is_empty()
    }

    fn is_soon_given(&self, table: &[u8]) -> bool {
        let given = self.lay(table, &mut vec![0; self.places]);
        self.has_steps(table) && given.is_ok() && self.minutes(table) <= GIVEN_MINUTES
    }

    /// Refused 20.
    fn is_soon_refused(&self, table: &[u8]) -> bool {
        let given = self.lay(table, &mut vec![0; self.places]);
        given.is_err_and(|refusal| refusal.number == NEVER_OPEN)
            && self.minutes(table) <= NEVER_MINUTES
    }

    /// How many minutes of its steps are tried at most: for each step, its length from each minute
    /// that check 20 tries, up to the first in the week that it fits, and then from each minute
    /// between the start and its begin.
    fn minutes(&self, table: &[u8]) -> i64 {
        // What a refused plan leaves: no begin, and all minutes of the week.
        let mut begins = vec![self.start - 1; self.places];
        let _ = self.lay(table, &mut begins);
        let steps = self.run.iter().zip(begins).map(|(&rule, begin)| {
            let mut first = [WEEK - 1];
            let _ = plan(table, &[rule], &self.hours(), &self.lengths, 0, &mut first);
            let length = i64::from(self.lengths[usize::from(rule)]);
            let tried = (first[0] + 1) + (begin - self.start + 1);
            length * tried
        });
        steps.sum()
    }

    /// The plan by the second engine.
    pub fn lay(&self, table: &[u8], begins: &mut [i64]) -> Result<(), Refusal> {
        plan(
            table,
            &self.run,
            &self.hours(),
            &self.lengths,
            self.start,
            begins,
        )
    }

    fn hours(&self) -> Hours {
        let mut hours = Hours {
            counts: self.counts,
            ..Hours::default()
        };
        for (places, windows) in hours.windows.iter_mut().zip(&self.windows) {
            places[..windows.len()].copy_from_slice(windows);
        }
        hours
    }

    /// Run, hours, counts, lengths, start and places as the definitions take them.
    pub fn text(&self) -> String {
        let text = |window: &Window| format!("from_to {} {}", window.opens, window.closes);
        let windows = |windows: &Vec<Window>| {
            let texts: Vec<String> = windows.iter().map(text).collect();
            list(&texts)
        };
        let [run, lengths] = [&self.run, &self.lengths].map(|numbers| list(numbers));
        let hours = list(&self.windows.each_ref().map(windows));
        let counts = list(&self.counts);
        let start = match self.start {
            start @ 0.. => format!("(pos {start})"),
            start => format!("(negsuc {})", -(start + 1)),
        };
        format!("{run} {hours} {counts} {lengths} {start} {}", self.places)
    }
}

/// A minute as a natural number.
pub fn coded(minute: i64) -> u64 {
    match minute {
        0.. => 2 * minute as u64,
        _ => 2 * -(minute + 1) as u64 + 1,
    }
}

/// A single figure beyond its bounds.
#[derive(Clone, Copy)]
enum Fault {
    Count(u8),
    Window(Window),
    Length(u16),
    /// Rules without a length.
    Lengths,
    Start(i64),
    /// The first rule that the table lacks, or one so far behind it.
    Rule(u16),
    /// A list shorter than the run.
    Places,
}

/// A run above 1,000,000 steps is not among them: it would be too long for the checker.
const FAULTS: [Fault; 18] = [
    Fault::Count(15),
    Fault::Count(255),
    Fault::Window(window(0, 0)),
    Fault::Window(window(60, 60)),
    Fault::Window(window(61, 60)),
    Fault::Window(window(0, 10_081)),
    Fault::Window(window(10_079, 65_535)),
    Fault::Length(0),
    Fault::Length(1_441),
    Fault::Length(65_535),
    Fault::Lengths,
    Fault::Start(-1_000_001),
    Fault::Start(1_000_001),
    Fault::Start(i64::MIN),
    Fault::Start(i64::MAX),
    Fault::Rule(0),
    Fault::Rule(256),
    Fault::Places,
];

impl Fault {
    /// Changes an order with steps, at any process, rule or step.
    fn apply(self, rng: &mut Rng, table: &Table, order: &mut Order) {
        let process = rng.below(table.processes.len());
        let rule = rng.below(table.rules.len());
        let step = rng.below(order.run.len());
        let (windows, count) = (&mut order.windows[process], &mut order.counts[process]);
        match self {
            Fault::Count(bad) => {
                *windows = vec![ALL_WEEK; WINDOWS];
                *count = bad;
            }
            Fault::Window(bad) => {
                *count = (*count).max(1);
                windows.resize(windows.len().max(1), bad);
                windows[rng.below(usize::from(*count))] = bad;
            }
            Fault::Length(bad) => order.lengths[rule] = bad,
            Fault::Lengths => order.lengths.truncate(rule),
            Fault::Start(bad) => order.start = bad,
            Fault::Rule(further) => order.run[step] = table.rules.len() as u16 + further,
            Fault::Places => order.places = step,
        }
    }
}
