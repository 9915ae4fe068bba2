//! Every figure beyond its bound, on its own and beside a step that never fits; every bound itself;
//! which refusal comes first, and its place.

use crate::faults::{self, Fault, window};
use crate::open::bits_of;
use crate::order::{Given, Order};
use comparison::{Counts, Demand, Tally};
use roskavel::{STEP_CEILING, WINDOWS};
use second_engine::{Hours, Refusal, Window};
use tables::{Table, bench, damage, named};

const BAD_HOURS: Refusal = Refusal {
    number: 19,
    place: 0,
};
const PROCESSES: usize = 4;
/// How long each window of a sound order is.
const OPENING: u16 = 240;
const ALL_WEEK: Window = window(0, 10_080);
/// How many differences are printed at most; all are counted.
const PRINTED: usize = 10;

/// An order and what must come of it.
struct Trial {
    name: &'static str,
    order: Order,
    expected: Expected,
    call: fn(&Order) -> Result<Given, String>,
}

enum Expected {
    Refused(Refusal),
    /// Any begins.
    Given,
    Begins(Vec<i64>),
}

/// Makes all trials and reports.
pub fn tally() -> Tally {
    let trials = [
        faults(),
        last_windows(),
        what_is_lacked(),
        bounds(),
        long_runs(),
        never_open(),
        bad_tables(),
    ];
    let trials: Vec<Trial> = trials.into_iter().flatten().collect();
    let differences: Vec<String> = trials.iter().filter_map(Trial::difference).collect();
    for text in differences.iter().take(PRINTED) {
        println!("{text}");
    }
    print_names(&trials);
    let failed = differences.len();
    Tally {
        passed: trials.len() - failed,
        failed,
    }
}

/// Prints how many trials there are of each name.
fn print_names(trials: &[Trial]) {
    let mut counts = Counts::default();
    let mut names = Vec::new();
    for trial in trials {
        counts.meet(trial.name);
        if !names.contains(&trial.name) {
            names.push(trial.name);
        }
    }
    let demands: Vec<Demand> = names.into_iter().map(Demand::once).collect();
    counts.demand(&demands);
}

impl Trial {
    /// Of both engines.
    fn new(name: &'static str, order: Order, expected: Expected) -> Trial {
        Trial {
            name,
            order,
            expected,
            call: Order::compare,
        }
    }

    fn given(name: &'static str, order: Order) -> Trial {
        Trial::new(name, order, Expected::Given)
    }

    fn bad_hours(name: &'static str, order: Order) -> Trial {
        Trial::new(name, order, Expected::Refused(BAD_HOURS))
    }

    fn never_open(name: &'static str, order: Order, place: usize) -> Trial {
        let refusal = Refusal { number: 20, place };
        Trial::new(name, order, Expected::Refused(refusal))
    }

    /// Makes the call; the text of what is not as expected.
    fn difference(&self) -> Option<String> {
        let text = match (self.call)(&self.order) {
            Ok(given) if self.expected.is(&given) => return None,
            Ok(Ok(_)) => "begins that are not expected\n".to_string(),
            Ok(Err(refusal)) => format!("{refusal:?} is not expected\n"),
            Err(text) => text,
        };
        Some(format!("difference: {}\n{text}", self.name))
    }
}

impl Expected {
    fn is(&self, given: &Given) -> bool {
        match (self, given) {
            (Expected::Refused(refusal), Err(given)) => refusal == given,
            (Expected::Given, Ok(_)) => true,
            (Expected::Begins(begins), Ok(given)) => begins == given,
            _ => false,
        }
    }
}

/// Every rule once, an hour long, and two openings on each day.
fn sound(table: &Table) -> Order {
    let opening = |place| {
        let opens = place as u16 / 2 * 1_440 + [480, 780][place % 2];
        window(opens, opens + OPENING)
    };
    let run: Vec<u16> = (0..table.rules.len() as u16).collect();
    Order {
        table: table.bytes(),
        hours: Hours {
            windows: [std::array::from_fn(opening); PROCESSES],
            counts: [WINDOWS as u8; PROCESSES],
        },
        lengths: vec![60; run.len()],
        start: 0,
        places: run.len() + 3,
        run,
    }
}

/// The same with this one window at each process.
fn with_one(window: Window, table: &Table) -> Order {
    let mut order = sound(table);
    for windows in &mut order.hours.windows {
        windows[0] = window;
    }
    order.hours.counts = [1; PROCESSES];
    order
}

/// The order with a change.
fn changed(order: &Order, change: impl FnOnce(&mut Order)) -> Order {
    let mut changed = order.clone();
    change(&mut changed);
    changed
}

/// Each place of each process.
fn window_places() -> impl Iterator<Item = (usize, usize)> {
    (0..PROCESSES).flat_map(|process| (0..WINDOWS).map(move |place| (process, place)))
}

/// Every fault at every place, alone and where the first step never fits.
fn faults() -> Vec<Trial> {
    let mut trials = Vec::new();
    for table in [named::six_written(), bench::full_table()] {
        let order = sound(&table);
        trials.extend(faults_of(&order, &table, Fault::name));
        let long = changed(&order, |order| order.lengths[0] = OPENING + 1);
        let first = bits_of(&table, 0).trailing_zeros() as usize;
        let closed = changed(&order, |order| order.hours.counts[first] = 0);
        for never in [long, closed] {
            trials.extend(faults_of(&never, &table, |_| "bad figure, 20 without it"));
            trials.push(Trial::never_open("first step never fits", never, 0));
        }
        trials.push(Trial::given("sound order", order));
    }
    trials
}

/// Every fault of an order that has none.
fn faults_of(order: &Order, table: &Table, name: fn(Fault) -> &'static str) -> Vec<Trial> {
    let trial = |fault: Fault| {
        let bad = changed(order, |order| fault.apply(order));
        Trial::bad_hours(name(fault), bad)
    };
    Fault::all(order, table).into_iter().map(trial).collect()
}

/// Bad windows at the last place that counts, and at the first one that does not.
fn last_windows() -> Vec<Trial> {
    let order = sound(&named::six_written());
    let mut trials = Vec::new();
    for (process, place) in window_places() {
        for window in faults::WINDOWS {
            let with_count = |count| {
                changed(&order, |order| {
                    order.hours.windows[process][place] = window;
                    order.hours.counts[process] = count as u8;
                })
            };
            let last = with_count(place + 1);
            trials.push(Trial::bad_hours("bad window, the last counted", last));
            let past = with_count(place);
            trials.push(match place {
                0 => Trial::never_open("bad window, none counted", past, 0),
                _ => Trial::given("bad window past the count", past),
            });
        }
    }
    trials
}

/// Faults at processes and rules that table T lacks and a larger table has.
fn what_is_lacked() -> Vec<Trial> {
    let (small, large) = (named::t(), named::six_written());
    let order = changed(&sound(&small), |order| {
        order.lengths.resize(large.rules.len(), 60);
    });
    let is_lacked = |fault: &Fault| match *fault {
        Fault::Count { process, .. } | Fault::Window { process, .. } => {
            process >= small.processes.len()
        }
        Fault::Length { rule, .. } | Fault::Lengths(rule) => rule >= small.rules.len(),
        _ => false,
    };
    let lacked = Fault::all(&order, &large).into_iter().filter(is_lacked);
    let trials = lacked.map(|fault| {
        let order = changed(&order, |order| fault.apply(order));
        let begins = Expected::Begins(vec![480, 540, 540]);
        Trial::new("bad figure of what the table lacks", order, begins)
    });
    trials.collect()
}

/// Figures at their bounds.
fn bounds() -> Vec<Trial> {
    let table = named::six_written();
    let (order, open) = (sound(&table), with_one(ALL_WEEK, &table));
    let mut trials = Vec::new();
    let mut push = |name, order: &Order, change: &dyn Fn(&mut Order)| {
        trials.push(Trial::given(name, changed(order, change)));
    };
    for start in [-1_000_000, 1_000_000] {
        push("first and last start", &order, &|order| order.start = start);
    }
    for (process, place) in window_places() {
        for window in [window(0, 1), window(10_079, 10_080), ALL_WEEK] {
            push("window at the week's ends", &order, &|order| {
                order.hours.windows[process][place] = window;
            });
        }
        push("every count of windows", &order, &|order| {
            order.hours.counts[process] = place as u8 + 1;
        });
    }
    for rule in 0..table.rules.len() {
        for length in [1, 1_440] {
            push("least and greatest length", &open, &|order| {
                order.lengths[rule] = length;
            });
        }
        push("last rule", &order, &|order| {
            order.run[rule] = table.rules.len() as u16 - 1;
        });
    }
    push("list as long as the run", &order, &|order| {
        order.places = order.run.len();
    });
    push("no step and no place, nothing open", &order, &|order| {
        (order.run, order.places) = (Vec::new(), 0);
        order.hours.counts = [0; PROCESSES];
    });
    trials
}

/// As many steps as a run can have, a day long each: one after the other, and one in each week. The
/// second engine would take too long for the latter.
fn long_runs() -> Vec<Trial> {
    let trial = |name, window, first, apart| {
        let mut order = with_one(window, &named::six_written());
        order.run = vec![0; STEP_CEILING];
        order.places = STEP_CEILING;
        order.lengths.fill(1_440);
        order.start = 1_000_000;
        let begins = (0..STEP_CEILING as i64).map(|step| first + apart * step);
        Trial::new(name, order, Expected::Begins(begins.collect()))
    };
    let daily = trial("1,000,000 steps on end", ALL_WEEK, 1_000_000, 1_440);
    let sunday = window(8_640, 10_080);
    let weekly = trial("1,000,000 weeks", sunday, 1_006_560, 10_080);
    let call = Order::ours;
    vec![daily, Trial { call, ..weekly }]
}

/// Steps that never fit, by their length or by a process that never opens.
fn never_open() -> Vec<Trial> {
    let table = named::six_written();
    let order = sound(&table);
    let mut trials = Vec::new();
    for first in 0..order.run.len() {
        for second in first..order.run.len() {
            let never = changed(&order, |order| {
                order.lengths[first] = OPENING + 1;
                order.lengths[second] = OPENING + 1;
            });
            trials.push(Trial::never_open("first of two too long", never, first));
        }
        for process in 0..PROCESSES {
            let never = changed(&order, |order| {
                order.run.rotate_left(first);
                order.hours.counts[process] = 0;
            });
            let has_it = |&rule: &u16| bits_of(&table, rule) >> process & 1 == 1;
            let place = never.run.iter().position(has_it);
            let place = place.expect("each process has a rule");
            trials.push(Trial::never_open("first of a closed process", never, place));
        }
    }
    trials
}

/// The table is judged before all that is bad beside it.
fn bad_tables() -> Vec<Trial> {
    let order = sound(&named::six_written());
    let trials = damage::specimens().into_iter().flat_map(|specimen| {
        let refusal = Refusal {
            number: specimen.number,
            place: specimen.place,
        };
        let damaged = changed(&order, |order| order.table = specimen.bytes);
        let never = changed(&damaged, |order| order.hours.counts = [0; PROCESSES]);
        let bad = changed(&never, |order| {
            order.start = i64::MAX;
            order.hours.counts = [255; PROCESSES];
            order.lengths.clear();
            order.places = 0;
        });
        let name = "damaged table, all else good or bad";
        [damaged, never, bad].map(|order| Trial::new(name, order, Expected::Refused(refusal)))
    });
    trials.collect()
}
