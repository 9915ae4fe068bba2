//! The plan call of both engines: its time, and the instructions of the proved one.

use crate::measure::{CALLS, Options, median_of, numbers_of, time_of};
use crate::sheet::{Sheet, count, counted, milliseconds};
use roskavel::{STEP_CEILING, WEEK_MINUTES, WINDOWS, Week};
use second_engine::{Hours, Window};
use tables::{Rng, named};

/// The name by which valgrind's run is told of a plan.
pub const NAME: &str = "plan";

/// The most steps that the second engine has.
const FEW: usize = 10_000;
/// What the list holds before each call.
const DIRT: i64 = -0x5A5A;
const PROCESSES: usize = 4;

/// The windows of each process.
type Windows = [[Window; WINDOWS]; PROCESSES];

/// Some steps on a table of four processes, all rules in turn, each of the same length.
struct Row {
    name: &'static str,
    steps: usize,
    length: u16,
    windows: fn() -> Windows,
}

const ROWS: [Row; 4] = [
    row("one step, two windows a day", 1, 60, twice_a_day),
    row("two windows a day", STEP_CEILING, 60, twice_a_day),
    row("14 ragged windows", STEP_CEILING, 10, ragged),
    row("13 of 14 windows too short", STEP_CEILING, 60, short),
];

const fn row(name: &'static str, steps: usize, length: u16, windows: fn() -> Windows) -> Row {
    Row {
        name,
        steps,
        length,
        windows,
    }
}

/// From 8:00 to 12:00 and from 13:00 to 17:00, on every day.
fn twice_a_day() -> Windows {
    [std::array::from_fn(|place| opening(place, 240)); PROCESSES]
}

/// At these times for ten minutes, only the last time for an hour.
fn short() -> Windows {
    let minutes = |place| if place + 1 < WINDOWS { 10 } else { 60 };
    [std::array::from_fn(|place| opening(place, minutes(place))); PROCESSES]
}

/// The first or second window of a day.
fn opening(place: usize, minutes: u16) -> Window {
    let opens = place as u16 / 2 * 1_440 + [480, 780][place % 2];
    Window {
        opens,
        closes: opens + minutes,
    }
}

/// In no order, other ones for each process, some of which overlap.
fn ragged() -> Windows {
    let rng = &mut Rng::new(1);
    let mut any = || {
        let minutes = rng.between(30, 1_000);
        let opens = rng.below(usize::from(WEEK_MINUTES) - minutes);
        Window {
            opens: opens as u16,
            closes: (opens + minutes) as u16,
        }
    };
    [(); PROCESSES].map(|()| [(); WINDOWS].map(|()| any()))
}

/// What a call of each engine needs.
struct Subject {
    table: Vec<u8>,
    run: Vec<u16>,
    week: Week,
    hours: Hours,
    lengths: Vec<u16>,
    begins: Vec<i64>,
}

impl Subject {
    /// With at most so many steps.
    fn new(row: &Row, most: usize) -> Subject {
        let table = named::six_written();
        let rules = 0..table.rules.len() as u16;
        let run: Vec<u16> = rules.cycle().take(row.steps.min(most)).collect();
        let windows = (row.windows)();
        let places = windows.map(|windows| windows.map(|window| window.opens..window.closes));
        let counts = [WINDOWS as u8; PROCESSES];
        Subject {
            table: table.bytes(),
            week: Week::of_places(places, counts),
            hours: Hours { windows, counts },
            lengths: vec![row.length; table.rules.len()],
            begins: vec![DIRT; run.len()],
            run,
        }
    }

    fn plan_ours(&mut self) {
        let Subject { table, run, .. } = self;
        let given = roskavel::plan(table, run, &self.week, &self.lengths, 0, &mut self.begins);
        given.expect("steps that fit");
    }

    fn plan_second(&mut self) {
        let Subject { table, run, .. } = self;
        let given =
            second_engine::plan(table, run, &self.hours, &self.lengths, 0, &mut self.begins);
        given.expect("steps that fit");
    }

    /// The median time of a call, in a dirty list.
    fn milliseconds(&mut self, call: fn(&mut Subject)) -> f64 {
        median_of(|| {
            self.begins.fill(DIRT);
            time_of(|| call(self))
        })
    }
}

/// The figures of every row.
pub fn print_calls(options: &Options) {
    println!("plan call: median time of {CALLS} calls, and instructions of one by valgrind");
    println!("the second engine has at most {} steps", count(FEW as u64));
    let headings = ["week", "steps", "ours", "instructions a step", "second"];
    let sheet = Sheet::new(options.form, &headings);
    for (number, row) in ROWS.iter().enumerate() {
        let (mut whole, mut part) = (Subject::new(row, row.steps), Subject::new(row, FEW));
        let ours = whole.milliseconds(Subject::plan_ours);
        let second = part.milliseconds(Subject::plan_second);
        let steps = row.steps as u64;
        let a_step = instructions(options, number).map(|count| count / steps);
        sheet.row(&[
            row.name.to_string(),
            count(steps),
            milliseconds(ours),
            counted(a_step),
            milliseconds(second),
        ]);
    }
}

/// The instructions of one call: those of this program with two calls, less those with one.
fn instructions(options: &Options, number: usize) -> Option<u64> {
    let with_calls = |calls| options.counted(NAME, &[number, calls], &[]);
    with_calls(2)?.checked_sub(with_calls(1)?)
}

/// What valgrind counts: some calls of a row.
pub fn be_counted(numbers: &[&str]) {
    let [number, calls] = numbers_of(numbers);
    let row = &ROWS[number];
    let mut subject = Subject::new(row, row.steps);
    for _ in 0..calls {
        subject.plan_ours();
    }
}
