//! The calls at a desk of the proved engine, through its C functions: the time and the
//! instructions of each, from batches of many.

use crate::measure::{CALLS, Options, median_of, numbers_of, time_of};
use crate::sheet::{Sheet, count, counted};
use roskavel::{Cause, DESK_PILE, Desk, Refusal};
use std::hint::black_box;
use tables::{Table, bench, named};

/// The name by which valgrind's run is told of a desk.
pub const NAME: &str = "desk";

/// How many calls valgrind counts, once and twice.
const COUNTED: usize = 100;
/// The calls of a batch, and those of a batch of openings.
const MANY: usize = 100_000;
const FEW: usize = 1_000;

/// The rules of `one_letter`: the first two write the letter in its place, once and twice, and
/// the third is on another letter. There is no fourth.
const ONCE: u16 = 0;
const TWICE: u16 = 1;
const IDLE: u16 = 2;
const ABSENT: u16 = 3;

/// A desk and the bytes of its table.
struct Subject {
    table: Vec<u8>,
    desk: Desk,
}

/// A call, or two, that can be repeated for ever.
struct Row {
    name: &'static str,
    subject: fn() -> Subject,
    batch: usize,
    /// Makes so many calls.
    calls: fn(&mut Subject, usize),
}

/// The rows of a save, and of a forget with the save that it needs.
const SAVE: usize = 5;
const SAVE_AND_FORGET: usize = 6;

const ROWS: [Row; 12] = [
    row("fire, pile of 1", one_letter, MANY, |subject, times| {
        repeat(times, || subject.desk.fire(ONCE).is_ok());
    }),
    row("fire, pile of 256", full_pile, MANY, |subject, times| {
        repeat(times, || subject.desk.fire(ONCE).is_ok());
    }),
    row("fire refused 13", one_letter, MANY, |subject, times| {
        repeat(times, || refused(subject.desk.fire(ABSENT), Cause::NoRule));
    }),
    row("fire refused 12", one_letter, MANY, |subject, times| {
        repeat(times, || refused(subject.desk.fire(IDLE), Cause::IdleRule));
    }),
    row("fire refused 14", full_pile, MANY, |subject, times| {
        repeat(times, || refused(subject.desk.fire(TWICE), Cause::FullPile));
    }),
    row("save", one_letter, MANY, |subject, times| {
        repeat(times, || subject.desk.save(0).is_ok());
    }),
    row("save and forget", one_letter, MANY, |subject, times| {
        let Subject { desk, .. } = subject;
        repeat(times, || desk.save(0).is_ok() && desk.forget(0).is_ok());
    }),
    row("return", one_letter, MANY, |subject, times| {
        subject.desk.save(0).expect("a good name");
        repeat(times, || subject.desk.return_to(0).is_ok());
    }),
    row("look", one_letter, MANY, |subject, times| {
        repeat(times, || black_box(&subject.desk.look()).pile().len() == 1);
    }),
    row("count", one_letter, MANY, |subject, times| {
        repeat(times, || subject.desk.counts() == [0; 4]);
    }),
    row("open, table T", table_t, FEW, |subject, times| {
        repeat(times, || Desk::open(&subject.table).is_ok());
    }),
    row(
        "open, every kind at its ceiling",
        ceilings,
        FEW,
        |subject, times| {
            repeat(times, || Desk::open(&subject.table).is_ok());
        },
    ),
];

const fn row(
    name: &'static str,
    subject: fn() -> Subject,
    batch: usize,
    calls: fn(&mut Subject, usize),
) -> Row {
    Row {
        name,
        subject,
        batch,
        calls,
    }
}

/// Makes calls that must do as they are expected to.
fn repeat(times: usize, mut call: impl FnMut() -> bool) {
    for _ in 0..times {
        assert!(call(), "the call does something else");
    }
}

fn refused(given: Result<u8, Refusal>, cause: Cause) -> bool {
    given.is_err_and(|refusal| refusal.cause == cause)
}

impl Subject {
    fn new(table: &Table) -> Subject {
        let table = table.bytes();
        let desk = Desk::open(&table).expect("an accepted table");
        Subject { table, desk }
    }
}

/// One process of one state, and one letter on the pile.
fn one_letter() -> Subject {
    let mut table = Table::new(1, 1, 1);
    let [letter, other] = [table.letter(1), table.letter(1)];
    table.rule(letter, [0; 4], [0; 4], &[letter]);
    table.rule(letter, [0; 4], [0; 4], &[letter; 2]);
    table.rule(other, [0; 4], [0; 4], &[]);
    table.pile.push(letter);
    Subject::new(&table)
}

/// The same with the letter 256 times on the pile.
fn full_pile() -> Subject {
    let mut subject = one_letter();
    for _ in 1..DESK_PILE {
        subject.desk.fire(TWICE).expect("a pile with room");
    }
    subject
}

fn table_t() -> Subject {
    Subject::new(&named::t())
}

fn ceilings() -> Subject {
    Subject::new(&bench::full_table())
}

/// The time and the instructions of a call; no instructions without valgrind.
struct Figures {
    nanoseconds: f64,
    instructions: Option<u64>,
}

impl Figures {
    /// Those of the row with this number.
    fn of(options: &Options, number: usize) -> Figures {
        Figures {
            nanoseconds: nanoseconds(&ROWS[number]),
            instructions: instructions(options, number),
        }
    }

    fn less(&self, other: &Figures) -> Figures {
        let both = self.instructions.zip(other.instructions);
        Figures {
            nanoseconds: self.nanoseconds - other.nanoseconds,
            instructions: both.map(|(ours, others)| ours.saturating_sub(others)),
        }
    }

    fn cells(&self, name: &str) -> [String; 3] {
        let nanoseconds = self.nanoseconds.round() as u64;
        let instructions = counted(self.instructions);
        [name.to_string(), count(nanoseconds), instructions]
    }
}

/// The figures of every row, and those of a forget alone.
pub fn print_calls(options: &Options) {
    println!("calls at a desk: median time of {CALLS} batches, and instructions by valgrind");
    let sheet = Sheet::new(options.form, &["call", "nanoseconds", "instructions"]);
    let mut all = Vec::new();
    for (number, row) in ROWS.iter().enumerate() {
        let figures = Figures::of(options, number);
        sheet.row(&figures.cells(row.name));
        all.push(figures);
    }
    let forget = all[SAVE_AND_FORGET].less(&all[SAVE]);
    sheet.row(&forget.cells("forget, the difference"));
}

/// The median time of a call.
fn nanoseconds(row: &Row) -> f64 {
    let mut subject = (row.subject)();
    let milliseconds = median_of(|| time_of(|| (row.calls)(&mut subject, row.batch)));
    milliseconds * 1_000_000.0 / row.batch as f64
}

/// The instructions of a call: those of this program with twice as many calls, less those with
/// the calls once.
fn instructions(options: &Options, number: usize) -> Option<u64> {
    let twice = options.counted(NAME, &[number, 2 * COUNTED], &[])?;
    let once = options.counted(NAME, &[number, COUNTED], &[])?;
    Some(twice.checked_sub(once)? / COUNTED as u64)
}

/// What valgrind counts: some calls of a row.
pub fn be_counted(numbers: &[&str]) {
    let [number, times] = numbers_of(numbers);
    let row = &ROWS[number];
    (row.calls)(&mut (row.subject)(), times);
}
