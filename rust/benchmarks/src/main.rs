//! Measures the proved engine beside the second engine on named tables. Arguments: options, then
//! any of these modes, or none for the first:
//!
//! - `run`: the run call of both engines, its median time and, where valgrind is present, its
//!   instructions.
//! - `answer`: the same of the answer call.
//! - `read`: the same of a run call that reads a table and is refused then, for want of scratch.
//! - `growth`: the instructions of the run call as the records grow, and as the rounds do.
//! - `walk`: the walk call of both engines over a high pile, its median time.
//! - `desk`: the calls at a desk of the proved engine, their time and their instructions.
//! - `plan`: the plan call of both engines, its time, and the instructions of the proved one.
//! - `line PROGRAM TABLE..`, the last: the program `line` on tables from files, its instructions.
//!
//! Options:
//!
//! - `--markdown`: prints Markdown, as docs/SPEED.md has it.
//! - `--each-byte`: counts long fills and copies of the C library once for each byte.

mod desk;
mod line;
mod measure;
mod plan;
mod sheet;

use measure::{
    ANSWER, Bench, Both, CALLS, COUNT, LENT, Options, READ, RUN, Repeats, be_counted, median_of,
    milliseconds, time_of,
};
use roskavel::Walk;
use sheet::{Form, Sheet, count, counted};
use std::env;
use std::process::ExitCode;
use tables::{Table, bench};

/// Tables of more rounds would take minutes on valgrind.
const ROUNDS: usize = 10_000;

/// The tables that are only read.
const READ_TABLES: [&str; 5] = [
    "small",
    "every kind at its ceiling",
    "200 rules, 200 transitions, pile of 64",
    "chain of 200 rules",
    "200 transitions, one rule",
];

fn main() -> ExitCode {
    let arguments: Vec<String> = env::args().skip(1).collect();
    let words: Vec<&str> = arguments.iter().map(String::as_str).collect();
    match words[..] {
        [COUNT, desk::NAME, ref numbers @ ..] => desk::be_counted(numbers),
        [COUNT, plan::NAME, ref numbers @ ..] => plan::be_counted(numbers),
        [COUNT, call, ref numbers @ ..] => be_counted(call, numbers),
        _ if !print_all(&words) => {
            eprintln!("usage: benchmarks [--markdown] [--each-byte] [MODE..]");
            eprintln!("modes: run answer read growth walk desk plan, or line PROGRAM TABLE..");
            return ExitCode::from(2);
        }
        _ => (),
    }
    ExitCode::SUCCESS
}

/// Measures what the words ask for; false at a word that is none of theirs.
fn print_all(words: &[&str]) -> bool {
    let mut options = Options {
        form: Form::Columns,
        repeats: Repeats::Avoided,
    };
    let mut modes = words;
    while let [option, rest @ ..] = modes
        && option.starts_with("--")
    {
        match *option {
            "--markdown" => options.form = Form::Markdown,
            "--each-byte" => options.repeats = Repeats::Counted,
            _ => return false,
        }
        modes = rest;
    }
    if modes.is_empty() {
        modes = &["run"];
    }
    for (place, mode) in modes.iter().enumerate() {
        if place > 0 {
            println!();
        }
        match *mode {
            "run" => print_calls(&options, "run call", &RUN, |_| true),
            "answer" => print_calls(&options, "answer call", &ANSWER, |_| true),
            "read" => {
                let is_read = |name: &str| READ_TABLES.contains(&name);
                print_calls(&options, "reading a table", &READ, is_read);
            }
            "growth" => print_growth(&options),
            "walk" => print_walks(),
            "desk" => desk::print_calls(&options),
            "plan" => plan::print_calls(&options),
            "line" => {
                let [program, tables @ ..] = &modes[place + 1..] else {
                    return false;
                };
                line::print_tables(&options, program, tables);
                return true;
            }
            _ => return false,
        }
    }
    true
}

/// A call of both engines side by side, on the named tables that are asked for and have a verdict
/// in not too many rounds.
fn print_calls(options: &Options, call: &str, both: &Both, asked: fn(&str) -> bool) {
    println!("{call}: median time of {CALLS} calls, and instructions of one by valgrind");
    println!("{LENT}");
    let headings = [
        "table",
        "ours",
        "second",
        "instructions, ours",
        "second",
        "ratio",
    ];
    let sheet = Sheet::new(options.form, &headings);
    for (name, table) in bench::all().iter().filter(|(name, _)| asked(name)) {
        if let Some(bench) = Bench::new(table)
            && bench.rounds < ROUNDS
        {
            let times = both.map(|(_, call)| milliseconds(&bench, call));
            let counts = bench.instructions_of_both(options, both);
            let ratio = counts.map(|[ours, second]| ours as f64 / second as f64);
            sheet.row(&[
                name.to_string(),
                sheet::milliseconds(times[0]),
                sheet::milliseconds(times[1]),
                counted(counts.map(|[ours, _]| ours)),
                counted(counts.map(|[_, second]| second)),
                ratio.map_or(String::new(), |ratio| format!("{ratio:.2}")),
            ]);
        }
    }
}

/// The run call as the limit grows.
fn print_growth(options: &Options) {
    println!("run call: instructions of one by valgrind");
    println!("{LENT}");
    let records = bench::more_records();
    print_family(options, "for a record", &records, |bench| bench.records);
    println!();
    let rounds = bench::more_rounds();
    print_family(options, "for a round", &rounds, |bench| bench.rounds);
}

/// Tables that grow in one figure, with the instructions for each of what it counts.
fn print_family(options: &Options, each: &str, tables: &[Table], figure: fn(&Bench) -> usize) {
    let headings = [
        "records",
        "rounds",
        "instructions",
        each,
        "second engine",
        each,
    ];
    let sheet = Sheet::new(options.form, &headings);
    for bench in tables.iter().filter_map(Bench::new) {
        let mut cells = [bench.records, bench.rounds]
            .map(|figure| count(figure as u64))
            .to_vec();
        for number in bench
            .instructions_of_both(options, &RUN)
            .into_iter()
            .flatten()
        {
            let each = number as f64 / figure(&bench) as f64;
            cells.extend([count(number), count(each.round() as u64)]);
        }
        sheet.row(&cells);
    }
}

/// Both engines' walk: a pile is grown to 50,000 letters, and then rules fire on top of it.
fn print_walks() {
    let mut table = Table::new(1, 1, 1);
    let letter = table.letter(1);
    table.rule(letter, [0; 4], [0; 4], &[letter, letter]);
    table.rule(letter, [0; 4], [0; 4], &[]);
    table.pile.push(letter);
    let table = table.bytes();
    let mut rules = vec![0; 50_000];
    rules.extend([1, 0].repeat(25_000));
    let mut pile = vec![0; 50_001];
    let mut scratch = vec![0; roskavel::WALK_SCRATCH];
    let ours = median_of(|| {
        time_of(|| {
            let walked = roskavel::walk(&table, &rules, &mut pile, &mut scratch);
            assert!(matches!(walked, Walk::Walked { length: 50_001, .. }));
        })
    });
    let second = median_of(|| {
        time_of(|| {
            second_engine::walk(&table, &rules, &mut pile, &mut scratch);
        })
    });
    println!("walk call: median time of {CALLS} calls");
    println!("100,000 rules, a pile of 50,000  ours {ours:.3} ms, second {second:.3} ms");
}
