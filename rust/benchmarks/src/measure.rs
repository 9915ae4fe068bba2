//! The time and the instructions of one call on a table, in buffers just long enough and dirty.

use crate::sheet::Form;
use second_engine::Answer;
use std::io::{self, Read, Write};
use std::path::PathBuf;
use std::process::{Command, Stdio};
use std::time::{Duration, Instant};
use std::{env, iter};
use tables::{Rng, Table};

/// How many calls a median is taken of.
pub const CALLS: usize = 9;
/// The first argument of this program when valgrind counts its instructions.
pub const COUNT: &str = "count";
/// What tells the C library how to fill and copy.
const TUNABLES: &str = "GLIBC_TUNABLES";
/// Lets it fill and copy without `rep stosb` and `rep movsb`.
const NO_REPEATS: &str = "glibc.cpu.x86_rep_stosb_threshold=1000000000:\
                          glibc.cpu.x86_rep_movsb_threshold=1000000000";

/// What is said of the buffers.
pub const LENT: &str =
    "log and page just long enough; no buffer is cleared before a call: all are dirty";

/// How figures are printed and instructions counted.
#[derive(Clone, Copy)]
pub struct Options {
    pub form: Form,
    pub repeats: Repeats,
}

/// How many instructions a long fill or copy of the C library has. Its `rep stosb` and `rep movsb`
/// are one instruction each, which valgrind counts once for each byte.
#[derive(Clone, Copy)]
pub enum Repeats {
    /// Those of its loops over vectors, which it is told to take in their place.
    Avoided,
    /// One for each byte.
    Counted,
}

/// A call of an engine on a table and buffers.
pub type Call = fn(&[u8], &mut Buffers);

/// A call of the proved engine and the same of the second engine, each with the name by which
/// valgrind's run is told of it.
pub type Both = [(&'static str, Call); 2];

pub const RUN: Both = [("run", run_ours), ("second-run", run_second)];
pub const ANSWER: Both = [("answer", answer_ours), ("second-answer", answer_second)];
pub const READ: Both = [("read", read_ours), ("second-read", read_second)];

fn run_ours(table: &[u8], lent: &mut Buffers) {
    let _ = roskavel::run(table, &mut lent.log, &mut lent.scratch, &mut lent.page);
}

fn run_second(table: &[u8], lent: &mut Buffers) {
    second_engine::run(table, &mut lent.log, &mut lent.scratch, &mut lent.page);
}

fn answer_ours(table: &[u8], lent: &mut Buffers) {
    let _ = roskavel::answer(table, &mut lent.log, &mut lent.scratch);
}

fn answer_second(table: &[u8], lent: &mut Buffers) {
    second_engine::answer(table, &mut lent.log, &mut lent.scratch);
}

/// Without scratch the table is read, and the call refused.
fn read_ours(table: &[u8], lent: &mut Buffers) {
    let _ = roskavel::run(table, &mut lent.log, &mut [], &mut lent.page);
}

fn read_second(table: &[u8], lent: &mut Buffers) {
    second_engine::run(table, &mut lent.log, &mut [], &mut lent.page);
}

/// A table that has a verdict, with its figures; without a run it has no steps.
pub struct Bench {
    table: Vec<u8>,
    pub records: usize,
    pub rounds: usize,
    steps: usize,
}

impl Bench {
    /// None if the log or the run would be too long for any buffer.
    pub fn new(table: &Table) -> Option<Self> {
        let table = table.bytes();
        let mut lent = Buffers::new(roskavel::RECORD_CEILING, 0);
        let (records, rounds, steps) =
            match second_engine::answer(&table, &mut lent.log, &mut lent.scratch) {
                Answer::Reachable {
                    transitions,
                    rounds,
                    steps,
                } => (transitions, rounds, steps),
                Answer::Unreachable {
                    transitions,
                    rounds,
                } => (transitions, rounds, 0),
                Answer::Refused(_) => return None,
            };
        let bench = Bench {
            table,
            records: records as usize,
            rounds: rounds as usize,
            steps: steps as usize,
        };
        (bench.steps <= roskavel::STEP_CEILING).then_some(bench)
    }
}

pub struct Buffers {
    log: Vec<u8>,
    scratch: Vec<u8>,
    page: Vec<u16>,
    /// What the log and the scratch hold before each call.
    dirt: Vec<u8>,
}

impl Buffers {
    fn new(records: usize, steps: usize) -> Self {
        let log = vec![0; roskavel::log_bytes(records)];
        let scratch = vec![0; roskavel::scratch_bytes(log.len())];
        let mut dirt = vec![0; log.len() + scratch.len()];
        Rng::new(1).fill(&mut dirt);
        Buffers {
            log,
            scratch,
            page: vec![0; steps],
            dirt,
        }
    }

    fn make_dirty(&mut self) {
        let (log, scratch) = self.dirt.split_at(self.log.len());
        self.log.copy_from_slice(log);
        self.scratch.copy_from_slice(scratch);
        self.page.fill(0xA5A5);
    }
}

/// The median time of a call, in dirty buffers.
pub fn milliseconds(bench: &Bench, call: Call) -> f64 {
    let mut lent = Buffers::new(bench.records, bench.steps);
    median_of(|| {
        lent.make_dirty();
        time_of(|| call(&bench.table, &mut lent))
    })
}

pub fn time_of(call: impl FnOnce()) -> Duration {
    let begin = Instant::now();
    call();
    begin.elapsed()
}

/// The median of times, in milliseconds.
pub fn median_of(time: impl FnMut() -> Duration) -> f64 {
    let mut times: Vec<Duration> = iter::repeat_with(time).take(CALLS).collect();
    times.sort();
    times[CALLS / 2].as_secs_f64() * 1_000.0
}

impl Bench {
    /// The instructions of one call of each engine; none without valgrind.
    pub fn instructions_of_both(&self, options: &Options, both: &Both) -> Option<[u64; 2]> {
        let [(ours, _), (second, _)] = both;
        let ours = self.instructions(options, ours)?;
        let second = self.instructions(options, second)?;
        Some([ours, second])
    }

    /// The instructions of one call: those of this program with two calls, less those with one. It
    /// gets the table by its standard input.
    fn instructions(&self, options: &Options, call: &str) -> Option<u64> {
        let with_calls = |calls| {
            let numbers = [self.records, self.steps, calls];
            options.counted(call, &numbers, &self.table)
        };
        with_calls(2)?.checked_sub(with_calls(1)?)
    }
}

impl Options {
    /// The instructions of this program with a call's name and numbers as its arguments.
    pub fn counted(&self, call: &str, numbers: &[usize], input: &[u8]) -> Option<u64> {
        let mut arguments = vec![COUNT.to_string(), call.to_string()];
        arguments.extend(numbers.iter().map(usize::to_string));
        self.collected(env::current_exe().ok()?, &arguments, input)
    }

    /// The instructions of a program as valgrind counts them; none without valgrind.
    pub fn collected(&self, program: PathBuf, arguments: &[String], input: &[u8]) -> Option<u64> {
        let mut valgrind = Command::new("valgrind");
        match self.repeats {
            Repeats::Avoided => valgrind.env(TUNABLES, NO_REPEATS),
            Repeats::Counted => valgrind.env_remove(TUNABLES),
        };
        let mut counted = valgrind
            .args(["--tool=callgrind", "--callgrind-out-file=/dev/null"])
            .arg(program)
            .args(arguments)
            .stdin(Stdio::piped())
            .stdout(Stdio::null())
            .stderr(Stdio::piped())
            .spawn()
            .ok()?;
        counted.stdin.take()?.write_all(input).ok()?;
        let output = counted.wait_with_output().ok()?;
        let text = String::from_utf8(output.stderr).ok()?;
        let (_, after) = text.split_once("Collected : ")?;
        after.split_whitespace().next()?.parse().ok()
    }
}

/// What valgrind counts: buffers made dirty twice, and one call or two.
pub fn be_counted(call: &str, numbers: &[&str]) {
    let [records, steps, calls] = numbers_of(numbers);
    let all = [RUN, ANSWER, READ].concat();
    let call = all.iter().find(|(name, _)| *name == call);
    let (_, call) = call.expect("a call");
    let mut table = Vec::new();
    io::stdin().read_to_end(&mut table).expect("a table");
    let mut lent = Buffers::new(records, steps);
    for turn in 0..2 {
        lent.make_dirty();
        if turn < calls {
            call(&table, &mut lent);
        }
    }
}

/// The numbers that a counted program has as its arguments.
pub fn numbers_of<const COUNT: usize>(words: &[&str]) -> [usize; COUNT] {
    let numbers = words.iter().map(|word| word.parse().expect("a number"));
    let numbers: Vec<usize> = numbers.collect();
    numbers
        .try_into()
        .expect("as many numbers as are asked for")
}
