//! Cases for comparing engines, and the comparison by several threads with its report.

mod cases;
mod copies;
mod counts;
mod peaks;
mod records;
mod refusals;
mod rules;
mod starts;
mod written;

pub use cases::{Case, Make, Maker, random_table};
pub use copies::{copy_situations, note_copy, note_short_log, on_copy};
pub use counts::{Counts, Demand};
pub use peaks::{note_peak, peak_situations};
pub use records::{transition_of, transitions};
pub use refusals::{note_refusal, refusal_situations};
pub use rules::{RULES, absent, rule};
pub use starts::{records_tried, situations_of_start, start_situations};
pub use written::{note_rules, note_written, rule_situations, written_situations};

use cases::Cases;
use std::path::PathBuf;
use std::process::ExitCode;
use std::sync::atomic::{AtomicUsize, Ordering};
use std::{env, fs, io, process, thread};

/// How many differences are reported at most; all are counted.
const REPORTED: usize = 10;

/// A case on which two engines differ, and what both gave.
struct Difference {
    case: Case,
    details: String,
}

/// What a comparison met and found.
#[derive(Default)]
struct Findings {
    counts: Counts,
    differences: Vec<Difference>,
}

/// How many comparisons passed, and how many failed.
#[derive(Default)]
pub struct Tally {
    pub passed: usize,
    pub failed: usize,
}

impl Tally {
    fn and(self, other: Tally) -> Tally {
        Tally {
            passed: self.passed + other.passed,
            failed: self.failed + other.failed,
        }
    }

    /// Prints the last line; true if none failed.
    fn print(&self) -> bool {
        println!("{} passed, {} failed", self.passed, self.failed);
        self.failed == 0
    }
}

/// A program that compares engines on the named tables, and on random and damaged ones of a seed.
pub struct Program {
    pub name: &'static str,
    /// Makes the random tables.
    pub random: Maker,
    /// How many random tables, and how many damaged ones.
    pub each: usize,
    /// The situations that it is for.
    pub situations: fn() -> Vec<Demand>,
    /// What it compares beside the tables.
    pub others: fn() -> Tally,
}

impl Program {
    /// The main function of a program whose one argument is a seed. Each thread has a comparer of
    /// its own, made with the seed, which counts what it meets and tells what differs.
    pub fn main<C>(&self, comparer: impl Fn(u64) -> C + Sync) -> ExitCode
    where
        C: FnMut(&Case, &mut Counts) -> Result<(), String>,
    {
        let Some(seed) = env::args().nth(1).and_then(|seed| seed.parse().ok()) else {
            eprintln!("usage: {} SEED", self.name);
            return ExitCode::from(2);
        };
        exit_code(self.compare(seed, || {
            let mut compare = comparer(seed);
            move |case: &Case, counts: &mut Counts| Ok(compare(case, counts).err())
        }))
    }

    /// Compares all cases of a seed and reports; true if none differs and no situation is missing.
    pub fn compare<C>(&self, seed: u64, comparer: impl Fn() -> C + Sync) -> io::Result<bool>
    where
        C: FnMut(&Case, &mut Counts) -> io::Result<Option<String>>,
    {
        println!("seed {seed}");
        let cases = Cases::new(self.random, seed, self.each);
        let findings = compare(&cases, comparer)?;
        self.report(seed, &findings.differences)?;
        let missing = findings.counts.demand(&(self.situations)());
        let differing = findings.differences.len();
        let tally = Tally {
            passed: cases.count() - differing,
            failed: differing + missing,
        };
        Ok(tally.and((self.others)()).print())
    }

    /// Prints the first differences, and writes each with its table to files.
    fn report(&self, seed: u64, differences: &[Difference]) -> io::Result<()> {
        let name = self.name;
        for (number, Difference { case, details }) in differences.iter().take(REPORTED).enumerate()
        {
            let name = format!("{name}-{seed}-{}-{number}", process::id());
            let file: PathBuf = env::temp_dir().join(name);
            let table = file.with_extension("table");
            let text = format!("difference: {}\n{details}\n", case.name);
            fs::write(&table, &case.bytes)?;
            fs::write(file.with_extension("text"), &text)?;
            println!("{text}seed {seed}, table in {}", table.display());
        }
        Ok(())
    }
}

/// The status that a comparing program ends with.
pub fn exit_code(compared: io::Result<bool>) -> ExitCode {
    match compared {
        Ok(true) => ExitCode::SUCCESS,
        Ok(false) => ExitCode::FAILURE,
        Err(error) => {
            eprintln!("{error}");
            ExitCode::from(2)
        }
    }
}

/// Compares all cases by several threads.
fn compare<C>(cases: &Cases, comparer: impl Fn() -> C + Sync) -> io::Result<Findings>
where
    C: FnMut(&Case, &mut Counts) -> io::Result<Option<String>>,
{
    let next = AtomicUsize::new(0);
    let threads = thread::available_parallelism().map_or(2, usize::from);
    let mut all = Findings::default();
    thread::scope(|scope| {
        let work = || compare_some(cases, &next, comparer());
        let workers: Vec<_> = (0..threads).map(|_| scope.spawn(work)).collect();
        for worker in workers {
            let some = worker.join().expect("a worker ended early")?;
            all.counts.add(some.counts);
            all.differences.extend(some.differences);
        }
        Ok(all)
    })
}

/// Takes cases until none is left.
fn compare_some<C>(cases: &Cases, next: &AtomicUsize, mut comparer: C) -> io::Result<Findings>
where
    C: FnMut(&Case, &mut Counts) -> io::Result<Option<String>>,
{
    let mut some = Findings::default();
    while let Some(case) = cases.get(next.fetch_add(1, Ordering::Relaxed)) {
        if let Some(details) = comparer(&case, &mut some.counts)? {
            some.differences.push(Difference { case, details });
        }
    }
    Ok(some)
}
