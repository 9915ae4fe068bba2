//! What `line` shall write for a table, by the second engine.

use crate::situations::{self, refused};
use comparison::{
    Case, Counts, Make, note_copy, note_peak, note_refusal, note_rules, note_short_log, on_copy,
};
use second_engine::{Answer, RECORD_BYTES, Refusal, Run, answer, run, scratch_needed};
use std::fmt::Write;
use tables::Table;

/// The records that the log of `line` holds.
const RECORDS: u32 = 2_000;
const PAGE_LENGTH: u32 = 10_000;
/// The steps of the shortest run that is too long for the page.
const PAST_PAGE: u32 = PAGE_LENGTH + 1;
/// The longest input that `line` reads whole.
const INPUT_BYTES: usize = 65_536;
const STEPS_CAP: u32 = 1_000_001;
const SHORT_LOG: u8 = 10;
const LONG_RUN: u8 = 11;

/// The second engine with buffers as long as those of `line`.
pub struct Engine {
    log: Vec<u8>,
    scratch: Vec<u8>,
    page: Vec<u16>,
}

impl Engine {
    pub fn new() -> Self {
        let log = RECORD_BYTES * RECORDS as usize;
        Engine {
            log: vec![0; log],
            scratch: vec![0; scratch_needed(log)],
            page: vec![0; PAGE_LENGTH as usize],
        }
    }

    /// The lines for a table; counts the situations that they tell of.
    pub fn lines(&mut self, case: &Case, counts: &mut Counts) -> String {
        note_input(case, counts);
        match answer(&case.bytes, &mut self.log, &mut self.scratch) {
            Answer::Refused(Refusal { number, place }) => {
                note_refused(case, number, place, counts);
                format!("refused {number} at {place}\n")
            }
            Answer::Unreachable {
                transitions,
                rounds,
            } => {
                self.note_answer(case, &[situations::UNREACHABLE], transitions, counts);
                head("unreachable", transitions, rounds)
            }
            Answer::Reachable {
                transitions,
                rounds,
                steps,
            } => {
                let run = run_situation(steps);
                self.note_answer(case, &[situations::REACHABLE, run], transitions, counts);
                let mut lines = head("reachable", transitions, rounds);
                lines += &format!("steps {steps}\n");
                self.add_run(case, &mut lines, counts);
                lines
            }
        }
    }

    /// Counts the situations of an answer and, if the table's automaton is copied, what is special
    /// about that.
    fn note_answer(
        &self,
        case: &Case,
        met: &[&'static str],
        transitions: u32,
        counts: &mut Counts,
    ) {
        if transitions == RECORDS {
            counts.meet(situations::FULL_LOG);
        }
        for &situation in met {
            counts.meet(situation);
        }
        let table = Table::read(&case.bytes);
        let log = &self.log[..RECORD_BYTES * transitions as usize];
        if table.is_copied() {
            for situation in met {
                counts.meet(on_copy(situation));
            }
            note_copy(&table, log, counts);
        }
    }

    /// Adds the lines after the steps of a reachable table.
    fn add_run(&mut self, case: &Case, lines: &mut String, counts: &mut Counts) {
        let bytes = &case.bytes;
        match run(bytes, &mut self.log, &mut self.scratch, &mut self.page) {
            Run::Reachable { steps, peak, .. } => {
                let rules = &self.page[..steps as usize];
                if let Make::Random(table) = &case.make {
                    note_peak(table, rules, counts);
                }
                *lines += &format!("peak {peak}\nrun");
                for rule in rules {
                    write!(lines, " {rule}").expect("a string takes all");
                }
                *lines += "\n";
            }
            Run::Refused(refusal) => {
                assert_eq!((refusal.number, refusal.place), (LONG_RUN, 0));
                counts.meet(situations::RUN_REFUSED);
                *lines += "run refused 11\n";
            }
        }
    }
}

/// Counts what is special about a table's bytes, and the rules of a random table.
fn note_input(case: &Case, counts: &mut Counts) {
    if let Make::Random(table) = &case.make {
        note_rules(table, counts);
    }
    match case.bytes.len() {
        0 => counts.meet(situations::EMPTY_INPUT),
        length if length > INPUT_BYTES => counts.meet(situations::LONG_INPUT),
        _ => (),
    }
}

/// Counts the refusal of a table.
fn note_refused(case: &Case, number: u8, place: usize, counts: &mut Counts) {
    let table = &case.bytes;
    counts.meet(refused(number));
    note_refusal(&case.name, table, number, place, counts);
    if number == SHORT_LOG {
        note_short_log(&Table::read(table), RECORDS as usize, counts);
        if is_answered_by_one_more(table) {
            counts.meet(situations::PAST_LOG);
        }
    }
}

/// What a run of so many steps is.
fn run_situation(steps: u32) -> &'static str {
    match steps {
        0 => situations::EMPTY_RUN,
        PAGE_LENGTH => situations::FULL_PAGE,
        PAST_PAGE => situations::PAST_PAGE,
        STEPS_CAP => situations::PAST_CAP,
        _ => situations::USUAL_RUN,
    }
}

/// The lines before the steps.
fn head(verdict: &str, transitions: u32, rounds: u32) -> String {
    format!("answer {verdict}\ntransitions {transitions}\nrounds {rounds}\n")
}

/// Whether a log of one record more than that of `line` holds the limit.
fn is_answered_by_one_more(table: &[u8]) -> bool {
    let mut log = vec![0; RECORD_BYTES * (RECORDS as usize + 1)];
    let mut scratch = vec![0; scratch_needed(log.len())];
    !matches!(answer(table, &mut log, &mut scratch), Answer::Refused(_))
}
