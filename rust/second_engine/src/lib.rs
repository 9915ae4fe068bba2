//! A second engine for document 01, of independent make: reachability of cooperating
//! multi-pushdown systems by saturation of a watch automaton, with the desk of request 2.1, the
//! peak of request 2.2, the written places of request 2.4, the counts of request 2.5, the copied
//! automaton of request 2.6 and the opening hours of request 2.7. Every call works on tables of any
//! bytes and on buffers of any length.

mod copy;
mod desk;
mod group;
mod participation;
mod peak;
mod plan;
mod saturation;
mod table;
mod walk;

pub use desk::{COUNT_CEILING, DESK_PILE, Desk, NAMES};
pub use plan::{Hours, LENGTHS, PLAN_STEPS, STARTS, WEEK, WINDOWS, Window, plan};
pub use table::WRITTEN_PLACES;

use group::PROCESSES;
use participation::step_counts;
use peak::peak;
use saturation::{Limit, Record, STEPS_CAP};
use table::Table;
use walk::Configuration;

/// Where the path and the steps of a record begin.
const PATH: usize = 13;
const STEPS: usize = PATH + 2 * WRITTEN_PLACES;
/// The bytes of one record in the log.
pub const RECORD_BYTES: usize = STEPS + 3;
/// The most records that a log is used for.
pub const RECORD_CEILING: usize = 65_535;
/// The scratch that answer and run need beside an empty log, and for each record that a log can
/// hold.
const SCRATCH_BASE: usize = 34_000;
const SCRATCH_PER_RECORD: usize = 10;
/// The scratch that a walk needs.
pub const WALK_SCRATCH: usize = 2_048;

const SHORT_LOG: u8 = 10;
const LONG_RUN: u8 = 11;
const IDLE_RULE: u8 = 12;
const NO_RULE: u8 = 13;
const FULL_PILE: u8 = 14;
const SHORT_SCRATCH: u8 = 15;
const NO_RUN: u8 = 16;

/// Document 01's number and place of a refusal.
#[derive(Clone, Copy, PartialEq, Eq, Debug)]
pub struct Refusal {
    pub number: u8,
    pub place: usize,
}

/// What the answer call gives.
#[derive(Clone, Copy, PartialEq, Eq, Debug)]
pub enum Answer {
    Reachable {
        transitions: u32,
        rounds: u32,
        steps: u32,
    },
    Unreachable {
        transitions: u32,
        rounds: u32,
    },
    Refused(Refusal),
}

/// What the run call gives.
#[derive(Clone, Copy, PartialEq, Eq, Debug)]
pub enum Run {
    /// `peak` is the greatest length of any process's own pile along the run, start included.
    Reachable {
        transitions: u32,
        rounds: u32,
        steps: u32,
        peak: u32,
    },
    Refused(Refusal),
}

/// What the walk call gives; `counts` are, for each process, the steps that it took part in, and
/// `rest` is the index where the part of the caller's list that is handed back begins (the list's
/// length for the empty part).
#[derive(Clone, Copy, PartialEq, Eq, Debug)]
pub enum Walk {
    Walked {
        states: [u8; 4],
        length: usize,
        watched: bool,
        counts: [usize; PROCESSES],
        rest: usize,
    },
    Refused {
        refusal: Refusal,
        counts: [usize; PROCESSES],
        rest: usize,
    },
}

/// How many records a log of `length` bytes can hold (document 01's n).
pub fn log_capacity(length: usize) -> usize {
    (length / RECORD_BYTES).min(RECORD_CEILING)
}

/// The scratch that answer and run need beside a log of `length` bytes.
pub fn scratch_needed(length: usize) -> usize {
    SCRATCH_BASE + SCRATCH_PER_RECORD * log_capacity(length)
}

/// Says whether the watched set can be reached from the start. Refused by 1 to 9, 15 (no buffer
/// changed) or 10; else the log holds the limit's records, then zeros. Scratch is left zero.
pub fn answer(table: &[u8], log: &mut [u8], scratch: &mut [u8]) -> Answer {
    let (limit, path) = match solve(table, log, scratch) {
        Ok(solved) => solved,
        Err(refusal) => return Answer::Refused(refusal),
    };
    let transitions = limit.records.len() as u32;
    let rounds = u32::from(limit.rounds());
    match path {
        Some(path) => Answer::Reachable {
            transitions,
            rounds,
            steps: limit.steps(&path),
        },
        None => Answer::Unreachable {
            transitions,
            rounds,
        },
    }
}

/// Answers and writes a run: the page holds its rules, then zeros. Refused as `answer` is, then
/// by 16 or 11, which leave the log as `answer` does and the page as it was.
pub fn run(table: &[u8], log: &mut [u8], scratch: &mut [u8], page: &mut [u16]) -> Run {
    let refused = |number| Run::Refused(Refusal { number, place: 0 });
    let (limit, path) = match solve(table, log, scratch) {
        Ok(solved) => solved,
        Err(refusal) => return Run::Refused(refusal),
    };
    let Some(path) = path else {
        return refused(NO_RUN);
    };
    let steps = limit.steps(&path);
    if steps == STEPS_CAP || steps as usize > page.len() {
        return refused(LONG_RUN);
    }
    let rules = limit.unfold(&path);
    page.fill(0);
    page[..rules.len()].copy_from_slice(&rules);
    Run::Reachable {
        transitions: limit.records.len() as u32,
        rounds: u32::from(limit.rounds()),
        steps,
        peak: peak(&limit.table, &rules) as u32,
    }
}

/// Walks the start along a list of rules. The pile buffer holds the pile then zeros; refused at
/// a step (13, 12, 14), the pile before that step; unchanged if the start pile doesn't fit.
pub fn walk(table: &[u8], rules: &[u16], pile: &mut [u8], scratch: &mut [u8]) -> Walk {
    let table = match open_walk(table, pile.len(), scratch) {
        Ok(table) => table,
        Err(refusal) => {
            return Walk::Refused {
                refusal,
                counts: [0; PROCESSES],
                rest: rules.len(),
            };
        }
    };
    let mut at = Configuration::start(&table);
    let failed = (0..rules.len()).find_map(|step| {
        let number = take_step(&table, &mut at, rules[step], pile.len()).err()?;
        Some((step, number))
    });
    pile.fill(0);
    for (byte, letter) in pile.iter_mut().zip(at.pile()) {
        *byte = letter;
    }
    match failed {
        Some((step, number)) => Walk::Refused {
            refusal: Refusal {
                number,
                place: step,
            },
            counts: step_counts(&table, &rules[..step]),
            rest: step,
        },
        None => Walk::Walked {
            states: table.numbers(at.states),
            length: at.height(),
            watched: at.watched(&table),
            counts: step_counts(&table, rules),
            rest: rules.len(),
        },
    }
}

/// The common part of answer and run: the limit, now in the log, and the start's path.
fn solve(
    table: &[u8],
    log: &mut [u8],
    scratch: &mut [u8],
) -> Result<(Limit, Option<Vec<u16>>), Refusal> {
    let table = Table::read(table)?;
    check_scratch(scratch, scratch_needed(log.len()))?;
    scratch.fill(0);
    log.fill(0);
    let limit = Limit::of(table, log_capacity(log.len())).ok_or(Refusal {
        number: SHORT_LOG,
        place: 0,
    })?;
    for (bytes, record) in log.chunks_exact_mut(RECORD_BYTES).zip(&limit.records) {
        write_record(bytes, &limit.table, record);
    }
    let path = limit.start_path();
    Ok((limit, path))
}

/// A walk's checks before its first step.
fn open_walk(table: &[u8], room: usize, scratch: &mut [u8]) -> Result<Table, Refusal> {
    let table = Table::read(table)?;
    check_scratch(scratch, WALK_SCRATCH)?;
    scratch.fill(0);
    if table.pile.len() > room {
        return Err(Refusal {
            number: FULL_PILE,
            place: 0,
        });
    }
    Ok(table)
}

/// One step of a walk or a desk, or the number of its refusal; refused, nothing has changed.
fn take_step(table: &Table, at: &mut Configuration, number: u16, room: usize) -> Result<(), u8> {
    let rule = table.rules.get(usize::from(number)).ok_or(NO_RULE)?;
    let index = at.redex(table, rule).ok_or(IDLE_RULE)?;
    if at.height() - 1 + rule.written.len() > room {
        return Err(FULL_PILE);
    }
    at.fire(table, rule, index);
    Ok(())
}

fn check_scratch(scratch: &[u8], needed: usize) -> Result<(), Refusal> {
    if scratch.len() < needed {
        return Err(Refusal {
            number: SHORT_SCRATCH,
            place: 0,
        });
    }
    Ok(())
}

/// A record's bytes: letter, before, after, round, rule, path, steps, little-endian.
fn write_record(bytes: &mut [u8], table: &Table, record: &Record) {
    bytes[0] = record.transition.letter;
    bytes[1..5].copy_from_slice(&table.numbers(record.transition.before));
    bytes[5..9].copy_from_slice(&table.numbers(record.transition.after));
    bytes[9..11].copy_from_slice(&record.round.to_le_bytes());
    bytes[11..13].copy_from_slice(&record.rule.to_le_bytes());
    for (place, number) in bytes[PATH..STEPS].chunks_exact_mut(2).zip(record.path) {
        place.copy_from_slice(&number.to_le_bytes());
    }
    bytes[STEPS..RECORD_BYTES].copy_from_slice(&record.steps.to_le_bytes()[..3]);
}
