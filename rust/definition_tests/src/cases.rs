//! Small tables, accepted and refused, and the calls that are made of them.

use crate::equations::Equation;
use crate::plans::{self, Order, coded};
use crate::sequences::{self, Counts, DeskCall, wide_counts};
use second_engine::{
    Answer, RECORD_BYTES, Refusal, Run, WALK_SCRATCH, Walk, answer, run, scratch_needed, walk,
};
use tables::random::{self, Shape};
use tables::{Rng, Table, WRITTEN_PLACES, damage, named};

/// How many random tables, and how many damaged ones.
const EACH: usize = 200;

/// Longer tables, limits of more records and longer runs are left out: the checker computes them
/// slowly.
const BYTES: usize = 430;
const RECORDS: usize = 24;
const STEPS: usize = 24;

/// What a lent buffer holds before.
const DIRT: u8 = 7;

// Figure 2: a verdict, and whether the end of a walk is watched. It is 0 only beside a refusal.
const REACHABLE: u32 = 1;
const UNREACHABLE: u32 = 2;
const WATCHED: u64 = 1;
const NOT_WATCHED: u64 = 2;

/// A call with the lengths of its lent buffers.
pub enum Call {
    Answer {
        log: usize,
        scratch: usize,
    },
    Run {
        log: usize,
        scratch: usize,
        page: usize,
    },
    Walk {
        rules: Vec<u16>,
        pile: usize,
        scratch: usize,
    },
    /// A desk, opened with these counts and called.
    Desk {
        counts: Counts,
        calls: Vec<DeskCall>,
    },
    Plan(Order),
}

pub struct Case {
    table: Vec<u8>,
    call: Call,
}

/// The small tables of documents 01 and 02, random ones and damaged ones, each with one of the
/// calls; then the chosen runs, a log that is too short, walks and desks; then plans.
pub fn all(seed: u64) -> Vec<Case> {
    let mut rng = Rng::new(seed);
    let calls = small_tables(&mut rng).into_iter().enumerate();
    let mut cases: Vec<Case> = calls
        .map(|(number, table)| Case {
            call: call(&mut rng, number, &table),
            table,
        })
        .collect();
    cases.extend(chosen_runs());
    cases.push(short_log());
    cases.extend(chosen_walks());
    cases.extend(chosen_desks());
    cases.extend(plans(&mut rng));
    cases
}

fn small_tables(rng: &mut Rng) -> Vec<Vec<u8>> {
    let mut tables: Vec<Vec<u8>> = Vec::new();
    let named = named::all().into_iter().map(|(_, table)| table.bytes());
    tables.extend(named.filter(|table| is_small(table)));
    while tables.len() < EACH {
        let table = random::table(rng, &Shape::TINY).bytes();
        if is_small(&table) {
            tables.push(table);
        }
    }
    while tables.len() < 2 * EACH {
        let whole = random::table(rng, &Shape::TINY);
        let table = damage::damaged(rng, &whole);
        if is_small(&table) {
            tables.push(table);
        }
    }
    tables
}

/// The runs of tables with a peak, a path or a copied automaton of their own.
fn chosen_runs() -> impl Iterator<Item = Case> {
    let tables = [
        named::t(),
        named::idle_station(),
        named::spread_word(),
        named::count(WRITTEN_PLACES - 1),
        named::count(WRITTEN_PLACES),
        named::six_written(),
        named::re_entry_of(4),
        named::staying(1),
        named::mixed_goal(),
    ];
    tables.into_iter().map(|table| {
        let table = table.bytes();
        Case {
            call: exact_run(&table),
            table,
        }
    })
}

/// A log that has room for the watch transitions, but not for their copies.
fn short_log() -> Case {
    let table = named::staying(1);
    let log = RECORD_BYTES * (table.round_zero().len() - 1);
    Case {
        table: table.bytes(),
        call: Call::Answer {
            log,
            scratch: scratch_needed(log),
        },
    }
}

/// Walks with counts: different ones at four processes, and those beside refusals 12, 13 and 14;
/// and walks that lead back into line states, one to a watched configuration.
fn chosen_walks() -> impl Iterator<Item = Case> {
    let walks = [
        (named::six_written(), vec![0, 4, 3, 6, 1], 6),
        (named::t(), vec![0, 1, 1, 2], 3),
        (named::t(), vec![0, 2, 3], 3),
        (named::doubling(3), vec![0, 1], 2),
        (named::mixed_goal(), vec![0], 2),
        (named::re_entry(), vec![], 2),
    ];
    walks.into_iter().map(|(table, rules, pile)| Case {
        table: table.bytes(),
        call: Call::Walk {
            rules,
            pile,
            scratch: WALK_SCRATCH,
        },
    })
}

/// A desk whose pile is filled, and one whose counts stop.
fn chosen_desks() -> impl Iterator<Item = Case> {
    let desks = [sequences::filling(), sequences::stopping()];
    desks.into_iter().map(|(table, counts, calls)| Case {
        table: table.bytes(),
        call: Call::Desk { counts, calls },
    })
}

fn plans(rng: &mut Rng) -> impl Iterator<Item = Case> {
    let orders = plans::all(rng).into_iter();
    orders.map(|(table, order)| Case {
        table,
        call: Call::Plan(order),
    })
}

/// The figures of a table with room for everything: its records, its run and the greatest length
/// of the word along the run.
#[derive(Default)]
struct Size {
    records: usize,
    run: Vec<u16>,
    longest: usize,
}

fn size(table: &[u8]) -> Option<Size> {
    let mut log = vec![0; RECORD_BYTES * (RECORDS + 1)];
    let mut scratch = vec![0; scratch_needed(log.len())];
    let mut page = vec![0; STEPS];
    match run(table, &mut log, &mut scratch, &mut page) {
        Run::Reachable {
            transitions, steps, ..
        } => {
            page.truncate(steps as usize);
            Some(Size {
                records: transitions as usize,
                longest: Table::read(table).longest_word(&page),
                run: page,
            })
        }
        Run::Refused(Refusal {
            number: 10 | 11, ..
        }) => None,
        Run::Refused(_) => match answer(table, &mut log, &mut scratch) {
            Answer::Unreachable { transitions, .. } => Some(Size {
                records: transitions as usize,
                ..Size::default()
            }),
            _ => Some(Size::default()),
        },
    }
}

fn is_small(table: &[u8]) -> bool {
    table.len() <= BYTES && size(table).is_some_and(|size| size.records <= RECORDS)
}

/// The run call with buffers that just serve.
fn exact_run(table: &[u8]) -> Call {
    let size = size(table).expect("a small table");
    let log = RECORD_BYTES * size.records;
    Call::Run {
        log,
        scratch: scratch_needed(log),
        page: size.run.len(),
    }
}

/// Each call in turn, its buffers about as long as it needs them.
fn call(rng: &mut Rng, number: usize, table: &[u8]) -> Call {
    let size = size(table).expect("a small table");
    let exact = RECORD_BYTES * size.records;
    let log = (exact + *rng.pick(&[0, 0, 0, 1, 30])).saturating_sub(rng.below(8) / 7);
    let needed = scratch_needed(log);
    let scratch = needed + rng.below(2) - rng.below(12) / 11;
    match number % 4 {
        0 => Call::Answer { log, scratch },
        1 => Call::Run {
            log,
            scratch,
            page: (size.run.len() + rng.below(4)).saturating_sub(rng.below(5) / 4),
        },
        2 => Call::Walk {
            rules: list(rng, size.run),
            pile: (size.longest + rng.below(6)).saturating_sub(rng.below(3)),
            scratch: WALK_SCRATCH + rng.below(2) - rng.below(12) / 11,
        },
        _ => {
            let rules = list(rng, size.run);
            Call::Desk {
                counts: sequences::random_counts(rng),
                calls: sequences::random(rng, &rules),
            }
        }
    }
}

/// A run, at times with a rule changed or more rules behind it.
fn list(rng: &mut Rng, mut run: Vec<u16>) -> Vec<u16> {
    if rng.chance(1, 2) {
        let at = rng.below(run.len() + 1);
        run.truncate(at);
        for _ in 0..rng.below(5) {
            run.push(rng.below(9) as u16);
        }
    }
    run
}

impl Case {
    /// What the second engine gives: the figures, and what is left in the buffers.
    pub fn equation(&self) -> Equation {
        let table = numbers(&self.table);
        match &self.call {
            &Call::Answer { log, scratch } => {
                let (mut log, mut scratch) = (vec![DIRT; log], vec![DIRT; scratch]);
                let left = format!("(answered {table} {} {})", log.len(), scratch.len());
                let figures = answer_figures(answer(&self.table, &mut log, &mut scratch));
                Equation::new(left, vec![figures, wide(&log), front(&scratch)])
            }
            &Call::Run { log, scratch, page } => {
                let (mut log, mut scratch) = (vec![DIRT; log], vec![DIRT; scratch]);
                let mut page = vec![u16::from(DIRT); page];
                let lengths = [log.len(), scratch.len(), page.len()].map(|n| n.to_string());
                let left = format!("(ran {table} {})", lengths.join(" "));
                let figures = run_figures(run(&self.table, &mut log, &mut scratch, &mut page));
                Equation::new(
                    left,
                    vec![figures, wide(&log), front(&scratch), wide(&page)],
                )
            }
            Call::Walk {
                rules,
                pile,
                scratch,
            } => {
                let (mut pile, mut scratch) = (vec![DIRT; *pile], vec![DIRT; *scratch]);
                let list = numbers(rules);
                let left = format!("(walked {table} {list} {} {})", pile.len(), scratch.len());
                let given = walk(&self.table, rules, &mut pile, &mut scratch);
                let (figures, counts, rest) = walk_figures(given);
                let rest = wide(&rules[rest..]);
                Equation::new(
                    left,
                    vec![figures, counts, rest, wide(&pile), front(&scratch)],
                )
            }
            Call::Desk { counts, calls } => {
                let (before, made) = (numbers(&wide_counts(*counts)), sequences::text(calls));
                let left = format!("(trace (read {table}) {before} {made})");
                Equation::new(left, sequences::trace(&self.table, *counts, calls))
            }
            Call::Plan(order) => {
                let mut begins = vec![i64::from(DIRT); order.places];
                let left = format!("(planned {table} {})", order.text());
                let figures = plan_figures(order.lay(&self.table, &mut begins));
                let begins = begins.into_iter().map(coded).collect();
                Equation::new(left, vec![figures, begins])
            }
        }
    }
}

fn answer_figures(answer: Answer) -> Vec<u64> {
    match answer {
        Answer::Reachable {
            transitions,
            rounds,
            steps,
        } => wide(&[0, 0, REACHABLE, transitions, rounds, steps]),
        Answer::Unreachable {
            transitions,
            rounds,
        } => wide(&[0, 0, UNREACHABLE, transitions, rounds, 0]),
        Answer::Refused(refusal) => refused(refusal, 6),
    }
}

fn run_figures(run: Run) -> Vec<u64> {
    match run {
        Run::Reachable {
            transitions,
            rounds,
            steps,
            peak,
        } => wide(&[0, 0, REACHABLE, transitions, rounds, steps, peak]),
        Run::Refused(refusal) => refused(refusal, 7),
    }
}

/// The figures of a walk, its counts, and where the part handed back begins.
fn walk_figures(walk: Walk) -> (Vec<u64>, Vec<u64>, usize) {
    let (figures, counts, rest) = match walk {
        Walk::Walked {
            states,
            length,
            watched,
            counts,
            rest,
        } => {
            let watched = if watched { WATCHED } else { NOT_WATCHED };
            let mut figures = vec![0, 0, watched, length as u64];
            figures.extend(states.map(u64::from));
            (figures, counts, rest)
        }
        Walk::Refused {
            refusal,
            counts,
            rest,
        } => (refused(refusal, 8), counts, rest),
    };
    (figures, wide_counts(counts).to_vec(), rest)
}

fn plan_figures(plan: Result<(), Refusal>) -> Vec<u64> {
    match plan {
        Ok(()) => vec![0; 2],
        Err(refusal) => refused(refusal, 2),
    }
}

/// A refusal's figures: its number, its place, and zeros.
fn refused(refusal: Refusal, length: usize) -> Vec<u64> {
    let mut figures = vec![0; length];
    figures[0] = u64::from(refusal.number);
    figures[1] = refusal.place as u64;
    figures
}

fn wide<N: Copy + Into<u64>>(list: &[N]) -> Vec<u64> {
    list.iter().map(|&number| number.into()).collect()
}

/// The scratch is left as it was or zero, so that its first bytes tell.
fn front(scratch: &[u8]) -> Vec<u64> {
    wide(&scratch[..scratch.len().min(3)])
}

fn numbers<N: Copy + Into<u64>>(list: &[N]) -> String {
    crate::equations::list(&wide(list))
}
