//! One call on both engines, with equal buffers: what they give and what they leave.

use crate::figures::{dirty, of_answer, of_run, of_walk};
use roskavel::figures::{self, Values};
use roskavel::{Answer, Refusal, Run, Walk};
use std::fmt::Debug;
use std::ops::Range;
use tables::Rng;

/// The longest buffer: a log above the ceiling or a page of more than 1,000,000 places.
const LONGEST: usize = 1 << 21;
/// What stands before and behind a lent buffer.
const MARGIN: usize = 64;

/// Random elements that lent buffers are filled with.
pub struct Pool {
    bytes: Vec<u8>,
    numbers: Vec<u16>,
}

/// Two equal buffers, one for each engine. Only a part is lent, so that a change outside is seen.
struct Pair<T> {
    name: &'static str,
    ours: Vec<T>,
    second: Vec<T>,
    lent: Range<usize>,
}

impl Pool {
    pub fn new(rng: &mut Rng) -> Pool {
        let mut bytes = vec![0; LONGEST + 4 * MARGIN];
        rng.fill(&mut bytes);
        let numbers = bytes
            .chunks_exact(2)
            .map(|pair| u16::from_le_bytes([pair[0], pair[1]]));
        let numbers = numbers.collect();
        Pool { bytes, numbers }
    }

    fn bytes(&self, rng: &mut Rng, name: &'static str, length: usize) -> Pair<u8> {
        Pair::new(&self.bytes, rng, name, length)
    }

    fn numbers(&self, rng: &mut Rng, name: &'static str, length: usize) -> Pair<u16> {
        Pair::new(&self.numbers, rng, name, length)
    }

    /// The answer call with a log and a scratch of these lengths.
    pub fn answer(
        &self,
        rng: &mut Rng,
        table: &[u8],
        lengths: [usize; 2],
    ) -> Result<Answer, String> {
        let mut log = self.bytes(rng, "log", lengths[0]);
        let mut scratch = self.bytes(rng, "scratch", lengths[1]);
        let ours = figures::answer(table, log.ours(), scratch.ours(), dirty(rng));
        let second = second_engine::answer(table, log.second(), scratch.second());
        let figures = Left::of_figures(ours.values(), &of_answer(&second));
        let buffers = [figures, log.left(), scratch.left()];
        let given = Answer::of(&ours);
        judge("answer", answer_of(given), second, &buffers)?;
        Ok(given)
    }

    /// The run call with a log, a scratch and a page of these lengths.
    pub fn run(&self, rng: &mut Rng, table: &[u8], lengths: [usize; 3]) -> Result<Run, String> {
        let mut log = self.bytes(rng, "log", lengths[0]);
        let mut scratch = self.bytes(rng, "scratch", lengths[1]);
        let mut page = self.numbers(rng, "page", lengths[2]);
        let ours = figures::run(table, log.ours(), scratch.ours(), page.ours(), dirty(rng));
        let second = second_engine::run(table, log.second(), scratch.second(), page.second());
        let figures = Left::of_figures(ours.values(), &of_run(&second));
        let buffers = [figures, log.left(), scratch.left(), page.left()];
        let given = Run::of(&ours);
        judge("run", run_of(given), second, &buffers)?;
        Ok(given)
    }

    /// The walk call with a pile and a scratch of these lengths.
    pub fn walk<'l>(
        &self,
        rng: &mut Rng,
        table: &[u8],
        list: &'l [u16],
        lengths: [usize; 2],
    ) -> Result<Walk<'l>, String> {
        let mut pile = self.bytes(rng, "pile", lengths[0]);
        let mut scratch = self.bytes(rng, "scratch", lengths[1]);
        let ours = figures::walk(table, list, pile.ours(), scratch.ours(), dirty(rng));
        let second = second_engine::walk(table, list, pile.second(), scratch.second());
        let figures = Left::of_figures(ours.values(), &of_walk(&second));
        let buffers = [figures, pile.left(), scratch.left()];
        let given = Walk::of(&ours);
        let judged = judge("walk", walk_of(given, list), second, &buffers);
        judged.map_err(|text| format!("{text}list {list:?}\n"))?;
        Ok(given)
    }
}

impl<T: Copy + PartialEq + Debug> Pair<T> {
    /// A part of the pool, at any alignment.
    fn new(pool: &[T], rng: &mut Rng, name: &'static str, length: usize) -> Self {
        let from = rng.below(pool.len() - length - 2 * MARGIN);
        let whole = &pool[from..from + length + 2 * MARGIN];
        let first = rng.between(MARGIN / 2, MARGIN);
        Pair {
            name,
            ours: whole.to_vec(),
            second: whole.to_vec(),
            lent: first..first + length,
        }
    }

    fn ours(&mut self) -> &mut [T] {
        &mut self.ours[self.lent.clone()]
    }

    fn second(&mut self) -> &mut [T] {
        &mut self.second[self.lent.clone()]
    }

    /// The length, and where the two differ first.
    fn left(&self) -> Left {
        let length = self.lent.len();
        let mut text = format!("{} of length {length}", self.name);
        let differs = self.ours != self.second;
        if differs {
            let both = self.ours.iter().zip(&self.second);
            let index = both.take_while(|(ours, second)| ours == second).count();
            let place = index as isize - self.lent.start as isize;
            let (ours, second) = (self.ours[index], self.second[index]);
            text += &format!(" differs at {place}: ours {ours:?}, second {second:?}");
        }
        Left { text, differs }
    }
}

/// What the engines left in a buffer: its length, and whether and where they differ.
struct Left {
    text: String,
    differs: bool,
}

impl Left {
    fn of_figures(ours: &Values, second: &Values) -> Left {
        Left {
            text: format!("figures ours {ours:?}, second {second:?}"),
            differs: ours != second,
        }
    }
}

/// Fails with the text of a difference, if there is one.
fn judge<T: PartialEq + Debug>(
    call: &str,
    ours: T,
    second: T,
    buffers: &[Left],
) -> Result<(), String> {
    if ours == second && buffers.iter().all(|buffer| !buffer.differs) {
        return Ok(());
    }
    let mut text = format!("{call}\nours   {ours:?}\nsecond {second:?}\n");
    for buffer in buffers {
        text += &format!("{}\n", buffer.text);
    }
    Err(text)
}

// What the proved engine gives, as the second engine has it. A number that is cut short here differs
// in the figures.

fn answer_of(given: Answer) -> second_engine::Answer {
    match given {
        Answer::Reachable {
            transitions,
            rounds,
            steps,
            ..
        } => second_engine::Answer::Reachable {
            transitions: transitions as u32,
            rounds: rounds as u32,
            steps: steps as u32,
        },
        Answer::Unreachable {
            transitions,
            rounds,
            ..
        } => second_engine::Answer::Unreachable {
            transitions: transitions as u32,
            rounds: rounds as u32,
        },
        Answer::Refused(refusal) => second_engine::Answer::Refused(refusal_of(refusal)),
    }
}

fn run_of(given: Run) -> second_engine::Run {
    match given {
        Run::Reachable {
            transitions,
            rounds,
            steps,
            peak,
            ..
        } => second_engine::Run::Reachable {
            transitions: transitions as u32,
            rounds: rounds as u32,
            steps: steps as u32,
            peak: peak as u32,
        },
        Run::Refused(refusal) => second_engine::Run::Refused(refusal_of(refusal)),
    }
}

fn walk_of(given: Walk, list: &[u16]) -> second_engine::Walk {
    match given {
        Walk::Walked {
            states,
            length,
            watched,
            counts,
            rest,
            ..
        } => second_engine::Walk::Walked {
            states,
            length,
            watched,
            counts,
            rest: list.len() - rest.len(),
        },
        Walk::Refused {
            refusal,
            counts,
            rest,
            ..
        } => second_engine::Walk::Refused {
            refusal: refusal_of(refusal),
            counts,
            rest: list.len() - rest.len(),
        },
    }
}

fn refusal_of(refusal: Refusal) -> second_engine::Refusal {
    second_engine::Refusal {
        number: refusal.number(),
        place: refusal.place,
    }
}
