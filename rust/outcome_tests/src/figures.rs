//! What an outcome of the second engine has at every place of the figures.

use roskavel::figures::Values;
use second_engine::{Answer, Refusal, Run, Walk};
use tables::Rng;

// Figure 2: a verdict, and whether the end of a walk is watched. It is 0 only beside a refusal.
const REACHABLE: u64 = 1;
const UNREACHABLE: u64 = 2;
const WATCHED: u64 = 1;
const NOT_WATCHED: u64 = 2;

/// Figures that held anything before.
pub fn dirty(rng: &mut Rng) -> Values {
    std::array::from_fn(|_| rng.draw())
}

pub fn of_answer(answer: &Answer) -> Values {
    match *answer {
        Answer::Reachable {
            transitions,
            rounds,
            steps,
        } => figures(&[&[0, 0, REACHABLE], &wide([transitions, rounds, steps])]),
        Answer::Unreachable {
            transitions,
            rounds,
        } => figures(&[&[0, 0, UNREACHABLE], &wide([transitions, rounds])]),
        Answer::Refused(refusal) => of_refusal(refusal),
    }
}

pub fn of_run(run: &Run) -> Values {
    match *run {
        Run::Reachable {
            transitions,
            rounds,
            steps,
            peak,
        } => figures(&[
            &[0, 0, REACHABLE],
            &wide([transitions, rounds, steps, peak]),
        ]),
        Run::Refused(refusal) => of_refusal(refusal),
    }
}

pub fn of_walk(walk: &Walk) -> Values {
    let (mut figures, counts, rest) = match *walk {
        Walk::Walked {
            states,
            length,
            watched,
            counts,
            rest,
        } => {
            let watched = if watched { WATCHED } else { NOT_WATCHED };
            let front = [0, 0, watched, length as u64];
            (figures(&[&front, &wide(states)]), counts, rest)
        }
        Walk::Refused {
            refusal,
            counts,
            rest,
        } => (of_refusal(refusal), counts, rest),
    };
    figures[8] = rest as u64;
    figures[9..13].copy_from_slice(&counts.map(|count| count as u64));
    figures
}

fn of_refusal(refusal: Refusal) -> Values {
    figures(&[&[u64::from(refusal.number), refusal.place as u64]])
}

fn wide<const COUNT: usize>(numbers: [impl Into<u64>; COUNT]) -> [u64; COUNT] {
    numbers.map(Into::into)
}

/// These, then zeros.
fn figures(first: &[&[u64]]) -> Values {
    let first = first.concat();
    std::array::from_fn(|place| first.get(place).copied().unwrap_or(0))
}
