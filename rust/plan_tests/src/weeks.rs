//! Random opening hours.

use roskavel::{WEEK_MINUTES, WINDOWS};
use second_engine::{Hours, Window};
use tables::Rng;

/// The end of the week.
const END: usize = WEEK_MINUTES as usize;
const DAY: usize = 1_440;

/// Makes the windows of a process.
type Make = fn(&mut Rng) -> Vec<Window>;

const MAKES: [Make; 9] = [
    never,
    all_week,
    all_week_in_parts,
    twice_a_day,
    over_midnight,
    touching,
    overlapping,
    short,
    ragged,
];

/// Hours of so many processes, half of them with windows that others have too. What else there is
/// can be anything.
pub fn any(rng: &mut Rng, processes: usize) -> Hours {
    let mut hours = Hours {
        windows: std::array::from_fn(|_| std::array::from_fn(|_| any_window(rng))),
        counts: std::array::from_fn(|_| rng.byte()),
    };
    let common = rng.pick(&MAKES)(rng);
    for process in 0..processes {
        let mut windows = match rng.below(4) {
            0 | 1 => common.clone(),
            2 => all_week(rng),
            _ => rng.pick(&MAKES)(rng),
        };
        rng.shuffle(&mut windows);
        hours.counts[process] = windows.len() as u8;
        hours.windows[process][..windows.len()].copy_from_slice(&windows);
    }
    hours
}

/// A window that need not be a good one.
fn any_window(rng: &mut Rng) -> Window {
    match rng.below(3) {
        0 => Window::default(),
        1 => window(rng.below(END), rng.below(END)),
        _ => window(rng.below(1 << 16), rng.below(1 << 16)),
    }
}

fn window(opens: usize, closes: usize) -> Window {
    Window {
        opens: opens as u16,
        closes: closes as u16,
    }
}

fn never(_: &mut Rng) -> Vec<Window> {
    Vec::new()
}

fn all_week(_: &mut Rng) -> Vec<Window> {
    vec![window(0, END)]
}

fn all_week_in_parts(rng: &mut Rng) -> Vec<Window> {
    let mut edges = edges(rng, WINDOWS - 1);
    edges.extend([0, END]);
    chain(edges, 1)
}

/// Up to seven days with two openings each, at the same minutes.
fn twice_a_day(rng: &mut Rng) -> Vec<Window> {
    let mut times = [(); 4].map(|()| rng.between(0, DAY));
    times.sort();
    let days = (0..7).filter(|_| rng.chance(7, 8));
    let both = |day| [0, 2].map(|at| window(day * DAY + times[at], day * DAY + times[at + 1]));
    let days: Vec<usize> = days.collect();
    good(days.into_iter().flat_map(both).collect())
}

/// A window up to Sunday midnight, one from there on, and some others.
fn over_midnight(rng: &mut Rng) -> Vec<Window> {
    let mut windows = ragged(rng);
    windows.truncate(rng.below(4));
    let [before, after] = [(); 2].map(|()| rng.between(1, DAY));
    windows.extend([window(END - before, END), window(0, after)]);
    windows
}

/// Windows each of which closes where the next one opens.
fn touching(rng: &mut Rng) -> Vec<Window> {
    let edges = edges(rng, WINDOWS);
    chain(edges, 1)
}

/// Windows each of which closes after the next one opens, some of them twice.
fn overlapping(rng: &mut Rng) -> Vec<Window> {
    let edges = edges(rng, WINDOWS - 2);
    let mut windows = chain(edges, 2);
    let twice = windows.first().copied();
    windows.extend(twice);
    windows
}

/// Windows of some minutes.
fn short(rng: &mut Rng) -> Vec<Window> {
    let any = |_| {
        let opens = rng.below(END - 20);
        window(opens, opens + rng.between(1, 20))
    };
    (0..WINDOWS).map(any).collect()
}

fn ragged(rng: &mut Rng) -> Vec<Window> {
    let count = rng.between(1, WINDOWS);
    let any = |_| window(rng.below(END), rng.between(1, END));
    good((0..count).map(any).collect())
}

/// Some minutes of the week, at most so many and all within a part of it.
fn edges(rng: &mut Rng, most: usize) -> Vec<usize> {
    let count = rng.between(2, most);
    let span = *rng.pick(&[60, 600, END - 1]);
    let first = rng.between(1, END - span);
    (0..count).map(|_| first + rng.below(span)).collect()
}

/// From each edge a window to the next one, or to one further on.
fn chain(mut edges: Vec<usize>, further: usize) -> Vec<Window> {
    edges.sort();
    edges.dedup();
    let openings = edges.iter().zip(edges.iter().skip(further));
    openings
        .map(|(&opens, &closes)| window(opens, closes))
        .collect()
}

/// Those that open before they close.
fn good(mut windows: Vec<Window>) -> Vec<Window> {
    windows.retain(|window| window.opens < window.closes);
    windows
}
