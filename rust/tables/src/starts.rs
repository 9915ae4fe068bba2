//! Random tables whose start is hard to search: its pile is read along paths that branch at almost
//! every letter, and often none or only a late one of them ends in a goal.
//!
//! One process has two worlds, its even states and its odd ones. No transition leads from one to
//! the other but crossing ones, on a letter that stands near the top of the pile alone. The start
//! is in the even world, and the goals are often in the odd one.

use crate::copies::NARROW;
use crate::model::{Group, Process, Rule, Table, drop_twin, overlay, restrict};
use crate::rng::Rng;

/// The lengths of start piles, those at the bounds and those between.
const SHORT: [usize; 3] = [0, 1, 2];
const LONG: [usize; 2] = [63, 64];
const BETWEEN: [usize; 2] = [3, 20];
/// The most rules and watch transitions; the ceiling is 200.
const MOST: usize = 190;
/// The most goals.
const GOALS: usize = 6;

/// A random accepted table of such a kind. In half of them the automaton is copied.
pub fn table(rng: &mut Rng) -> Table {
    let mut maze = Maze::new(rng);
    maze.add_idle();
    maze.add_plain_letters();
    maze.add_crossing_letter();
    maze.add_pile();
    maze.add_goals();
    let Maze { mut table, rng, .. } = maze;
    rng.shuffle(&mut table.rules);
    rng.shuffle(&mut table.watch);
    table
}

/// A table in the making.
struct Maze<'r> {
    rng: &'r mut Rng,
    table: Table,
    /// Whether there are watch transitions, which all lead back into line states.
    copied: bool,
    /// The process that has two worlds.
    divided: usize,
    /// A letter of the divided process that is removed in any state. A rule that writes it has
    /// later records than one that does not.
    idle: u8,
    /// The letters of the pile, and the one with crossing transitions.
    letters: Vec<u8>,
    crossing: u8,
}

/// How many states processes have: so few that a letter of all processes has some rules for each
/// group of them.
fn states(rng: &mut Rng, processes: usize, copied: bool) -> u8 {
    let (least, most) = [(4, 8), (3, 8), (2, 4), (2, 3)][processes - 1];
    let states = rng.between(least, most).min(rng.between(least, most)) as u8;
    if copied { states.min(NARROW) } else { states }
}

impl<'r> Maze<'r> {
    /// Processes alone.
    fn new(rng: &'r mut Rng) -> Self {
        let count = rng.between(1, 4).max(rng.between(1, 4));
        let copied = rng.chance(1, 2);
        let mut table = Table::new(count, 1, 1);
        for process in &mut table.processes {
            let states = states(rng, count, copied);
            *process = Process {
                line: states,
                all: states,
            };
        }
        let divided = rng.below(count);
        Maze {
            rng,
            table,
            copied,
            divided,
            idle: 0,
            letters: Vec::new(),
            crossing: 0,
        }
    }

    fn add_idle(&mut self) {
        self.idle = self.table.letter(1 << self.divided);
        for state in 0..self.table.processes[self.divided].all {
            self.table.rule(self.idle, [state; 4], [state; 4], &[]);
        }
    }

    /// Letters of any number of processes, with some transitions from almost every group.
    fn add_plain_letters(&mut self) {
        for _ in 0..self.rng.between(1, 3) {
            let bits = self.any_processes();
            let letter = self.table.letter(bits);
            self.letters.push(letter);
            self.add_branches(letter);
        }
    }

    /// A letter of the divided process and any others with, at times, transitions from one world to
    /// the other, most often by rules whose records come last.
    fn add_crossing_letter(&mut self) {
        let bits = self.any_processes() | 1 << self.divided;
        self.crossing = self.table.letter(bits);
        self.add_branches(self.crossing);
        if self.rng.chance(1, 3) {
            return;
        }
        for before in self.groups(bits) {
            let mut after = self.any_after(bits, before);
            let state = &mut after[self.divided];
            *state ^= 1;
            if *state < self.table.processes[self.divided].all && self.rng.chance(2, 3) {
                let late = self.rng.chance(3, 4);
                self.add_rule(self.crossing, before, after, late);
            }
        }
    }

    /// Adds transitions within a world, two for most groups of the letter's processes. A copied
    /// automaton has one of its own for each of them, so that the copy is not left again.
    fn add_branches(&mut self, letter: u8) {
        let bits = self.table.letters[usize::from(letter)];
        for before in self.groups(bits) {
            let branches = *self.rng.pick(&[1, 2, 2, 2, 2, 3]);
            for branch in 0..branches {
                let after = self.any_after(bits, before);
                if self.copied && (branch == 0 || self.rng.chance(1, 2)) {
                    self.add_watch(letter, before, after);
                } else {
                    let late = bits >> self.divided & 1 == 1 && self.rng.chance(1, 8);
                    self.add_rule(letter, before, after, late);
                }
            }
        }
    }

    fn add_rule(&mut self, letter: u8, before: Group, after: Group, late: bool) {
        if self.table.rules.len() < MOST {
            let written = if late { &[self.idle][..] } else { &[] };
            self.table.rule(letter, before, after, written);
            drop_twin(&mut self.table.rules);
        }
    }

    fn add_watch(&mut self, letter: u8, before: Group, after: Group) {
        if self.table.watch.len() < MOST {
            self.table.transition(letter, before, after);
            drop_twin(&mut self.table.watch);
        }
    }

    /// The start in the even world, and a pile that has the crossing letter near its top, if at
    /// all.
    fn add_pile(&mut self) {
        let everyone = self.table.everyone();
        let mut start = self.any_states(everyone);
        start[self.divided] &= !1;
        self.table.start = start;
        let length = match self.rng.below(8) {
            0 => *self.rng.pick(&SHORT),
            1..4 => self.rng.between(BETWEEN[0], BETWEEN[1]),
            _ => *self.rng.pick(&LONG),
        };
        let letters = (0..length).map(|_| *self.rng.pick(&self.letters));
        self.table.pile = letters.collect();
        for _ in 0..self.rng.below(3) {
            let place = self.rng.below(4);
            if let Some(letter) = self.table.pile.get_mut(place) {
                *letter = self.crossing;
            }
        }
    }

    /// Goals in the odd world, the end of some path, or any.
    fn add_goals(&mut self) {
        let everyone = self.table.everyone();
        let kind = self.rng.below(4);
        for _ in 0..self.rng.between(1, GOALS) {
            let mut goal = self.any_states(everyone);
            match kind {
                0 | 1 => goal[self.divided] |= 1,
                2 => goal = self.end_of_path(),
                _ => (),
            }
            if goal[self.divided] < self.table.processes[self.divided].all {
                self.table.accepting.push(goal);
                drop_twin(&mut self.table.accepting);
            }
        }
    }

    /// Where rules and watch transitions lead from the start, the pile read as far as it goes.
    fn end_of_path(&mut self) -> Group {
        let mut at = self.table.start;
        for &letter in &self.table.pile {
            let bits = self.table.letters[usize::from(letter)];
            let before = restrict(at, bits);
            let by_rule = |rule: &&Rule| rule.letter == letter && rule.before == before;
            let rules = self.table.rules.iter().filter(by_rule);
            let mut ends: Vec<Group> = rules.map(|rule| rule.after).collect();
            let watch = self.table.watch.iter();
            let read = watch.filter(|watch| watch.letter == letter && watch.before == before);
            ends.extend(read.map(|watch| watch.after));
            if ends.is_empty() {
                break;
            }
            at = overlay(at, *self.rng.pick(&ends));
        }
        at
    }

    /// One or more processes; all, and any other number of them, are about as frequent.
    fn any_processes(&mut self) -> u8 {
        let mut processes: Vec<usize> = (0..self.table.processes.len()).collect();
        self.rng.shuffle(&mut processes);
        let count = self
            .rng
            .between(1, processes.len() + 1)
            .min(processes.len());
        processes[..count].iter().map(|process| 1 << process).sum()
    }

    /// All groups of these processes, in any order.
    fn groups(&mut self, bits: u8) -> Vec<Group> {
        let mut groups = vec![restrict([0; 4], bits)];
        for (number, process) in self.table.processes.iter().enumerate() {
            if bits >> number & 1 == 1 {
                let mut more = Vec::new();
                for state in 1..process.all {
                    let with_state = |mut group: Group| {
                        group[number] = state;
                        group
                    };
                    more.extend(groups.iter().copied().map(with_state));
                }
                groups.extend(more);
            }
        }
        self.rng.shuffle(&mut groups);
        groups
    }

    /// Any states after those, in the same world.
    fn any_after(&mut self, bits: u8, before: Group) -> Group {
        let mut after = self.any_states(bits);
        if bits >> self.divided & 1 == 1 {
            let all = self.table.processes[self.divided].all;
            let world = before[self.divided] % 2;
            let states = (all - world).div_ceil(2);
            after[self.divided] = world + 2 * self.rng.below(usize::from(states)) as u8;
        }
        after
    }

    fn any_states(&mut self, bits: u8) -> Group {
        let mut states = [0; 4];
        for (state, process) in states.iter_mut().zip(&self.table.processes) {
            *state = self.rng.below(usize::from(process.all)) as u8;
        }
        restrict(states, bits)
    }
}
