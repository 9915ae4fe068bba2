//! Random accepted tables, and random ones that are refused 7.

use crate::bench;
use crate::copies::NARROW;
use crate::model::{
    Group, NO_PART, Process, Table, Transition, WRITTEN_PLACES, drop_twin, restrict,
};
use crate::rng::Rng;

/// How large a random table may become.
#[derive(Clone, Copy, Debug)]
pub struct Shape {
    pub processes: usize,
    pub states: usize,
    pub letters: usize,
    pub rules: usize,
    pub watch: usize,
    pub accepting: usize,
    pub pile: usize,
}

impl Shape {
    /// Small enough to enumerate all paths and to search all configurations near the start.
    pub const TINY: Shape = Shape {
        processes: 3,
        states: 3,
        letters: 5,
        rules: 14,
        watch: 5,
        accepting: 3,
        pile: 4,
    };

    /// Few states and letters for many rules: several rules and paths add the same transition.
    pub const DENSE: Shape = Shape {
        processes: 2,
        states: 4,
        letters: 4,
        rules: 40,
        watch: 6,
        accepting: 3,
        pile: 5,
    };

    /// All shapes, with limits of up to some hundred records.
    pub const MIDDLE: Shape = Shape {
        processes: 4,
        states: 8,
        letters: 12,
        rules: 80,
        watch: 30,
        accepting: 8,
        pile: 12,
    };

    /// Up to every ceiling, with limits of up to some thousand records.
    pub const LARGE: Shape = Shape {
        processes: 4,
        states: 8,
        letters: 32,
        rules: 200,
        watch: 200,
        accepting: 64,
        pile: 64,
    };
}

/// A random accepted table within a shape. In about a third of them watch transitions lead back
/// into line states.
pub fn table(rng: &mut Rng, shape: &Shape) -> Table {
    let mut grower = Grower::new(rng, shape);
    grower.grow();
    grower.table
}

/// A random table that is refused 7, and has no other fault: some watch transition leads back into a
/// line state, and some process, one of its letter's or not, has more than four states.
pub fn wide_re_entry(rng: &mut Rng, shape: &Shape) -> Table {
    let mut wide = table(rng, shape);
    while !wide.is_copied() {
        wide = table(rng, shape);
    }
    let process = rng.below(wide.processes.len());
    wide.processes[process].all = *rng.pick(&[5, 5, 5, 6, 7, 8]);
    wide
}

/// A random accepted table of any make, the small ones most often.
pub fn any(rng: &mut Rng) -> Table {
    match rng.below(32) {
        0 => wide(rng),
        1 => slow(rng),
        2 => {
            let kind = *rng.pick(&[1, 2, 3, 4, 5, 7]);
            at_ceiling(rng, kind)
        }
        3 => table(rng, &Shape::LARGE),
        4..12 => table(rng, &Shape::MIDDLE),
        12..22 => table(rng, &Shape::DENSE),
        _ => table(rng, &Shape::TINY),
    }
}

/// A table with one record in almost every round, its rules in random order, with some rules
/// more that may bring shortcuts.
pub fn slow(rng: &mut Rng) -> Table {
    let slow = if rng.chance(1, 3) {
        bench::odometer(rng.between(2, 3) as u8, rng.between(1, 4))
    } else {
        bench::slow(rng.between(2, 24), rng.between(1, 4))
    };
    vary(rng, slow)
}

/// A table with a large limit in few rounds, varied as `slow` is; some have more than 65,535
/// records.
pub fn wide(rng: &mut Rng) -> Table {
    let least = 1 << rng.between(7, 16);
    let records = least + rng.below(least.min(4_000));
    let wide = bench::wide(records, rng.between(2, 6));
    vary(rng, wide)
}

/// Adds some rules, puts all rules in random order, and takes one away at times.
fn vary(rng: &mut Rng, table: Table) -> Table {
    let mut grower = Grower::new(rng, &Shape::MIDDLE);
    grower.table = table;
    grower.known = grower.table.watch.clone();
    for _ in 0..grower.rng.below(4) {
        grower.add_rule();
    }
    let mut table = grower.table;
    rng.shuffle(&mut table.rules);
    if rng.chance(1, 3) {
        table.rules.pop();
    }
    table
}

/// A table with the items of one kind (1 to 5, or 7) at their ceiling, where its other kinds
/// allow as many.
pub fn at_ceiling(rng: &mut Rng, kind: u8) -> Table {
    let mut grower = Grower::new(rng, &Shape::MIDDLE);
    grower.grow();
    for _ in 0..2_000 {
        let table = &grower.table;
        match kind {
            1 if table.processes.len() < 4 => grower.add_process(),
            2 if table.letters.len() < 32 => grower.add_letter(),
            3 if table.rules.len() < 200 => grower.add_rule(),
            4 if table.watch.len() < 200 => grower.add_watch(),
            5 if table.accepting.len() < 64 => grower.add_any_goal(),
            7 if table.pile.len() < 64 => grower.add_pile_letter(),
            _ => break,
        }
    }
    grower.table
}

/// A table in the making, with transitions that its limit is known to have: rules, pile and
/// goals are made to follow them, so that paths are frequent.
struct Grower<'r> {
    rng: &'r mut Rng,
    shape: Shape,
    table: Table,
    known: Vec<Transition>,
    /// How many of 16 rules share the letter and states before of another: the more, the more
    /// transitions has the limit for each rule.
    shared: usize,
    /// Whether watch transitions may lead back into line states.
    re_entering: bool,
}

/// A process, more often with many states than with few.
fn any_process(rng: &mut Rng, most: usize) -> Process {
    let all = rng.between(1, most).max(rng.between(1, most));
    let line = match rng.below(3) {
        0 => all,
        1 => rng.between(1, all),
        _ => all.div_ceil(2),
    };
    Process {
        line: line as u8,
        all: all as u8,
    }
}

/// A word with a path that reads it, from `first` to `end`.
struct Path {
    word: Vec<u8>,
    first: Group,
    end: Group,
}

impl<'r> Grower<'r> {
    /// A table of processes and letters alone.
    fn new(rng: &'r mut Rng, shape: &Shape) -> Self {
        // Some of these tables have no watch transition, or none that leads back.
        let re_entering = rng.chance(3, 8);
        let states = match re_entering {
            true => shape.states.min(usize::from(NARROW)),
            false => shape.states,
        };
        let mut table = Table::new(rng.between(1, shape.processes), 1, 1);
        for process in &mut table.processes {
            *process = any_process(rng, states);
        }
        let shared = *rng.pick(&[4, 8, 12, 15]);
        let mut grower = Grower {
            rng,
            shape: *shape,
            table,
            known: Vec::new(),
            shared,
            re_entering,
        };
        if grower.rng.chance(49, 50) {
            for _ in 0..grower.rng.between(1, shape.letters) {
                grower.add_letter();
            }
        }
        grower
    }

    fn grow(&mut self) {
        let shape = self.shape;
        for _ in 0..self.rng.between(0, shape.watch) {
            self.add_watch();
        }
        self.known = self.table.round_zero();
        let rules = self.rng.between(0, shape.rules);
        for _ in 0..rules.max(self.rng.below(shape.rules)) {
            self.add_rule();
        }
        let length = self.rng.between(0, shape.pile);
        let path = self.path(self.table.everyone(), length);
        self.table.start = path.first;
        self.table.pile = path.word;
        let end = self.table.plain(path.end);
        for _ in 0..self.rng.between(0, shape.accepting) {
            match self.rng.below(8) {
                0 => self.add_goal(end),
                1 | 2 => self.add_near_goal(end),
                _ => self.add_any_goal(),
            }
        }
        // Goals in any order.
        let table = &mut self.table;
        if !table.accepting.is_empty() {
            let by = self.rng.below(table.accepting.len());
            table.accepting.rotate_left(by);
        }
    }

    /// Adds a process of two states; it starts and is accepted in state 0.
    fn add_process(&mut self) {
        let process = self.table.processes.len();
        self.table.processes.push(Process { line: 1, all: 2 });
        self.table.start[process] = 0;
        for goal in &mut self.table.accepting {
            goal[process] = 0;
        }
    }

    fn add_letter(&mut self) {
        let everyone = usize::from(self.table.everyone());
        let bits = self.rng.between(1, everyone) as u8;
        self.table.letter(bits);
    }

    /// Adds a rule, some on the letter and states before of a rule there is.
    fn add_rule(&mut self) {
        let Some(mut letter) = self.any_letter() else {
            return;
        };
        let mut before = self.line_states(self.bits(letter));
        if !self.table.rules.is_empty() && self.rng.chance(self.shared, 16) {
            let rule = self.rng.pick(&self.table.rules);
            (letter, before) = (rule.letter, rule.before);
        }
        let count = *self.rng.pick(&[0, 0, 1, 1, 2, 2, 3, 4, 5, WRITTEN_PLACES]);
        let path = self.path(self.bits(letter), count);
        self.table.rule(letter, before, path.first, &path.word);
        drop_twin(&mut self.table.rules);
        self.known.push(Transition {
            letter,
            before,
            after: path.end,
        });
    }

    /// Adds a watch transition on some letter, if all its processes have states that it may lead
    /// into.
    fn add_watch(&mut self) {
        let Some(letter) = self.any_letter() else {
            return;
        };
        let bits = self.bits(letter);
        let mut before = [NO_PART; 4];
        let mut after = [NO_PART; 4];
        for (index, process) in self.table.processes.iter().enumerate() {
            let (line, all) = (usize::from(process.line), usize::from(process.all));
            let least = if self.re_entering { 0 } else { line };
            let part = bits >> index & 1 == 1;
            if part && least == all {
                return;
            }
            if part {
                before[index] = self.rng.below(all) as u8;
                after[index] = self.rng.between(least, all - 1) as u8;
            }
        }
        self.table.transition(letter, before, after);
        drop_twin(&mut self.table.watch);
    }

    fn add_goal(&mut self, goal: Group) {
        self.table.accepting.push(goal);
        drop_twin(&mut self.table.accepting);
    }

    /// Adds a goal that differs from `goal` in one process at most.
    fn add_near_goal(&mut self, mut goal: Group) {
        let process = self.rng.below(self.table.processes.len());
        let all = self.table.processes[process].all;
        goal[process] = self.rng.below(usize::from(all)) as u8;
        self.add_goal(goal);
    }

    fn add_any_goal(&mut self) {
        let mut goal = self.table.start;
        for (state, process) in goal.iter_mut().zip(&self.table.processes) {
            *state = self.rng.below(usize::from(process.all)) as u8;
        }
        self.add_goal(goal);
    }

    fn add_pile_letter(&mut self) {
        let letter = self.any_letter();
        self.table.pile.extend(letter);
    }

    /// A word of at most `length` letters within `bits` and, most often, a path of known
    /// transitions that reads it from line states.
    fn path(&mut self, bits: u8, length: usize) -> Path {
        let mut first = [NO_PART; 4];
        let mut end = [NO_PART; 4];
        let mut word = Vec::new();
        // Some paths are of the automaton without its copy, which must not count.
        let uncopied = self.rng.chance(1, 4);
        for _ in 0..length {
            if uncopied {
                end = self.table.plain(end);
            }
            let next = if self.rng.chance(1, 16) {
                self.any_transition(bits)
            } else {
                self.known_transition(bits, end)
            };
            let Some(next) = next else { break };
            word.push(next.letter);
            for process in 0..4 {
                if next.after[process] != NO_PART {
                    if end[process] == NO_PART {
                        first[process] = next.before[process];
                    }
                    end[process] = next.after[process];
                }
            }
        }
        // Processes that the word leaves alone stay in any line state.
        let idle = self.line_states(bits);
        for process in 0..4 {
            if end[process] == NO_PART {
                first[process] = idle[process];
                end[process] = idle[process];
            }
        }
        Path { word, first, end }
    }

    /// A known transition within `bits` that goes on from `end`, or from line states where that
    /// has no state yet; the late ones more often, to have many rounds.
    fn known_transition(&mut self, bits: u8, end: Group) -> Option<Transition> {
        let goes_on = |transition: &&Transition| {
            let part = self.bits(transition.letter);
            let fits = |process: usize| match end[process] {
                NO_PART => transition.before[process] < self.table.processes[process].line,
                state => transition.before[process] == state,
            };
            part & !bits == 0 && (0..4).all(|process| part >> process & 1 == 0 || fits(process))
        };
        let fitting: Vec<Transition> = self.known.iter().filter(goes_on).copied().collect();
        if fitting.is_empty() {
            return None;
        }
        let late = self.rng.below(fitting.len());
        Some(fitting[late.max(self.rng.below(fitting.len()))])
    }

    /// A transition between line states on any letter within `bits`; the limit need not have it.
    fn any_transition(&mut self, bits: u8) -> Option<Transition> {
        let within = |&letter: &u8| self.bits(letter) & !bits == 0;
        let letters = (0..self.table.letters.len() as u8).filter(within);
        let letters: Vec<u8> = letters.collect();
        if letters.is_empty() {
            return None;
        }
        let letter = *self.rng.pick(&letters);
        Some(Transition {
            letter,
            before: self.line_states(self.bits(letter)),
            after: self.line_states(self.bits(letter)),
        })
    }

    fn any_letter(&mut self) -> Option<u8> {
        let count = self.table.letters.len();
        (count > 0).then(|| self.rng.below(count) as u8)
    }

    fn bits(&self, letter: u8) -> u8 {
        self.table.letters[usize::from(letter)]
    }

    fn line_states(&mut self, bits: u8) -> Group {
        let mut states = [NO_PART; 4];
        for (state, process) in states.iter_mut().zip(&self.table.processes) {
            *state = self.rng.below(usize::from(process.line)) as u8;
        }
        restrict(states, bits)
    }
}
