//! The table and its reader: refusals 1 to 9.

use crate::Refusal;
use crate::group::{Group, Locations, NO_PART, PROCESSES, State};
use std::collections::HashSet;

/// A process (document 01: station): its local states are below `all`, those of the system
/// (line states) below `line`; the rest are further states of the watch automaton.
pub struct Process {
    line: u8,
    all: u8,
}

/// A rule: replaces `letter` by the written letters, top first.
pub struct Rule {
    pub letter: u8,
    pub before: Group,
    pub after: Group,
    pub written: Vec<u8>,
}

/// A local transition of the automaton, ordered as the records are.
#[derive(Clone, Copy, PartialEq, Eq, PartialOrd, Ord, Debug)]
pub struct Transition {
    pub letter: u8,
    pub before: Group,
    pub after: Group,
}

/// An accepted table. Processes, letters and rules are numbered in order of appearance.
pub struct Table {
    pub processes: Vec<Process>,
    /// The locations of each letter (document 01: the stations of each task).
    pub letters: Vec<Locations>,
    pub rules: Vec<Rule>,
    pub watch: Vec<Transition>,
    pub accepting: Vec<Group>,
    pub start: Group,
    /// The start pile, top first.
    pub pile: Vec<u8>,
}

const PROCESS: u8 = 1;
const LETTER: u8 = 2;
const RULE: u8 = 3;
const WATCH: u8 = 4;
const ACCEPTING: u8 = 5;
const START: u8 = 6;
const PILE: u8 = 7;
const END: u8 = 8;

/// The most letters that a rule writes: so many places has its body, and so many the path that
/// reads them.
pub const WRITTEN_PLACES: usize = 6;
/// Where the written places begin in a rule's body.
const WRITTEN: usize = 10;

/// Body lengths by kind.
const LENGTH: [usize; 9] = [0, 2, 1, WRITTEN + WRITTEN_PLACES, 9, 4, 4, 1, 0];
/// Ceilings by kind.
const CEILING: [usize; 9] = [0, 4, 32, 200, 200, 64, 1, 64, 1];
/// The most states of a process whose states can be copied.
const NARROW: u8 = 4;

const CUT: u8 = 1;
const STRANGER: u8 = 2;
const TURN: u8 = 3;
const CROWD: u8 = 4;
const VALUE: u8 = 5;
const STRAY: u8 = 6;
const RE_ENTRY: u8 = 7;
const TWIN: u8 = 8;
const LEFTOVER: u8 = 9;

/// Which states a place of a group may hold.
#[derive(Clone, Copy)]
enum States {
    Line,
    All,
}

impl Table {
    /// Reads a table; the first refusal met in file order is given.
    pub fn read(bytes: &[u8]) -> Result<Table, Refusal> {
        let mut reader = Reader::new();
        let mut at = 0;
        loop {
            let refused = |number| Refusal { number, place: at };
            let Some(&kind) = bytes.get(at) else {
                return Err(refused(CUT));
            };
            reader.check_kind(kind).map_err(refused)?;
            let next = at + 1 + LENGTH[usize::from(kind)];
            let body = bytes.get(at + 1..next).ok_or(refused(CUT))?;
            reader.add(kind, body).map_err(refused)?;
            at = next;
            if kind == END {
                break;
            }
        }
        if at < bytes.len() {
            return Err(Refusal {
                number: LEFTOVER,
                place: at,
            });
        }
        Ok(reader.table)
    }

    /// The letter's part of a group.
    pub fn restrict(&self, letter: u8, group: Group) -> Group {
        group.restrict(self.letters[usize::from(letter)])
    }

    /// Where a transition on `letter` into `after` leads from `group`.
    pub fn step(&self, letter: u8, group: Group, after: Group) -> Group {
        group.replace(self.letters[usize::from(letter)], after)
    }

    /// The bits of all processes the table has.
    pub fn everyone(&self) -> Locations {
        Locations::from_bits((1 << self.processes.len()) - 1)
    }

    /// The numbers of a group's states, `FF` where a process has no part. The copies of a
    /// process's states are numbered after all its states.
    pub fn numbers(&self, group: Group) -> [u8; PROCESSES] {
        let states = group.states();
        std::array::from_fn(|process| match states[process] {
            None => NO_PART,
            Some(State::Plain(number)) => number,
            Some(State::Copied(number)) => self.processes[process].all + number,
        })
    }

    /// Whether a watch transition leads back into a line state of some process.
    pub fn re_enters(&self, watch: &Transition) -> bool {
        let after = self.numbers(watch.after);
        // FF, the place of a process without part, is no line state.
        let mut places = self.processes.iter().zip(after);
        places.any(|(process, state)| state < process.line)
    }

    /// Whether the states of every process can be copied.
    fn is_narrow(&self) -> bool {
        self.processes.iter().all(|process| process.all <= NARROW)
    }
}

/// A table in the making.
struct Reader<'b> {
    table: Table,
    last_kind: u8,
    counts: [usize; 9],
    /// Bodies of kinds 3, 4 and 5 seen so far.
    bodies: HashSet<(u8, &'b [u8])>,
}

impl<'b> Reader<'b> {
    fn new() -> Self {
        Reader {
            table: Table {
                processes: Vec::new(),
                letters: Vec::new(),
                rules: Vec::new(),
                watch: Vec::new(),
                accepting: Vec::new(),
                start: Group::from_bytes([NO_PART; PROCESSES]),
                pile: Vec::new(),
            },
            last_kind: PROCESS,
            counts: [0; 9],
            bodies: HashSet::new(),
        }
    }

    /// Refusals 2, 3 and 4, which need the kind alone.
    fn check_kind(&mut self, kind: u8) -> Result<(), u8> {
        if !(PROCESS..=END).contains(&kind) {
            return Err(STRANGER);
        }
        let started = self.counts[usize::from(START)] > 0;
        let falls = kind < self.last_kind;
        let second_start = kind == START && started;
        let no_process = kind != PROCESS && self.counts[usize::from(PROCESS)] == 0;
        let no_start = kind > START && !started;
        if falls || second_start || no_process || no_start {
            return Err(TURN);
        }
        if self.counts[usize::from(kind)] == CEILING[usize::from(kind)] {
            return Err(CROWD);
        }
        self.last_kind = kind;
        self.counts[usize::from(kind)] += 1;
        Ok(())
    }

    /// Refusals 5 to 8 of a whole body; a good one is taken into the table.
    fn add(&mut self, kind: u8, body: &'b [u8]) -> Result<(), u8> {
        match kind {
            PROCESS => self.add_process(body),
            LETTER => self.add_letter(body[0]),
            RULE => self.add_rule(body),
            WATCH => self.add_watch(body),
            ACCEPTING => self.add_accepting(body),
            START => self.add_start(body),
            PILE => self.add_pile(body[0]),
            _ => Ok(()),
        }
    }

    fn add_process(&mut self, body: &[u8]) -> Result<(), u8> {
        let (line, all) = (body[0], body[1]);
        check(1 <= line && line <= all && all <= 8, VALUE)?;
        self.table.processes.push(Process { line, all });
        Ok(())
    }

    fn add_letter(&mut self, bits: u8) -> Result<(), u8> {
        check(bits != 0 && bits >> self.table.processes.len() == 0, VALUE)?;
        self.table.letters.push(Locations::from_bits(bits));
        Ok(())
    }

    fn add_rule(&mut self, body: &'b [u8]) -> Result<(), u8> {
        let letter = body[0];
        let locations = self.locations(letter)?;
        let before = self.group(&body[1..5], locations, States::Line)?;
        let after = self.group(&body[5..9], locations, States::Line)?;
        let count = usize::from(body[9]);
        check(count <= WRITTEN_PLACES, VALUE)?;
        let (written, spare) = body[WRITTEN..].split_at(count);
        for &other in written {
            self.locations(other)?;
        }
        check(spare.iter().all(|&byte| byte == NO_PART), VALUE)?;
        for &other in written {
            check(self.locations(other)?.is_subset(locations), STRAY)?;
        }
        self.check_twin(RULE, body)?;
        self.table.rules.push(Rule {
            letter,
            before,
            after,
            written: written.to_vec(),
        });
        Ok(())
    }

    fn add_watch(&mut self, body: &'b [u8]) -> Result<(), u8> {
        let letter = body[0];
        let locations = self.locations(letter)?;
        let before = self.group(&body[1..5], locations, States::All)?;
        let after = self.group(&body[5..9], locations, States::All)?;
        let watch = Transition {
            letter,
            before,
            after,
        };
        let table = &self.table;
        check(table.is_narrow() || !table.re_enters(&watch), RE_ENTRY)?;
        self.check_twin(WATCH, body)?;
        self.table.watch.push(watch);
        Ok(())
    }

    fn add_accepting(&mut self, body: &'b [u8]) -> Result<(), u8> {
        let group = self.group(body, self.table.everyone(), States::All)?;
        self.check_twin(ACCEPTING, body)?;
        self.table.accepting.push(group);
        Ok(())
    }

    fn add_start(&mut self, body: &[u8]) -> Result<(), u8> {
        self.table.start = self.group(body, self.table.everyone(), States::Line)?;
        Ok(())
    }

    fn add_pile(&mut self, letter: u8) -> Result<(), u8> {
        self.locations(letter)?;
        self.table.pile.push(letter);
        Ok(())
    }

    /// The locations of a letter the table has.
    fn locations(&self, letter: u8) -> Result<Locations, u8> {
        let found = self.table.letters.get(usize::from(letter));
        found.copied().ok_or(VALUE)
    }

    /// A group with good states at `locations` and FF at every other place.
    fn group(&self, bytes: &[u8], locations: Locations, states: States) -> Result<Group, u8> {
        for (process, &state) in bytes.iter().enumerate() {
            let good = if locations.contains(process) {
                let Process { line, all } = self.table.processes[process];
                match states {
                    States::Line => state < line,
                    States::All => state < all,
                }
            } else {
                state == NO_PART
            };
            check(good, VALUE)?;
        }
        Ok(Group::from_bytes([bytes[0], bytes[1], bytes[2], bytes[3]]))
    }

    fn check_twin(&mut self, kind: u8, body: &'b [u8]) -> Result<(), u8> {
        check(self.bodies.insert((kind, body)), TWIN)
    }
}

fn check(good: bool, number: u8) -> Result<(), u8> {
    if good { Ok(()) } else { Err(number) }
}
