//! The definitions of documents 01 and 02, followed word by word with no care for time.

use std::collections::{BTreeMap, BTreeSet, HashSet, VecDeque};
use tables::{Group, Rule, Table, Transition, WRITTEN_PLACES, restrict};

pub const STEPS_CAP: u64 = 1_000_001;

/// A record with its reason; round 0 has no rule.
pub struct Record {
    pub transition: Transition,
    pub round: u16,
    pub rule: Option<u16>,
    pub path: Vec<u16>,
    pub steps: u64,
    /// How many reasons add it in its first round.
    pub choices: usize,
}

impl Record {
    /// The record's bytes.
    pub fn bytes(&self) -> Vec<u8> {
        let mut bytes = vec![self.transition.letter];
        bytes.extend(self.transition.before);
        bytes.extend(self.transition.after);
        bytes.extend(self.round.to_le_bytes());
        bytes.extend(self.rule.unwrap_or(0xFFFF).to_le_bytes());
        for place in 0..WRITTEN_PLACES {
            let number = self.path.get(place).copied().unwrap_or(0xFFFF);
            bytes.extend(number.to_le_bytes());
        }
        bytes.extend(&self.steps.to_le_bytes()[..3]);
        bytes
    }
}

/// A path and the global or local state it ends in.
pub type PathEnd = (Vec<u16>, Group);

/// Enumerates paths, as long as not too many have been met.
struct Paths<'t> {
    table: &'t Table,
    records: &'t [Record],
    budget: usize,
}

impl Paths<'_> {
    /// All paths that read `word` from `states`.
    fn all(&mut self, states: Group, word: &[u8]) -> Option<Vec<PathEnd>> {
        let mut paths = vec![(Vec::new(), states)];
        for &letter in word {
            let mut longer = Vec::new();
            for (path, states) in paths {
                for (number, record) in self.records.iter().enumerate() {
                    if let Some(end) = read(self.table, letter, states, &record.transition) {
                        self.budget = self.budget.checked_sub(1)?;
                        longer.push(([&path[..], &[number as u16]].concat(), end));
                    }
                }
            }
            paths = longer;
        }
        Some(paths)
    }
}

/// Where a transition leads from a state group, if it reads the letter there.
fn read(table: &Table, letter: u8, states: Group, transition: &Transition) -> Option<Group> {
    let bits = table.letters[usize::from(letter)];
    let fits = transition.letter == letter && transition.before == restrict(states, bits);
    fits.then(|| overlay(states, transition.after, bits))
}

/// The states with those at `bits` taken from `part`.
fn overlay(states: Group, part: Group, bits: u8) -> Group {
    std::array::from_fn(|process| match bits >> process & 1 {
        1 => part[process],
        _ => states[process],
    })
}

fn steps_of(records: &[Record], path: &[u16]) -> u64 {
    let steps = path
        .iter()
        .map(|&number| records[usize::from(number)].steps);
    steps.sum::<u64>().min(STEPS_CAP)
}

/// All records of the limit in order; nothing if the paths are too many.
pub fn saturate(table: &Table, budget: usize) -> Option<Vec<Record>> {
    saturate_from(table, table.round_zero(), budget)
}

/// The same from other transitions of round 0.
pub fn saturate_from(
    table: &Table,
    round_zero: Vec<Transition>,
    budget: usize,
) -> Option<Vec<Record>> {
    let mut records: Vec<Record> = Vec::new();
    for transition in BTreeSet::from_iter(round_zero) {
        records.push(Record {
            transition,
            round: 0,
            rule: None,
            path: Vec::new(),
            steps: 0,
            choices: 0,
        });
    }
    for round in 1.. {
        let added = next_round(table, &records, budget)?;
        if added.is_empty() {
            break;
        }
        for (transition, reasons) in added {
            let choices = reasons.len();
            let (rule, path) = reasons.into_iter().min()?;
            let steps = (1 + steps_of(&records, &path)).min(STEPS_CAP);
            records.push(Record {
                transition,
                round,
                rule: Some(rule),
                path,
                steps,
                choices,
            });
        }
    }
    Some(records)
}

/// A rule and one of its paths.
type Reason = (u16, Vec<u16>);

/// What a round adds, each with all reasons; the least one counts.
fn next_round(
    table: &Table,
    records: &[Record],
    budget: usize,
) -> Option<BTreeMap<Transition, Vec<Reason>>> {
    let held: HashSet<Transition> = records.iter().map(|record| record.transition).collect();
    let mut added: BTreeMap<Transition, Vec<Reason>> = BTreeMap::new();
    let mut paths = Paths {
        table,
        records,
        budget,
    };
    for (number, rule) in table.rules.iter().enumerate() {
        for (path, end) in paths.all(rule.after, &rule.written)? {
            let transition = Transition {
                letter: rule.letter,
                before: rule.before,
                after: end,
            };
            if !held.contains(&transition) {
                let reasons = added.entry(transition).or_default();
                reasons.push((number as u16, path));
            }
        }
    }
    Some(added)
}

/// The first accepting path of the start with its end, if there is one; nothing if the paths are too
/// many.
pub fn start_path(table: &Table, records: &[Record], budget: usize) -> Option<Option<PathEnd>> {
    let mut paths = Paths {
        table,
        records,
        budget,
    };
    let mut all = paths.all(table.start, &table.pile)?;
    all.retain(|(_, end)| table.accepting.contains(&table.plain(*end)));
    Some(all.into_iter().min())
}

/// The steps of the start's path.
pub fn start_steps(records: &[Record], path: &[u16]) -> u64 {
    steps_of(records, path)
}

/// The run that a path unfolds to.
pub fn unfold(records: &[Record], path: &[u16]) -> Vec<u16> {
    let mut path = path.to_vec();
    let mut rules = Vec::new();
    let record = |number: u16| &records[usize::from(number)];
    while let Some(first) = path.iter().position(|&number| record(number).round > 0) {
        let reason = record(path[first]);
        rules.extend(reason.rule);
        path.splice(first..=first, reason.path.iter().copied());
    }
    rules
}

/// The bits of the processes that take part where the rule of a number fires.
pub fn participants(table: &Table, number: u16) -> u8 {
    let rule = &table.rules[usize::from(number)];
    table.letters[usize::from(rule.letter)]
}

/// Counts a step for each process that takes part.
pub fn count_step(table: &Table, number: u16, counts: &mut [usize; 4]) {
    for (process, count) in counts.iter_mut().enumerate() {
        *count += usize::from(participants(table, number) >> process & 1);
    }
}

/// A configuration (document 01: situation); the word is top first.
#[derive(Clone)]
pub struct Configuration {
    pub states: Group,
    pub word: Vec<u8>,
}

impl Configuration {
    pub fn start(table: &Table) -> Self {
        Configuration {
            states: table.start,
            word: table.pile.clone(),
        }
    }

    /// The word without the letters that the process has no part in.
    fn own_pile(&self, table: &Table, process: usize) -> Vec<u8> {
        let part = |letter: &&u8| table.letters[usize::from(**letter)] >> process & 1 == 1;
        self.word.iter().filter(part).copied().collect()
    }

    /// The own piles of all processes.
    fn own_piles(&self, table: &Table) -> Vec<Vec<u8>> {
        let piles = (0..table.processes.len()).map(|process| self.own_pile(table, process));
        piles.collect()
    }

    /// The greatest length of any process's own pile.
    pub fn height(&self, table: &Table) -> usize {
        let piles = self.own_piles(table);
        piles.iter().map(Vec::len).max().unwrap_or(0)
    }

    /// What decides equality: the states and all own piles.
    fn key(&self, table: &Table) -> (Group, Vec<Vec<u8>>) {
        (self.states, self.own_piles(table))
    }

    /// The configuration after a rule, if it fires.
    pub fn fire(&self, table: &Table, rule: &Rule) -> Option<Configuration> {
        let bits = table.letters[usize::from(rule.letter)];
        let tops = (0..table.processes.len())
            .filter(|process| bits >> process & 1 == 1)
            .all(|process| self.own_pile(table, process).first() == Some(&rule.letter));
        if !tops || restrict(self.states, bits) != rule.before {
            return None;
        }
        let first = self.word.iter().position(|&letter| letter == rule.letter)?;
        let mut word = rule.written.clone();
        word.extend(&self.word[..first]);
        word.extend(&self.word[first + 1..]);
        Some(Configuration {
            states: overlay(self.states, rule.after, bits),
            word,
        })
    }

    /// The configuration after the rule of a number, or the number of the refusal, with room for so
    /// many letters.
    pub fn step(&self, table: &Table, number: u16, room: usize) -> Result<Configuration, u8> {
        let rule = table.rules.get(usize::from(number)).ok_or(13)?;
        let next = self.fire(table, rule).ok_or(12)?;
        (next.word.len() <= room).then_some(next).ok_or(14)
    }

    /// Whether some path of watch transitions reads the whole word and ends accepting.
    pub fn watched(&self, table: &Table) -> bool {
        let mut reached = HashSet::from([self.states]);
        for &letter in &self.word {
            let next = |&states: &Group| {
                let leads = move |transition| read(table, letter, states, transition);
                table.watch.iter().filter_map(leads)
            };
            reached = reached.iter().flat_map(next).collect();
        }
        table.accepting.iter().any(|end| reached.contains(end))
    }
}

/// Whether a breadth-first search over configurations, up to equality and within bounds, meets
/// a watched one.
pub fn search(table: &Table, depth: usize, height: usize, most: usize) -> bool {
    let start = Configuration::start(table);
    let mut seen = HashSet::from([start.key(table)]);
    let mut queue = VecDeque::from([(start, 0)]);
    while let Some((at, distance)) = queue.pop_front() {
        if at.watched(table) {
            return true;
        }
        if distance == depth {
            continue;
        }
        for next in table.rules.iter().filter_map(|rule| at.fire(table, rule)) {
            if next.word.len() <= height && seen.len() < most && seen.insert(next.key(table)) {
                queue.push_back((next, distance + 1));
            }
        }
    }
    false
}
