//! Saturation: the limit automaton with a reason for each of its transitions.

use crate::copy::{accepts, round_zero};
use crate::group::{Group, GroupSet};
use crate::table::{Table, Transition, WRITTEN_PLACES};
use std::collections::{BTreeMap, HashMap};
use std::hash::{BuildHasherDefault, Hasher};

/// No rule, or no place of a path.
pub const NONE: u16 = 0xFFFF;
/// The figure of all step counts above 1,000,000.
pub const STEPS_CAP: u32 = 1_000_001;

/// A transition of the limit, the round that first added it, and its reason: the rule and the
/// path (record numbers, first letter first) that the rule's written letters were read along.
pub struct Record {
    pub transition: Transition,
    pub round: u16,
    pub rule: u16,
    pub path: [u16; WRITTEN_PLACES],
    pub steps: u32,
}

struct Reason {
    rule: u16,
    path: [u16; WRITTEN_PLACES],
}

/// Where a letter is read: the letter and the states of its processes before.
#[derive(Clone, Copy, PartialEq, Eq, Hash)]
struct Place(u32);

impl Place {
    fn new(letter: u8, before: Group) -> Self {
        Place(u32::from(letter) << 16 | u32::from(before.packed()))
    }
}

/// A quick hasher for places, which are single numbers.
#[derive(Default)]
struct PlaceHasher(u64);

impl Hasher for PlaceHasher {
    fn write_u32(&mut self, number: u32) {
        let mixed = (self.0 ^ u64::from(number)).wrapping_mul(0x9E37_79B9_7F4A_7C15);
        self.0 = mixed ^ mixed >> 32;
    }

    fn write(&mut self, bytes: &[u8]) {
        for &byte in bytes {
            self.write_u32(u32::from(byte));
        }
    }

    fn finish(&self) -> u64 {
        self.0
    }
}

type PlaceMap<V> = HashMap<Place, V, BuildHasherDefault<PlaceHasher>>;

/// A set of rule numbers; a table has at most 200.
#[derive(Clone, Copy, Default)]
struct RuleSet([u64; 4]);

impl RuleSet {
    fn insert(&mut self, rule: usize) {
        self.0[rule / 64] |= 1 << (rule % 64);
    }

    fn contains(&self, rule: usize) -> bool {
        self.0[rule / 64] >> (rule % 64) & 1 == 1
    }

    fn unite(&mut self, other: &RuleSet) {
        for (word, more) in self.0.iter_mut().zip(other.0) {
            *word |= more;
        }
    }
}

/// A record as seen from the place where it is read.
#[derive(Clone, Copy)]
struct Edge {
    record: u16,
    after: Group,
}

/// A state that a word leads to: the last record of the first path there, and the index of the
/// state before it in the previous layer.
struct Reached {
    group: Group,
    record: u16,
    parent: usize,
}

/// The limit automaton: the watch automaton with the transitions of all rounds.
pub struct Limit {
    pub table: Table,
    pub records: Vec<Record>,
    /// The records read at a place, by rising number.
    edges: PlaceMap<Vec<Edge>>,
    /// The states after of the records read at a place.
    held: PlaceMap<GroupSet>,
    /// The rules whose paths came by a place.
    readers: PlaceMap<RuleSet>,
}

impl Limit {
    /// Saturates the table's watch automaton or its copy; nothing if the limit has more than `n`
    /// records.
    pub fn of(table: Table, n: usize) -> Option<Limit> {
        let watch = round_zero(&table);
        if watch.len() > n {
            return None;
        }
        let mut limit = Limit {
            table,
            records: Vec::new(),
            edges: PlaceMap::default(),
            held: PlaceMap::default(),
            readers: PlaceMap::default(),
        };
        limit.add_watch(watch);
        let mut awake = RuleSet([u64::MAX; 4]);
        for round in 1u32.. {
            let found = limit.find_new(&awake, n)?;
            if found.is_empty() {
                break;
            }
            // Each round adds a record, so the rounds that do are at most 65,535.
            awake = limit.add_round(round as u16, found);
        }
        Some(limit)
    }

    /// The highest round held, 0 if none.
    pub fn rounds(&self) -> u16 {
        self.records.last().map_or(0, |record| record.round)
    }

    /// Of all paths that read the start pile from the start states and end accepting, the
    /// first by record numbers.
    pub fn start_path(&self) -> Option<Vec<u16>> {
        let layers = self.layers(self.table.start, &self.table.pile);
        let ends = &layers[self.table.pile.len()];
        let accepting = |end: &Reached| accepts(&self.table, end.group);
        let end = ends.iter().position(accepting)?;
        Some(path_to(&layers, end))
    }

    /// The capped number of steps that a path unfolds to.
    pub fn steps(&self, path: &[u16]) -> u32 {
        let of = |&number: &u16| self.records[usize::from(number)].steps;
        path.iter().map(of).fold(0, cap_sum)
    }

    /// The rules of a path's unfolding: its first record that isn't of round 0 gives its rule
    /// and is replaced by its reason's path, until only round 0 is left.
    pub fn unfold(&self, path: &[u16]) -> Vec<u16> {
        let mut rules = Vec::new();
        let mut rest: Vec<u16> = path.iter().rev().copied().collect();
        while let Some(number) = rest.pop() {
            let record = &self.records[usize::from(number)];
            if record.round > 0 {
                rules.push(record.rule);
                rest.extend(trimmed(&record.path).iter().rev());
            }
        }
        rules
    }

    /// Round 0 holds the watch transitions or their copies, in order.
    fn add_watch(&mut self, mut watch: Vec<Transition>) {
        watch.sort();
        for transition in watch {
            self.add(Record {
                transition,
                round: 0,
                rule: NONE,
                path: [NONE; WRITTEN_PLACES],
                steps: 0,
            });
        }
    }

    /// What the next round adds, in order, each with its reason. A rule that is not awake has
    /// the same paths as the last time it was looked at, so it adds nothing.
    fn find_new(&mut self, awake: &RuleSet, n: usize) -> Option<BTreeMap<Transition, Reason>> {
        let mut found = BTreeMap::new();
        for number in (0..self.table.rules.len()).filter(|&rule| awake.contains(rule)) {
            let rule = &self.table.rules[number];
            let layers = self.layers(rule.after, &rule.written);
            let held = self.held.get(&Place::new(rule.letter, rule.before));
            for (index, end) in layers[rule.written.len()].iter().enumerate() {
                if held.is_some_and(|held| held.contains(end.group)) {
                    continue;
                }
                let transition = Transition {
                    letter: rule.letter,
                    before: rule.before,
                    after: end.group,
                };
                // Rules come by rising number: the first to add a transition is its reason.
                found.entry(transition).or_insert_with(|| Reason {
                    rule: number as u16,
                    path: padded(&path_to(&layers, index)),
                });
                if self.records.len() + found.len() > n {
                    return None;
                }
            }
            self.note_reader(number, &layers);
        }
        Some(found)
    }

    /// Notes every place where the rule's paths looked for a record.
    fn note_reader(&mut self, rule: usize, layers: &[Vec<Reached>]) {
        for (&letter, layer) in self.table.rules[rule].written.iter().zip(layers) {
            for reached in layer {
                let place = Place::new(letter, self.table.restrict(letter, reached.group));
                self.readers.entry(place).or_default().insert(rule);
            }
        }
    }

    /// Adds a round's records; gives the rules that the new records concern.
    fn add_round(&mut self, round: u16, found: BTreeMap<Transition, Reason>) -> RuleSet {
        let mut awake = RuleSet::default();
        for (transition, reason) in found {
            let place = Place::new(transition.letter, transition.before);
            if let Some(readers) = self.readers.get(&place) {
                awake.unite(readers);
            }
            let path_steps = self.steps(trimmed(&reason.path));
            self.add(Record {
                transition,
                round,
                rule: reason.rule,
                path: reason.path,
                steps: cap_sum(1, path_steps),
            });
        }
        awake
    }

    fn add(&mut self, record: Record) {
        let Transition {
            letter,
            before,
            after,
        } = record.transition;
        let place = Place::new(letter, before);
        let number = self.records.len() as u16;
        self.edges.entry(place).or_default().push(Edge {
            record: number,
            after,
        });
        let held = self.held.entry(place).or_insert_with(GroupSet::new);
        held.insert(after);
        self.records.push(record);
    }

    /// The states that each prefix of `word` leads to from `start`, one layer for each prefix.
    /// Within a layer the states are ordered by the first path to each: prefixes are taken in
    /// that order and the records after each by rising number, so the first path to a state is
    /// met first.
    fn layers(&self, start: Group, word: &[u8]) -> Vec<Vec<Reached>> {
        let mut seen = GroupSet::new();
        let mut layers = vec![vec![Reached {
            group: start,
            record: NONE,
            parent: 0,
        }]];
        for (index, &letter) in word.iter().enumerate() {
            let mut next = Vec::new();
            for (parent, from) in layers[index].iter().enumerate() {
                for edge in self.edges_at(letter, from.group) {
                    let group = self.table.step(letter, from.group, edge.after);
                    if seen.insert(group) {
                        next.push(Reached {
                            group,
                            record: edge.record,
                            parent,
                        });
                    }
                }
            }
            for reached in &next {
                seen.remove(reached.group);
            }
            layers.push(next);
        }
        layers
    }

    fn edges_at(&self, letter: u8, group: Group) -> &[Edge] {
        let place = Place::new(letter, self.table.restrict(letter, group));
        self.edges.get(&place).map_or(&[], Vec::as_slice)
    }
}

/// The first path to a state of the last layer.
fn path_to(layers: &[Vec<Reached>], end: usize) -> Vec<u16> {
    let mut path = Vec::with_capacity(layers.len() - 1);
    let mut index = end;
    for layer in layers[1..].iter().rev() {
        path.push(layer[index].record);
        index = layer[index].parent;
    }
    path.reverse();
    path
}

fn padded(path: &[u16]) -> [u16; WRITTEN_PLACES] {
    std::array::from_fn(|index| path.get(index).copied().unwrap_or(NONE))
}

/// The path without the places that have no record.
fn trimmed(path: &[u16; WRITTEN_PLACES]) -> &[u16] {
    let end = path.iter().position(|&number| number == NONE);
    &path[..end.unwrap_or(WRITTEN_PLACES)]
}

fn cap_sum(one: u32, other: u32) -> u32 {
    (one + other).min(STEPS_CAP)
}
