//! The reasons of a limit's records: whether some have several, so that their choice matters, and
//! how long their paths are.

use comparison::{Counts, note_written, transition_of, written_situations};
use second_engine::RECORD_BYTES;
use tables::{Group, Rule, Table, Transition, WRITTEN_PLACES, overlay, restrict};

/// The most paths followed at once; tables with more of them are not judged.
const PATHS: usize = 500;

/// Some record's first round has several rules that add it, or several paths of one rule.
#[derive(Default)]
pub struct Several {
    pub rules: bool,
    pub paths: bool,
}

/// A record of the log, without its rule and its steps.
struct Record {
    transition: Transition,
    round: u16,
    /// How many places its path has.
    places: usize,
}

/// The name of the paths' situations.
const PATH_NAME: &str = "paths";

pub fn path_situations() -> impl Iterator<Item = String> {
    written_situations(PATH_NAME)
}

/// Counts the paths of a log's records.
pub fn note_paths(table: &Table, log: &[u8], counts: &mut Counts) {
    for record in log.chunks_exact(RECORD_BYTES).map(Record::read) {
        let letter = record.transition.letter;
        note_written(PATH_NAME, table, letter, record.places, counts);
    }
}

impl Several {
    /// By all paths of all rules of the table to each record of the log.
    pub fn of(table: &Table, log: &[u8]) -> Several {
        let records: Vec<Record> = log.chunks_exact(RECORD_BYTES).map(Record::read).collect();
        let mut several = Several::default();
        for record in records.iter().filter(|record| record.round > 0) {
            let earlier = |other: &&Record| other.round < record.round;
            let known: Vec<Transition> = records
                .iter()
                .filter(earlier)
                .map(|other| other.transition)
                .collect();
            let of_head = |rule: &&Rule| {
                rule.letter == record.transition.letter && rule.before == record.transition.before
            };
            let counts = table.rules.iter().filter(of_head).map(|rule| {
                let ends = path_ends(table, &known, rule);
                ends.iter()
                    .filter(|&&end| end == record.transition.after)
                    .count()
            });
            let counts: Vec<usize> = counts.filter(|&count| count > 0).collect();
            several.rules |= counts.len() > 1;
            several.paths |= counts.iter().any(|&count| count > 1);
        }
        several
    }
}

impl Record {
    fn read(bytes: &[u8]) -> Record {
        let path = bytes[13..].chunks_exact(2).take(WRITTEN_PLACES);
        Record {
            transition: transition_of(bytes),
            round: u16::from_le_bytes([bytes[9], bytes[10]]),
            places: path.take_while(|place| *place != [0xFF, 0xFF]).count(),
        }
    }
}

/// The ends of all paths of known transitions that read the rule's written letters from its
/// after states, each as often as there are paths to it.
fn path_ends(table: &Table, known: &[Transition], rule: &Rule) -> Vec<Group> {
    let mut ends = vec![rule.after];
    for &letter in &rule.written {
        let bits = table.letters[usize::from(letter)];
        let from = ends.iter().flat_map(|&end| {
            let reads = move |next: &&Transition| {
                next.letter == letter && next.before == restrict(end, bits)
            };
            known
                .iter()
                .filter(reads)
                .map(move |next| overlay(end, next.after))
        });
        ends = from.take(PATHS).collect();
    }
    ends
}
