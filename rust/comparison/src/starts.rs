//! Starts and how far the search of their path goes: the situations that comparisons of answers are
//! for.

use crate::written::SIZES;
use crate::{on_copy, transitions};
use std::collections::HashMap;
use tables::{Group, Table, overlay, restrict};

/// The lengths of start piles that are counted: the least and the greatest.
const LENGTHS: [usize; 5] = [0, 1, 2, 63, 64];

/// From how many records tried a start is counted, and what it is then.
const TRIED: [(usize, &str); 3] = [
    (101, "starts with 101 to 1,000 records tried"),
    (1_001, "starts with 1,001 to 5,000 records tried"),
    (HARD, "starts with more than 5,000 records tried"),
];
const HARD: usize = 5_001;

/// The situations that a comparison of answers is for.
pub fn start_situations() -> impl Iterator<Item = String> {
    let lengths = LENGTHS.map(of_length).into_iter();
    let tried = TRIED.map(|(_, name)| name.to_string());
    let names = lengths.chain(tried).chain(SIZES.map(of_size));
    let verdicts = names.flat_map(|name| [true, false].map(|found| with_path(&name, found)));
    verdicts.flat_map(|name| [name.clone(), on_copy(&name)])
}

/// The situations of an accepted table's start, by the log of its limit and its verdict. That the
/// table is copied is for the caller to say.
pub fn situations_of_start(table: &Table, log: &[u8], reachable: bool) -> Vec<String> {
    let mut names = Vec::new();
    if LENGTHS.contains(&table.pile.len()) {
        names.push(of_length(table.pile.len()));
    }
    let tried = records_tried(table, log, HARD);
    let last = TRIED.iter().rev().find(|(least, _)| tried >= *least);
    names.extend(last.map(|(_, name)| name.to_string()));
    if tried >= HARD {
        let size = |letter: &u8| table.letters[usize::from(*letter)].count_ones() as usize;
        let has = |wanted: &usize| table.pile.iter().any(|letter| size(letter) == *wanted);
        names.extend(SIZES.filter(has).map(of_size));
    }
    names
        .iter()
        .map(|name| with_path(name, reachable))
        .collect()
}

/// How many records a plain search of the start's path tries, or `most` if they are more: depth
/// first over the pile's letters, at each state the records that read the letter there by rising
/// number, up to the first path that ends accepting or until no record is left.
pub fn records_tried(table: &Table, log: &[u8], most: usize) -> usize {
    let mut read: HashMap<(u8, Group), Vec<Group>> = HashMap::new();
    for next in transitions(log).filter(|next| table.pile.contains(&next.letter)) {
        let ends = read.entry((next.letter, next.before)).or_default();
        ends.push(next.after);
    }
    let ends_at = |place: usize, at: Group| {
        let letter = table.pile.get(place)?;
        let bits = table.letters[usize::from(*letter)];
        read.get(&(*letter, restrict(at, bits)))
    };
    // The states before each letter up to the one that is read, each with how many records were
    // tried there.
    let mut trail = vec![(table.start, 0)];
    let mut tried = 0;
    while let Some(place) = trail.len().checked_sub(1)
        && tried < most
    {
        let (at, before) = &mut trail[place];
        let at = *at;
        if place == table.pile.len() && table.accepting.contains(&table.plain(at)) {
            break;
        }
        match ends_at(place, at).and_then(|ends| ends.get(*before)) {
            Some(&end) => {
                *before += 1;
                tried += 1;
                trail.push((overlay(at, end), 0));
            }
            None => {
                trail.pop();
            }
        }
    }
    tried
}

fn of_length(length: usize) -> String {
    format!("start piles of length {length}")
}

fn of_size(size: usize) -> String {
    format!("starts with more than 5,000 records tried, letters of {size} processes")
}

fn with_path(name: &str, reachable: bool) -> String {
    let verdict = if reachable {
        "reachable"
    } else {
        "unreachable"
    };
    format!("{name}, {verdict}")
}
