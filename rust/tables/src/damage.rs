//! Damaged tables: specimens with the refusal they must meet, and random damage.

use crate::bench;
use crate::copies::NARROW;
use crate::model::{self, BODY, NO_PART, Table, WRITTEN_PLACES, group};
use crate::named;
use crate::rng::Rng;
use std::ops::Range;

/// A table with the number and place of its refusal.
pub struct Specimen {
    pub name: String,
    pub bytes: Vec<u8>,
    pub number: u8,
    pub place: usize,
}

/// The specimen `named::old_t`.
pub const OLD_T: &str = "T in rule bodies of 14 bytes";

/// A file in the making: items with their kind bytes.
type Items = Vec<Vec<u8>>;

/// Where the count of written letters and their places stand in a rule's item.
const COUNT: usize = 1 + model::COUNT;
const WRITTEN: Range<usize> = COUNT + 1..COUNT + 1 + WRITTEN_PLACES;
/// The least count that is refused.
const TOO_MANY: u8 = WRITTEN_PLACES as u8 + 1;

/// An accepted table with three items of every kind that may have several: three processes of
/// two line states out of four; letters of three, two and one processes.
pub fn sound() -> Table {
    let mut table = Table::new(3, 2, 4);
    for bits in [0b111, 0b011, 0b001] {
        table.letter(bits);
    }
    table.rule(0, [0; 4], [1; 4], &[1, 2]);
    table.rule(1, [0; 4], [1; 4], &[2]);
    table.rule(2, [0; 4], [1; 4], &[]);
    for letter in 0..3 {
        table.transition(letter, [0; 4], [2; 4]);
    }
    for state in 0..3 {
        table.accepting.push(group(&[state; 3]));
    }
    table.pile = vec![0, 1, 2];
    table
}

/// `sound` with watch transitions that lead back into line states, accepted too.
pub fn re_entering() -> Table {
    let mut table = sound();
    for watch in &mut table.watch {
        watch.after = watch.before;
    }
    table
}

/// The table with a process of more states than can be copied.
fn widened(mut table: Table, process: usize) -> Table {
    table.processes[process].all = NARROW + 1;
    table
}

/// Specimens of refusals 1 to 9, at the first items that can meet them and at later ones.
pub fn specimens() -> Vec<Specimen> {
    let mut list = Vec::new();
    add_cuts(&mut list);
    add_strangers(&mut list);
    add_turns(&mut list);
    add_crowds(&mut list);
    add_values(&mut list);
    add_strays(&mut list);
    add_re_entries(&mut list);
    add_twins(&mut list);
    add_leftovers(&mut list);
    add_rivals(&mut list);
    list.push(Specimen {
        name: OLD_T.to_string(),
        bytes: named::old_t(),
        number: 5,
        place: 12,
    });
    list
}

/// Adds a specimen refused at the item with this index.
fn push(list: &mut Vec<Specimen>, name: String, items: Items, number: u8, index: usize) {
    list.push(Specimen {
        name,
        number,
        place: offset(&items, index),
        bytes: items.concat(),
    });
}

/// The offset of the item with this index.
fn offset(items: &[Vec<u8>], index: usize) -> usize {
    items[..index].iter().map(Vec::len).sum()
}

/// The indices of the items of one kind.
fn of_kind(items: &[Vec<u8>], kind: u8) -> Vec<usize> {
    (0..items.len())
        .filter(|&index| items[index][0] == kind)
        .collect()
}

fn add_cuts(list: &mut Vec<Specimen>) {
    let items = sound().items();
    for index in 0..items.len() {
        let before = items[..index].to_vec();
        let name = format!("ends before item {index}");
        push(list, name, before.clone(), 1, index);
        for length in 1..items[index].len() {
            let mut cut = before.clone();
            cut.push(items[index][..length].to_vec());
            let name = format!("item {index} cut to {length}");
            push(list, name, cut, 1, index);
        }
    }
}

fn add_strangers(list: &mut Vec<Specimen>) {
    let items = sound().items();
    for index in 0..items.len() {
        for kind in [0, 9, 255] {
            let mut strange = items.clone();
            strange[index][0] = kind;
            push(
                list,
                format!("item {index} of kind {kind}"),
                strange,
                2,
                index,
            );
        }
    }
}

fn add_turns(list: &mut Vec<Specimen>) {
    let items = sound().items();
    for index in 0..items.len() {
        for lower in items.iter().filter(|item| item[0] < items[index][0]) {
            let mut fallen = items.clone();
            fallen.insert(index + 1, lower.clone());
            let name = format!("kind {} after item {index}", lower[0]);
            let end = items[index][0] == 8;
            push(list, name, fallen, if end { 9 } else { 3 }, index + 1);
        }
        if items[index][0] != 1 {
            let without = items[index..].to_vec();
            push(list, format!("begins with item {index}"), without, 3, 0);
        }
    }
    let start = of_kind(&items, 6)[0];
    let mut twice = items.clone();
    twice.insert(start, items[start].clone());
    push(list, "second start".to_string(), twice, 3, start + 1);
    let mut never = items.clone();
    never.remove(start);
    push(
        list,
        "pile without start".to_string(),
        never.clone(),
        3,
        start,
    );
    never.drain(start..never.len() - 1);
    push(list, "end without start".to_string(), never, 3, start);
}

fn add_crowds(list: &mut Vec<Specimen>) {
    let items = bench::full_table().items();
    for kind in [1, 2, 3, 4, 5, 7] {
        let last = of_kind(&items, kind).pop().unwrap_or_default();
        for more in 1..3 {
            let mut crowded = items.clone();
            for _ in 0..more {
                crowded.insert(last + 1, items[last].clone());
            }
            let name = format!("{more} above the ceiling of kind {kind}");
            push(list, name, crowded, 4, last + 1);
        }
    }
}

fn add_values(list: &mut Vec<Specimen>) {
    let items = sound().items();
    for index in 0..items.len() {
        for byte in 1..items[index].len() {
            push_value(list, &items, index, byte, 0xFE);
        }
    }
    // Kind, byte of the item, and the values next to the good ones.
    let edges: [(u8, usize, &[u8]); 12] = [
        (1, 1, &[0, 5, 9]),
        (1, 2, &[0, 1, 9]),
        (2, 1, &[0, 0b1000, 0b1001, 0b1_0000]),
        (3, 1, &[3, NO_PART]),
        (3, 2, &[2, 4, NO_PART]),
        (3, 9, &[0]),
        (3, COUNT, &[TOO_MANY, NO_PART]),
        (3, WRITTEN.end - 1, &[0]),
        (4, 2, &[4, NO_PART]),
        (4, 6, &[4, NO_PART]),
        (5, 4, &[0]),
        (6, 1, &[2, 3, NO_PART]),
    ];
    for (kind, byte, values) in edges {
        for index in of_kind(&items, kind) {
            for &value in values {
                push_value(list, &items, index, byte, value);
            }
        }
    }
}

fn push_value(list: &mut Vec<Specimen>, items: &Items, index: usize, byte: usize, value: u8) {
    let mut bad = items.clone();
    bad[index][byte] = value;
    let name = format!("item {index}, byte {byte} is {value}");
    push(list, name, bad, 5, index);
}

fn add_strays(list: &mut Vec<Specimen>) {
    let items = sound().items();
    for (rule, index) in of_kind(&items, 3).into_iter().enumerate() {
        for count in 1..=WRITTEN_PLACES {
            // The letters before have the most processes: each is stray in a later rule.
            for letter in 0..rule as u8 {
                let mut stray = items.clone();
                stray[index][COUNT] = count as u8;
                let written = &mut stray[index][WRITTEN];
                written[..count - 1].fill(2);
                written[count - 1] = letter;
                written[count..].fill(NO_PART);
                let name = format!("rule {rule}, letter {count} is stray");
                push(list, name, stray, 6, index);
            }
        }
    }
    let first = of_kind(&items, 3)[0];
    let mut stray = items.clone();
    stray.insert(first, items[first + 1].clone());
    stray[first][WRITTEN.start] = 0;
    push(list, "first rule is stray".to_string(), stray, 6, first);
}

/// In each table one process is wide, whether the transition's letter has it or not.
fn add_re_entries(list: &mut Vec<Specimen>) {
    for wide in 0..3 {
        let items = widened(sound(), wide).items();
        let watch = of_kind(&items, 4);
        for &index in &watch {
            for byte in (6..9).filter(|&byte| items[index][byte] != NO_PART) {
                for state in 0..2 {
                    let mut entering = items.clone();
                    entering[index][byte] = state;
                    let name = format!("item {index}, byte {byte} enters {state}, wide {wide}");
                    push(list, name, entering, 7, index);
                }
            }
        }
        // The first of several is the place.
        let all = widened(re_entering(), wide).items();
        let mut later = all.clone();
        later[watch[0]] = items[watch[0]].clone();
        for (several, first) in [(all, watch[0]), (later, watch[1])] {
            let name = format!("items from {first} on enter, wide {wide}");
            push(list, name, several, 7, first);
        }
    }
}

fn add_twins(list: &mut Vec<Specimen>) {
    for (make, table, kind) in [
        ("sound", sound(), 3),
        ("sound", sound(), 4),
        ("sound", sound(), 5),
        ("re-entering", re_entering(), 4),
    ] {
        let items = table.items();
        let indices = of_kind(&items, kind);
        for &first in &indices {
            for &second in indices.iter().filter(|&&second| second >= first) {
                let mut twins = items.clone();
                twins.insert(second + 1, items[first].clone());
                let name = format!("{make}, item {first} again after item {second}");
                push(list, name, twins, 8, second + 1);
            }
        }
    }
}

fn add_leftovers(list: &mut Vec<Specimen>) {
    let items = sound().items();
    for more in [vec![0], vec![8], vec![9], items[0].clone(), items.concat()] {
        let mut longer = items.clone();
        let name = format!("{} bytes after the end", more.len());
        longer.push(more);
        push(list, name, longer, 9, items.len());
    }
}

/// Items with two faults: the order 2, 3, 4, 1, 5, 6, 7, 8 decides.
fn add_rivals(list: &mut Vec<Specimen>) {
    let items = widened(sound(), 2).items();
    let (rule, watch) = (of_kind(&items, 3)[1], of_kind(&items, 4)[0]);
    let mut rival = |name: &str, number, index: usize, item: &[u8], last: bool| {
        let mut faulty = items[..index].to_vec();
        faulty.push(item.to_vec());
        if !last {
            faulty.extend_from_slice(&items[index + 1..]);
        }
        push(list, name.to_string(), faulty, number, index);
    };
    let mut stray = items[rule].clone();
    stray[COUNT..COUNT + 3].copy_from_slice(&[2, 0, 3]);
    rival("stray and unknown letter", 5, rule, &stray, false);
    stray[COUNT..COUNT + 3].copy_from_slice(&[1, 0, 0]);
    rival("stray and spare place", 5, rule, &stray, false);
    let mut entering = items[watch].clone();
    entering[6..8].copy_from_slice(&[1, 4]);
    rival("re-entry and no state", 5, watch, &entering, false);
    rival("bad value and cut", 1, rule, &[3, 0xFE], true);
    rival("falling and cut", 3, rule, &[1], true);
    rival("stranger and cut", 2, rule, &[9], true);
    rival("end too early", 3, rule, &[8], true);

    let full = bench::full_table().items();
    let last = of_kind(&full, 3)[199];
    let mut crowded = full[..=last].to_vec();
    crowded.push(vec![3]);
    push(list, "crowded and cut".to_string(), crowded, 4, last + 1);
    let mut fallen = full;
    fallen.insert(last + 1, vec![1]);
    push(list, "falling and crowded".to_string(), fallen, 3, last + 1);
}

/// A table's bytes with one to three random damages.
pub fn damaged(rng: &mut Rng, table: &Table) -> Vec<u8> {
    let mut items = table.items();
    for _ in 0..*rng.pick(&[1, 1, 1, 2, 3]) {
        damage(rng, &mut items);
    }
    items.concat()
}

fn damage(rng: &mut Rng, items: &mut Items) {
    items.retain(|item| !item.is_empty());
    if items.is_empty() {
        return;
    }
    let index = rng.below(items.len());
    let other = rng.below(items.len());
    match rng.below(11) {
        0 => flip(rng, &mut items[index]),
        1 | 2 => set_byte(rng, &mut items[index]),
        3 => cut(rng, items, index),
        4 => duplicate(rng, items, index, other),
        5 => items.swap(index, other),
        6 => items.insert(index, stranger(rng)),
        7 => crowd(rng, items, index),
        8 => drop(items.remove(index)),
        9 => spoil(rng, items),
        _ => items.push((0..rng.between(1, 9)).map(|_| rng.byte()).collect()),
    }
}

fn flip(rng: &mut Rng, item: &mut [u8]) {
    let byte = rng.below(item.len());
    item[byte] ^= 1 << rng.below(8);
}

/// A byte becomes one of those that bound the good values.
fn set_byte(rng: &mut Rng, item: &mut [u8]) {
    let byte = rng.below(item.len());
    item[byte] = *rng.pick(&[0, 1, 2, 3, 4, 5, 6, 7, 8, 9, 15, 16, 31, 32, 254, 255]);
}

/// A rule's written letter or a watch transition's state after becomes another small number.
fn spoil(rng: &mut Rng, items: &mut Items) {
    let (kind, bytes) = rng.pick(&[(3, WRITTEN), (4, 6..10)]).clone();
    let likes = of_kind(items, kind);
    if likes.is_empty() {
        return;
    }
    let item = &mut items[*rng.pick(&likes)];
    for byte in bytes {
        if item.get(byte).is_some_and(|&value| value != NO_PART) && rng.chance(1, 2) {
            item[byte] = rng.below(6) as u8;
        }
    }
}

/// The file ends in or before the item.
fn cut(rng: &mut Rng, items: &mut Items, index: usize) {
    items.truncate(index + 1);
    let length = rng.below(items[index].len());
    items[index].truncate(length);
}

/// The item appears again, most often beside its like.
fn duplicate(rng: &mut Rng, items: &mut Items, index: usize, other: usize) {
    let likes = of_kind(items, items[index][0]);
    let place = match rng.below(4) {
        0 => other,
        _ => *rng.pick(&likes) + 1,
    };
    items.insert(place, items[index].clone());
}

/// An item of any kind, its body as long as the kind asks, of small numbers.
fn stranger(rng: &mut Rng) -> Vec<u8> {
    let kind = rng.below(BODY.len() + 1);
    let length = BODY.get(kind).copied().unwrap_or(3);
    let mut item = vec![kind as u8];
    item.extend((0..length).map(|_| *rng.pick(&[0, 0, 1, 1, 2, 3, NO_PART])));
    item
}

/// Repeats the item until its kind is above any ceiling. Twins are refused before the ceiling
/// is reached, so only kinds 1, 2 and 7 can come to be refused as crowded.
fn crowd(rng: &mut Rng, items: &mut Items, index: usize) {
    let item = items[index].clone();
    let more = rng.between(1, 200);
    items.splice(index..index, std::iter::repeat_n(item, more));
}
