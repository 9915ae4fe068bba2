//! Benchmark tables: large limits, many rounds, a full start pile, long runs, deep reasons, a
//! copied automaton, and every kind at its ceiling; and families of tables that grow in one figure.

use crate::model::{Group, Process, Rule, Table, WRITTEN_PLACES, drop_twin, group, overlay};
use crate::named;
use crate::rng::Rng;
use crate::searches;

const ALL: u8 = 0b1111;

/// A limit of exactly `records` records in exactly `rounds` rounds, by four processes of two
/// line states out of eight. Letters x0 to x3 lead each process from 0 to any state; every rule
/// on two, three or four processes then has 64, 512 or 4,096 transitions. Needs `rounds` from 2
/// to 20 and `records` from 128 to 70,000.
pub fn wide(records: usize, rounds: usize) -> Table {
    let mut table = Table::new(4, 2, 8);
    let singles = add_singles(&mut table);
    let delay = add_delay(&mut table, singles[0], rounds - 2);
    let mut missing = records - 4 * 8 - delay;
    for (bits, most) in [(ALL, 16), (0b0111, 8), (0b0011, 4), (0b1100, 4)] {
        let letters = processes(bits).map(|process| singles[process]);
        let letters: Vec<u8> = letters.collect();
        let each = 8usize.pow(bits.count_ones());
        let rules = (missing / each).min(most);
        add_products(&mut table, bits, &letters, rules);
        missing -= rules * each;
    }
    add_filler(&mut table, missing);
    add_ends(&mut table);
    table
}

/// 65,535 records in 2 rounds by rules alone: letters x0 to x3 lead each process from 0 to any
/// state, and fifteen letters have one head each, with a rule that writes x0 to x3 and so has
/// 4,096 ends. Heads of 512, 64, 8 and 1 ends make up the number.
pub fn products() -> Table {
    let mut table = Table::new(4, 8, 8);
    let singles = [0, 1, 2, 3].map(|process| table.letter(1 << process));
    for single in singles {
        for state in 0..8 {
            table.rule(single, [0; 4], [state; 4], &[]);
        }
    }
    for _ in 0..15 {
        let letter = table.letter(ALL);
        table.rule(letter, [0; 4], [0; 4], &singles);
    }
    for (written, heads) in [(3, 7), (2, 7), (1, 3), (0, 7)] {
        let letter = table.letter(ALL);
        for state in 0..heads {
            table.rule(letter, [state; 4], [0; 4], &singles[..written]);
        }
    }
    add_ends(&mut table);
    table
}

/// Starts before the last rule that writes the most letters; each of its processes shall end
/// in state 1.
fn add_ends(table: &mut Table) {
    let widest = table.rules.iter().max_by_key(|rule| rule.written.len());
    if let Some(rule) = widest {
        table.start = overlay([0; 4], rule.before);
        let goal = overlay([0; 4], rule.before.map(|state| state | 1));
        table.accepting.push(goal);
        table.pile.push(rule.letter);
    }
}

/// Letters x0 to x3: from 0 to the further states by watch transitions, to 0 by a rule, and to 1
/// by a rule for all but x0.
fn add_singles(table: &mut Table) -> [u8; 4] {
    let singles = [0, 1, 2, 3].map(|process| table.letter(1 << process));
    for single in singles {
        for state in 2..8 {
            table.transition(single, [0; 4], [state; 4]);
        }
        table.rule(single, [0; 4], [0; 4], &[]);
    }
    for &single in &singles[1..] {
        table.rule(single, [0; 4], [1; 4], &[]);
    }
    singles
}

/// Lets x0 lead to 1 only in round `delay` + 1, by way of as many further letters.
fn add_delay(table: &mut Table, single: u8, delay: usize) -> usize {
    let mut last = single;
    for _ in 0..delay {
        let next = table.letter(1);
        table.rule(last, [0; 4], [0; 4], &[next]);
        last = next;
    }
    table.rule(last, [0; 4], [1; 4], &[]);
    delay
}

/// A letter with rules from different line states, each reading the single letters in turn.
fn add_products(table: &mut Table, bits: u8, singles: &[u8], rules: usize) {
    let letter = table.letter(bits);
    let places: Vec<usize> = processes(bits).collect();
    for number in 0..rules {
        let mut before = [0; 4];
        for (digit, &process) in places.iter().enumerate() {
            before[process] = (number >> digit & 1) as u8;
        }
        table.rule(letter, before, [0; 4], singles);
    }
}

/// `count` watch transitions on a letter of its own.
fn add_filler(table: &mut Table, count: usize) {
    let letter = table.letter(0b11);
    for number in 0..count {
        let before = group(&[(number / 6 % 8) as u8, (number / 48) as u8]);
        let after = group(&[2 + (number % 6) as u8, 2]);
        table.transition(letter, before, after);
    }
}

fn processes(bits: u8) -> impl Iterator<Item = usize> {
    (0..4).filter(move |process| bits >> process & 1 == 1)
}

/// One record in almost every round: 8 * `keys` + `tail` rounds by one process of eight states.
/// Each key (letter, state before) copies the key before it; the first copies the last with the
/// end state moved on by one. The tail follows the last key once that ends in state 7. Needs
/// `keys` + `tail` up to 191.
pub fn slow(keys: usize, tail: usize) -> Table {
    let mut table = Table::new(1, 8, 8);
    let letters: Vec<u8> = (0..(keys + tail).div_ceil(8))
        .map(|_| table.letter(1))
        .collect();
    let key = |number: usize| (letters[number / 8], [(number % 8) as u8; 4]);
    let next = table.letter(1);
    let seven = table.letter(1);
    let (first, last) = (key(0), key(keys - 1));
    table.rule(first.0, first.1, [0; 4], &[]);
    table.rule(first.0, first.1, last.1, &[last.0, next]);
    for state in 0..7 {
        table.rule(next, [state; 4], [state + 1; 4], &[]);
    }
    table.rule(seven, [7; 4], [7; 4], &[]);
    for number in 1..keys + tail {
        let (letter, before) = key(number);
        let (copied, after) = key(number - 1);
        let whole = [copied, seven];
        let written = if number == keys { &whole } else { &whole[..1] };
        table.rule(letter, before, after, written);
    }
    let (letter, before) = key(keys + tail - 1);
    table.start = group(&before[..1]);
    table.pile.push(letter);
    table.accepting.push(group(&[7]));
    table
}

/// One record in each of 200 rounds: each of 200 keys (letter, state before) copies the key
/// before it, by one rule.
pub fn chain() -> Table {
    let mut table = Table::new(1, 8, 8);
    let letters: Vec<u8> = (0..25).map(|_| table.letter(1)).collect();
    let key = |number: usize| (letters[number / 8], [(number % 8) as u8; 4]);
    table.rule(letters[0], [0; 4], [0; 4], &[]);
    for number in 1..200 {
        let (letter, before) = key(number);
        let (copied, after) = key(number - 1);
        table.rule(letter, before, after, &[copied]);
    }
    table.start = group(&[7]);
    table.pile.push(letters[24]);
    table.accepting.push(group(&[0]));
    table
}

/// One record in almost every round, with reasons as deep as there are rounds: `states` to the
/// power of 4, times `keys`, rounds by four processes. As `slow`, but the end states count
/// through all global states, process 3 fastest. Needs `states` from 2 to 8, `keys` up to 25.
pub fn odometer(states: u8, keys: usize) -> Table {
    wheels([states; 4], keys)
}

/// As `odometer`, with as many states for each process as `states` has.
pub fn wheels(states: Group, keys: usize) -> Table {
    let mut table = with_states(states);
    let top = states.map(|count| count - 1);
    let letters: Vec<u8> = (0..keys).map(|_| table.letter(ALL)).collect();
    table.rule(letters[0], [0; 4], [0; 4], &[]);
    for number in 1..keys {
        table.rule(letters[number], [0; 4], [0; 4], &[letters[number - 1]]);
    }
    for process in 0..4 {
        let mut written = vec![letters[keys - 1]];
        let lower = ALL << (process + 1) & ALL;
        if lower != 0 {
            let reset = table.letter(lower);
            table.rule(reset, top, [0; 4], &[]);
            written.push(reset);
        }
        let step = table.letter(1 << process);
        for state in 0..top[process] {
            table.rule(step, [state; 4], [state + 1; 4], &[]);
        }
        written.push(step);
        table.rule(letters[0], [0; 4], [0; 4], &written);
    }
    table.pile.push(letters[keys - 1]);
    table.accepting.push(top);
    table
}

/// A table of four processes that have line states alone, as many as `states` has.
fn with_states(states: Group) -> Table {
    let mut table = Table::new(4, 1, 1);
    table.processes = states
        .map(|count| Process {
            line: count,
            all: count,
        })
        .to_vec();
    table
}

/// One key with one new end in each of 1,536 rounds, by 90 rules: processes 2 and 3 count to 64,
/// and processes 0 and 1 count how often (to 24). Each step has a rule of its own.
pub fn counter() -> Table {
    let mut table = with_states([3, 8, 8, 8]);
    let count = table.letter(ALL);
    let low = table.letter(0b1100);
    let high = table.letter(0b0011);
    let reset = table.letter(0b1100);
    table.rule(count, [0; 4], [0; 4], &[]);
    table.rule(count, [0; 4], [0; 4], &[count, low]);
    table.rule(count, [0; 4], [0; 4], &[count, reset, high]);
    table.rule(reset, [7; 4], [0; 4], &[]);
    let pair = |number: u8| [number / 8, number % 8, number / 8, number % 8];
    for number in 0..63 {
        table.rule(low, pair(number), pair(number + 1), &[]);
    }
    for number in 0..23 {
        table.rule(high, pair(number), pair(number + 1), &[]);
    }
    table.pile.push(count);
    table.accepting.push([2, 7, 7, 7]);
    table
}

/// A start pile of 64 letters that leads through 1,296 global states and is accepted in one.
pub fn full_pile() -> Table {
    let mut table = Table::new(4, 2, 8);
    let joint = table.letter(ALL);
    let singles = [0, 1, 2, 3].map(|process| table.letter(1 << process));
    for single in singles {
        for before in 0..8 {
            for after in 2..8 {
                table.transition(single, [before; 4], [after; 4]);
            }
        }
    }
    table.rule(joint, [0; 4], [1; 4], &singles);
    table.rule(joint, [1; 4], [0; 4], &[joint]);
    table.start = [1; 4];
    table.pile.push(joint);
    table.pile.extend((0..63).map(|place| singles[place % 4]));
    table.accepting.push([7; 4]);
    table
}

/// A start pile of 64 letters, each of which leads from any of eight states to any other: 8 to
/// the power of 64 paths. The first is a copy of the others from half of the states.
pub fn many_paths() -> Table {
    let mut table = Table::new(1, 8, 8);
    let any = table.letter(1);
    let copy = table.letter(1);
    for before in 0..8 {
        for after in 0..8 {
            table.rule(any, [before; 4], [after; 4], &[]);
        }
    }
    for before in 0..4 {
        table.rule(copy, [before; 4], [before; 4], &[any]);
    }
    table.pile.push(copy);
    table.pile.extend([any; 63]);
    table.accepting.push(group(&[7]));
    table
}

/// 200 watch transitions on one letter, from ten global states of two processes to twenty, and
/// one rule that writes the letter.
pub fn one_rule() -> Table {
    let mut table = Table::new(2, 3, 8);
    table.processes[0].line = 4;
    let watched = table.letter(0b11);
    let copy = table.letter(0b11);
    for before in 0..10 {
        for after in 0..20 {
            let before = group(&[before / 8, before % 8]);
            let after = group(&[4 + after / 5, 3 + after % 5]);
            table.transition(watched, before, after);
        }
    }
    table.rule(copy, [0; 4], [0; 4], &[watched]);
    table.pile.push(copy);
    table.accepting.push(group(&[7, 7]));
    table
}

/// 200 watch transitions of four processes that lead back into line states, so that round 0 has
/// 3,200 records: one letter leads from each of 200 global states to the next. Rules on another
/// letter write it six times, from half of these states; the start pile has that letter alone.
pub fn copied() -> Table {
    let mut table = Table::new(4, 4, 4);
    let next = table.letter(ALL);
    let leap = table.letter(ALL);
    let states = |number: u8| [number / 64, number / 16 % 4, number / 4 % 4, number % 4];
    for number in 0..200 {
        table.transition(next, states(number), states(number + 1));
    }
    for number in 0..100 {
        let states = states(number);
        table.rule(leap, states, states, &[next; WRITTEN_PLACES]);
    }
    table.pile.push(leap);
    table.accepting.push(states(WRITTEN_PLACES as u8));
    table
}

/// Doubling with 19 letters and a start pile of exactly `steps` steps, up to 1,048,574. Each
/// letter takes one less than a power of two; the greatest that fits is taken each time.
pub fn long_run(steps: usize) -> Table {
    let mut table = named::doubling(19);
    table.pile.clear();
    let mut missing = steps;
    for letter in 0..19 {
        let each = (1 << (19 - letter)) - 1;
        while each <= missing {
            table.pile.push(letter as u8);
            missing -= each;
        }
    }
    table
}

/// Every kind at its ceiling: 5,930 bytes. Each letter has one process, so the limit stays small.
pub fn full_table() -> Table {
    let mut rng = Rng::new(5_530);
    let mut table = Table::new(4, 4, 8);
    for number in 0..32 {
        table.letter(1 << (number % 4));
    }
    while table.rules.len() < 200 {
        let letter = rng.below(32) as u8;
        let written = &[(letter + 4) % 32][..rng.below(2)];
        let (before, after) = (rng.below(4) as u8, rng.below(4) as u8);
        table.rule(letter, [before; 4], [after; 4], written);
        drop_twin(&mut table.rules);
    }
    while table.watch.len() < 200 {
        let (before, after) = (rng.below(8) as u8, rng.between(4, 7) as u8);
        table.transition(rng.below(32) as u8, [before; 4], [after; 4]);
        drop_twin(&mut table.watch);
    }
    while table.accepting.len() < 64 {
        let states = std::array::from_fn(|_| rng.below(8) as u8);
        table.accepting.push(states);
        drop_twin(&mut table.accepting);
    }
    table.pile = (0..64).map(|_| rng.below(32) as u8).collect();
    table
}

/// 200 rules on a letter for each of the fifteen sets of processes, `watch` watch transitions and
/// a start pile of `pile` letters, drawn from a seed. The seeds of the two benchmark tables are
/// such that they have the records and rounds wanted; so their rules are not the same.
pub fn mixed(seed: u64, watch: usize, pile: usize) -> Table {
    let rng = &mut Rng::new(seed);
    let mut table = Table::new(4, 3, 8);
    for bits in 1..16 {
        table.letter(bits);
    }
    while table.rules.len() < 200 {
        add_mixed_rule(&mut table, rng);
    }
    while table.watch.len() < watch {
        let letter = rng.below(15) as u8;
        table.transition(letter, states(rng, 0, 7), states(rng, 3, 7));
        drop_twin(&mut table.watch);
    }
    add_readable_pile(&mut table, rng, pile);
    table
}

/// Adds a rule that writes up to three letters, with no process that its own letter has not.
fn add_mixed_rule(table: &mut Table, rng: &mut Rng) {
    let letter = rng.below(15) as u8;
    let bits = table.letters[usize::from(letter)];
    let within = |other: &u8| table.letters[usize::from(*other)] & !bits == 0;
    let letters: Vec<u8> = (0..15).filter(within).collect();
    let count = rng.below(4);
    let written: Vec<u8> = (0..count).map(|_| *rng.pick(&letters)).collect();
    table.rule(letter, states(rng, 0, 2), states(rng, 0, 2), &written);
    drop_twin(&mut table.rules);
}

/// A state from `low` to `high` for each of four processes.
fn states(rng: &mut Rng, low: usize, high: usize) -> Group {
    std::array::from_fn(|_| rng.between(low, high) as u8)
}

/// Adds a start pile that rules without written letters take away one by one, and the states that
/// they lead to as a goal.
fn add_readable_pile(table: &mut Table, rng: &mut Rng, length: usize) {
    let plain = table.rules.iter().filter(|rule| rule.written.is_empty());
    let plain: Vec<&Rule> = plain.collect();
    let mut at = table.start;
    for _ in 0..length {
        let fitting = plain.iter().filter(|rule| overlay(at, rule.before) == at);
        let fitting: Vec<&&Rule> = fitting.collect();
        let rule = rng.pick(&fitting);
        at = overlay(at, rule.after);
        table.pile.push(rule.letter);
    }
    table.accepting.push(at);
}

/// Tables of 1,023 to 65,535 records in 2 rounds, each with about twice the records of the one
/// before. They differ in the number of rules on three and on four processes alone.
pub fn more_records() -> Vec<Table> {
    (10..=16).map(|power| wide((1 << power) - 1, 2)).collect()
}

/// Tables of 100, 200, 400, 800, 1,600, 3,200 and 4,000 rounds with one record in almost each.
/// They differ in the states that the processes count through.
pub fn more_rounds() -> Vec<Table> {
    let states = [
        [1, 1, 2, 2],
        [1, 2, 2, 2],
        [2, 2, 2, 2],
        [2, 2, 2, 4],
        [2, 2, 4, 4],
        [2, 4, 4, 4],
        [2, 4, 4, 5],
    ];
    states.map(|states| wheels(states, 25)).to_vec()
}

/// All benchmark tables with their names.
pub fn all() -> Vec<(&'static str, Table)> {
    let mut tables = vec![
        ("small", named::t()),
        ("2,000 records in 5 rounds", wide(2_000, 5)),
        ("65,535 records in 2 rounds", wide(65_535, 2)),
        ("65,536 records in 2 rounds", wide(65_536, 2)),
        ("1,508 records in 1,500 rounds", slow(187, 4)),
        ("3,855 records in 3,840 rounds", odometer(4, 15)),
        ("61,471 records in 61,440 rounds", odometer(8, 15)),
        ("start pile of 64", full_pile()),
        ("run of 1,000,000 steps", long_run(1_000_000)),
        ("run of 1,000,001 steps", long_run(1_000_001)),
        ("every kind at its ceiling", full_table()),
        ("counter of 1,536 ends, 90 rules", counter()),
        ("products, one head of 4,096 ends each", products()),
        ("200 rules on letters of all kinds", mixed(30_302, 0, 1)),
        (
            "200 rules, 200 transitions, pile of 64",
            mixed(44_284, 200, 64),
        ),
        ("8 to the 64 paths from the start", many_paths()),
        ("chain of 200 rules", chain()),
        ("200 transitions, one rule", one_rule()),
        ("200 transitions copied to 3,200", copied()),
    ];
    tables.extend(searches::all());
    tables
}
