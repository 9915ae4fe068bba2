//! The tables to compare: named ones, random ones and damaged ones.

use tables::random::{self, Shape};
use tables::{Rng, Table, bench, damage, named};

/// A table's bytes, what it is, and the seed of all that is random about it.
#[derive(Clone)]
pub struct Case {
    pub name: String,
    pub make: Make,
    pub bytes: Vec<u8>,
    pub seed: u64,
}

/// Where a table comes from.
#[derive(Clone)]
pub enum Make {
    Named,
    Random(Table),
    Damaged,
}

/// All cases of a seed, each random one with a seed of its own.
pub struct Cases {
    named: Vec<Case>,
    seeds: Vec<u64>,
    random: Maker,
    full: Table,
}

/// Makes the random table of a number.
pub type Maker = fn(&mut Rng, usize) -> Table;

impl Cases {
    /// The named tables, `each` random ones and as many damaged ones.
    pub fn new(random: Maker, seed: u64, each: usize) -> Self {
        let mut rng = Rng::new(seed);
        Cases {
            named: named_cases(),
            seeds: (0..2 * each).map(|_| rng.draw()).collect(),
            random,
            full: bench::full_table(),
        }
    }

    pub fn count(&self) -> usize {
        self.named.len() + self.seeds.len()
    }

    /// The case of a number below the count.
    pub fn get(&self, number: usize) -> Option<Case> {
        let Some(index) = number.checked_sub(self.named.len()) else {
            return Some(self.named[number].clone());
        };
        let seed = *self.seeds.get(index)?;
        let mut rng = Rng::new(seed);
        let each = self.seeds.len() / 2;
        Some(match index.checked_sub(each) {
            None => {
                let table = (self.random)(&mut rng, index);
                Case {
                    name: format!("random table {index}, seed {seed}"),
                    bytes: table.bytes(),
                    make: Make::Random(table),
                    seed,
                }
            }
            Some(index) => Case {
                name: format!("damaged table {index}, seed {seed}"),
                bytes: damaged_table(&mut rng, index, &self.full),
                make: Make::Damaged,
                seed,
            },
        })
    }
}

/// Each shape in turn, long runs at times, and in almost half of the tables any make.
pub fn random_table(rng: &mut Rng, number: usize) -> Table {
    match number % 8 {
        4 if number.is_multiple_of(5) => long_run(rng),
        0 => random::table(rng, &Shape::TINY),
        1 => random::table(rng, &Shape::DENSE),
        2 => random::table(rng, &Shape::MIDDLE),
        3 => random::table(rng, &Shape::LARGE),
        _ => random::any(rng),
    }
}

/// A run about as long as the page of `line`, or far longer, with its rules in any order.
fn long_run(rng: &mut Rng) -> Table {
    let most = *rng.pick(&[20_000, 20_000, 20_000, 1_048_574]);
    let mut table = bench::long_run(rng.between(1, most));
    let by = rng.below(table.rules.len());
    table.rules.rotate_left(by);
    table
}

/// Damage to a table of any shape, a table that is refused for its copies alone, or bytes that were
/// never a table.
fn damaged_table(rng: &mut Rng, number: usize, full: &Table) -> Vec<u8> {
    let whole = match number % 16 {
        0 => return random_bytes(rng),
        1 => full.clone(),
        2 => random::table(rng, &Shape::LARGE),
        3 => return wide_re_entry(rng).bytes(),
        4..8 => random::table(rng, &Shape::MIDDLE),
        8..12 => random::table(rng, &Shape::DENSE),
        _ => random::table(rng, &Shape::TINY),
    };
    damage::damaged(rng, &whole)
}

/// A table of any shape that is refused 7.
fn wide_re_entry(rng: &mut Rng) -> Table {
    let shape = *rng.pick(&[Shape::TINY, Shape::DENSE, Shape::MIDDLE, Shape::LARGE]);
    random::wide_re_entry(rng, &shape)
}

/// Up to 39 bytes, most of them kinds.
fn random_bytes(rng: &mut Rng) -> Vec<u8> {
    let length = rng.below(40);
    let bytes = (0..length).map(|_| *rng.pick(&[1, 1, 2, 6, 8, 0, 3, 4, 5, 7, 255, 9]));
    bytes.collect()
}

/// The small tables, the benchmark tables, the refused specimens and the edges of `line`.
fn named_cases() -> Vec<Case> {
    let mut cases = Vec::new();
    let mut push = |name: &str, bytes: Vec<u8>| {
        cases.push(Case {
            name: name.to_string(),
            make: Make::Named,
            bytes,
            seed: cases.len() as u64,
        });
    };
    push("empty file", Vec::new());
    push("sound", damage::sound().bytes());
    push("re-entering", damage::re_entering().bytes());
    for (name, table) in named::all() {
        push(&name, table.bytes());
    }
    for (name, table) in bench::all() {
        push(name, table.bytes());
    }
    for specimen in damage::specimens() {
        push(&specimen.name, specimen.bytes);
    }
    for records in [1_999, 2_000, 2_001] {
        let name = format!("{records} records");
        push(&name, bench::wide(records, 5).bytes());
    }
    for transitions in [125, 126] {
        let name = format!("{transitions} transitions copied, no rule");
        let mut table = bench::copied();
        table.watch.truncate(transitions);
        table.rules.clear();
        push(&name, table.bytes());
    }
    for steps in [9_999, 10_000, 10_001, 999_999] {
        let name = format!("run of {steps} steps");
        push(&name, bench::long_run(steps).bytes());
    }
    for more in [1, 2, 3_000, 100_000, 2_000_000] {
        for (name, whole) in [("T", named::t()), ("a full table", bench::full_table())] {
            let mut table = whole.bytes();
            table.extend(vec![0; more]);
            push(&format!("{name} and {more} bytes after its end"), table);
        }
    }
    cases
}
