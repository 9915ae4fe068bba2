//! Benchmark tables for searches of paths: the start's path, over words of up to 64 letters, and
//! the paths of rules that write six letters. The random ones among them are files.

use crate::bench;
use crate::model::{Table, WRITTEN_PLACES, group};

const ALL: u8 = 0b1111;
/// The most letters of a start pile.
const PILE: usize = 64;

/// One record in all, on the letter of four processes with eight states that the start pile has 64
/// times; the start has none to go on with.
pub fn one_record() -> Table {
    let mut table = Table::new(4, 8, 8);
    let letter = table.letter(ALL);
    table.rule(letter, [1; 4], [1; 4], &[]);
    table.accepting.push([1; 4]);
    table.pile = vec![letter; PILE];
    table
}

/// The table of 3,200 copied transitions with a start pile of 64 letters that leads elsewhere than
/// into the goal.
pub fn copied_word() -> Table {
    let mut table = bench::copied();
    let next = table.watch[0].letter;
    table.pile = vec![next; PILE];
    table
}

/// A start pile of 64 letters of one process each, in turn. Each leads from any of eight states on
/// by none, one and three, so that each process has 3 to the power of 16 paths.
pub fn deep_word() -> Table {
    let mut table = Table::new(4, 8, 8);
    let singles = [0, 1, 2, 3].map(|process| table.letter(1 << process));
    for single in singles {
        for before in 0..8 {
            for by in [0, 1, 3] {
                table.rule(single, [before; 4], [(before + by) % 8; 4], &[]);
            }
        }
    }
    table.accepting.push([7; 4]);
    table.pile = singles.repeat(PILE / 4);
    table
}

/// A letter that leads from any of eight states to any other, rules that write it six times, and
/// rules that write it and their own letter three times each in turn.
pub fn six_paths() -> Table {
    let mut table = Table::new(1, 8, 8);
    let [any, six, turns] = [(); 3].map(|()| table.letter(1));
    for before in 0..8 {
        for after in 0..8 {
            table.rule(any, [before; 4], [after; 4], &[]);
        }
        table.rule(six, [before; 4], [before; 4], &[any; WRITTEN_PLACES]);
        table.rule(turns, [before; 4], [before; 4], &[six, any].repeat(3));
    }
    table.accepting.push(group(&[7]));
    table.pile = vec![turns, six, any];
    table
}

/// A start pile of 64 letters, each with 4,096 ends from 15 groups of states: 61,472 records.
pub fn product_word() -> Table {
    let mut table = Table::new(4, 8, 8);
    let singles = [0, 1, 2, 3].map(|process| table.letter(1 << process));
    for single in singles {
        for after in 0..8 {
            table.rule(single, [0; 4], [after; 4], &[]);
        }
    }
    let letter = table.letter(ALL);
    let heads = [[7; 4], [7, 7, 7, 6]].into_iter();
    let heads = heads.chain((0..8).map(|last| [7, 7, 6, last]));
    for head in heads.chain((0..5).map(|last| [7, 6, 7, last])) {
        table.rule(letter, head, [0; 4], &singles);
    }
    table.start = [7; 4];
    table.accepting.push([7, 7, 7, 6]);
    table.pile = vec![letter; PILE];
    table
}

/// 120 random transitions that are copied to 1,920: half of them between 16 groups of states, half
/// between 16 others. The goal is one of these; the start, with a pile of 64 letters, one of those.
pub fn two_worlds() -> Table {
    Table::read(include_bytes!("../files/two-worlds"))
}

/// 190 records on one letter of four processes with eight states, almost all of them one chain
/// through random groups; a start pile of 64 of it.
pub fn wide_chain() -> Table {
    Table::read(include_bytes!("../files/wide-chain"))
}

/// 155 random rules, most of them with a path of up to six records of one letter of three
/// processes, and no goal.
pub fn dense_search() -> Table {
    Table::read(include_bytes!("../files/dense-search"))
}

/// 120 random rules on one letter and states before, each of which writes six letters.
pub fn shared_head() -> Table {
    Table::read(include_bytes!("../files/shared-head"))
}

/// Random rules on letters of single processes, and a random start pile of 64 letters.
pub fn hard_1() -> Table {
    Table::read(include_bytes!("../files/hard-1"))
}

/// The same with a letter of three processes.
pub fn hard_2() -> Table {
    Table::read(include_bytes!("../files/hard-2"))
}

/// All these tables with their names.
pub fn all() -> Vec<(&'static str, Table)> {
    vec![
        ("one-record", one_record()),
        ("copied-word", copied_word()),
        ("two-worlds", two_worlds()),
        ("wide-chain", wide_chain()),
        ("deep-word", deep_word()),
        ("dense-search", dense_search()),
        ("six-paths", six_paths()),
        ("shared-head", shared_head()),
        ("hard-1", hard_1()),
        ("hard-2", hard_2()),
        ("product-word", product_word()),
    ]
}
