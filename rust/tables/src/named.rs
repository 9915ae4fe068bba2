//! The small tables of document 01, and those of requests 2.2, 2.4 and 2.6.

use crate::model::{Group, Table, WRITTEN_PLACES, group};

const ZERO: Group = [0; 4];
const ONE: Group = [1; 4];

/// Table T: two processes; letter 0 is replaced by letters 1 and 2, which are then removed by
/// one process each.
pub fn t() -> Table {
    let mut table = Table::new(2, 2, 2);
    let both = table.letter(0b11);
    let first = table.letter(0b01);
    let second = table.letter(0b10);
    table.rule(both, ZERO, ZERO, &[first, second]);
    table.rule(first, ZERO, ONE, &[]);
    table.rule(second, ZERO, ONE, &[]);
    table.accepting.push(group(&[1, 1]));
    table.pile.push(both);
    table
}

/// T as it was exported with four written places, in rule bodies of 14 bytes. Its first rule is
/// read on into the second, whose first bytes are no spare places: refused 5 at 12.
pub fn old_t() -> Vec<u8> {
    let mut items = t().items();
    for rule in items.iter_mut().filter(|item| item[0] == 3) {
        rule.truncate(1 + 14);
    }
    items.concat()
}

pub fn t_without_rule_2() -> Table {
    let mut table = t();
    table.rules.pop();
    table
}

pub fn t_without_accepting() -> Table {
    let mut table = t();
    table.accepting.clear();
    table
}

/// T with start (1,1) and no pile.
pub fn t_at_goal() -> Table {
    let mut table = t();
    table.start = group(&[1, 1]);
    table.pile.clear();
    table
}

/// A watch transition leads back into a line state, in which a rule would fire: nothing fires from
/// the start, and it stays unwatched.
pub fn re_entry() -> Table {
    re_entry_of(2)
}

/// The same with so many states in all; more than 4 are refused 7 at 24.
pub fn re_entry_of(states: u8) -> Table {
    let mut table = Table::new(1, 2, states);
    table.letter(1);
    table.letter(1);
    table.rule(1, ONE, ONE, &[]);
    table.transition(0, ZERO, ONE);
    table.accepting.push(group(&[1]));
    table.pile = vec![0, 1];
    table
}

/// Two processes of one line state, the second with so many states in all. The automaton stays in
/// state 0 with a letter of the first and with one of both, and reads both from the start. More than
/// 4 states are refused 7 at 10, at a transition that the second process has no part in.
pub fn staying(states: u8) -> Table {
    let mut table = Table::new(2, 1, 1);
    table.processes[1].all = states;
    let first = table.letter(0b01);
    let both = table.letter(0b11);
    for letter in [first, both] {
        table.transition(letter, ZERO, ZERO);
    }
    table.accepting.push(group(&[0, 0]));
    table.pile = vec![first, both];
    table
}

/// The rule moves process 1 to state 1 and writes a letter of process 0, with which the automaton
/// stays in state 0. So the start is accepted in a copied state of process 0 and a plain one of
/// process 1, and in no other group.
pub fn mixed_goal() -> Table {
    let mut table = Table::new(2, 2, 2);
    let first = table.letter(0b01);
    let both = table.letter(0b11);
    table.rule(both, ZERO, group(&[0, 1]), &[first]);
    table.transition(first, ZERO, ZERO);
    table.accepting.push(group(&[0, 1]));
    table.pile = vec![both, first];
    table
}

/// One process of one state; rule i writes letter i+1 twice, the last rule none.
pub fn doubling(letters: u8) -> Table {
    let mut table = Table::new(1, 1, 1);
    for _ in 0..letters {
        table.letter(1);
    }
    for letter in 0..letters - 1 {
        table.rule(letter, ZERO, ZERO, &[letter + 1; 2]);
    }
    table.rule(letters - 1, ZERO, ZERO, &[]);
    table.accepting.push(group(&[0]));
    table.pile.push(0);
    table
}

/// Doubling with 3 letters and a start pile of `height` last letters; 65 are refused 4.
pub fn start_pile(height: usize) -> Table {
    let mut table = doubling(3);
    table.pile = vec![2; height];
    table
}

/// One rule that writes a letter `count` times, one that removes it; a count of 7 is refused 5.
pub fn count(count: usize) -> Table {
    let mut table = Table::new(1, 1, 1);
    let many = table.letter(1);
    let one = table.letter(1);
    table.rule(many, ZERO, ZERO, &vec![one; count]);
    table.rule(one, ZERO, ZERO, &[]);
    table.accepting.push(group(&[0]));
    table.pile.push(many);
    table
}

/// Four processes of three states. Rule 0 replaces a letter of all four by six: one of each process
/// and two of two processes. Each of these has a rule that removes it and moves its processes on by
/// one state.
pub fn six_written() -> Table {
    let mut table = Table::new(4, 3, 3);
    let all = table.letter(0b1111);
    let singles = [0, 1, 2, 3].map(|process| table.letter(1 << process));
    let pairs = [0b0011, 0b1100].map(|bits| table.letter(bits));
    table.rule(all, ZERO, ZERO, &[&singles[..], &pairs].concat());
    for single in singles {
        table.rule(single, ZERO, ONE, &[]);
    }
    for pair in pairs {
        table.rule(pair, ONE, [2; 4], &[]);
    }
    table.accepting.push([2; 4]);
    table.pile.push(all);
    table
}

/// Rule 0 removes the one letter of process 0; process 1 has three letters, which no rule reads
/// and the automaton does.
pub fn idle_station() -> Table {
    let mut table = Table::new(2, 2, 2);
    table.processes[1].line = 1;
    let first = table.letter(0b01);
    let second = table.letter(0b10);
    table.rule(first, ZERO, ONE, &[]);
    table.transition(second, ZERO, ONE);
    table.transition(second, ONE, ONE);
    table.accepting.push(group(&[1, 1]));
    table.pile = vec![first, second, second, second];
    table
}

/// Four processes with one letter and four of its occurrences each, in turn; rules remove them.
pub fn spread_word() -> Table {
    let mut table = Table::new(4, 1, 1);
    let letters = [0, 1, 2, 3].map(|process| table.letter(1 << process));
    for letter in letters {
        table.rule(letter, ZERO, ZERO, &[]);
    }
    table.accepting.push(ZERO);
    table.pile = letters.repeat(4);
    table
}

/// The smallest accepted table: one process and its start.
pub fn smallest() -> Table {
    Table::new(1, 1, 1)
}

/// All small tables with their names.
pub fn all() -> Vec<(String, Table)> {
    let mut tables = vec![
        ("T".to_string(), t()),
        ("T without rule 2".to_string(), t_without_rule_2()),
        ("T without accepting".to_string(), t_without_accepting()),
        ("T at its goal".to_string(), t_at_goal()),
        ("re-entry".to_string(), re_entry()),
        ("mixed goal".to_string(), mixed_goal()),
        ("smallest".to_string(), smallest()),
        ("idle station".to_string(), idle_station()),
        ("spread word".to_string(), spread_word()),
        ("six written letters".to_string(), six_written()),
    ];
    for states in [3, 4, 5, 8] {
        tables.push((format!("re-entry, {states} states"), re_entry_of(states)));
    }
    for states in [1, 4, 5] {
        tables.push((format!("staying, {states} states"), staying(states)));
    }
    for letters in [1, 2, 3, 19, 20, 32] {
        tables.push((format!("doubling {letters}"), doubling(letters)));
    }
    for height in [0, 1, 64, 65] {
        tables.push((format!("start pile {height}"), start_pile(height)));
    }
    for written in 0..=WRITTEN_PLACES + 1 {
        tables.push((format!("count {written}"), count(written)));
    }
    tables
}
