//! Named tables that must meet a refusal, and re-entries refused for processes without part.

use crate::Counts;
use tables::{BODY, Table, damage};

/// The name of a table, and the number and the place of its refusal.
type Refused = (&'static str, u8, usize);

const REFUSED: [Refused; 4] = [
    (damage::OLD_T, 5, 12),
    ("count 7", 5, 7),
    ("re-entry, 5 states", 7, 24),
    ("staying, 5 states", 7, 10),
];

const RE_ENTRY: u8 = 7;
const OUTSIDE: &str = "refused 7 by processes outside the letter";
/// The length of a watch transition's item.
const WATCH_ITEM: usize = 1 + BODY[4];

/// The situations that a comparison of refusals is for.
pub fn refusal_situations() -> impl Iterator<Item = String> {
    let named = REFUSED.iter().map(situation);
    named.chain([OUTSIDE.to_string()])
}

/// Counts the refusal of a table, if it is the one that the table's name asks for, or if it is for
/// the states of processes that the refused transition's letter has not.
pub fn note_refusal(name: &str, table: &[u8], number: u8, place: usize, counts: &mut Counts) {
    let met = REFUSED
        .iter()
        .find(|&&refused| refused == (name, number, place));
    if let Some(refused) = met {
        counts.meet(situation(refused));
    }
    if number == RE_ENTRY && is_outside(&table[..place + WATCH_ITEM]) {
        counts.meet(OUTSIDE);
    }
}

/// Whether the last item, a watch transition, has no process of more states than can be copied.
fn is_outside(items: &[u8]) -> bool {
    let table = Table::read(items);
    let last = table.watch.last().expect("a watch transition is refused");
    table.letters[usize::from(last.letter)] & table.wide_processes() == 0
}

fn situation((name, number, place): &Refused) -> String {
    format!("{name}, refused {number} at {place}")
}
