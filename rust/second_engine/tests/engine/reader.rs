//! A second reading of refusals 1 to 9: every condition for itself, tried in the order that
//! document 01 gives, with the written places of request 2.4 and the re-entry of request 2.6.

use tables::WRITTEN_PLACES;

/// An item that all checks have passed, or the one under judgement; a cut one has a short body.
struct Item<'b> {
    kind: u8,
    body: &'b [u8],
}

const ORDER: [u8; 8] = [2, 3, 4, 1, 5, 6, 7, 8];

/// The refusal's number and place, if the table is refused.
pub fn judge(file: &[u8]) -> Option<(u8, usize)> {
    let mut earlier: Vec<Item> = Vec::new();
    let mut place = 0;
    while place < file.len() {
        if earlier.last().is_some_and(|item| item.kind == 8) {
            return Some((9, place));
        }
        let kind = file[place];
        let end = (place + 1 + body_length(kind)).min(file.len());
        let body = &file[place + 1..end];
        let item = Item { kind, body };
        if let Some(number) = ORDER.into_iter().find(|&no| meets(no, &earlier, &item)) {
            return Some((number, place));
        }
        earlier.push(item);
        place = end;
    }
    let ended = earlier.last().is_some_and(|item| item.kind == 8);
    (!ended).then_some((1, file.len()))
}

fn body_length(kind: u8) -> usize {
    match kind {
        1 => 2,
        2 | 7 => 1,
        3 => 10 + WRITTEN_PLACES,
        4 => 9,
        5 | 6 => 4,
        _ => 0,
    }
}

/// Whether the item meets a refusal, given that it meets none that is tried before.
fn meets(number: u8, earlier: &[Item], item: &Item) -> bool {
    let count = |kind: u8| earlier.iter().filter(|item| item.kind == kind).count();
    match number {
        2 => item.kind == 0 || item.kind > 8,
        3 => {
            let falls = earlier.iter().any(|other| other.kind > item.kind);
            let second = item.kind == 6 && count(6) > 0;
            let lone = item.kind != 1 && count(1) == 0;
            falls || second || lone || (item.kind >= 7 && count(6) == 0)
        }
        4 => match item.kind {
            1 => count(1) >= 4,
            2 => count(2) >= 32,
            3 => count(3) >= 200,
            4 => count(4) >= 200,
            5 => count(5) >= 64,
            7 => count(7) >= 64,
            _ => false,
        },
        1 => item.body.len() < body_length(item.kind),
        5 => !good_values(earlier, item),
        6 => item.kind == 3 && strays(earlier, item.body),
        7 => item.kind == 4 && re_enters(earlier, item.body) && has_wide(earlier),
        _ => {
            let same = |other: &Item| other.kind == item.kind && other.body == item.body;
            (3..=5).contains(&item.kind) && earlier.iter().any(same)
        }
    }
}

/// The line states and all states of each process.
fn processes(earlier: &[Item]) -> Vec<(u8, u8)> {
    let of = |item: &&Item| item.kind == 1;
    let states = |item: &Item| (item.body[0], item.body[1]);
    earlier.iter().filter(of).map(states).collect()
}

fn letters(earlier: &[Item]) -> Vec<u8> {
    let of = |item: &&Item| item.kind == 2;
    earlier.iter().filter(of).map(|item| item.body[0]).collect()
}

fn good_values(earlier: &[Item], item: &Item) -> bool {
    let body = item.body;
    let processes = processes(earlier);
    let letters = letters(earlier);
    let known = |letter: u8| usize::from(letter) < letters.len();
    // A group of the processes in `bits`, with states below q or below s.
    let group = |bytes: &[u8], bits: u8, line: bool| {
        (0..4).all(|index| match bits >> index & 1 {
            1 => {
                bytes[index]
                    < if line {
                        processes[index].0
                    } else {
                        processes[index].1
                    }
            }
            _ => bytes[index] == 255,
        })
    };
    let everyone = (1u8 << processes.len()) - 1;
    match item.kind {
        1 => (1..=8).contains(&body[0]) && (body[0]..=8).contains(&body[1]),
        2 => body[0] != 0 && body[0] & !everyone == 0,
        3 => {
            known(body[0]) && {
                let bits = letters[usize::from(body[0])];
                let count = usize::from(body[9]);
                group(&body[1..5], bits, true)
                    && group(&body[5..9], bits, true)
                    && count <= WRITTEN_PLACES
                    && (0..WRITTEN_PLACES).all(|place| match place < count {
                        true => known(body[10 + place]),
                        false => body[10 + place] == 255,
                    })
            }
        }
        4 => {
            known(body[0]) && {
                let bits = letters[usize::from(body[0])];
                group(&body[1..5], bits, false) && group(&body[5..9], bits, false)
            }
        }
        5 => group(body, everyone, false),
        6 => group(body, everyone, true),
        7 => known(body[0]),
        _ => true,
    }
}

fn strays(earlier: &[Item], body: &[u8]) -> bool {
    let letters = letters(earlier);
    let bits = letters[usize::from(body[0])];
    let written = &body[10..10 + usize::from(body[9])];
    let outside = |&letter: &u8| letters[usize::from(letter)] & !bits != 0;
    written.iter().any(outside)
}

fn re_enters(earlier: &[Item], body: &[u8]) -> bool {
    let bits = letters(earlier)[usize::from(body[0])];
    let mut states = processes(earlier).into_iter().enumerate();
    states.any(|(index, (line, _))| bits >> index & 1 == 1 && body[5 + index] < line)
}

/// Whether some process, whichever it is, has more than four states.
fn has_wide(earlier: &[Item]) -> bool {
    processes(earlier).iter().any(|&(_, all)| all > 4)
}
