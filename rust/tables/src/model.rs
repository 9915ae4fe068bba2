//! A table in the open: its parts as plain values, and its bytes.

/// The byte of a process that has no part, and of a spare written place.
pub const NO_PART: u8 = 0xFF;

/// The most letters that a rule writes: a rule's body has a place for each.
pub const WRITTEN_PLACES: usize = 6;
/// Where the count of written letters and their places stand in a rule's body.
pub(crate) const COUNT: usize = 9;
const WRITTEN: usize = COUNT + 1;

/// The length of an item's body by its kind.
pub const BODY: [usize; 9] = [0, 2, 1, WRITTEN + WRITTEN_PLACES, 9, 4, 4, 1, 0];

/// A state group, one byte for each process.
pub type Group = [u8; 4];

/// A process (document 01: station) with its line states and its states in all.
#[derive(Clone, Copy, PartialEq, Eq, Debug)]
pub struct Process {
    pub line: u8,
    pub all: u8,
}

#[derive(Clone, PartialEq, Eq, Debug)]
pub struct Rule {
    pub letter: u8,
    pub before: Group,
    pub after: Group,
    /// The written letters, top first.
    pub written: Vec<u8>,
}

/// A watch transition.
#[derive(Clone, Copy, PartialEq, Eq, PartialOrd, Ord, Hash, Debug)]
pub struct Transition {
    pub letter: u8,
    pub before: Group,
    pub after: Group,
}

/// A table; nothing makes sure that it is an accepted one.
#[derive(Clone, PartialEq, Eq, Debug)]
pub struct Table {
    pub processes: Vec<Process>,
    /// The process bits of each letter (document 01: task), bit 0 is process 0.
    pub letters: Vec<u8>,
    pub rules: Vec<Rule>,
    pub watch: Vec<Transition>,
    pub accepting: Vec<Group>,
    pub start: Group,
    /// The start pile, top first.
    pub pile: Vec<u8>,
}

impl Table {
    /// A table of `count` like processes, all of them starting in state 0.
    pub fn new(count: usize, line: u8, all: u8) -> Self {
        Table {
            processes: vec![Process { line, all }; count],
            letters: Vec::new(),
            rules: Vec::new(),
            watch: Vec::new(),
            accepting: Vec::new(),
            start: group(&vec![0; count]),
            pile: Vec::new(),
        }
    }

    /// Reads the bytes of an accepted table.
    pub fn read(bytes: &[u8]) -> Self {
        let mut table = Table::new(0, 0, 0);
        let mut rest = bytes;
        while let Some((&kind, behind)) = rest.split_first() {
            let (body, next) = behind.split_at(BODY[usize::from(kind)]);
            table.add(kind, body);
            rest = next;
        }
        table
    }

    /// Adds an item.
    fn add(&mut self, kind: u8, body: &[u8]) {
        match kind {
            1 => self.processes.push(Process {
                line: body[0],
                all: body[1],
            }),
            2 => self.letters.push(body[0]),
            3 => self.rules.push(Rule {
                letter: body[0],
                before: group(&body[1..5]),
                after: group(&body[5..9]),
                written: body[WRITTEN..][..usize::from(body[COUNT])].to_vec(),
            }),
            4 => self.watch.push(Transition {
                letter: body[0],
                before: group(&body[1..5]),
                after: group(&body[5..9]),
            }),
            5 => self.accepting.push(group(body)),
            6 => self.start = group(body),
            7 => self.pile.push(body[0]),
            _ => (),
        }
    }

    /// Adds a letter and gives its number.
    pub fn letter(&mut self, bits: u8) -> u8 {
        self.letters.push(bits);
        (self.letters.len() - 1) as u8
    }

    /// Adds a rule; of the groups only the letter's part is taken.
    pub fn rule(&mut self, letter: u8, before: Group, after: Group, written: &[u8]) {
        let bits = self.letters[usize::from(letter)];
        self.rules.push(Rule {
            letter,
            before: restrict(before, bits),
            after: restrict(after, bits),
            written: written.to_vec(),
        });
    }

    /// Adds a watch transition; of the groups only the letter's part is taken.
    pub fn transition(&mut self, letter: u8, before: Group, after: Group) {
        let bits = self.letters[usize::from(letter)];
        self.watch.push(Transition {
            letter,
            before: restrict(before, bits),
            after: restrict(after, bits),
        });
    }

    /// The bits of all processes.
    pub fn everyone(&self) -> u8 {
        (1 << self.processes.len()) - 1
    }

    /// The table's items in file order, each with its kind byte.
    pub fn items(&self) -> Vec<Vec<u8>> {
        let mut items = Vec::new();
        items.extend(self.processes.iter().map(|p| vec![1, p.line, p.all]));
        items.extend(self.letters.iter().map(|&bits| vec![2, bits]));
        items.extend(self.rules.iter().map(rule_item));
        items.extend(self.watch.iter().map(watch_item));
        items.extend(
            self.accepting
                .iter()
                .map(|group| [&[5], &group[..]].concat()),
        );
        items.push([&[6], &self.start[..]].concat());
        items.extend(self.pile.iter().map(|&letter| vec![7, letter]));
        items.push(vec![8]);
        items
    }

    pub fn bytes(&self) -> Vec<u8> {
        self.items().concat()
    }
}

/// A rule's item. More written letters than places give their count and as many as have a place.
fn rule_item(rule: &Rule) -> Vec<u8> {
    let mut item = vec![3, rule.letter];
    item.extend(rule.before);
    item.extend(rule.after);
    item.push(rule.written.len() as u8);
    item.extend((0..WRITTEN_PLACES).map(|place| rule.written.get(place).unwrap_or(&NO_PART)));
    item
}

fn watch_item(watch: &Transition) -> Vec<u8> {
    let mut item = vec![4, watch.letter];
    item.extend(watch.before);
    item.extend(watch.after);
    item
}

/// The group with these states at the first processes and no part elsewhere.
pub fn group(states: &[u8]) -> Group {
    std::array::from_fn(|process| states.get(process).copied().unwrap_or(NO_PART))
}

/// The part of a group that belongs to the processes of `bits`.
pub fn restrict(group: Group, bits: u8) -> Group {
    std::array::from_fn(|process| match bits >> process & 1 {
        1 => group[process],
        _ => NO_PART,
    })
}

/// The states with those of `part` where it has any.
pub fn overlay(states: Group, part: Group) -> Group {
    std::array::from_fn(|process| match part[process] {
        NO_PART => states[process],
        state => state,
    })
}

/// Takes the last item back if the items held it before.
pub fn drop_twin<T: PartialEq>(items: &mut Vec<T>) {
    if let Some((last, others)) = items.split_last()
        && others.contains(last)
    {
        items.pop();
    }
}
