//! State groups and location sets, packed into one nibble per process.

/// How many processes (document 01: stations) a group has room for.
pub const PROCESSES: usize = 4;

/// The byte of a process that has no part.
pub const NO_PART: u8 = 0xFF;

/// The processes of a letter: nibble `F` for a process that has part, `0` else; process 0 is
/// the highest nibble.
#[derive(Clone, Copy, PartialEq, Eq, Debug)]
pub struct Locations(u16);

impl Locations {
    /// From the station bits of kind 2.
    pub fn from_bits(bits: u8) -> Self {
        let nibble = |process: usize| match bits >> process & 1 {
            1 => 0xF000 >> (4 * process),
            _ => 0,
        };
        Locations((0..PROCESSES).map(nibble).sum())
    }

    /// The station bits of kind 2.
    pub fn to_bits(self) -> u8 {
        let own = (0..PROCESSES).filter(|&process| self.contains(process));
        own.map(|process| 1 << process).sum()
    }

    pub fn contains(self, process: usize) -> bool {
        self.0 >> (12 - 4 * process) & 1 == 1
    }

    pub fn is_subset(self, other: Locations) -> bool {
        self.0 & !other.0 == 0
    }

    pub fn is_disjoint(self, other: Locations) -> bool {
        self.0 & other.0 == 0
    }
}

/// The bit of each nibble that marks a copied state.
const MARKS: u16 = 0x8888;

/// A local state: one that the table has, by its number, or the copy of it (request 2.6).
#[derive(Clone, Copy, PartialEq, Eq, Debug)]
pub enum State {
    Plain(u8),
    Copied(u8),
}

/// A state group: one local state per process, `F` for a process that has no part. A nibble has
/// the state's number, which is below 8, or below 4 beside a mark, so that `F` is no state. The
/// order of the packed numbers is the order of the groups: process 0 first, plain states before
/// copied ones.
#[derive(Clone, Copy, PartialEq, Eq, PartialOrd, Ord, Debug)]
pub struct Group(u16);

impl Group {
    /// A group of plain states; `FF` becomes the nibble `F`.
    pub fn from_bytes(bytes: [u8; PROCESSES]) -> Self {
        let push = |packed: u16, byte: &u8| packed << 4 | u16::from(byte & 0xF);
        Group(bytes.iter().fold(0, push))
    }

    /// The state of each process that has part.
    pub fn states(self) -> [Option<State>; PROCESSES] {
        std::array::from_fn(|process| match (self.0 >> (12 - 4 * process) & 0xF) as u8 {
            0xF => None,
            number @ 0..8 => Some(State::Plain(number)),
            marked => Some(State::Copied(marked & 0x7)),
        })
    }

    /// The group with copied states at `locations`.
    pub fn copied(self, locations: Locations) -> Group {
        Group(self.0 | locations.0 & MARKS)
    }

    /// The group with plain states at `locations`.
    pub fn plain(self, locations: Locations) -> Group {
        Group(self.0 & !(locations.0 & MARKS))
    }

    /// The part of the group that belongs to `locations`.
    pub fn restrict(self, locations: Locations) -> Group {
        Group(self.0 | !locations.0)
    }

    /// The group with the states at `locations` taken from `part`.
    pub fn replace(self, locations: Locations, part: Group) -> Group {
        Group(self.0 & !locations.0 | part.0 & locations.0)
    }

    pub fn packed(self) -> u16 {
        self.0
    }
}

/// A set of groups, one bit for each packed number.
pub struct GroupSet(Vec<u64>);

impl GroupSet {
    pub fn new() -> Self {
        GroupSet(vec![0; 1 << 10])
    }

    /// True if the group was not in the set before.
    pub fn insert(&mut self, group: Group) -> bool {
        let (word, bit) = Self::index(group);
        let fresh = self.0[word] & bit == 0;
        self.0[word] |= bit;
        fresh
    }

    pub fn remove(&mut self, group: Group) {
        let (word, bit) = Self::index(group);
        self.0[word] &= !bit;
    }

    pub fn contains(&self, group: Group) -> bool {
        let (word, bit) = Self::index(group);
        self.0[word] & bit != 0
    }

    fn index(group: Group) -> (usize, u64) {
        (usize::from(group.0 >> 6), 1 << (group.0 & 63))
    }
}
