//! The desk (requests 2.1 and 2.5): rules fired one by one, named configurations to return to, and
//! counts of steps. It keeps histories of fires alone: it walks the current one to see where it
//! stands, and counts in the fires since it was opened or last returned.

use crate::group::PROCESSES;
use crate::participation::{participants, step_counts};
use crate::table::Table;
use crate::walk::Configuration;
use crate::{Refusal, take_step};

/// The most letters of a desk's pile.
pub const DESK_PILE: usize = 256;
/// How many names a desk has.
pub const NAMES: usize = 8;
/// Where a desk's count stops.
pub const COUNT_CEILING: usize = 4_294_967_295;

const EMPTY_NAME: u8 = 17;
const BAD_NAME: u8 = 18;

/// The rules fired, the first one first.
type History = Vec<u16>;

/// A desk on an accepted table.
pub struct Desk {
    table: Table,
    current: History,
    /// The history noted under each name that is held.
    noted: [Option<History>; NAMES],
    /// The fires since the desk was opened or last returned.
    since: History,
    /// What it counted before these.
    before: [usize; PROCESSES],
}

impl Desk {
    /// Opens a desk: it stands at the start, no name held. Refused by 1 to 9, the only refusals
    /// with a place other than 0.
    pub fn open(table: &[u8]) -> Result<Desk, Refusal> {
        Desk::resume(table, [0; PROCESSES])
    }

    /// Opens a desk that has counted so many steps.
    pub fn resume(table: &[u8], counts: [usize; PROCESSES]) -> Result<Desk, Refusal> {
        Ok(Desk {
            table: Table::read(table)?,
            current: History::new(),
            noted: Default::default(),
            since: History::new(),
            before: counts,
        })
    }

    /// Fires a rule and gives the processes that took part as bits. Refused by 13, 12 and 14.
    pub fn fire(&mut self, rule: u16) -> Result<u8, Refusal> {
        let mut at = self.configuration();
        take_step(&self.table, &mut at, rule, DESK_PILE).map_err(refused)?;
        self.current.push(rule);
        self.since.push(rule);
        Ok(participants(&self.table, rule).to_bits())
    }

    /// Notes the current history under a name, in place of one noted before. Refused by 18.
    pub fn save(&mut self, name: u8) -> Result<(), Refusal> {
        let place = self.noted.get_mut(usize::from(name));
        *place.ok_or(refused(BAD_NAME))? = Some(self.current.clone());
        Ok(())
    }

    /// Makes the history noted under a name the current one; the counts begin again at 0. Refused
    /// by 18 and 17.
    pub fn return_to(&mut self, name: u8) -> Result<(), Refusal> {
        self.current = self.held(name)?.clone();
        self.since.clear();
        self.before = [0; PROCESSES];
        Ok(())
    }

    /// Forgets a name. Refused by 18 and 17.
    pub fn forget(&mut self, name: u8) -> Result<(), Refusal> {
        self.held(name)?;
        self.noted[usize::from(name)] = None;
        Ok(())
    }

    /// The state of each process, FF where the table lacks it.
    pub fn states(&self) -> [u8; 4] {
        self.table.numbers(self.configuration().states)
    }

    /// The pile's word, top first.
    pub fn pile(&self) -> Vec<u8> {
        self.configuration().pile().collect()
    }

    /// For each process the number of steps that it took part in since the desk was opened or last
    /// returned, at most the ceiling.
    pub fn counts(&self) -> [usize; PROCESSES] {
        let since = step_counts(&self.table, &self.since);
        std::array::from_fn(|process| COUNT_CEILING.min(self.before[process] + since[process]))
    }

    /// The numbers of the rules that fire here, whether or not the pile has room for what they
    /// write.
    pub fn firing(&self) -> Vec<u16> {
        let at = self.configuration();
        let rules = (0..).zip(&self.table.rules);
        rules
            .filter(|(_, rule)| at.redex(&self.table, rule).is_some())
            .map(|(number, _)| number)
            .collect()
    }

    /// How many letters each rule of the table writes.
    pub fn written(&self) -> Vec<usize> {
        let rules = self.table.rules.iter();
        rules.map(|rule| rule.written.len()).collect()
    }

    /// Where a walk of the current history stands.
    fn configuration(&self) -> Configuration {
        let mut at = Configuration::start(&self.table);
        for &rule in &self.current {
            let step = take_step(&self.table, &mut at, rule, DESK_PILE);
            step.expect("a rule of the history fires in its turn");
        }
        at
    }

    /// The history noted under a name.
    fn held(&self, name: u8) -> Result<&History, Refusal> {
        let place = self.noted.get(usize::from(name));
        let noted = place.ok_or(refused(BAD_NAME))?;
        noted.as_ref().ok_or(refused(EMPTY_NAME))
    }
}

/// A refusal of a desk that is open.
fn refused(number: u8) -> Refusal {
    Refusal { number, place: 0 }
}
