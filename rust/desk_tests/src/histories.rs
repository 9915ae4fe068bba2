//! The histories of a desk, as this program keeps them.

use crate::desks::Call;
use second_engine::NAMES;

#[derive(Default)]
pub struct Histories {
    pub current: Vec<u16>,
    /// What was the current one when the desk was opened or last returned.
    pub origin: Vec<u16>,
    /// The history noted under each name that is held.
    pub noted: [Option<Vec<u16>>; NAMES],
    /// How often each name was returned to since it was saved.
    pub returns: [usize; NAMES],
    /// The last call that was not refused.
    pub last: Option<Call>,
}

impl Histories {
    /// Follows a call that was not refused.
    pub fn keep(&mut self, call: Call) {
        match call {
            Call::Fire(rule) => self.current.push(rule),
            Call::Save(name) => {
                self.noted[usize::from(name)] = Some(self.current.clone());
                self.returns[usize::from(name)] = 0;
            }
            Call::Return(name) => {
                self.current = self.of(name).clone();
                self.origin = self.current.clone();
                self.returns[usize::from(name)] += 1;
            }
            Call::Forget(name) => self.noted[usize::from(name)] = None,
        }
        self.last = Some(call);
    }

    /// The history noted under a name that is held.
    pub fn of(&self, name: u8) -> &Vec<u16> {
        let noted = self.noted[usize::from(name)].as_ref();
        noted.expect("only a name that is held is returned to")
    }
}
