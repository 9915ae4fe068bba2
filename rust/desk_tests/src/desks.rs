//! A desk of each engine, called alike: what they give and where they stand.

use second_engine::Refusal;
use std::fmt::Debug;

/// A call that changes a desk.
#[derive(Clone, Copy, PartialEq, Eq, Debug)]
pub enum Call {
    Fire(u16),
    Save(u8),
    Return(u8),
    Forget(u8),
}

impl Call {
    pub fn name(self) -> &'static str {
        match self {
            Call::Fire(_) => "fire",
            Call::Save(_) => "save",
            Call::Return(_) => "return",
            Call::Forget(_) => "forget",
        }
    }
}

/// Where a desk stands, and what it has counted.
#[derive(Clone, PartialEq, Eq, Debug)]
pub struct Stand {
    pub states: [u8; 4],
    /// The whole pile, top first.
    pub pile: Vec<u8>,
    pub counts: [usize; 4],
}

/// What a call gives: the bits of the processes that took part, which only a fire has, or its
/// refusal.
pub type Given = Result<u8, Refusal>;

/// Two desks on one table. Where they differ, a call fails with the text of the difference.
pub struct Desks {
    ours: roskavel::Desk,
    pub second: second_engine::Desk,
}

impl Desks {
    /// Opens both desks, or gives the refusal of both.
    pub fn open(table: &[u8]) -> Result<Result<Desks, Refusal>, String> {
        let ours = roskavel::Desk::open(table).map_err(refusal_of);
        let second = second_engine::Desk::open(table);
        match (ours, second) {
            (Ok(ours), Ok(second)) => Ok(Ok(Desks { ours, second })),
            (Err(ours), Err(second)) if ours == second => Ok(Err(ours)),
            (ours, second) => Err(difference("opening", ours.err(), second.err())),
        }
    }

    /// Makes a call at both desks; gives what they give.
    pub fn call(&mut self, call: Call) -> Result<Given, String> {
        let ours = match call {
            Call::Fire(rule) => self.ours.fire(rule),
            Call::Save(name) => self.ours.save(name).map(|()| 0),
            Call::Return(name) => self.ours.return_to(name).map(|()| 0),
            Call::Forget(name) => self.ours.forget(name).map(|()| 0),
        };
        let second = match call {
            Call::Fire(rule) => self.second.fire(rule),
            Call::Save(name) => self.second.save(name).map(|()| 0),
            Call::Return(name) => self.second.return_to(name).map(|()| 0),
            Call::Forget(name) => self.second.forget(name).map(|()| 0),
        };
        same("call", ours.map_err(refusal_of), second)
    }

    /// Where both desks stand, and what both have counted.
    pub fn stand(&self) -> Result<Stand, String> {
        let sight = self.ours.look();
        let ours = Stand {
            states: sight.states,
            pile: sight.pile().to_vec(),
            counts: self.ours.counts(),
        };
        let second = Stand {
            states: self.second.states(),
            pile: self.second.pile(),
            counts: self.second.counts(),
        };
        same("standing", ours, second)
    }
}

/// What both engines have, or the text of their difference.
fn same<T: PartialEq + Debug>(what: &str, ours: T, second: T) -> Result<T, String> {
    if ours == second {
        Ok(ours)
    } else {
        Err(difference(what, ours, second))
    }
}

fn difference(what: &str, ours: impl Debug, second: impl Debug) -> String {
    format!("{what}\nours   {ours:?}\nsecond {second:?}\n")
}

fn refusal_of(refusal: roskavel::Refusal) -> Refusal {
    Refusal {
        number: refusal.number(),
        place: refusal.place,
    }
}
