//! How often each situation was met, and how often it must be.

use std::borrow::Cow;
use std::collections::BTreeMap;

#[derive(Default)]
pub struct Counts(BTreeMap<Cow<'static, str>, usize>);

impl Counts {
    pub fn meet(&mut self, situation: impl Into<Cow<'static, str>>) {
        *self.0.entry(situation.into()).or_default() += 1;
    }

    /// How often the situation was met.
    fn of(&self, situation: &str) -> usize {
        self.0.get(situation).copied().unwrap_or(0)
    }

    pub fn add(&mut self, other: Counts) {
        for (situation, count) in other.0 {
            *self.0.entry(situation).or_default() += count;
        }
    }

    /// Prints how often each situation was met; gives how many were met less often than demanded.
    pub fn demand(&self, situations: &[Demand]) -> usize {
        let mut missing = 0;
        for Demand { name, least } in situations {
            let count = self.of(name);
            let enough = count >= *least;
            missing += usize::from(!enough);
            let note = if enough { "" } else { ", which is too few" };
            println!("{count:8} {name}{note}");
        }
        missing
    }
}

/// A situation that a comparison is for, and how often it must be met at least.
pub struct Demand {
    name: Cow<'static, str>,
    least: usize,
}

impl Demand {
    pub fn new(name: impl Into<Cow<'static, str>>, least: usize) -> Self {
        Demand {
            name: name.into(),
            least,
        }
    }

    pub fn once(name: impl Into<Cow<'static, str>>) -> Self {
        Demand::new(name, 1)
    }
}
