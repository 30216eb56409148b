//! Named cases, and how often each was met.

use std::collections::BTreeMap;

#[derive(Default)]
pub struct Cases(BTreeMap<&'static str, usize>);

impl Cases {
    pub fn add(&mut self, tests: Vec<(&'static str, bool)>) {
        for (name, met) in tests {
            *self.0.entry(name).or_default() += usize::from(met);
        }
    }

    pub fn missed(&self) -> Vec<&'static str> {
        let missed = self.0.iter().filter(|case| *case.1 == 0);
        missed.map(|case| *case.0).collect()
    }
}
