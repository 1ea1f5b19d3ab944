//! Situations by name, and how often each was met. One that is listed and was never met fails a trial, so that a pass says something.

use std::collections::BTreeMap;
use std::fmt;

#[derive(Clone, Debug)]
pub struct Counts(BTreeMap<&'static str, u64>);

impl Counts {
    pub fn of(names: &[&'static str]) -> Counts {
        Counts(names.iter().map(|&name| (name, 0)).collect())
    }

    /// Counts a situation that is listed, if it is true here.
    pub fn met(&mut self, name: &'static str, true_here: bool) {
        let count = self.0.get_mut(name).unwrap_or_else(|| panic!("this is not listed: {name}"));
        *count += u64::from(true_here);
    }

    /// What has not been met.
    pub fn missing(&self) -> impl Iterator<Item = &'static str> {
        self.0.iter().filter(|(_, count)| **count == 0).map(|(name, _)| *name)
    }

    pub fn assert_complete(&self) {
        let missing: Vec<&str> = self.missing().collect();
        assert!(missing.is_empty(), "never met:\n  {}", missing.join("\n  "));
    }
}

impl fmt::Display for Counts {
    fn fmt(&self, f: &mut fmt::Formatter) -> fmt::Result {
        self.0.iter().try_for_each(|(name, count)| writeln!(f, "{count:8}  {name}"))
    }
}
