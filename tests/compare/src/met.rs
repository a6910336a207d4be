//! Outcomes by name, and how often each was met.

use std::fmt;

#[derive(Default, Clone)]
pub struct Counts(Vec<(&'static str, u64)>);

impl Counts {
    /// Of one case: every outcome in the same order, and whether it is met.
    pub fn count(&mut self, outcomes: impl Iterator<Item = (&'static str, bool)>) {
        for (place, (name, met)) in outcomes.enumerate() {
            if place == self.0.len() {
                self.0.push((name, 0));
            }
            self.0[place].1 += u64::from(met);
        }
    }

    /// The least that was met of any.
    pub fn least(&self) -> u64 {
        self.0.iter().map(|&(_, count)| count).min().unwrap_or(0)
    }
}

impl fmt::Debug for Counts {
    fn fmt(&self, f: &mut fmt::Formatter) -> fmt::Result {
        let named = self.0.iter().map(|(name, count)| format!("{name} {count}"));
        f.write_str(&named.collect::<Vec<_>>().join(", "))
    }
}
