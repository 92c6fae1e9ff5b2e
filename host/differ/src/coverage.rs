//! How often each call and each kind of input had each answer number.

use std::collections::{BTreeMap, BTreeSet};
use std::fmt;
use tundrimela::raw::Answer;

#[derive(Default)]
pub struct Coverage {
    counts: BTreeMap<(String, u8), u64>,
    calls: u64,
}

impl Coverage {
    /// Notes one call: its entry, the kinds of its inputs, and its answer. A value of 0 is
    /// noted apart, since for some calls it means no.
    pub fn note(&mut self, entry: &str, kinds: &[&str], answer: Answer) {
        self.calls += 1;
        self.add(format!("call {}", entry), answer.number);
        if answer == Answer::done(0) {
            self.add(format!("call {}, value 0", entry), 0);
        }
        for kind in kinds {
            self.add(kind.to_string(), answer.number);
        }
    }

    /// Notes that the Rust was asked the same and gave this answer.
    pub fn beside_the_rust(&mut self, entry: &str, answer: Answer) {
        self.add(format!("Rust {}", entry), answer.number)
    }

    fn add(&mut self, what: String, number: u8) {
        *self.counts.entry((what, number)).or_default() += 1
    }

    pub fn calls(&self) -> u64 {
        self.calls
    }

    /// How often a call, as `call stake`, or a kind of input was answered with this number.
    pub fn count(&self, what: &str, number: u8) -> u64 {
        let key = (what.to_string(), number);
        self.counts.get(&key).copied().unwrap_or(0)
    }

    /// All that was noted with this number.
    pub fn with(&self, number: u8) -> BTreeSet<&str> {
        let keys = self.counts.keys();
        keys.filter(|key| key.1 == number)
            .map(|key| key.0.as_str())
            .collect()
    }
}

/// A table: a line for each call and kind, a column for each number.
impl fmt::Display for Coverage {
    fn fmt(&self, f: &mut fmt::Formatter) -> fmt::Result {
        let lines: BTreeSet<_> = self.counts.keys().map(|key| &key.0).collect();
        let numbers: BTreeSet<_> = self.counts.keys().map(|key| key.1).collect();
        write!(f, "{:<36}", format!("{} calls, answered with", self.calls))?;
        for number in &numbers {
            write!(f, "{:>10}", number)?;
        }
        for line in lines {
            write!(f, "\n{:<36}", line)?;
            for number in &numbers {
                write!(f, "{:>10}", self.count(line, *number))?;
            }
        }
        Ok(())
    }
}

#[cfg(test)]
mod tests {
    use super::*;
    use tundrimela::Refusal;

    #[test]
    fn a_call_counts_once_for_each_kind() {
        let mut coverage = Coverage::default();
        coverage.note("stake", &["key: a member's"], Answer::done(7));
        coverage.note("stake", &["key: any"], Answer::done(0));
        coverage.note("stake", &["key: short"], Answer::refused(Refusal::BadShape));
        assert_eq!(coverage.calls(), 3);
        assert_eq!(coverage.count("call stake", 0), 2);
        assert_eq!(coverage.count("call stake, value 0", 0), 1);
        assert_eq!(coverage.count("call stake", 10), 0);
        let refused: Vec<_> = coverage.with(11).into_iter().collect();
        assert_eq!(refused, ["call stake", "key: short"]);
        assert_eq!(coverage.to_string().lines().count(), 6);
    }
}
