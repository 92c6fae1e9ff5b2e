//! Differential runs: the library beside the unmodified Rust, on the same inputs.
//!
//! A module of the library has one file here and one line in [`MODULES`]. Its function makes one
//! case from a generator of random numbers, asks both sides and compares. A run is the cases
//! that a seed gives, and ends at the first [`Difference`].

#![forbid(unsafe_code)]

pub mod aggregators;
pub mod call;
pub mod checks;
pub mod config;
pub mod coverage;
pub mod guarded;
pub mod headers;
pub mod listed;
pub mod made;
pub mod members;
pub mod messages;
pub mod numbers;
pub mod proposer;
pub mod records;
pub mod rng;
pub mod synchronizer;
pub mod tables;

use coverage::Coverage;
use rng::Rng;
use std::fmt;

/// The runs of one module of the library.
pub struct Module {
    pub name: &'static str,
    /// Tries one case and notes what it covers.
    pub case: fn(&mut Rng, &mut Coverage) -> Result<(), Difference>,
}

pub const MODULES: &[Module] = &[
    config::MODULE,
    messages::MODULE,
    checks::MODULE,
    aggregators::MODULE,
    synchronizer::MODULE,
    proposer::MODULE,
];

pub fn module(name: &str) -> Option<&'static Module> {
    MODULES.iter().find(|module| module.name == name)
}

/// A call on which the two sides differ, or that changed what it may not change.
#[derive(Debug, PartialEq, Eq)]
pub struct Difference(pub String);

/// A difference between the Rust and document 01, if they do not say the same.
pub fn agreed(same: bool, what: &str) -> Result<(), Difference> {
    same.then_some(()).ok_or_else(|| Difference(what.into()))
}

impl fmt::Display for Difference {
    fn fmt(&self, f: &mut fmt::Formatter) -> fmt::Result {
        f.write_str(&self.0)
    }
}

impl Module {
    /// Tries the cases `from`, `from + 1`, .. of a seed, `count` of them.
    pub fn run(&self, seed: u64, from: u64, count: u64) -> Result<Coverage, Difference> {
        let mut coverage = Coverage::default();
        for number in from..from + count {
            let mut rng = Rng::of_case(seed, number);
            (self.case)(&mut rng, &mut coverage).map_err(|difference| {
                let again = format!("differ {} --seed {} --from {}", self.name, seed, number);
                Difference(format!("{}\nagain: {} --count 1", difference, again))
            })?;
        }
        Ok(coverage)
    }
}
