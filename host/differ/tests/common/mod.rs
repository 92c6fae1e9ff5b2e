//! What the runs of all modules are asked. Each test file uses a part of it.

#![allow(dead_code)]

use differ::coverage::Coverage;
use differ::Module;

pub fn run(module: &Module, seed: u64, count: u64) -> Coverage {
    let run = module.run(seed, 0, count);
    run.unwrap_or_else(|difference| panic!("{}", difference))
}

/// Each of these was answered with the number at least once.
pub fn seen(coverage: &Coverage, number: u8, words: &[&str]) {
    for what in words {
        assert!(coverage.count(what, number) > 0, "{} {}", what, number);
    }
}

/// None of these was ever answered with the number.
pub fn never(coverage: &Coverage, number: u8, words: &[&str]) {
    for what in words {
        assert_eq!(coverage.count(what, number), 0, "{} {}", what, number);
    }
}

/// Each of these was answered, and was refused with the number.
pub fn both(coverage: &Coverage, number: u8, words: &[&str]) {
    seen(coverage, 0, words);
    seen(coverage, number, words);
}

/// Each of these was refused with the number and never answered.
pub fn refused(coverage: &Coverage, number: u8, words: &[&str]) {
    seen(coverage, number, words);
    never(coverage, 0, words);
}

/// The Rust was asked the same at least so often, with this answer.
pub fn beside_the_rust(coverage: &Coverage, number: u8, least: u64, entries: &[&str]) {
    for entry in entries {
        let count = coverage.count(&format!("Rust {}", entry), number);
        assert!(count >= least, "{} {}: {} times", entry, number, count);
    }
}

/// A seed fixes a run, and another seed gives another one.
pub fn fixed_by_its_seed(module: &Module) {
    let table = |seed| run(module, seed, 200).to_string();
    assert_eq!(table(4), table(4));
    assert_ne!(table(4), table(5));
}

pub const GOOD_HEADERS: &[&str] = &[
    "header: any of the domain",
    "header: 32 parents",
    "header: 64 batches",
    "header: no parents, no batches",
    "header: the last round",
];

pub const BAD_HEADERS: &[&str] = &[
    "header: round 0",
    "header: round over 32 bits",
    "header: 33 parents or more",
    "header: 65 batches or more",
    "header: equal parents",
    "header: falling parents",
    "header: equal batches",
    "header: falling batches",
    "header: cut short",
    "header: grown",
    "header: noise",
];
