//! Counting on both sides: no difference, and every answer seen.

mod common;

use common::{beside_the_rust, fixed_by_its_seed, never, refused, run, seen};
use differ::aggregators::MODULE;

const CALLS: [&str; 2] = ["call count_vote", "call count_certificate"];

#[test]
fn no_difference_in_any_count() {
    let coverage = run(&MODULE, 1, 5_000);
    println!("{}", coverage);
    for number in [0, 10, 11, 12] {
        seen(&coverage, number, &CALLS);
    }
    beside_the_rust(&coverage, 0, 10_000, &["count_vote", "count_certificate"]);
    beside_the_rust(&coverage, 5, 10_000, &["count_vote"]);
    seen(&coverage, 5, &CALLS[..1]);
    never(&coverage, 5, &CALLS[1..]);
    for call in CALLS {
        let zero = coverage.count(&format!("{}, value 0", call), 0);
        assert!((1..coverage.count(call, 0)).contains(&zero), "{}", call);
    }
}

#[test]
fn every_kind_of_voters_and_counts_is_tried() {
    let coverage = run(&MODULE, 2, 2_000);
    let taken = [
        "voters: none yet",
        "voters: any",
        "counts: none yet",
        "counts: any",
    ];
    seen(&coverage, 0, &taken);
    seen(&coverage, 12, &taken);
    seen(&coverage, 12, &["table: full"]);
    seen(
        &coverage,
        0,
        &["table: some rows", "round: small", "round: the last"],
    );
    let outside = [
        "voters: 33 or more",
        "voters: not 1,025 bytes",
        "author: not 32 bytes",
        "counts: 33 pairs or more",
        "table: no place",
        "table: more rows than places",
        "table: cut short",
        "table: grown",
        "table: noise",
        "origin: not 32 bytes",
        "digest: not 32 bytes",
        "round: 0",
        "round: over 32 bits",
        "out: not 1,024 bytes",
    ];
    refused(&coverage, 11, &outside);
}

#[test]
fn a_seed_fixes_the_run() {
    fixed_by_its_seed(&MODULE)
}
