//! Parents, payload and the known table on both sides: no difference, and every answer seen.

mod common;

use common::{
    beside_the_rust, both, fixed_by_its_seed, never, refused, run, seen, BAD_HEADERS, GOOD_HEADERS,
};
use differ::synchronizer::MODULE;

const PARENTS: [&str; 2] = ["call get_parents", "call deliver"];
const OTHERS: [&str; 2] = ["call missing_payload", "call learn"];

#[test]
fn no_difference_in_any_call() {
    let coverage = run(&MODULE, 1, 10_000);
    println!("{}", coverage);
    both(&coverage, 11, &PARENTS);
    both(&coverage, 11, &OTHERS);
    let entries = ["get_parents", "deliver", "missing_payload"];
    beside_the_rust(&coverage, 0, 2_000, &entries);
    seen(&coverage, 10, &PARENTS);
    never(&coverage, 10, &OTHERS);
    seen(&coverage, 12, &["call learn"]);
    never(&coverage, 12, &PARENTS);
    for call in PARENTS.iter().chain(&OTHERS) {
        let zero = coverage.count(&format!("{}, value 0", call), 0);
        assert!((1..coverage.count(call, 0)).contains(&zero), "{}", call);
    }
}

#[test]
fn every_kind_of_genesis_and_header_is_tried() {
    let coverage = run(&MODULE, 2, 5_000);
    seen(&coverage, 0, GOOD_HEADERS);
    refused(&coverage, 11, BAD_HEADERS);
    seen(
        &coverage,
        0,
        &["genesis: the Rust's", "genesis: other digests"],
    );
    let outside = [
        "genesis: a round over 0",
        "genesis: another key",
        "genesis: equal digests",
        "genesis: a record fewer",
        "genesis: cut short",
        "genesis: grown",
        "genesis: noise",
    ];
    refused(&coverage, 11, &outside);
    both(&coverage, 11, &["genesis: a bit flipped"]);
}

#[test]
fn every_kind_of_table_pair_and_buffer_is_tried() {
    let coverage = run(&MODULE, 3, 5_000);
    seen(
        &coverage,
        0,
        &["table: empty", "table: some rows", "table: full"],
    );
    both(&coverage, 11, &["table: a bit flipped"]);
    seen(&coverage, 12, &["table: full"]);
    never(&coverage, 12, &["table: some rows", "table: empty"]);
    seen(&coverage, 0, &["record: new", "record: known"]);
    seen(&coverage, 0, &["record: behind the rows in use"]);
    seen(&coverage, 0, &["pairs: none", "pairs: some"]);
    let outside = [
        "table: no place",
        "table: more rows than places",
        "table: cut short",
        "table: grown",
        "table: noise",
        "record: round 0",
        "record: not 68 bytes",
        "pairs: ragged",
        "own: not 32 bytes",
        "out: not 1,024 bytes",
        "out: not 2,304 bytes",
    ];
    refused(&coverage, 11, &outside);
}

#[test]
fn a_seed_fixes_the_run() {
    fixed_by_its_seed(&MODULE)
}
