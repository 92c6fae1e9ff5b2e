//! Strings on both sides: their hashes are the Rust's digests, and every answer is seen.

mod common;

use common::{
    beside_the_rust, both, fixed_by_its_seed, refused, run, seen, BAD_HEADERS, GOOD_HEADERS,
};
use differ::messages::MODULE;

const CALLS: [&str; 3] = [
    "call header_string",
    "call vote_string",
    "call certificate_string",
];

#[test]
fn no_difference_in_any_string() {
    let coverage = run(&MODULE, 1, 10_000);
    println!("{}", coverage);
    both(&coverage, 11, &CALLS);
    let entries = ["header_string", "vote_string", "certificate_string"];
    beside_the_rust(&coverage, 0, 2_000, &entries);
    assert_eq!(coverage.calls(), 30_000);
    let numbers = [0, 11].map(|number| CALLS.map(|call| coverage.count(call, number)));
    let counted: u64 = numbers.iter().flatten().sum();
    assert_eq!(counted, 30_000, "no other number is answered");
}

#[test]
fn every_kind_of_header_and_buffer_is_tried() {
    let coverage = run(&MODULE, 2, 5_000);
    seen(&coverage, 0, GOOD_HEADERS);
    refused(&coverage, 11, BAD_HEADERS);
    both(&coverage, 11, &["header: a bit flipped"]);
    seen(&coverage, 0, &["header: 32 parents, 64 batches"]);
    seen(
        &coverage,
        0,
        &["room: exact", "room: to the end", "room: within"],
    );
    let too_short = [
        "room: a byte short",
        "room: a byte short from within",
        "room: none",
        "room: from past the end",
        "room: at wraps",
    ];
    refused(&coverage, 11, &too_short);
}

#[test]
fn every_kind_of_id_origin_and_round_is_tried() {
    let coverage = run(&MODULE, 3, 5_000);
    seen(&coverage, 0, &["id: 32 bytes", "origin: 32 bytes"]);
    seen(
        &coverage,
        0,
        &["round: small", "round: any", "round: the last"],
    );
    let outside = [
        "id: not 32 bytes",
        "origin: not 32 bytes",
        "round: 0",
        "round: over 32 bits",
    ];
    refused(&coverage, 11, &outside);
}

#[test]
fn a_seed_fixes_the_run() {
    fixed_by_its_seed(&MODULE)
}
