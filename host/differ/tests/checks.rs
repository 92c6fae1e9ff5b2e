//! Checks on both sides: no difference, and every refusal seen.

mod common;

use common::{
    beside_the_rust, fixed_by_its_seed, never, refused, run, seen, BAD_HEADERS, GOOD_HEADERS,
};
use differ::checks::MODULE;

#[test]
fn no_difference_in_any_check() {
    let coverage = run(&MODULE, 1, 10_000);
    println!("{}", coverage);
    for number in [0, 1, 2, 3, 4, 10, 11] {
        seen(
            &coverage,
            number,
            &["call header_check", "call certificate_check"],
        );
    }
    for number in [0, 2, 4, 10, 11] {
        seen(&coverage, number, &["call vote_check"]);
    }
    let entries = ["certificate_check", "header_check", "vote_check"];
    for number in [0, 2, 4] {
        beside_the_rust(&coverage, number, 500, &entries);
    }
    for number in [1, 3] {
        beside_the_rust(&coverage, number, 300, &entries[..2]);
    }
    for number in [5, 7] {
        beside_the_rust(&coverage, number, 100, &entries[..1]);
        seen(&coverage, number, &["call certificate_check"]);
        never(&coverage, number, &["call header_check", "call vote_check"]);
    }
}

#[test]
fn every_kind_of_voters_is_tried() {
    let coverage = run(&MODULE, 2, 10_000);
    seen(&coverage, 5, &["voters: one twice"]);
    seen(&coverage, 7, &["voters: some members"]);
    seen(
        &coverage,
        0,
        &["voters: all members", "voters: just a quorum"],
    );
    seen(&coverage, 2, &["voters: a stranger", "voters: 64"]);
    seen(&coverage, 2, &["voters: a stranger twice"]);
    seen(&coverage, 7, &["voters: one short of a quorum"]);
    seen(&coverage, 4, &["batch: a signature spoilt"]);
    let bad = ["voters: one twice", "voters: one short of a quorum"];
    never(&coverage, 0, &bad);
}

#[test]
fn every_kind_of_header_and_verdict_is_tried() {
    let coverage = run(&MODULE, 3, 10_000);
    seen(&coverage, 0, GOOD_HEADERS);
    seen(&coverage, 0, &["verdict: yes", "workers: the author's"]);
    seen(&coverage, 1, &["id: wrong"]);
    seen(&coverage, 3, &["workers: any"]);
    seen(&coverage, 4, &["signature: another's"]);
    refused(&coverage, 11, BAD_HEADERS);
    let outside = [
        "verdict: over 1",
        "vote: not 104 bytes",
        "round: 0",
        "round: over 32 bits",
        "certificate: 65 votes or more",
        "certificate: cut short",
        "certificate: grown",
        "certificate: noise",
    ];
    refused(&coverage, 11, &outside);
}

#[test]
fn a_seed_fixes_the_run() {
    fixed_by_its_seed(&MODULE)
}
