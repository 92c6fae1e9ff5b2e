//! The proposer on both sides: no difference in any header, and every answer seen.

mod common;

use common::{beside_the_rust, fixed_by_its_seed, never, refused, run, seen};
use differ::proposer::MODULE;

const CALLS: [&str; 2] = ["call proposer_start", "call proposer_event"];

#[test]
fn no_difference_in_any_header() {
    let coverage = run(&MODULE, 1, 2_000);
    println!("{}", coverage);
    for number in [0, 11] {
        seen(&coverage, number, &CALLS);
    }
    beside_the_rust(&coverage, 0, 300, &["proposer_start"]);
    beside_the_rust(&coverage, 0, 3_000, &["proposer_event"]);
    seen(&coverage, 10, &CALLS[..1]);
    never(&coverage, 10, &CALLS[1..]);
    seen(&coverage, 12, &CALLS[1..]);
    never(&coverage, 12, &CALLS[..1]);
    for call in CALLS {
        let zero = coverage.count(&format!("{}, value 0", call), 0);
        assert!((1..coverage.count(call, 0)).contains(&zero), "{}", call);
    }
}

#[test]
fn every_kind_of_event_is_tried() {
    let coverage = run(&MODULE, 2, 600);
    let taken = [
        "event: timer",
        "parents: of the round",
        "parents: of a round above",
        "parents: of a round below",
        "parents: of round 0",
        "parents: p 4,294,967,294",
        "digest: new",
        "digest: given before",
        "timer: run out",
        "timer: runs",
        "state: of a run",
        "state: any",
    ];
    seen(&coverage, 0, &taken);
    seen(&coverage, 12, &["state: of a run", "state: any"]);
    let outside = [
        "event: another tag",
        "parents: p over 32 bits",
        "parents: p 4,294,967,295",
        "parents: 33",
        "parents: ragged",
        "digest: not 32 bytes",
        "digest: worker over 32 bits",
        "size: over 32 bits",
        "timer: over 1",
        "header: not 3,402 bytes",
        "state: round 0",
        "state: 33 parents or more",
        "state: 65 digests or more",
        "state: not 3,366 bytes",
    ];
    refused(&coverage, 11, &outside);
}

#[test]
fn every_kind_of_start_is_tried() {
    let coverage = run(&MODULE, 3, 600);
    let taken = [
        "own: a member",
        "genesis: the Rust's",
        "genesis: other digests",
    ];
    seen(&coverage, 0, &taken);
    refused(&coverage, 10, &["own: a stranger"]);
    let outside = [
        "own: not 32 bytes",
        "genesis: a round over 0",
        "genesis: another key",
        "genesis: equal digests",
        "genesis: a record fewer",
    ];
    refused(&coverage, 11, &outside);
}

#[test]
fn a_seed_fixes_the_run() {
    fixed_by_its_seed(&MODULE)
}
