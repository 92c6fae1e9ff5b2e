//! The committee on both sides: no difference, and every answer seen.

mod common;

use common::seen;
use differ::config::MODULE;
use differ::coverage::Coverage;
use oracle::committee::from_members;
use tundrimela::raw::{self, Answer};
use tundrimela::{Committee, Member};

fn run(seed: u64) -> Coverage {
    common::run(&MODULE, seed, 5_000)
}

#[test]
fn no_difference_in_any_call() {
    let coverage = run(1);
    println!("{}", coverage);
    let calls = [
        "call committee",
        "call setup",
        "call quorum",
        "call validity",
        "call stake",
        "call worker",
        "call leader",
    ];
    seen(&coverage, 0, &calls);
    seen(&coverage, 10, &calls);
    seen(&coverage, 11, &calls[4..]);
    for call in ["call stake", "call worker", "call leader"] {
        let zero = coverage.count(&format!("{}, value 0", call), 0);
        assert!((1..coverage.count(call, 0)).contains(&zero), "{}", call);
    }
    let eleven = coverage.with(11);
    assert!(calls[..4].iter().all(|call| !eleven.contains(call)));
}

#[test]
fn every_kind_of_list_is_tried() {
    let coverage = run(2);
    let of_the_domain = [
        "list: any of the domain",
        "list: 1 member",
        "list: 32 members",
        "list: total 16,777,216",
        "list: 8 workers each",
    ];
    let damaged = [
        "list: no member",
        "list: 33 members or more",
        "list: total 16,777,217",
        "list: total past 32 bits",
        "list: a stake of 0",
        "list: equal keys",
        "list: falling keys",
        "list: 9 workers or more",
        "list: cut short",
        "list: grown",
        "list: noise",
    ];
    seen(&coverage, 0, &of_the_domain);
    seen(&coverage, 10, &damaged);
    seen(&coverage, 0, &["list: a bit flipped"]);
    seen(&coverage, 10, &["list: a bit flipped"]);
    let answered = coverage.with(0);
    assert!(damaged.iter().all(|kind| !answered.contains(kind)));
}

#[test]
fn every_kind_of_key_id_and_round_is_tried() {
    let coverage = run(3);
    let taken = [
        "key: a member's",
        "key: a bit beside a member's",
        "key: any",
        "id: in a member's row",
        "id: any",
        "round: small",
        "round: the last",
        "round: any",
        "depth: any",
    ];
    let refused = [
        "key: not 32 bytes",
        "id: over 32 bits",
        "round: 0",
        "round: over 32 bits",
    ];
    seen(&coverage, 0, &taken);
    seen(&coverage, 11, &refused);
    seen(
        &coverage,
        10,
        &["depth: over 32 bits", "setup: under 8 bytes"],
    );
    let answered = coverage.with(0);
    assert!(refused.iter().all(|kind| !answered.contains(kind)));
}

#[test]
fn a_seed_fixes_the_run() {
    common::fixed_by_its_seed(&MODULE)
}

/// The thresholds are functions of the total alone, so one member is enough for all of them.
#[test]
fn the_thresholds_of_every_total() {
    let key = [1; 32];
    let mut rust = from_members([(key, 1, Vec::new())]);
    for stake in 1..=16_777_216 {
        let workers = Vec::new();
        let committee = Committee::new(&[Member {
            key,
            stake,
            workers,
        }])
        .unwrap();
        rust.authorities.values_mut().for_each(|x| x.stake = stake);
        let quorum = Answer::done(rust.quorum_threshold().into());
        let validity = Answer::done(rust.validity_threshold().into());
        assert_eq!(raw::quorum(committee.as_bytes()), quorum, "total {}", stake);
        assert_eq!(
            raw::validity(committee.as_bytes()),
            validity,
            "total {}",
            stake
        );
    }
}
