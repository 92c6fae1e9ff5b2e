//! P1 to P11 of document 01 hold on the Rust itself.

use narwhal::crypto::{Digest, Hash as _};
use narwhal::primary::Round;
use oracle::committee::{key, small};
use oracle::consensus::{leader_of, ConsensusDriver};
use oracle::messages::{genesis, in_key_order, show};
use std::collections::BTreeSet;

const EVERYONE: [usize; 4] = [0, 1, 2, 3];

/// Four members of stake 1, depth 50; each certificate names all held ones of the round below.
struct Rounds {
    driver: ConsensusDriver,
    below: BTreeSet<Digest>,
}

impl Rounds {
    fn new() -> Self {
        let committee = small(&[1; 4], 1);
        let below = genesis(&committee).into_iter().collect();
        let driver = ConsensusDriver::new(committee, 50);
        Rounds { driver, below }
    }

    /// One round of these origins: what each certificate lists.
    fn round(&mut self, round: Round, origins: &[usize]) -> Vec<String> {
        let certificates: Vec<_> = origins
            .iter()
            .map(|origin| in_key_order(*origin, 4, round, &self.below))
            .collect();
        self.below = certificates.iter().map(|x| x.digest()).collect();
        certificates
            .into_iter()
            .map(|x| self.driver.feed(x).expect("the consensus goes on"))
            .map(|listed| listed.iter().map(show).collect::<Vec<_>>().join(", "))
            .collect()
    }

    fn silent(&mut self, round: Round, origins: &[usize]) {
        for listed in self.round(round, origins) {
            assert_eq!(listed, "", "round {}", round)
        }
    }
}

#[test]
fn p1_to_p7_thresholds() {
    let cases = [
        (1, 1, 1),
        (3, 3, 1),
        (4, 3, 2),
        (5, 4, 2),
        (7, 5, 3),
        (10, 7, 4),
        (16_777_216, 11_184_811, 5_592_406),
    ];
    for (total, quorum, validity) in cases {
        let committee = small(&[total], 1);
        assert_eq!(committee.quorum_threshold(), quorum, "total {}", total);
        assert_eq!(committee.validity_threshold(), validity, "total {}", total);
        assert_eq!(committee.stake(&key(9)), 0);
    }
}

#[test]
fn p8_p9_p10() {
    let mut rounds = Rounds::new();
    for round in 1..=4 {
        rounds.silent(round, &EVERYONE);
    }
    let fifth = rounds.round(5, &EVERYONE);
    assert_eq!(fifth[0], "k3@1, k2@1, k1@1, k0@1, k2@2");
    assert_eq!(fifth[1..], ["", "", ""]);
    rounds.silent(6, &EVERYONE);
    let seventh = rounds.round(7, &[0]);
    let listed = "k3@2, k1@2, k0@2, k3@3, k2@3, k1@3, k0@3, k0@4";
    assert_eq!(seventh, [listed]);
}

#[test]
fn p11() {
    let mut rounds = Rounds::new();
    rounds.silent(1, &EVERYONE);
    rounds.silent(2, &[0, 1, 3]);
    for round in 3..=6 {
        rounds.silent(round, &EVERYONE);
    }
    let seventh = rounds.round(7, &[0]);
    let listed = "k3@1, k2@1, k1@1, k0@1, k3@2, k1@2, k0@2, k3@3, k2@3, k1@3, k0@3, k0@4";
    assert_eq!(seventh, [listed]);
}

#[test]
fn a_hole_in_the_history_ends_the_rust() {
    let mut rounds = Rounds::new();
    rounds.silent(1, &EVERYONE);
    rounds.silent(2, &EVERYONE);
    let early = in_key_order(0, 4, 5, &rounds.below);
    let why = rounds.driver.feed(early.clone()).unwrap_err();
    assert!(why.contains("We should have the whole history"), "{}", why);
    let after = rounds.driver.feed(early).unwrap_err();
    assert_eq!(after, "the task has ended before");
}

#[test]
fn a_round_is_led_by_the_member_at_its_remainder() {
    let committee = small(&[5, 1, 2], 1);
    for (round, place) in [(0, 0), (1, 1), (2, 2), (3, 0), (u64::from(u32::MAX), 0)] {
        assert_eq!(leader_of(&committee, round), key(place), "round {}", round);
    }
}
