//! Votes and certificates counted up to a quorum, and tables at their ends.

mod common;

use common::{committee, key};
use tundrimela::layout::{count, voters};
use tundrimela::raw::{self, Answer};
use tundrimela::{Counts, Digest, Record, Refusal, Voters};

fn record(round: u32, origin: u8) -> Record {
    Record {
        round,
        origin: key(origin),
        digest: digest(round, origin),
    }
}

fn digest(round: u32, origin: u8) -> Digest {
    let mut digest = [origin; 32];
    digest[0] = round as u8;
    digest
}

#[test]
fn a_quorum_is_reached_once() {
    let committee = committee(&[1, 1, 1, 1]);
    let mut voters = Voters::new();
    let mut count = |name| voters.count(&committee, &key(name));
    assert_eq!(
        [4, 2, 1, 3].map(|x| count(x)),
        [false, false, true, false].map(Ok)
    );
    assert_eq!(voters.keys().collect::<Vec<_>>(), [4, 2, 1, 3].map(key));
}

#[test]
fn a_voter_counts_once() {
    let committee = committee(&[2, 1, 1]);
    let mut voters = Voters::new();
    assert_eq!(voters.count(&committee, &key(1)), Ok(false));
    let before = voters.clone();
    let again = voters.count(&committee, &key(1));
    assert_eq!(again, Err(Refusal::AuthorityReuse));
    assert_eq!(voters, before);
    assert_eq!(voters.count(&committee, &key(3)), Ok(true));
    let again = voters.count(&committee, &key(3));
    assert_eq!(again, Err(Refusal::AuthorityReuse));
}

#[test]
fn stake_decides_and_not_the_number_of_voters() {
    let committee = committee(&[7, 1, 1, 1]);
    let mut voters = Voters::new();
    for name in [2, 3, 4, 50] {
        assert_eq!(voters.count(&committee, &key(name)), Ok(false));
    }
    assert_eq!(voters.count(&committee, &key(1)), Ok(true));
}

#[test]
fn a_33rd_voter_finds_no_place() {
    let committee = committee(&[1; 32]);
    let mut voters = Voters::new();
    for name in 101..133 {
        assert_eq!(voters.count(&committee, &key(name)), Ok(false));
    }
    let full = voters.clone();
    assert_eq!(voters.count(&committee, &key(1)), Err(Refusal::NoRoom));
    let again = voters.count(&committee, &key(132));
    assert_eq!(again, Err(Refusal::AuthorityReuse));
    assert_eq!(voters, full);
}

#[test]
fn voters_have_1025_bytes_and_at_most_32_keys() {
    let committee = committee(&[1]);
    let ask =
        |voters: &mut [u8], author: &[u8]| raw::count_vote(committee.as_bytes(), voters, author);
    assert_eq!(voters::SIZE, 1_025);
    let bad_shape = Answer::refused(Refusal::BadShape);
    for length in [0, 1, 1_024, 1_026] {
        assert_eq!(ask(&mut vec![0; length], &key(1)), bad_shape);
    }
    for length in [0, 31, 33] {
        assert_eq!(ask(&mut [0; 1_025], &vec![1; length]), bad_shape);
    }
    let mut bytes = [0; 1_025];
    bytes[0] = 33;
    assert_eq!(ask(&mut bytes, &key(1)), bad_shape);
    let answer = raw::count_vote(&[], &mut [], &[]);
    assert_eq!(answer, Answer::refused(Refusal::BadCommittee));
}

#[test]
fn the_digests_gathered_are_given_once_and_emptied() {
    let committee = committee(&[1, 1, 1, 1]);
    let mut counts = Counts::new(2).unwrap();
    let mut count = |round, origin| counts.count(&committee, &record(round, origin)).unwrap();
    assert!(count(5, 4).is_empty());
    assert!(count(6, 4).is_empty());
    assert!(count(5, 1).is_empty());
    let given = count(5, 2);
    assert_eq!(given, [4, 1, 2].map(|origin| digest(5, origin)));
    assert!(count(5, 3).is_empty());
    assert!(count(5, 2).is_empty());
    assert_eq!(counts.rounds(), 2);
}

#[test]
fn a_repeated_origin_answers_nothing_and_changes_nothing() {
    let committee = committee(&[1, 1]);
    let mut counts = Counts::new(1).unwrap();
    counts.count(&committee, &record(1, 1)).unwrap();
    let before = counts.clone();
    let mut other = record(1, 1);
    other.digest = [77; 32];
    assert_eq!(counts.count(&committee, &other), Ok(Vec::new()));
    assert_eq!(counts, before);
    let given = counts.count(&committee, &record(1, 2)).unwrap();
    assert_eq!(given, [digest(1, 1), digest(1, 2)]);
}

#[test]
fn a_round_without_a_place_is_refused() {
    let committee = committee(&[1, 1]);
    let mut counts = Counts::new(1).unwrap();
    assert_eq!((counts.places(), counts.rounds()), (1, 0));
    counts.count(&committee, &record(1, 1)).unwrap();
    let before = counts.clone();
    let other = counts.count(&committee, &record(2, 1));
    assert_eq!(other, Err(Refusal::NoRoom));
    assert_eq!(counts, before);
    assert_eq!(Counts::new(0), Err(Refusal::BadShape));
}

#[test]
fn a_33rd_origin_of_a_round_finds_no_place() {
    let committee = committee(&[1; 32]);
    let mut counts = Counts::new(1).unwrap();
    for origin in 101..133 {
        assert_eq!(counts.count(&committee, &record(1, origin)), Ok(Vec::new()));
    }
    let other = counts.count(&committee, &record(1, 1));
    assert_eq!(other, Err(Refusal::NoRoom));
    let again = counts.count(&committee, &record(1, 101));
    assert_eq!(again, Ok(Vec::new()));
}

#[test]
fn all_of_32_digests_can_be_given() {
    let mut stakes = [1; 32];
    stakes[31] = 1_000;
    let committee = committee(&stakes);
    let mut counts = Counts::new(1).unwrap();
    let mut given = Vec::new();
    for origin in 1..=32 {
        assert!(given.is_empty());
        given = counts.count(&committee, &record(9, origin)).unwrap();
    }
    let expected: Vec<_> = (1..=32).map(|origin| digest(9, origin)).collect();
    assert_eq!(given, expected);
}

#[test]
fn rounds_begin_at_1_and_end_at_32_bits() {
    let committee = committee(&[1, 1]);
    let mut counts = Counts::new(1).unwrap();
    let zero = counts.count(&committee, &record(0, 1));
    assert_eq!(zero, Err(Refusal::BadShape));
    let mut table = counts.as_bytes().to_vec();
    let mut ask = |round| {
        let (origin, digest) = (key(1), key(2));
        let out = &mut [0; 1_024];
        raw::count_certificate(
            committee.as_bytes(),
            &mut table,
            round,
            &origin,
            &digest,
            out,
        )
    };
    assert_eq!(ask(1 << 32).result(), Err(Refusal::BadShape));
    assert_eq!(ask(u64::MAX).result(), Err(Refusal::BadShape));
    assert_eq!(ask(u64::from(u32::MAX)), Answer::done(0));
    assert_eq!(table[8..12], [0xff; 4]);
}

#[test]
fn a_new_row_has_zeros_past_its_pair() {
    let committee = committee(&[1, 1]);
    let mut table = vec![0xee; 8 + 2 * count::SIZE];
    table[..8].fill(0);
    let out = &mut [0xee; 1_024];
    let (origin, digest) = (key(1), key(2));
    let members = committee.as_bytes();
    let answer = raw::count_certificate(members, &mut table, 7, &origin, &digest, out);
    assert_eq!(answer, Answer::done(0));
    let row = &table[8..][..count::SIZE];
    assert_eq!(row[..5], [7, 0, 0, 0, 1]);
    assert_eq!(row[5..69], [key(1), key(2)].concat());
    assert!(row[69..].iter().all(|x| *x == 0));
    assert!(table[8 + count::SIZE..].iter().all(|x| *x == 0xee));
    assert_eq!(*out, [0xee; 1_024]);
}

#[test]
fn a_row_of_33_pairs_is_refused_in_any_place() {
    let committee = committee(&[1, 1]);
    let mut counts = Counts::new(3).unwrap();
    counts.count(&committee, &record(1, 1)).unwrap();
    counts.count(&committee, &record(2, 1)).unwrap();
    let mut table = counts.as_bytes().to_vec();
    table[8 + count::SIZE + count::PAIR_COUNT] = 33;
    let out = &mut [0; 1_024];
    let (origin, digest) = (key(2), key(2));
    let members = committee.as_bytes();
    let answer = raw::count_certificate(members, &mut table, 1, &origin, &digest, out);
    assert_eq!(answer, Answer::refused(Refusal::BadShape));
}
