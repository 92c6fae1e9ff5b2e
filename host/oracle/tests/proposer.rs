//! The proposer's driver moves the clock and hands back each header.

use narwhal::crypto::Digest;
use narwhal::messages::Header;
use oracle::committee::{key, small};
use oracle::messages::genesis;
use oracle::proposer::ProposerDriver;

fn digest(byte: u8) -> Digest {
    Digest([byte; 32])
}

fn only(headers: Vec<Header>) -> Header {
    assert_eq!(headers.len(), 1);
    headers.into_iter().next().unwrap()
}

#[test]
fn a_full_payload_makes_a_header_over_genesis() {
    let committee = small(&[1; 4], 1);
    let (mut proposer, headers) = ProposerDriver::start(key(2), &committee, 64, 100);
    assert!(headers.is_empty());
    assert!(proposer.digest(digest(1), 0).is_empty());
    let header = only(proposer.digest(digest(2), 3));
    assert_eq!((header.author, header.round), (key(2), 1));
    assert_eq!(header.payload[&digest(2)], 3);
    let parents: Vec<_> = header.parents.into_iter().collect();
    let mut expected = genesis(&committee);
    expected.sort();
    assert_eq!(parents, expected);
}

#[test]
fn the_timer_makes_a_header_when_there_are_parents() {
    let (mut proposer, _) = ProposerDriver::start(key(0), &small(&[1; 4], 1), 64, 100);
    assert_eq!(only(proposer.timer()).round, 1);
    assert!(proposer.timer().is_empty());
    assert!(proposer.parents(vec![digest(5)], 0).is_empty());
    let header = only(proposer.parents(vec![digest(5)], 6));
    assert_eq!(header.round, 7);
    assert!(header.parents.contains(&digest(5)));
}

#[test]
fn without_a_size_to_reach_the_start_makes_a_header() {
    let (mut proposer, headers) = ProposerDriver::start(key(0), &small(&[1; 4], 1), 0, 100);
    assert_eq!(only(headers).round, 1);
    assert!(proposer.digest(digest(1), 0).is_empty());
}
