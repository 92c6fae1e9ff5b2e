//! The proposer: when a header is made, of what, and the edges of its domain.

mod common;

use common::{committee, key};
use tundrimela::layout::{header, proposer};
use tundrimela::raw::{self, Answer};
use tundrimela::{Batch, Digest, Genesis, Header, Proposer, Refusal};

/// Members 1 and 2, whose genesis has the digests 12 and 11.
fn genesis() -> Genesis {
    Genesis::new(&committee(&[1; 2]), &[12, 11].map(key)).unwrap()
}

fn start(header_size: u32) -> Proposer {
    let (proposer, header) = Proposer::start(&genesis(), key(2), header_size, false).unwrap();
    assert_eq!(header, None);
    proposer
}

fn batch(digest: u8, worker: u32) -> Batch {
    Batch {
        digest: key(digest),
        worker,
    }
}

fn parents(header: &Header) -> Vec<Digest> {
    header.parents().collect()
}

fn payload(header: &Header) -> Vec<Batch> {
    header.payload().collect()
}

#[test]
fn the_first_header_is_over_genesis() {
    let mut proposer = start(64);
    assert_eq!(proposer.digest(&batch(31, 0), false), Ok(None));
    let header = proposer.digest(&batch(30, 4), false).unwrap().unwrap();
    assert_eq!((header.author(), header.round()), (key(2), 1));
    assert_eq!(header.id(), [0; 32]);
    assert_eq!(parents(&header), [11, 12].map(key));
    assert_eq!(payload(&header), [batch(30, 4), batch(31, 0)]);
    assert_eq!(proposer.waiting(), 0);
}

#[test]
fn a_size_of_0_or_the_timer_makes_a_header_at_the_start() {
    for (header_size, timer) in [(0, false), (1, true), (u32::MAX, true)] {
        let started = Proposer::start(&genesis(), key(1), header_size, timer);
        let (mut proposer, header) = started.unwrap();
        assert_eq!(header.unwrap().round(), 1);
        assert_eq!(proposer.timer(), None);
    }
}

#[test]
fn the_timer_makes_a_header_only_over_parents() {
    let mut proposer = start(64);
    assert_eq!(proposer.timer().unwrap().round(), 1);
    assert_eq!(proposer.timer(), None);
    assert_eq!(proposer.digest(&batch(30, 0), true), Ok(None));
    let header = proposer.parents(1, &[key(40)], true).unwrap().unwrap();
    assert_eq!((header.round(), parents(&header)), (2, vec![key(40)]));
    assert_eq!(payload(&header), [batch(30, 0)]);
}

#[test]
fn parents_of_a_round_below_are_dropped() {
    let mut proposer = start(64);
    assert_eq!(proposer.parents(5, &[key(40)], false), Ok(None));
    assert_eq!(proposer.round(), 6);
    assert_eq!(proposer.parents(5, &[key(41)], false), Ok(None));
    assert_eq!(proposer.parents(0, &[key(41)], false), Ok(None));
    let header = proposer.timer().unwrap();
    assert_eq!((header.round(), parents(&header)), (6, vec![key(40)]));
}

#[test]
fn parents_of_the_same_round_take_the_place_of_those_before() {
    let mut proposer = start(64);
    proposer.parents(1, &[key(40), key(41)], false).unwrap();
    proposer.parents(2, &[key(42)], false).unwrap();
    let header = proposer.timer().unwrap();
    assert_eq!((header.round(), parents(&header)), (3, vec![key(42)]));
    proposer.parents(3, &[key(43)], false).unwrap();
    assert_eq!(proposer.parents(4, &[], true), Ok(None));
    assert_eq!(proposer.round(), 5);
}

#[test]
fn a_dropped_event_still_makes_a_header_that_is_due() {
    let mut proposer = start(64);
    proposer.parents(5, &[key(40)], false).unwrap();
    let header = proposer.parents(2, &[key(41)], true).unwrap().unwrap();
    assert_eq!((header.round(), parents(&header)), (6, vec![key(40)]));
}

#[test]
fn parents_come_in_any_order_and_more_than_once() {
    let mut proposer = start(64);
    let given = [44, 41, 44, 42, 41].map(key);
    let header = proposer.parents(1, &given, true).unwrap().unwrap();
    assert_eq!(parents(&header), [41, 42, 44].map(key));
}

#[test]
fn a_digest_given_twice_counts_twice_and_keeps_the_later_worker() {
    let mut proposer = start(96);
    assert_eq!(proposer.digest(&batch(31, 1), false), Ok(None));
    assert_eq!(proposer.digest(&batch(30, 2), false), Ok(None));
    let header = proposer.digest(&batch(31, 3), false).unwrap().unwrap();
    assert_eq!(payload(&header), [batch(30, 2), batch(31, 3)]);
}

#[test]
fn a_65th_waiting_digest_finds_no_place() {
    let mut proposer = start(u32::MAX);
    for _ in 0..64 {
        assert_eq!(proposer.digest(&batch(30, 0), false), Ok(None));
    }
    let before = proposer.clone();
    for timer in [false, true] {
        let over = proposer.digest(&batch(31, 0), timer);
        assert_eq!(over, Err(Refusal::NoRoom));
    }
    assert_eq!(proposer, before);
    let header = proposer.timer().unwrap();
    assert_eq!(payload(&header), [batch(30, 0)]);
    assert_eq!(proposer.digest(&batch(31, 0), false), Ok(None));
}

#[test]
fn parents_are_at_most_32_and_p_ends_before_the_last_round() {
    let mut proposer = start(64);
    let before = proposer.clone();
    let list: Vec<_> = (100..133).map(key).collect();
    assert_eq!(proposer.parents(0, &list, true), Err(Refusal::BadShape));
    let over = proposer.parents(u32::MAX, &[], true);
    assert_eq!(over, Err(Refusal::BadShape));
    assert_eq!(proposer, before);
    let last = proposer.parents(u32::MAX - 1, &list[..32], true);
    let header = last.unwrap().unwrap();
    assert_eq!((header.round(), parents(&header).len()), (u32::MAX, 32));
}

#[test]
fn the_own_key_is_a_members() {
    let stranger = Proposer::start(&genesis(), key(3), 64, false);
    assert_eq!(stranger.unwrap_err(), Refusal::BadCommittee);
}

/// `proposer_start` of member 1 with one input changed.
fn start_with(own: &[u8], size: u64, timer: u8, state: usize, header: usize) -> Answer {
    let genesis = genesis();
    let members = genesis.committee().as_bytes();
    let (mut state, mut header) = (vec![0xee; state], vec![0xee; header]);
    let lent = (&mut state[..], &mut header[..]);
    let records = genesis.as_bytes();
    let answer = raw::proposer_start(members, own, records, size, timer, lent.0, lent.1);
    if answer.number != 0 {
        assert!(state.iter().chain(&header).all(|x| *x == 0xee));
    }
    answer
}

#[test]
fn a_start_outside_the_domain_is_refused_and_writes_nothing() {
    let bad_shape = Answer::refused(Refusal::BadShape);
    let max = u64::from(u32::MAX);
    let (state, header) = (proposer::SIZE, header::SIZE);
    assert_eq!((state, header), (3_366, 3_402));
    assert_eq!(start_with(&key(1), max, 0, state, header), Answer::done(0));
    assert_eq!(start_with(&key(1), max, 1, state, header), Answer::done(1));
    assert_eq!(start_with(&key(1), max + 1, 1, state, header), bad_shape);
    assert_eq!(start_with(&key(1), 0, 2, state, header), bad_shape);
    assert_eq!(start_with(&key(1), 0, 0, state - 1, header), bad_shape);
    assert_eq!(start_with(&key(1), 0, 0, state, header + 1), bad_shape);
    assert_eq!(start_with(&[3; 31], 0, 0, state, header), bad_shape);
    let stranger = start_with(&key(3), 0, 2, 0, 0);
    assert_eq!(stranger, Answer::refused(Refusal::BadCommittee));
}

/// An event on the state of a fresh start, with the timer run out.
fn event(tag: u8, p: u64, parents: &[u8], digest: &[u8], worker: u64) -> Answer {
    let mut state = start(64).as_bytes().to_vec();
    let header = &mut vec![0; header::SIZE];
    raw::proposer_event(tag, p, parents, digest, worker, 64, 1, &mut state, header)
}

#[test]
fn tags_are_1_to_3_and_look_at_their_own_inputs() {
    let (bad, made) = (Answer::refused(Refusal::BadShape), Answer::done(1));
    assert_eq!(event(1, 1, &key(1), &[], u64::MAX), made);
    assert_eq!(event(2, u64::MAX, &[1], &key(1), 0), made);
    assert_eq!(event(3, u64::MAX, &[1], &[], u64::MAX), made);
    for tag in [0, 4, 255] {
        assert_eq!(event(tag, 1, &key(1), &key(1), 0), bad);
    }
    assert_eq!(event(1, 1 << 32, &key(1), &key(1), 0), bad);
    assert_eq!(event(1, 1, &[1; 33], &key(1), 0), bad);
    assert_eq!(event(2, 1, &key(1), &[1; 31], 0), bad);
    assert_eq!(event(2, 1, &key(1), &key(1), 1 << 32), bad);
}

#[test]
fn a_state_has_a_round_and_counts_that_have_places() {
    let ask = |place: usize, value: u8| {
        let mut state = start(64).as_bytes().to_vec();
        state[place] = value;
        let header = &mut vec![0; header::SIZE];
        raw::proposer_event(3, 0, &[], &[], 0, 64, 0, &mut state, header)
    };
    let bad_shape = Answer::refused(Refusal::BadShape);
    assert_eq!(ask(proposer::ROUND, 1), Answer::done(0));
    assert_eq!(ask(proposer::ROUND, 0), bad_shape);
    assert_eq!(ask(proposer::PARENT_COUNT, 32), Answer::done(0));
    assert_eq!(ask(proposer::PARENT_COUNT, 33), bad_shape);
    assert_eq!(ask(proposer::WAITING_COUNT, 64), Answer::done(1));
    assert_eq!(ask(proposer::WAITING_COUNT, 65), bad_shape);
}
