//! Genesis, the known table and the batches, at the edges of document 01's domain.

mod common;

use common::{committee, key};
use tundrimela::layout::{self, record, table};
use tundrimela::raw::{self, Answer};
use tundrimela::{Batch, Batches, Digest, Genesis, Header, Known, Record, Refusal};

const BAD_SHAPE: Answer = Answer {
    number: 11,
    count: 0,
};

/// Members 1, 2, 3 with the digests 11, 12, 13.
fn genesis() -> Genesis {
    Genesis::new(&committee(&[1; 3]), &[11, 12, 13].map(key)).unwrap()
}

fn header(parents: &[Digest], payload: &[Batch]) -> Header {
    Header::new(key(2), 5, parents, payload).unwrap()
}

fn record(digest: u8) -> Record {
    Record {
        round: 1,
        origin: key(1),
        digest: key(digest),
    }
}

#[test]
fn genesis_has_one_digest_for_each_member() {
    for digests in [&[11, 12][..], &[11, 12, 13, 14], &[]] {
        let digests: Vec<_> = digests.iter().copied().map(key).collect();
        let other = Genesis::new(&committee(&[1; 3]), &digests);
        assert_eq!(other, Err(Refusal::BadShape));
    }
    for equal in [[11, 11, 13], [11, 12, 11], [12, 13, 13]] {
        let other = Genesis::new(&committee(&[1; 3]), &equal.map(key));
        assert_eq!(other, Err(Refusal::BadShape));
    }
    assert_eq!(genesis().committee(), &committee(&[1; 3]));
    assert_eq!(genesis().as_bytes().len(), 3 * record::SIZE);
}

#[test]
fn parents_are_in_genesis_or_known() {
    let mut known = Known::new(2).unwrap();
    let asked = header(&[11, 13, 20, 21].map(key), &[]);
    assert_eq!(genesis().missing_parents(&known, &asked), [20, 21].map(key));
    assert!(!genesis().delivers(&known, &asked));
    assert_eq!(known.learn(&record(21)), Ok(true));
    assert_eq!(genesis().missing_parents(&known, &asked), [key(20)]);
    assert_eq!(known.learn(&record(20)), Ok(true));
    assert!(genesis().missing_parents(&known, &asked).is_empty());
    assert!(genesis().delivers(&known, &asked));
}

#[test]
fn all_of_32_parents_can_be_missing() {
    let parents: Vec<_> = (100..132).map(key).collect();
    let known = Known::new(1).unwrap();
    let missing = genesis().missing_parents(&known, &header(&parents, &[]));
    assert_eq!(missing, parents);
    assert!(genesis().delivers(&known, &header(&[], &[])));
}

#[test]
fn the_first_record_of_a_digest_stays() {
    let mut known = Known::new(1).unwrap();
    assert!(known.is_empty());
    let other = Record {
        round: 9,
        origin: key(3),
        digest: key(20),
    };
    assert_eq!(known.learn(&record(20)), Ok(true));
    assert_eq!(known.learn(&other), Ok(false));
    assert_eq!(known.records().collect::<Vec<_>>(), [record(20)]);
}

#[test]
fn a_full_table_refuses_what_is_new_and_keeps_the_rest() {
    let mut known = Known::new(2).unwrap();
    known.learn(&record(20)).unwrap();
    known.learn(&record(21)).unwrap();
    assert_eq!((known.len(), known.places()), (2, 2));
    let before = known.clone();
    assert_eq!(known.learn(&record(22)), Err(Refusal::NoRoom));
    assert_eq!(known.learn(&record(20)), Ok(false));
    assert_eq!(known, before);
}

#[test]
fn round_0_is_not_learnt() {
    let mut known = Known::new(1).unwrap();
    let mut new = record(20);
    new.round = 0;
    assert_eq!(known.learn(&new), Err(Refusal::BadShape));
    new.round = u32::MAX;
    assert_eq!(known.learn(&new), Ok(true));
}

#[test]
fn a_table_has_a_place_and_whole_rows() {
    assert_eq!(Known::new(0), Err(Refusal::BadShape));
    let row = [1; record::SIZE];
    let mut bytes = vec![0; table::ROWS + 3 * record::SIZE];
    for length in (0..bytes.len()).filter(|x| ![76, 144].contains(x)) {
        assert_eq!(raw::learn(&mut bytes[..length], &row), BAD_SHAPE);
    }
    for length in [0, 67, 69, 136] {
        assert_eq!(raw::learn(&mut bytes, &vec![1; length]), BAD_SHAPE);
    }
    assert!(bytes.iter().all(|x| *x == 0));
    assert_eq!(raw::learn(&mut bytes[..76], &row), Answer::done(1));
    assert_eq!(bytes[76..], [0; 136]);
}

#[test]
fn a_count_over_the_places_is_no_table() {
    let mut bytes = Known::new(2).unwrap().as_bytes().to_vec();
    for (place, value) in [(0, 3), (1, 1), (4, 1), (7, 255)] {
        bytes[place] = value;
        assert_eq!(raw::learn(&mut bytes, &[1; record::SIZE]), BAD_SHAPE);
        bytes[place] = 0;
    }
}

#[test]
fn what_stands_behind_the_rows_in_use_is_not_known() {
    let mut known = Known::new(2).unwrap();
    known.learn(&record(20)).unwrap();
    known.learn(&record(21)).unwrap();
    let mut bytes = known.as_bytes().to_vec();
    bytes[0] = 1;
    let answer = raw::deliver(
        committee(&[1; 3]).as_bytes(),
        genesis().as_bytes(),
        &bytes,
        header(&[key(21)], &[]).as_bytes(),
    );
    assert_eq!(answer, Answer::done(0));
}

#[test]
fn the_buffer_for_parents_has_1024_bytes() {
    let (committee, genesis, known) = (committee(&[1; 3]), genesis(), Known::new(1).unwrap());
    let asked = header(&[key(20)], &[]);
    let ask = |out: &mut [u8]| {
        let (members, records) = (committee.as_bytes(), genesis.as_bytes());
        raw::get_parents(members, records, known.as_bytes(), asked.as_bytes(), out)
    };
    assert_eq!(layout::DIGESTS, 1_024);
    for length in [0, 32, 1_023, 1_025] {
        let mut out = vec![0xee; length];
        assert_eq!(ask(&mut out), BAD_SHAPE);
        assert_eq!(out, vec![0xee; length]);
    }
    let mut out = [0xee; 1_024];
    assert_eq!(ask(&mut out), Answer::done(1));
    assert_eq!(out[..32], key(20));
    assert_eq!(out[32..], [0xee; 992]);
}

#[test]
fn a_bad_committee_comes_before_a_bad_shape() {
    let answer = raw::get_parents(&[], &[], &[], &[], &mut []);
    assert_eq!(answer, Answer::refused(Refusal::BadCommittee));
    let answer = raw::deliver(&committee(&[1; 3]).as_bytes()[1..], &[], &[], &[]);
    assert_eq!(answer, Answer::refused(Refusal::BadCommittee));
}

#[test]
fn batches_are_by_digest_and_worker() {
    let batch = |digest, worker| Batch {
        digest: key(digest),
        worker,
    };
    let payload = [batch(30, 0), batch(31, 0), batch(32, 7)];
    let asked = header(&[], &payload);
    let mut batches = Batches::new(key(1));
    assert_eq!(batches.missing(&asked), payload);
    batches.add(batch(32, 7));
    batches.add(batch(30, 1));
    assert_eq!(batches.missing(&asked), payload[..2]);
    assert!(Batches::new(key(2)).missing(&asked).is_empty());
}

#[test]
fn all_of_64_batches_can_be_missing() {
    let batch = |digest| Batch {
        digest: key(digest),
        worker: u32::MAX,
    };
    let payload: Vec<_> = (0..64).map(batch).collect();
    let asked = header(&[], &payload);
    assert_eq!(Batches::new(key(1)).missing(&asked), payload);
}

#[test]
fn pairs_are_whole_and_their_buffer_has_2304_bytes() {
    let asked = header(&[], &[]);
    let ask = |own: usize, pairs: usize, out: usize| {
        let (own, pairs) = (vec![1; own], vec![1; pairs]);
        raw::missing_payload(&own, &pairs, asked.as_bytes(), &mut vec![0; out])
    };
    assert_eq!(ask(32, 0, 2_304), Answer::done(0));
    assert_eq!(ask(32, 36, 2_304), Answer::done(0));
    for (own, pairs, out) in [
        (31, 0, 2_304),
        (33, 0, 2_304),
        (32, 35, 2_304),
        (32, 37, 2_304),
        (32, 0, 2_303),
        (32, 0, 2_305),
    ] {
        assert_eq!(ask(own, pairs, out), BAD_SHAPE);
    }
}
