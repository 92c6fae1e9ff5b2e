//! Headers, votes, certificates and their strings, at the edges of document 01's domain.

use tundrimela::layout::{certificate, header, header_string, vote};
use tundrimela::raw::{self, Answer};
use tundrimela::{Batch, Certificate, Digest, Header, Key, Refusal, Vote};

const AUTHOR: Key = [7; 32];
const BAD_SHAPE: Answer = Answer {
    number: 11,
    count: 0,
};

/// Digests that ascend.
fn digests(count: usize) -> Vec<Digest> {
    (0..count).map(|place| [place as u8; 32]).collect()
}

fn payload(count: usize) -> Vec<Batch> {
    let batch = |digest| Batch { digest, worker: 9 };
    digests(count).into_iter().map(batch).collect()
}

fn header(parents: usize, batches: usize) -> Result<Header, Refusal> {
    Header::new(AUTHOR, 5, &digests(parents), &payload(batches))
}

fn full() -> Header {
    header(32, 64).expect("the largest of the domain")
}

#[test]
fn a_header_says_what_it_was_made_of() {
    let header = header(3, 2).unwrap().with_id([9; 32]);
    assert_eq!(header.id(), [9; 32]);
    assert_eq!((header.author(), header.round()), (AUTHOR, 5));
    assert_eq!(header.parents().collect::<Vec<_>>(), digests(3));
    assert_eq!(header.payload().collect::<Vec<_>>(), payload(2));
}

#[test]
fn parents_are_0_to_32_and_batches_0_to_64() {
    for (parents, batches) in [(0, 0), (32, 0), (0, 64), (32, 64)] {
        let string = header(parents, batches).unwrap().string();
        assert_eq!(string.len(), 40 + 36 * batches + 32 * parents);
    }
    for (parents, batches) in [(33, 0), (0, 65), (255, 0), (256, 0), (0, 256)] {
        assert_eq!(header(parents, batches), Err(Refusal::BadShape));
    }
}

#[test]
fn rounds_begin_at_1_and_end_at_32_bits() {
    let of = |round| Header::new(AUTHOR, round, &[], &[]);
    assert_eq!(of(0), Err(Refusal::BadShape));
    assert_eq!(of(1).unwrap().round(), 1);
    assert_eq!(of(u32::MAX).unwrap().round(), u32::MAX);
    let mut bytes = of(1).unwrap().as_bytes().to_vec();
    bytes[header::ROUND + 4] = 1;
    assert_eq!(raw::header_string(&bytes, &mut [0; 40], 0), BAD_SHAPE);
}

#[test]
fn digests_ascend_strictly() {
    let (one, two) = ([1; 32], [2; 32]);
    let batch = |digest| Batch { digest, worker: 0 };
    for list in [[one, one], [two, one]] {
        let parents = Header::new(AUTHOR, 1, &list, &[]);
        assert_eq!(parents, Err(Refusal::BadShape));
        let payload = Header::new(AUTHOR, 1, &[], &list.map(batch));
        assert_eq!(payload, Err(Refusal::BadShape));
    }
    Header::new(AUTHOR, 1, &[one, two], &[one, two].map(batch)).unwrap();
}

#[test]
fn the_order_counts_up_to_the_last_place() {
    for place in [1, 31] {
        let mut list = digests(32);
        list[place] = list[place - 1];
        let header = Header::new(AUTHOR, 1, &list, &[]);
        assert_eq!(header, Err(Refusal::BadShape));
    }
    for place in [1, 63] {
        let mut list = payload(64);
        list.swap(place - 1, place);
        let header = Header::new(AUTHOR, 1, &[], &list);
        assert_eq!(header, Err(Refusal::BadShape));
    }
}

#[test]
fn a_header_string_is_author_round_batches_parents() {
    let batch = Batch {
        digest: [3; 32],
        worker: 0x0403_0201,
    };
    let header = Header::new(AUTHOR, 258, &[[4; 32], [5; 32]], &[batch]).unwrap();
    let expected = [
        &AUTHOR[..],
        &[2, 1, 0, 0, 0, 0, 0, 0],
        &[3; 32],
        &[1, 2, 3, 4],
        &[4; 32],
        &[5; 32],
    ];
    assert_eq!(header.string(), expected.concat());
    assert_eq!(header.with_id([1; 32]).string(), expected.concat());
}

#[test]
fn a_string_goes_to_its_place_and_no_further() {
    let header = header(1, 1).unwrap();
    let string = header.string();
    let mut out = vec![0xee; string.len() + 10];
    assert_eq!(header.write_string(&mut out, 4), Ok(string.len()));
    assert_eq!(out[..4], [0xee; 4]);
    assert_eq!(out[4..][..string.len()], string);
    assert_eq!(out[4 + string.len()..], [0xee; 6]);
}

#[test]
fn a_buffer_a_byte_short_is_refused_and_left() {
    let header = full();
    let length = header.string().len();
    assert_eq!(length, header_string::MAX);
    let mut out = vec![0xee; length + 2];
    assert_eq!(header.write_string(&mut out, 3), Err(Refusal::BadShape));
    assert_eq!(out, vec![0xee; length + 2]);
    assert_eq!(header.write_string(&mut out, 2), Ok(length));
}

#[test]
fn a_place_near_the_end_of_64_bits_is_refused() {
    let header = full();
    let length = header.string().len() as u64;
    let mut out = vec![0xee; 2 * length as usize];
    for at in [u64::MAX, u64::MAX - 1, 0u64.wrapping_sub(length), 1 << 63] {
        assert_eq!(
            raw::header_string(header.as_bytes(), &mut out, at),
            BAD_SHAPE
        );
        let triple = (&[1; 32], 1, &[2; 32]);
        let vote = raw::vote_string(triple.0, triple.1, triple.2, &mut out, at);
        assert_eq!(vote, BAD_SHAPE);
    }
    assert!(out.iter().all(|x| *x == 0xee));
}

#[test]
fn a_header_has_3402_bytes() {
    let bytes = full().as_bytes().repeat(2);
    let mut out = vec![0; header_string::MAX];
    assert_eq!(header::SIZE, 3_402);
    for length in [0, 1, 3_401, 3_403, 6_804] {
        let answer = raw::header_string(&bytes[..length], &mut out, 0);
        assert_eq!(answer, BAD_SHAPE);
    }
    assert_eq!(out, vec![0; header_string::MAX]);
}

#[test]
fn what_stands_past_the_counts_is_ignored() {
    let header = header(1, 1).unwrap();
    let mut bytes = header.as_bytes().to_vec();
    bytes[header::PARENTS + 32..header::PAYLOAD].fill(0);
    bytes[header::PAYLOAD + 36..].fill(0xff);
    let mut out = header.string();
    let length = out.len();
    out.fill(0);
    let answer = raw::header_string(&bytes, &mut out, 0);
    assert_eq!(answer, Answer::done(length as u64));
    assert_eq!(out, header.string());
}

#[test]
fn a_vote_says_what_it_is_for() {
    let header = header(1, 0).unwrap().with_id([9; 32]);
    let vote = Vote::of(&header, [8; 32]);
    assert_eq!((vote.id(), vote.origin()), ([9; 32], AUTHOR));
    assert_eq!((vote.author(), vote.round()), ([8; 32], 5));
    assert_eq!(vote.as_bytes().len(), vote::SIZE);
    assert_eq!(vote::SIZE, 104);
    let other = Vote::of(&header, [6; 32]);
    assert_eq!(vote.string(), other.string());
    let round_0 = Vote::new([9; 32], AUTHOR, [8; 32], 0);
    assert_eq!(round_0, Err(Refusal::BadShape));
}

#[test]
fn votes_and_certificates_have_a_string_of_72_bytes() {
    let header = header(1, 0).unwrap().with_id([9; 32]);
    let expected = [&[9; 32][..], &[5, 0, 0, 0, 0, 0, 0, 0], &AUTHOR].concat();
    assert_eq!(Vote::of(&header, [8; 32]).string(), expected);
    let certificate = Certificate::new(header, &[]).unwrap();
    assert_eq!(certificate.string(), expected);
}

#[test]
fn ids_and_origins_have_32_bytes_and_rounds_32_bits() {
    let ask = |id: &[u8], round, origin: &[u8], size| {
        let mut out = vec![0; size];
        let vote = raw::vote_string(id, round, origin, &mut out, 0);
        let certificate = raw::certificate_string(id, round, origin, &mut out, 0);
        assert_eq!(vote, certificate);
        vote
    };
    let key = [1; 32];
    assert_eq!(ask(&key, 1, &key, 72), Answer::done(72));
    assert_eq!(ask(&key, u64::from(u32::MAX), &key, 72), Answer::done(72));
    assert_eq!(ask(&key, 1, &key, 71), BAD_SHAPE);
    for round in [0, 1 << 32, (1 << 32) + 1, u64::MAX] {
        assert_eq!(ask(&key, round, &key, 72), BAD_SHAPE);
    }
    for length in [0, 31, 33] {
        let other = vec![1; length];
        assert_eq!(ask(&other, 1, &key, 72), BAD_SHAPE);
        assert_eq!(ask(&key, 1, &other, 72), BAD_SHAPE);
    }
}

#[test]
fn a_certificate_has_0_to_64_voters() {
    let header = header(2, 1).unwrap();
    assert_eq!(certificate::SIZE, 5_483);
    for count in [0, 1, 64] {
        let certificate = Certificate::new(header.clone(), &digests(count)).unwrap();
        assert_eq!(certificate.voters().collect::<Vec<_>>(), digests(count));
        assert_eq!(certificate.header(), &header);
        assert_eq!(certificate.with_digest([4; 32]).digest(), [4; 32]);
    }
    let over = Certificate::new(header, &digests(65));
    assert_eq!(over, Err(Refusal::BadShape));
}
