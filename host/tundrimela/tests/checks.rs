//! Checks of headers, votes and certificates: the order of the refusals, and the edges.

mod common;

use common::{committee, key};
use tundrimela::layout::certificate;
use tundrimela::raw::{self, Answer};
use tundrimela::{Batch, Certificate, Committee, Header, Key, Refusal, Verdicts, Vote};

const GOOD: Verdicts = Verdicts {
    id: true,
    signature: true,
};
const STRANGER: Key = [9; 32];

/// Members 1 to 4, of which three are a quorum.
fn four() -> Committee {
    committee(&[1; 4])
}

fn header(author: Key, worker: u32) -> Header {
    let batch = Batch {
        digest: [5; 32],
        worker,
    };
    Header::new(author, 1, &[], &[batch]).unwrap()
}

fn verdicts(id: bool, signature: bool) -> Verdicts {
    Verdicts { id, signature }
}

fn certify(voters: &[u8]) -> Certificate {
    let voters: Vec<_> = voters.iter().copied().map(key).collect();
    Certificate::new(header(key(1), 0), &voters).unwrap()
}

fn checked(voters: &[u8]) -> Result<(), Refusal> {
    certify(voters).check(&four(), GOOD, true)
}

#[test]
fn a_header_is_refused_for_the_first_thing_wrong() {
    let check = |author, worker, id, signature| {
        header(author, worker).check(&four(), verdicts(id, signature))
    };
    assert_eq!(check(key(1), 0, true, true), Ok(()));
    assert_eq!(
        check(key(1), 0, true, false),
        Err(Refusal::InvalidSignature)
    );
    assert_eq!(check(key(1), 1, true, false), Err(Refusal::MalformedHeader));
    assert_eq!(
        check(STRANGER, 1, true, false),
        Err(Refusal::UnknownAuthority)
    );
    assert_eq!(
        check(STRANGER, 1, false, false),
        Err(Refusal::InvalidHeaderId)
    );
}

#[test]
fn a_header_without_batches_needs_no_worker() {
    let empty = Header::new(key(2), 1, &[], &[]).unwrap();
    assert_eq!(empty.check(&four(), GOOD), Ok(()));
}

#[test]
fn every_batch_has_a_worker_of_the_author() {
    let batches = |bad: usize| -> Vec<_> {
        let batch = |place: usize| Batch {
            digest: [place as u8; 32],
            worker: (place == bad).into(),
        };
        (0..64).map(batch).collect()
    };
    let check = |bad| {
        let header = Header::new(key(1), 1, &[], &batches(bad)).unwrap();
        header.check(&four(), GOOD)
    };
    assert_eq!(check(64), Ok(()));
    for bad in [0, 1, 63] {
        assert_eq!(check(bad), Err(Refusal::MalformedHeader));
    }
}

#[test]
fn a_vote_is_of_a_member_and_signed() {
    let header = header(key(1), 0);
    let check = |author, signature| Vote::of(&header, author).check(&four(), signature);
    assert_eq!(check(key(4), true), Ok(()));
    assert_eq!(check(key(4), false), Err(Refusal::InvalidSignature));
    assert_eq!(check(STRANGER, true), Err(Refusal::UnknownAuthority));
    assert_eq!(check(STRANGER, false), Err(Refusal::UnknownAuthority));
}

#[test]
fn a_certificate_has_a_quorum_of_different_members() {
    assert_eq!(checked(&[4, 2, 1]), Ok(()));
    assert_eq!(checked(&[1, 2, 3, 4]), Ok(()));
    for few in [&[][..], &[1], &[1, 2]] {
        assert_eq!(checked(few), Err(Refusal::CertificateRequiresQuorum));
    }
    assert_eq!(checked(&[1, 2, 3, 1]), Err(Refusal::AuthorityReuse));
    assert_eq!(checked(&[1, 2, 3, 9]), Err(Refusal::UnknownAuthority));
}

#[test]
fn voters_are_looked_at_one_by_one() {
    assert_eq!(checked(&[1, 1, 9]), Err(Refusal::AuthorityReuse));
    assert_eq!(checked(&[9, 1, 1]), Err(Refusal::UnknownAuthority));
    assert_eq!(checked(&[9, 9]), Err(Refusal::UnknownAuthority));
    let refused = certify(&[1, 1]).check(&four(), GOOD, false);
    assert_eq!(refused, Err(Refusal::AuthorityReuse));
}

#[test]
fn the_header_comes_before_the_voters_and_these_before_their_signatures() {
    let check = |voters: &[u8], verdicts, votes| certify(voters).check(&four(), verdicts, votes);
    let (bad_id, bad_signature) = (verdicts(false, true), verdicts(true, false));
    assert_eq!(check(&[9, 9], bad_id, false), Err(Refusal::InvalidHeaderId));
    assert_eq!(
        check(&[9], bad_signature, true),
        Err(Refusal::InvalidSignature)
    );
    let few = check(&[1, 2], GOOD, false);
    assert_eq!(few, Err(Refusal::CertificateRequiresQuorum));
    let batch = check(&[1, 2, 3], GOOD, false);
    assert_eq!(batch, Err(Refusal::InvalidSignature));
}

#[test]
fn votes_are_at_most_64() {
    let mut bytes = certify(&[1, 2, 3]).as_bytes().to_vec();
    let committee = four();
    let ask = |bytes: &[u8]| raw::certificate_check(committee.as_bytes(), bytes, 1, 1, 1);
    assert_eq!(ask(&bytes), Answer::done(0));
    let noise = [certificate::VOTERS + 3 * 32, certificate::SIZE - 1];
    noise.map(|place| bytes[place] = 0xff);
    assert_eq!(ask(&bytes), Answer::done(0));
    bytes[certificate::VOTE_COUNT] = 64;
    assert_eq!(ask(&bytes).result(), Err(Refusal::UnknownAuthority));
    for count in [65, 128, 255] {
        bytes[certificate::VOTE_COUNT] = count;
        assert_eq!(ask(&bytes).result(), Err(Refusal::BadShape));
    }
}

#[test]
fn a_verdict_is_0_or_1() {
    let (committee, certificate) = (four(), certify(&[1, 2, 3]));
    let members = committee.as_bytes();
    let header = certificate.header();
    let vote = Vote::of(header, key(1));
    for over in [2, 255] {
        let answers = [
            raw::header_check(members, header.as_bytes(), over, 1),
            raw::header_check(members, header.as_bytes(), 0, over),
            raw::vote_check(members, vote.as_bytes(), over),
            raw::certificate_check(members, certificate.as_bytes(), over, 1, 1),
            raw::certificate_check(members, certificate.as_bytes(), 1, over, 1),
            raw::certificate_check(members, certificate.as_bytes(), 0, 0, over),
        ];
        assert_eq!(answers, [Answer::refused(Refusal::BadShape); 6]);
    }
}

#[test]
fn lengths_are_exact_and_members_come_first() {
    let (committee, certificate) = (four(), certify(&[1, 2, 3]));
    let members = committee.as_bytes();
    let header = certificate.header();
    let vote = Vote::of(header, key(1));
    let short = |bytes: &[u8]| bytes[1..].to_vec();
    let ask = |members: &[u8]| {
        [
            raw::header_check(members, &short(header.as_bytes()), 1, 1),
            raw::vote_check(members, &short(vote.as_bytes()), 1),
            raw::certificate_check(members, &short(certificate.as_bytes()), 1, 1, 1),
        ]
    };
    assert_eq!(ask(members), [Answer::refused(Refusal::BadShape); 3]);
    assert_eq!(ask(&[]), [Answer::refused(Refusal::BadCommittee); 3]);
}

#[test]
fn a_vote_of_round_0_is_refused() {
    let committee = four();
    let mut bytes = Vote::of(&header(key(1), 0), key(1)).as_bytes().to_vec();
    let ask = |bytes: &[u8]| raw::vote_check(committee.as_bytes(), bytes, 1);
    assert_eq!(ask(&bytes), Answer::done(0));
    bytes[96] = 0;
    assert_eq!(ask(&bytes).result(), Err(Refusal::BadShape));
    bytes[96 + 4] = 1;
    assert_eq!(ask(&bytes).result(), Err(Refusal::BadShape));
}
