//! The calls on plain slices: every input is answered or refused.

use tundrimela::layout::{member, setup};
use tundrimela::raw::{self, Answer};
use tundrimela::{Committee, Member, Refusal, Setup};

const BAD_COMMITTEE: Answer = Answer {
    number: 10,
    count: 0,
};
const BAD_SHAPE: Answer = Answer {
    number: 11,
    count: 0,
};

fn three() -> Committee {
    let member = |name: u8| Member {
        key: [name; 32],
        stake: u32::from(name),
        workers: vec![7],
    };
    Committee::new(&[member(1), member(2), member(3)]).expect("a committee of the domain")
}

/// What every call says of a member list, with a key, an id and a round of the domain.
fn all(members: &[u8]) -> Vec<Answer> {
    let depth_and_members = [&[0; setup::MEMBERS], members].concat();
    vec![
        raw::committee(members),
        raw::setup(&depth_and_members),
        raw::quorum(members),
        raw::validity(members),
        raw::stake(members, &[2; 32]),
        raw::worker(members, &[2; 32], 7),
        raw::leader(members, 5),
    ]
}

#[test]
fn every_call_answers() {
    let counts: Vec<_> = all(three().as_bytes()).iter().map(|x| x.result()).collect();
    let expected = [3, 3, 5, 2, 2, 1, 2].map(Ok);
    assert_eq!(counts, expected);
}

#[test]
fn no_length_but_whole_rows() {
    let rows = three().as_bytes().repeat(2);
    for length in (0..=4 * member::SIZE).filter(|x| ![69, 138, 207].contains(x)) {
        for answer in all(&rows[..length]) {
            assert_eq!(answer, BAD_COMMITTEE, "{} bytes", length);
        }
    }
}

#[test]
fn ids_past_the_count_are_ignored() {
    let mut members = three().as_bytes().to_vec();
    members[member::WORKERS + member::WORKER..][..4].copy_from_slice(&9_u32.to_le_bytes());
    assert_eq!(raw::worker(&members, &[1; 32], 9), Answer::done(0));
    members[member::WORKER_COUNT] = 2;
    assert_eq!(raw::worker(&members, &[1; 32], 9), Answer::done(1));
    members[member::WORKER_COUNT] = 0;
    assert_eq!(raw::worker(&members, &[1; 32], 7), Answer::done(0));
}

#[test]
fn a_worker_count_ends_at_8() {
    let mut members = three().as_bytes().to_vec();
    members[2 * member::SIZE + member::WORKER_COUNT] = 8;
    assert_eq!(raw::committee(&members), Answer::done(3));
    for count in [9, 128, 255] {
        members[2 * member::SIZE + member::WORKER_COUNT] = count;
        assert_eq!(all(&members), [BAD_COMMITTEE; 7]);
    }
}

#[test]
fn a_key_has_32_bytes() {
    let committee = three();
    let members = committee.as_bytes();
    for length in [0, 31, 33, 64] {
        let key = vec![1; length];
        assert_eq!(raw::stake(members, &key), BAD_SHAPE);
        assert_eq!(raw::worker(members, &key, 7), BAD_SHAPE);
    }
}

#[test]
fn a_key_may_lie_in_the_list_itself() {
    let committee = three();
    let members = committee.as_bytes();
    let key = &members[2 * member::SIZE..][..32];
    assert_eq!(raw::stake(members, key), Answer::done(3));
    assert_eq!(raw::worker(members, key, 7), Answer::done(1));
}

#[test]
fn an_id_has_32_bits() {
    let committee = three();
    let ask = |id| raw::worker(committee.as_bytes(), &[1; 32], id);
    assert_eq!(ask(u64::from(u32::MAX)), Answer::done(0));
    for id in [1 << 32, (1 << 32) + 7, u64::MAX] {
        assert_eq!(ask(id), BAD_SHAPE);
    }
}

#[test]
fn a_round_is_1_to_32_bits() {
    let committee = three();
    let ask = |round| raw::leader(committee.as_bytes(), round);
    assert_eq!(ask(1), Answer::done(1));
    assert_eq!(ask(u64::from(u32::MAX)), Answer::done(0));
    for round in [0, 1 << 32, (1 << 32) + 1, u64::MAX] {
        assert_eq!(ask(round), BAD_SHAPE);
    }
}

#[test]
fn a_bad_committee_comes_before_a_bad_shape() {
    let committee = three();
    let ragged = &committee.as_bytes()[1..];
    assert_eq!(raw::stake(ragged, &[]), BAD_COMMITTEE);
    assert_eq!(raw::worker(ragged, &[], u64::MAX), BAD_COMMITTEE);
    assert_eq!(raw::leader(ragged, 0), BAD_COMMITTEE);
}

#[test]
fn a_depth_has_32_bits() {
    let mut bytes = Setup::new(u32::MAX, &three()).as_bytes().to_vec();
    assert_eq!(raw::setup(&bytes), Answer::done(3));
    for place in 4..8 {
        bytes[place] = 1;
        assert_eq!(raw::setup(&bytes), BAD_COMMITTEE);
        bytes[place] = 0;
    }
}

#[test]
fn a_setup_has_a_depth_and_members() {
    let whole = Setup::new(50, &three());
    for length in [0, 1, 7, 8, 9, 8 + 68] {
        assert_eq!(raw::setup(&whole.as_bytes()[..length]), BAD_COMMITTEE);
    }
    assert_eq!(raw::setup(three().as_bytes()), BAD_COMMITTEE);
}

#[test]
fn numbers_are_document_01s() {
    let names: Vec<_> = Refusal::ALL.iter().map(|x| format!("{:?}", x)).collect();
    let document_01 = "InvalidHeaderId UnknownAuthority MalformedHeader InvalidSignature \
        AuthorityReuse UnexpectedVote CertificateRequiresQuorum HeaderRequiresQuorum TooOld \
        BadCommittee BadShape NoRoom HistoryMissing DigestClash Halt";
    assert_eq!(names.join(" "), document_01);
    for (place, refusal) in Refusal::ALL.iter().enumerate() {
        assert_eq!(usize::from(refusal.number()), place + 1);
        assert_eq!(Refusal::from_number(refusal.number()), Some(*refusal));
        assert_eq!(Answer::refused(*refusal).result(), Err(*refusal));
    }
    assert_eq!(Refusal::from_number(0), None);
    assert_eq!(Refusal::from_number(16), None);
}
