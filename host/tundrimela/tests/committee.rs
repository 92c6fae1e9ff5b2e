//! The typed committee: document 01's domain at its edges, and its thresholds.

use tundrimela::layout::{self, member, setup};
use tundrimela::{Committee, Key, Member, Refusal, Setup};

fn key(place: usize) -> Key {
    [place as u8 + 1; layout::KEY]
}

fn members(stakes: &[u32]) -> Vec<Member> {
    let numbered = stakes.iter().enumerate();
    numbered
        .map(|(place, stake)| Member {
            key: key(place),
            stake: *stake,
            workers: vec![place as u32, 1000],
        })
        .collect()
}

fn accepted(members: &[Member]) -> Committee {
    Committee::new(members).expect("a committee of the domain")
}

fn refused(members: &[Member]) {
    assert_eq!(Committee::new(members), Err(Refusal::BadCommittee))
}

#[test]
fn p1_to_p7() {
    let cases: [(&[u32], u32, u32); 7] = [
        (&[1], 1, 1),
        (&[3], 3, 1),
        (&[1, 1, 1, 1], 3, 2),
        (&[2, 3], 4, 2),
        (&[1, 5, 1], 5, 3),
        (&[4, 3, 2, 1], 7, 4),
        (&[16_777_215, 1], 11_184_811, 5_592_406),
    ];
    for (stakes, quorum, validity) in cases {
        let committee = accepted(&members(stakes));
        assert_eq!(committee.quorum(), quorum, "stakes {:?}", stakes);
        assert_eq!(committee.validity(), validity, "stakes {:?}", stakes);
    }
}

#[test]
fn total_stake_ends_at_16_777_216() {
    assert_eq!(layout::MAX_TOTAL_STAKE, 16_777_216);
    accepted(&members(&[16_777_216]));
    refused(&members(&[16_777_217]));
    accepted(&members(&[16_777_214, 1, 1]));
    refused(&members(&[16_777_214, 1, 2]));
    accepted(&members(&[524_288; 32]));
    refused(&members(&[16_777_216; 2]));
}

#[test]
fn a_total_past_32_bits_is_not_a_small_one() {
    refused(&members(&[u32::MAX, 2]));
    refused(&members(&[1 << 31, 1 << 31, 7]));
    refused(&members(&[u32::MAX; 32]));
}

#[test]
fn members_are_1_to_32() {
    refused(&[]);
    assert_eq!(accepted(&members(&[1])).size(), 1);
    assert_eq!(accepted(&members(&[1; 32])).size(), 32);
    refused(&members(&[1; 33]));
    refused(&members(&[1; 200]));
}

#[test]
fn workers_are_0_to_8() {
    let mut list = members(&[1, 1]);
    for count in [0, 1, 8] {
        list[1].workers = (0..count).collect();
        let committee = accepted(&list);
        assert!((0..count).all(|id| committee.has_worker(&key(1), id)));
        assert!(!committee.has_worker(&key(1), count));
    }
    for count in [9, 255, 256, 264] {
        list[1].workers = (0..count).collect();
        refused(&list);
    }
}

#[test]
fn keys_ascend() {
    let mut equal = members(&[1, 1]);
    equal[1].key = equal[0].key;
    refused(&equal);
    let mut falling = members(&[1, 1, 1]);
    falling.swap(1, 2);
    refused(&falling);
}

#[test]
fn the_first_byte_that_differs_decides() {
    for place in 0..layout::KEY {
        let mut list = members(&[1, 1]);
        list[0].key = [0x80; layout::KEY];
        list[1].key = [0x80; layout::KEY];
        list[1].key[place] = 0x81;
        list[1].key[place + 1..].fill(0);
        accepted(&list);
        list[1].key[place] = 0x7f;
        list[1].key[place + 1..].fill(0xff);
        refused(&list);
    }
}

#[test]
fn every_member_has_stake() {
    for place in 0..3 {
        let mut list = members(&[1, 2, 3]);
        list[place].stake = 0;
        refused(&list);
    }
}

#[test]
fn stake_is_by_key() {
    let committee = accepted(&members(&[5, 256, 70_000]));
    let stakes: Vec<_> = (0..4).map(|x| committee.stake(&key(x))).collect();
    assert_eq!(stakes, [5, 256, 70_000, 0]);
    let mut near = key(1);
    near[31] += 1;
    assert_eq!(committee.stake(&near), 0);
}

#[test]
fn workers_are_by_key_and_id() {
    let committee = accepted(&members(&[1, 1, 1]));
    assert!(committee.has_worker(&key(2), 2));
    assert!(committee.has_worker(&key(2), 1000));
    assert!(!committee.has_worker(&key(2), 1));
    assert!(!committee.has_worker(&key(3), 1000));
}

#[test]
fn leaders_take_turns() {
    let committee = accepted(&members(&[9, 1, 1]));
    let places: Vec<_> = (1..=6).map(|x| committee.leader(x)).collect();
    assert_eq!(places, [Ok(1), Ok(2), Ok(0), Ok(1), Ok(2), Ok(0)]);
    assert_eq!(committee.leader(u32::MAX - 1), Ok(2));
    assert_eq!(committee.leader(u32::MAX), Ok(0));
    assert_eq!(committee.leader(0), Err(Refusal::BadShape));
}

#[test]
fn rows_are_laid_out_in_69_bytes() {
    let list = [Member {
        key: [7; 32],
        stake: 0x0004_0302,
        workers: vec![0x0807_0605, 9],
    }];
    let committee = accepted(&list);
    let row = committee.as_bytes();
    assert_eq!((row.len(), member::SIZE), (69, 69));
    assert_eq!(row[..32], [7; 32]);
    assert_eq!(row[32..45], [2, 3, 4, 0, 2, 5, 6, 7, 8, 9, 0, 0, 0]);
    assert_eq!(row[45..], [0; 24]);
}

#[test]
fn a_setup_is_the_depth_and_the_rows() {
    let committee = accepted(&members(&[1, 1]));
    for depth in [0, 50, u32::MAX] {
        let whole = Setup::new(depth, &committee);
        let (front, rows) = whole.as_bytes().split_at(setup::MEMBERS);
        assert_eq!(front, u64::from(depth).to_le_bytes());
        assert_eq!(rows, committee.as_bytes());
    }
}
