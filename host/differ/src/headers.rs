//! Headers as bytes: of the domain, at its edges, and damaged; and document 01's domain.

use crate::made::{self, put, Made};
use crate::members::{self, Key};
use crate::numbers::{is_round, over_32_bits, MAX};
use crate::rng::Rng;
use oracle::narwhal::crypto::{Digest, PublicKey};
use oracle::narwhal::messages::Header;
use tundrimela::layout::{batch, header};

/// What a header says, in its own order.
#[derive(Clone)]
pub struct Parts {
    pub id: Key,
    pub author: Key,
    pub round: u64,
    pub parents: Vec<Key>,
    pub payload: Vec<(Key, u32)>,
}

impl Parts {
    /// The Rust's header, without a signature.
    pub fn rust(&self) -> Header {
        let payload = self.payload.iter();
        Header {
            author: PublicKey(self.author),
            round: self.round,
            payload: payload.map(|(x, id)| (Digest(*x), *id)).collect(),
            parents: self.parents.iter().map(|x| Digest(*x)).collect(),
            id: Digest(self.id),
            ..Header::default()
        }
    }

    /// As bytes. Places past the counts hold noise.
    pub fn write(&self, rng: &mut Rng) -> Vec<u8> {
        let mut bytes = rng.bytes(header::SIZE);
        let payload = self.payload.iter();
        let rows = payload.map(|(x, id)| [&x[..], &id.to_le_bytes()].concat());
        let rows: Vec<u8> = rows.flatten().collect();
        let front = [&self.id[..], &self.author, &self.round.to_le_bytes()].concat();
        put(&mut bytes, 0, &front);
        bytes[header::PARENT_COUNT] = self.parents.len() as u8;
        bytes[header::PAYLOAD_COUNT] = self.payload.len() as u8;
        put(&mut bytes, header::PARENTS, &self.parents.concat());
        put(&mut bytes, header::PAYLOAD, &rows);
        bytes
    }
}

/// Document 01's domain, read on its own: the header, or none for bytes outside it.
pub fn read(bytes: &[u8]) -> Option<Parts> {
    if bytes.len() != header::SIZE {
        return None;
    }
    let parents = usize::from(bytes[header::PARENT_COUNT]);
    let payload = usize::from(bytes[header::PAYLOAD_COUNT]);
    if parents > 32 || payload > 64 {
        return None;
    }
    let parts = Parts {
        id: key_at(bytes, 0),
        author: key_at(bytes, header::AUTHOR),
        round: u64::from_le_bytes(bytes[header::ROUND..][..8].try_into().expect("8 bytes")),
        parents: (0..parents)
            .map(|place| key_at(bytes, header::PARENTS + 32 * place))
            .collect(),
        payload: (0..payload)
            .map(|place| batch_at(bytes, header::PAYLOAD + batch::SIZE * place))
            .collect(),
    };
    let in_domain = is_round(parts.round)
        && parts.parents.windows(2).all(|pair| pair[0] < pair[1])
        && parts.payload.windows(2).all(|pair| pair[0].0 < pair[1].0);
    in_domain.then_some(parts)
}

/// The 32 bytes at a place.
pub fn key_at(bytes: &[u8], at: usize) -> Key {
    bytes[at..at + 32].try_into().expect("32 bytes")
}

/// The digest and the worker's id at a place.
pub fn batch_at(bytes: &[u8], at: usize) -> (Key, u32) {
    let id = bytes[at + batch::WORKER..][..4].try_into();
    (key_at(bytes, at), u32::from_le_bytes(id.expect("4 bytes")))
}

/// Any header of the domain.
pub fn parts(rng: &mut Rng) -> Parts {
    let few = rng.within(0, 5);
    let some = rng.within(0, 32);
    let parents = *rng.pick(&[0, few, few, some, 31, 32]);
    let payload = *rng.pick(&[0, few, few, 2 * some, 63, 64]);
    let small = rng.within(1, 100) as u64;
    let large = u64::from(rng.u32()).max(1);
    Parts {
        id: members::key(rng),
        author: members::key(rng),
        round: *rng.pick(&[1, small, small, large, MAX]),
        parents: parents_of(rng, parents),
        payload: payload_of(rng, payload),
    }
}

/// So many digests, ascending.
pub fn parents_of(rng: &mut Rng, count: usize) -> Vec<Key> {
    members::keys(rng, count).into_iter().collect()
}

/// So many batches, each of some worker.
pub fn payload_of(rng: &mut Rng, count: usize) -> Vec<(Key, u32)> {
    let digests = members::keys(rng, count);
    let batches = digests.into_iter();
    batches.map(|x| (x, members::worker_id(rng))).collect()
}

type Maker = (&'static str, fn(&mut Rng, Parts) -> Vec<u8>);

const DAMAGED: [Maker; 8] = [
    ("header: round 0", |rng, parts| {
        Parts { round: 0, ..parts }.write(rng)
    }),
    ("header: round over 32 bits", |rng, parts| {
        let round = over_32_bits(rng, parts.round);
        Parts { round, ..parts }.write(rng)
    }),
    ("header: 33 parents or more", |rng, parts| {
        let mut bytes = parts.write(rng);
        bytes[header::PARENT_COUNT] = *rng.pick(&[33, 34, 64, 128, 255]);
        bytes
    }),
    ("header: 65 batches or more", |rng, parts| {
        let mut bytes = parts.write(rng);
        bytes[header::PAYLOAD_COUNT] = *rng.pick(&[65, 66, 128, 255]);
        bytes
    }),
    ("header: equal parents", |rng, parts| {
        let parents = spoilt(rng, parents_of, 32, |list, place| {
            list[place] = list[place - 1]
        });
        Parts { parents, ..parts }.write(rng)
    }),
    ("header: falling parents", |rng, parts| {
        let parents = spoilt(rng, parents_of, 32, |list, place| {
            list.swap(place - 1, place)
        });
        Parts { parents, ..parts }.write(rng)
    }),
    ("header: equal batches", |rng, parts| {
        let payload = spoilt(rng, payload_of, 64, |list, place| {
            list[place].0 = list[place - 1].0
        });
        Parts { payload, ..parts }.write(rng)
    }),
    ("header: falling batches", |rng, parts| {
        let payload = spoilt(rng, payload_of, 64, |list, place| {
            list.swap(place - 1, place)
        });
        Parts { payload, ..parts }.write(rng)
    }),
];

const LENGTHS_AND_BITS: [&str; 4] = [
    "header: cut short",
    "header: grown",
    "header: a bit flipped",
    "header: noise",
];

/// A list of two to `most` items whose order is spoilt at one place.
fn spoilt<T>(
    rng: &mut Rng,
    make: fn(&mut Rng, usize) -> Vec<T>,
    most: usize,
    spoil: fn(&mut [T], usize),
) -> Vec<T> {
    let count = rng.within(2, most);
    let mut list = make(rng, count);
    let place = rng.within(1, count - 1);
    spoil(&mut list, place);
    list
}

/// The header as bytes, every fourth time damaged.
pub fn some(rng: &mut Rng, parts: Parts) -> Made {
    match rng.below(8) {
        0 => {
            let (kind, make) = rng.pick(&DAMAGED);
            Made::new(kind, make(rng, parts))
        }
        1 => {
            let bytes = parts.write(rng);
            made::damaged(rng, &LENGTHS_AND_BITS, bytes)
        }
        _ => Made::new(kind(&parts), parts.write(rng)),
    }
}

/// The edge of the domain at which a header lies.
fn kind(parts: &Parts) -> &'static str {
    match (parts.parents.len(), parts.payload.len()) {
        (32, 64) => "header: 32 parents, 64 batches",
        (32, _) => "header: 32 parents",
        (_, 64) => "header: 64 batches",
        (0, 0) => "header: no parents, no batches",
        _ if parts.round == MAX => "header: the last round",
        _ => "header: any of the domain",
    }
}
