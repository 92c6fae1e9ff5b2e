//! Records of certificates: genesis, and the known table.

use crate::headers::key_at;
use crate::made::{self, Made};
use crate::members::{self, Key, Row};
use crate::rng::Rng;
use crate::tables;
use oracle::committee::from_members;
use oracle::messages;
use oracle::narwhal::crypto::{Digest, PublicKey};
use oracle::narwhal::messages::{Certificate, Header};
use tundrimela::layout::record;

#[derive(Clone, PartialEq)]
pub struct Record {
    pub round: u32,
    pub origin: Key,
    pub digest: Key,
}

impl Record {
    pub fn any(rng: &mut Rng) -> Record {
        let small = rng.within(1, 9) as u32;
        let large = rng.u32().max(1);
        Record {
            round: *rng.pick(&[small, small, large, u32::MAX]),
            origin: members::key(rng),
            digest: members::key(rng),
        }
    }

    pub fn write(&self) -> Vec<u8> {
        [&self.round.to_le_bytes()[..], &self.origin, &self.digest].concat()
    }

    pub fn read(row: &[u8]) -> Record {
        Record {
            round: u32::from_le_bytes(row[..4].try_into().expect("4 bytes")),
            origin: key_at(row, record::ORIGIN),
            digest: key_at(row, record::DIGEST),
        }
    }

    /// A certificate of the Rust with this round and origin.
    pub fn rust(&self) -> Certificate {
        let header = Header {
            author: PublicKey(self.origin),
            round: self.round.into(),
            id: Digest(self.digest),
            ..Header::default()
        };
        Certificate {
            header,
            ..Certificate::default()
        }
    }
}

/// Document 01's domain of genesis, read on its own: the records, or none outside it.
pub fn read_genesis(members: &[Row], bytes: &[u8]) -> Option<Vec<Record>> {
    if bytes.len() != members.len() * record::SIZE {
        return None;
    }
    let records: Vec<_> = bytes.chunks(record::SIZE).map(Record::read).collect();
    let mut pairs = records.iter().zip(members);
    let in_order = pairs.all(|(x, member)| x.round == 0 && x.origin == member.key);
    let mut digests: Vec<_> = records.iter().map(|x| x.digest).collect();
    digests.sort();
    digests.dedup();
    (in_order && digests.len() == records.len()).then_some(records)
}

/// The genesis that the Rust has for these members.
pub fn rust_genesis(members: &[Row]) -> Vec<Record> {
    let rows = members.iter().map(|x| (x.key, x.stake, Vec::new()));
    let digests = messages::genesis(&from_members(rows)).into_iter();
    let pairs = members.iter().zip(digests);
    pairs
        .map(|(member, digest)| Record {
            round: 0,
            origin: member.key,
            digest: digest.0,
        })
        .collect()
}

pub const RUSTS: &str = "genesis: the Rust's";

const LENGTHS_AND_BITS: [&str; 4] = [
    "genesis: cut short",
    "genesis: grown",
    "genesis: a bit flipped",
    "genesis: noise",
];

/// Genesis of these members, at times with other digests than the Rust's, at times damaged.
pub fn genesis(rng: &mut Rng, members: &[Row]) -> Made {
    let mut records = rust_genesis(members);
    let place = rng.below(records.len().max(1));
    let kind = match rng.below(12) {
        0 if !records.is_empty() => {
            records[place].round = 1 << rng.below(32);
            "genesis: a round over 0"
        }
        1 if !records.is_empty() => {
            records[place].origin = members::key(rng);
            "genesis: another key"
        }
        2 if records.len() > 1 => {
            let other = (place + rng.within(1, records.len() - 1)) % records.len();
            records[place].digest = records[other].digest;
            "genesis: equal digests"
        }
        3 if !records.is_empty() => {
            records.remove(place);
            "genesis: a record fewer"
        }
        4 => {
            let bytes = write(&records);
            return made::damaged(rng, &LENGTHS_AND_BITS, bytes);
        }
        5 | 6 => {
            records
                .iter_mut()
                .for_each(|x| x.digest = members::key(rng));
            "genesis: other digests"
        }
        _ => RUSTS,
    };
    Made::new(kind, write(&records))
}

fn write(records: &[Record]) -> Vec<u8> {
    records.iter().flat_map(Record::write).collect()
}

/// A known table with these records, and with `behind` in the places behind them.
pub fn known(rng: &mut Rng, records: &[Record], behind: &[Record]) -> Made {
    let rows = |list: &[Record]| -> Vec<_> { list.iter().map(Record::write).collect() };
    tables::make(rng, record::SIZE, &rows(records), &rows(behind))
}

/// The records in use, or none for bytes that are no table.
pub fn read_known(bytes: &[u8]) -> Option<Vec<Record>> {
    let rows = tables::read(bytes, record::SIZE)?;
    Some(rows.into_iter().map(Record::read).collect())
}
