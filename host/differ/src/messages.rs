//! Strings for hashing: their hashes are the Rust's digests.

use crate::call::{Call, Written};
use crate::coverage::Coverage;
use crate::headers::{self, Parts};
use crate::made::{of_32, Made};
use crate::members::{self, Key};
use crate::numbers::{is_round, round};
use crate::rng::Rng;
use crate::{agreed, Difference, Module};
use oracle::narwhal::crypto::{Digest, Hash as _, PublicKey, Signature};
use oracle::narwhal::messages::{Certificate, Header, Vote};
use oracle::narwhal::stand_ins::ed25519_dalek::{Digest as _, Sha512};
use tundrimela::raw::{self, Answer};
use tundrimela::Refusal;

pub const MODULE: Module = Module {
    name: "messages",
    case,
};

fn case(rng: &mut Rng, coverage: &mut Coverage) -> Result<(), Difference> {
    let parts = headers::parts(rng);
    let header = headers::some(rng, parts);
    header_string(rng, coverage, &header)?;
    let asked = Triple::any(rng);
    asked.compare(rng, coverage, "vote_string", raw::vote_string, vote_digest)?;
    let asked = Triple::any(rng);
    let ask = raw::certificate_string;
    asked.compare(rng, coverage, "certificate_string", ask, certificate_digest)
}

fn header_string(rng: &mut Rng, coverage: &mut Coverage, header: &Made) -> Result<(), Difference> {
    let parts = headers::read(&header.bytes);
    let string = parts.as_ref().map(string_of);
    if let (Some(parts), Some(string)) = (&parts, &string) {
        hashes_to(string, parts.rust().digest())?;
    }
    let room = Room::any(rng, string.as_ref().map_or(200, Vec::len));
    let (expected, after) = room.written(string.as_deref());
    if string.is_some() {
        coverage.beside_the_rust("header_string", expected);
    }
    let call = Call {
        entry: "header_string",
        slices: &[("header", &header.bytes)],
        numbers: &[("at", room.at)],
        kinds: &[header.kind, room.kind],
    };
    let written = [room.buffer(&after)];
    call.compare_writing(rng, coverage, &written, expected, |x, out| {
        raw::header_string(x[0], out[0], room.at)
    })
}

/// Document 01's string of a header, read on its own.
fn string_of(parts: &Parts) -> Vec<u8> {
    let mut string = [&parts.author[..], &parts.round.to_le_bytes()].concat();
    for (digest, worker) in &parts.payload {
        string.extend_from_slice(digest);
        string.extend_from_slice(&worker.to_le_bytes());
    }
    string.extend(parts.parents.concat());
    string
}

/// The bytes that are compared with the library's are those that the Rust hashes.
fn hashes_to(string: &[u8], digest: Digest) -> Result<(), Difference> {
    let what = "document 01's string does not hash to the Rust's digest";
    agreed(Sha512::digest(string)[..32] == digest.0, what)
}

/// Id, round and origin, of which the strings of votes and certificates are made.
struct Triple {
    id: Made,
    origin: Made,
    round: (&'static str, u64),
}

impl Triple {
    fn any(rng: &mut Rng) -> Triple {
        let (id, origin) = (members::key(rng), members::key(rng));
        Triple {
            id: of_32(rng, ["id: 32 bytes", "id: not 32 bytes"], &id),
            origin: of_32(rng, ["origin: 32 bytes", "origin: not 32 bytes"], &origin),
            round: round(rng),
        }
    }

    /// The three where document 01 takes them.
    fn read(&self) -> Option<(Key, u64, Key)> {
        let id = self.id.bytes[..].try_into().ok()?;
        let origin = self.origin.bytes[..].try_into().ok()?;
        is_round(self.round.1).then_some((id, self.round.1, origin))
    }

    fn compare(
        &self,
        rng: &mut Rng,
        coverage: &mut Coverage,
        entry: &'static str,
        ask: fn(&[u8], u64, &[u8], &mut [u8], u64) -> Answer,
        digest: fn(Key, u64, Key) -> Digest,
    ) -> Result<(), Difference> {
        let string = match self.read() {
            None => None,
            Some((id, round, origin)) => {
                let string = [&id[..], &round.to_le_bytes(), &origin].concat();
                hashes_to(&string, digest(id, round, origin))?;
                Some(string)
            }
        };
        let room = Room::any(rng, 72);
        let (expected, after) = room.written(string.as_deref());
        if string.is_some() {
            coverage.beside_the_rust(entry, expected);
        }
        let (round_kind, round) = self.round;
        let call = Call {
            entry,
            slices: &[("id", &self.id.bytes), ("origin", &self.origin.bytes)],
            numbers: &[("round", round), ("at", room.at)],
            kinds: &[self.id.kind, self.origin.kind, round_kind, room.kind],
        };
        let written = [room.buffer(&after)];
        call.compare_writing(rng, coverage, &written, expected, |x, out| {
            ask(x[0], round, x[1], out[0], room.at)
        })
    }
}

fn vote_digest(id: Key, round: u64, origin: Key) -> Digest {
    let vote = Vote {
        id: Digest(id),
        round,
        origin: PublicKey(origin),
        author: PublicKey::default(),
        signature: Signature::default(),
    };
    vote.digest()
}

fn certificate_digest(id: Key, round: u64, origin: Key) -> Digest {
    let header = Header {
        author: PublicKey(origin),
        round,
        id: Digest(id),
        ..Header::default()
    };
    let votes = Vec::new();
    Certificate { header, votes }.digest()
}

/// A buffer with noise in it, and the place from which a string is to be written.
struct Room {
    kind: &'static str,
    out: Vec<u8>,
    at: u64,
}

impl Room {
    fn any(rng: &mut Rng, length: usize) -> Room {
        let some = rng.within(1, 100);
        let more = rng.within(1, 100);
        let (kind, size, at) = match rng.below(9) {
            0 => ("room: exact", length, 0),
            1 => ("room: a byte short", length - 1, 0),
            2 => (
                "room: a byte short from within",
                some + length - 1,
                some as u64,
            ),
            3 => ("room: none", 0, 0),
            4 => ("room: from past the end", length, (length + some) as u64),
            5 => ("room: at wraps", length + some, wrapping(rng, length)),
            6 => ("room: to the end", some + length, some as u64),
            _ => ("room: within", some + length + more, some as u64),
        };
        let out = rng.bytes(size);
        Room { kind, out, at }
    }

    /// The answer, and the buffer then: the string from the place on where there is one and it
    /// fits, else no change.
    fn written(&self, string: Option<&[u8]>) -> (Answer, Vec<u8>) {
        let mut after = self.out.clone();
        let place = string.and_then(|string| {
            let at = usize::try_from(self.at).ok()?;
            let end = at.checked_add(string.len())?;
            let place = after.get_mut(at..end)?;
            place.copy_from_slice(string);
            Some(string.len() as u64)
        });
        let refused = Answer::refused(Refusal::BadShape);
        (place.map_or(refused, Answer::done), after)
    }

    fn buffer<'a>(&'a self, after: &'a [u8]) -> Written<'a> {
        Written::new("out", &self.out, after)
    }
}

/// A place whose sum with the length is small in 64 bits, or just under their end.
fn wrapping(rng: &mut Rng, length: usize) -> u64 {
    let to_zero = 0u64.wrapping_sub(length as u64);
    let past = rng.below(length) as u64;
    *rng.pick(&[u64::MAX, u64::MAX - 1, to_zero, to_zero + past, to_zero - 1])
}
