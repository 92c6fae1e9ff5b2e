//! Headers, votes and certificates as the Rust makes them.

use crate::committee::{key, name, secret};
use narwhal::config::{Committee, WorkerId};
use narwhal::crypto::{Digest, Hash as _, Signature};
use narwhal::messages::{Certificate, Header, Vote};
use narwhal::primary::Round;
use std::collections::BTreeSet;

/// A signed header of `k<author>`.
pub fn header(
    author: usize,
    round: Round,
    payload: &[(Digest, WorkerId)],
    parents: &[Digest],
) -> Header {
    let mut header = Header {
        author: key(author),
        round,
        payload: payload.iter().cloned().collect(),
        parents: parents.iter().cloned().collect(),
        ..Header::default()
    };
    header.id = header.digest();
    header.signature = Signature::new(&header.id, &secret(&header.author));
    header
}

/// A signed vote of `k<author>` for a header.
pub fn vote(header: &Header, author: usize) -> Vote {
    let mut vote = Vote {
        id: header.id.clone(),
        round: header.round,
        origin: header.author,
        author: key(author),
        signature: Signature::default(),
    };
    vote.signature = Signature::new(&vote.digest(), &secret(&vote.author));
    vote
}

/// A header's certificate with the signed votes of these members, in this order.
pub fn certify(header: &Header, voters: &[usize]) -> Certificate {
    let mut certificate = Certificate {
        header: header.clone(),
        votes: Vec::new(),
    };
    let digest = certificate.digest();
    certificate.votes = voters
        .iter()
        .map(|voter| (key(*voter), Signature::new(&digest, &secret(&key(*voter)))))
        .collect();
    certificate
}

/// A certificate for the consensus alone, which looks at no id. The id is chosen so that the
/// digests of a round ascend with their origins' places: the digest's first byte lies in the
/// origin's part of the `origins` equal ones.
pub fn in_key_order(
    origin: usize,
    origins: usize,
    round: Round,
    parents: &BTreeSet<Digest>,
) -> Certificate {
    let header = Header {
        author: key(origin),
        round,
        parents: parents.clone(),
        ..Header::default()
    };
    let part = 256 / origins;
    (0..)
        .map(|id| numbered(&header, id))
        .find(|certificate| usize::from(certificate.digest().0[0]) / part == origin)
        .expect("some digest begins with any byte")
}

fn numbered(header: &Header, id: u64) -> Certificate {
    let mut header = header.clone();
    header.id.0[..8].copy_from_slice(&id.to_le_bytes());
    Certificate {
        header,
        votes: Vec::new(),
    }
}

/// The digests of the genesis certificates, in key order.
pub fn genesis(committee: &Committee) -> Vec<Digest> {
    let certificates = Certificate::genesis(committee);
    certificates.iter().map(|x| x.digest()).collect()
}

/// A certificate in document 01's words: `k2@1` is origin k2, round 1.
pub fn show(certificate: &Certificate) -> String {
    format!("{}@{}", name(&certificate.origin()), certificate.round())
}
