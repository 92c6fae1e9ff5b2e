//! Checks of headers, votes and certificates, beside the Rust's `verify`. Each message is made
//! good or bad on purpose, and the verdicts are what the Rust's hashes and signatures say of it.

use crate::call::Call;
use crate::coverage::Coverage;
use crate::headers::{self, key_at, Parts};
use crate::listed::Listed;
use crate::made::{self, Made};
use crate::members::{self, Key};
use crate::numbers::{is_round, round, verdict};
use crate::rng::Rng;
use crate::{Difference, Module};
use oracle::committee::secret;
use oracle::narwhal::config::Committee;
use oracle::narwhal::crypto::{Digest, Hash as _, PublicKey, Signature};
use oracle::narwhal::error::{DagError, DagResult};
use oracle::narwhal::messages::{Certificate, Header, Vote};
use tundrimela::layout::{self, certificate, vote};
use tundrimela::raw::{self, Answer};
use tundrimela::Refusal;

pub const MODULE: Module = Module {
    name: "checks",
    case,
};

fn case(rng: &mut Rng, coverage: &mut Coverage) -> Result<(), Difference> {
    let mut run = Run {
        list: Listed::any(rng),
        rng,
        coverage,
    };
    run.header()?;
    run.vote()?;
    run.certificate()
}

struct Run<'a> {
    rng: &'a mut Rng,
    coverage: &'a mut Coverage,
    list: Listed,
}

/// What goes over: the message, the verdicts, and their kinds.
struct Asked {
    entry: &'static str,
    message: (&'static str, Vec<u8>),
    verdicts: Vec<u8>,
    kinds: Vec<&'static str>,
}

impl Run<'_> {
    fn header(&mut self) -> Result<(), Difference> {
        let (mut kinds, good) = self.some_header();
        let made = headers::some(self.rng, parts_of(&good));
        let read = headers::read(&made.bytes);
        let read = read.map(|x| signed_as(&x, &good.signature));
        kinds.push(made.kind);
        let truths = read.as_ref().map_or([true; 2], truths);
        let asked = Asked {
            entry: "header_check",
            message: ("header", made.bytes),
            verdicts: self.verdicts(&truths, &mut kinds),
            kinds,
        };
        self.compare(asked, read, Header::verify, |x, v| {
            raw::header_check(x[0], x[1], v[0], v[1])
        })
    }

    fn vote(&mut self) -> Result<(), Difference> {
        let mut kinds = Vec::new();
        let (kind, author) = self.some_key();
        kinds.push(kind);
        let (round_kind, round) = round(self.rng);
        kinds.push(round_kind);
        let mut vote = Vote {
            id: Digest(members::key(self.rng)),
            round,
            origin: PublicKey(members::key(self.rng)),
            author: PublicKey(author),
            signature: Signature::default(),
        };
        vote.signature = self.signature(&vote.digest(), author, &mut kinds);
        let made = self.vote_bytes(&vote);
        kinds.push(made.kind);
        let in_shape = made.bytes.len() == vote::SIZE && is_round(round);
        let truth = vote.signature.verify(&vote.digest(), &vote.author).is_ok();
        let asked = Asked {
            entry: "vote_check",
            message: ("vote", made.bytes),
            verdicts: self.verdicts(&[truth], &mut kinds),
            kinds,
        };
        self.compare(asked, in_shape.then_some(vote), Vote::verify, |x, v| {
            raw::vote_check(x[0], x[1], v[0])
        })
    }

    fn vote_bytes(&mut self, vote: &Vote) -> Made {
        let mut bytes = [vote.id.0, vote.origin.0, vote.author.0].concat();
        bytes.extend_from_slice(&vote.round.to_le_bytes());
        if !self.rng.once_in(16) {
            return Made::new("vote: 104 bytes", bytes);
        }
        bytes.extend(self.rng.bytes(vote::SIZE));
        bytes.truncate(*self.rng.pick(&[0, 96, 103, 105, 208]));
        Made::new("vote: not 104 bytes", bytes)
    }

    fn certificate(&mut self) -> Result<(), Difference> {
        let (mut kinds, header) = self.some_header();
        let (kind, voters) = self.some_voters();
        kinds.push(kind);
        let votes = Vec::new();
        let digest = Certificate {
            header: header.clone(),
            votes,
        }
        .digest();
        let signatures = self.signatures(&digest, &voters, &mut kinds);
        let made = self.certificate_bytes(&header, &voters);
        kinds.push(made.kind);
        let read = read_certificate(&made.bytes, &header.signature, &signatures);
        let truths = read.as_ref().map_or(vec![true; 3], |x| {
            let batch = Signature::verify_batch(&x.digest(), &x.votes).is_ok();
            [&truths(&x.header)[..], &[batch]].concat()
        });
        let asked = Asked {
            entry: "certificate_check",
            message: ("certificate", made.bytes),
            verdicts: self.verdicts(&truths, &mut kinds),
            kinds,
        };
        self.compare(asked, read, Certificate::verify, |x, v| {
            raw::certificate_check(x[0], x[1], v[0], v[1], v[2])
        })
    }

    /// 10, then 11, then what the Rust says.
    fn compare<Message>(
        &mut self,
        asked: Asked,
        read: Option<Message>,
        verify: fn(&Message, &Committee) -> DagResult<()>,
        ask: fn(&[&[u8]], &[u8]) -> Answer,
    ) -> Result<(), Difference> {
        let verdicts = &asked.verdicts;
        let over = verdicts.iter().any(|x| *x > 1);
        let expected = match (&self.list.rust, read) {
            (None, _) => Answer::refused(Refusal::BadCommittee),
            (Some(rust), Some(message)) if !over => {
                let answer = answer(verify(&message, rust));
                self.coverage.beside_the_rust(asked.entry, answer);
                answer
            }
            _ => Answer::refused(Refusal::BadShape),
        };
        let mut kinds = asked.kinds;
        kinds.push(self.list.kind);
        let names = ["first verdict", "second verdict", "third verdict"];
        let numbers = names
            .into_iter()
            .zip(verdicts.iter().map(|x| u64::from(*x)));
        let (name, message) = &asked.message;
        let call = Call {
            entry: asked.entry,
            slices: &[("members", &self.list.bytes), (name, message)],
            numbers: &numbers.collect::<Vec<_>>(),
            kinds: &kinds,
        };
        call.compare(self.rng, self.coverage, expected, |x| ask(x, verdicts))
    }

    fn verdicts(&mut self, truths: &[bool], kinds: &mut Vec<&'static str>) -> Vec<u8> {
        let mut verdicts = Vec::new();
        for truth in truths {
            let (kind, verdict) = verdict(self.rng, *truth);
            kinds.push(kind);
            verdicts.push(verdict);
        }
        verdicts
    }

    fn some_key(&mut self) -> (&'static str, Key) {
        if self.list.rows.is_empty() || self.rng.once_in(6) {
            return ("author: a stranger", members::key(self.rng));
        }
        ("author: a member", self.rng.pick(&self.list.rows).key)
    }

    /// A header whose id, author, workers and signature are each good or bad.
    fn some_header(&mut self) -> (Vec<&'static str>, Header) {
        let mut parts = headers::parts(self.rng);
        let (kind, author) = self.some_key();
        let mut kinds = vec![kind];
        parts.author = author;
        kinds.push(self.choose_workers(&mut parts));
        let mut header = parts.rust();
        header.id = header.digest();
        if self.rng.once_in(6) {
            header.id.0[self.rng.below(32)] ^= 1;
            kinds.push("id: wrong");
        }
        let id = header.id.clone();
        header.signature = self.signature(&id, author, &mut kinds);
        (kinds, header)
    }

    /// Mostly workers that the author has.
    fn choose_workers(&mut self, parts: &mut Parts) -> &'static str {
        let row = self.list.rows.iter().find(|x| x.key == parts.author);
        let workers = row.map_or(Vec::new(), |x| x.workers.clone());
        if workers.is_empty() && !self.rng.once_in(4) {
            parts.payload.clear();
        }
        if parts.payload.is_empty() {
            return "workers: none";
        }
        if workers.is_empty() {
            return "workers: any";
        }
        for (_, worker) in &mut parts.payload {
            *worker = *self.rng.pick(&workers);
        }
        if !self.rng.once_in(6) {
            return "workers: the author's";
        }
        let place = self.rng.below(parts.payload.len());
        parts.payload[place].1 = members::worker_id(self.rng);
        "workers: any"
    }

    fn signature(
        &mut self,
        digest: &Digest,
        author: Key,
        kinds: &mut Vec<&'static str>,
    ) -> Signature {
        let mut key = author;
        if self.rng.once_in(6) {
            key[self.rng.below(32)] ^= 1;
            kinds.push("signature: another's");
        }
        Signature::new(digest, &secret(&PublicKey(key)))
    }

    fn signatures(
        &mut self,
        digest: &Digest,
        voters: &[Key],
        kinds: &mut Vec<&'static str>,
    ) -> Vec<Signature> {
        let sign = |key: &Key| Signature::new(digest, &secret(&PublicKey(*key)));
        let mut signatures: Vec<_> = voters.iter().map(sign).collect();
        if !voters.is_empty() && self.rng.once_in(6) {
            let place = self.rng.below(voters.len());
            signatures[place] = Signature::default();
            kinds.push("batch: a signature spoilt");
        }
        signatures
    }

    /// Voters in any order: a quorum or not, at times with a repeated one or a stranger.
    fn some_voters(&mut self) -> (&'static str, Vec<Key>) {
        let mut keys: Vec<_> = self.list.rows.iter().map(|x| x.key).collect();
        for place in (1..keys.len()).rev() {
            keys.swap(place, self.rng.below(place + 1));
        }
        let size = keys.len();
        let kind = match self.rng.below(8) {
            0 => {
                let left = self.rng.below(size + 1);
                keys.truncate(left);
                "voters: some members"
            }
            1 if size > 1 => {
                let (from, to) = (self.rng.below(size), self.rng.below(size));
                keys.push(keys[from]);
                keys.swap(to, size);
                "voters: one twice"
            }
            2 => {
                let place = self.rng.below(size + 1);
                keys.insert(place, members::key(self.rng));
                "voters: a stranger"
            }
            3 if size > 1 => {
                let stranger = members::key(self.rng);
                keys.extend([stranger, stranger]);
                "voters: a stranger twice"
            }
            4 => {
                while keys.len() < layout::MAX_VOTES {
                    keys.push(members::key(self.rng));
                }
                "voters: 64"
            }
            5 => {
                self.up_to_quorum(&mut keys);
                "voters: just a quorum"
            }
            6 => {
                self.up_to_quorum(&mut keys);
                keys.pop();
                "voters: one short of a quorum"
            }
            _ => "voters: all members",
        };
        (kind, keys)
    }

    fn up_to_quorum(&self, keys: &mut Vec<Key>) {
        if let Some(rust) = &self.list.rust {
            let mut weight = 0;
            keys.retain(|key| {
                let wanted = weight < rust.quorum_threshold();
                weight += rust.stake(&PublicKey(*key));
                wanted
            });
        }
    }

    fn certificate_bytes(&mut self, header: &Header, voters: &[Key]) -> Made {
        let front = headers::some(self.rng, parts_of(header));
        let mut bytes = front.bytes;
        bytes.extend(self.rng.bytes(layout::DIGEST));
        bytes.push(voters.len() as u8);
        bytes.extend(voters.concat());
        let rest = (layout::MAX_VOTES - voters.len()) * layout::KEY;
        bytes.extend(self.rng.bytes(rest));
        match self.rng.below(16) {
            0 if bytes.len() == certificate::SIZE => {
                bytes[certificate::VOTE_COUNT] = *self.rng.pick(&[65, 66, 128, 255]);
                Made::new("certificate: 65 votes or more", bytes)
            }
            1 => made::damaged(self.rng, &LENGTHS_AND_BITS, bytes),
            _ => Made::new(front.kind, bytes),
        }
    }
}

const LENGTHS_AND_BITS: [&str; 4] = [
    "certificate: cut short",
    "certificate: grown",
    "certificate: a bit flipped",
    "certificate: noise",
];

/// Document 01's domain, read on its own, with the signatures that stand beside the bytes.
fn read_certificate(
    bytes: &[u8],
    signature: &Signature,
    signatures: &[Signature],
) -> Option<Certificate> {
    if bytes.len() != certificate::SIZE {
        return None;
    }
    let header = headers::read(&bytes[..layout::header::SIZE])?;
    let count = usize::from(bytes[certificate::VOTE_COUNT]);
    let voter = |place| PublicKey(key_at(bytes, certificate::VOTERS + 32 * place));
    let signed = |place| signatures.get(place).cloned().unwrap_or_default();
    (count <= 64).then(|| Certificate {
        header: signed_as(&header, signature),
        votes: (0..count).map(|x| (voter(x), signed(x))).collect(),
    })
}

fn signed_as(parts: &Parts, signature: &Signature) -> Header {
    Header {
        signature: signature.clone(),
        ..parts.rust()
    }
}

/// Whether the id is the hash, and whether the author has signed the id.
fn truths(header: &Header) -> [bool; 2] {
    let signed = header.signature.verify(&header.id, &header.author);
    [header.digest() == header.id, signed.is_ok()]
}

fn parts_of(header: &Header) -> Parts {
    Parts {
        id: header.id.0,
        author: header.author.0,
        round: header.round,
        parents: header.parents.iter().map(|x| x.0).collect(),
        payload: header.payload.iter().map(|(x, id)| (x.0, *id)).collect(),
    }
}

/// Document 01's number of what the Rust says.
fn answer(result: DagResult<()>) -> Answer {
    let refusal = match result {
        Ok(()) => return Answer::done(0),
        Err(DagError::InvalidHeaderId) => Refusal::InvalidHeaderId,
        Err(DagError::UnknownAuthority(_)) => Refusal::UnknownAuthority,
        Err(DagError::MalformedHeader(_)) => Refusal::MalformedHeader,
        Err(DagError::InvalidSignature(_)) => Refusal::InvalidSignature,
        Err(DagError::AuthorityReuse(_)) => Refusal::AuthorityReuse,
        Err(DagError::CertificateRequiresQuorum) => Refusal::CertificateRequiresQuorum,
        Err(other) => panic!("no check gives this: {}", other),
    };
    Answer::refused(refusal)
}
