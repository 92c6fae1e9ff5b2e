//! Votes and certificates counted one after the other, beside the Rust's aggregators.

use crate::call::{Call, Written};
use crate::coverage::Coverage;
use crate::headers::key_at;
use crate::listed::Listed;
use crate::made::{self, put, Made};
use crate::members::{self, Key};
use crate::numbers::{is_round, over_32_bits, MAX};
use crate::records::Record;
use crate::rng::Rng;
use crate::tables;
use crate::{agreed, Difference, Module};
use oracle::narwhal::aggregators::{CertificatesAggregator, VotesAggregator};
use oracle::narwhal::config::Committee;
use oracle::narwhal::crypto::{Digest, Hash as _, PublicKey, Signature};
use oracle::narwhal::messages::{Header, Vote};
use std::collections::HashMap;
use tundrimela::layout::{self, count, table, voters};
use tundrimela::raw::{self, Answer};
use tundrimela::Refusal;

pub const MODULE: Module = Module {
    name: "aggregators",
    case,
};

fn case(rng: &mut Rng, coverage: &mut Coverage) -> Result<(), Difference> {
    let mut run = Run {
        list: Listed::any(rng),
        rng,
        coverage,
        pool: Vec::new(),
    };
    run.pool = run.some_keys();
    run.votes()?;
    run.certificates()
}

struct Run<'a> {
    rng: &'a mut Rng,
    coverage: &'a mut Coverage,
    list: Listed,
    /// The keys that vote and certify in this case.
    pool: Vec<Key>,
}

/// The keys counted, with the digest of each; its weight begins again at each quorum.
struct Tally<'a> {
    rust: &'a Committee,
    weight: u64,
    gathered: Vec<Key>,
}

impl Tally<'_> {
    fn new(rust: &Committee) -> Tally<'_> {
        Tally {
            rust,
            weight: 0,
            gathered: Vec::new(),
        }
    }

    /// What a quorum gives: the digests gathered; none below it.
    fn count(&mut self, key: Key, digest: Key) -> Vec<Key> {
        self.gathered.push(digest);
        self.weight += u64::from(self.rust.stake(&PublicKey(key)));
        if self.weight < self.rust.quorum_threshold().into() {
            return Vec::new();
        }
        self.weight = 0;
        std::mem::take(&mut self.gathered)
    }
}

impl Run<'_> {
    /// The members, at times with strangers, at times strangers alone.
    fn some_keys(&mut self) -> Vec<Key> {
        let mut keys: Vec<_> = self.list.rows.iter().map(|x| x.key).collect();
        let strangers = *self.rng.pick(&[0, 0, 1, 3, 40]);
        if strangers == 40 && self.rng.once_in(2) {
            keys.clear();
        }
        let strange = (0..strangers).map(|_| members::key(self.rng));
        keys.extend(strange.collect::<Vec<_>>());
        if keys.is_empty() {
            keys.push(members::key(self.rng));
        }
        keys
    }

    fn key(&mut self) -> Key {
        *self.rng.pick(&self.pool)
    }

    /// Mostly more events than there are keys.
    fn events(&mut self) -> usize {
        let few = self.rng.within(1, 12);
        *self.rng.pick(&[few, few, 2 * self.pool.len().min(32), 80])
    }

    fn votes(&mut self) -> Result<(), Difference> {
        let (kind, mut bytes) = self.some_voters();
        let mut rust = (kind == "voters: none yet").then(VotesAggregator::new);
        for _ in 0..self.events() {
            let author = self.key();
            let kinds = ["author: 32 bytes", "author: not 32 bytes"];
            let author = made::of_32(self.rng, kinds, &author);
            let (answer, after) = self.voted(&bytes, &author.bytes);
            if let Some(rust) = &mut rust {
                self.same_vote(rust, &author.bytes, answer, &after)?;
            }
            let call = Call {
                entry: "count_vote",
                slices: &[("members", &self.list.bytes), ("author", &author.bytes)],
                numbers: &[],
                kinds: &[self.list.kind, kind, author.kind],
            };
            let written = [Written::new("voters", &bytes, &after)];
            call.compare_writing(self.rng, self.coverage, &written, answer, |x, voters| {
                raw::count_vote(x[0], voters[0], x[1])
            })?;
            bytes = after;
        }
        Ok(())
    }

    /// Mostly none yet, with noise in the places; else keys that no count has left, or damaged.
    fn some_voters(&mut self) -> (&'static str, Vec<u8>) {
        let mut bytes = self.rng.bytes(voters::SIZE);
        let kind = match self.rng.below(12) {
            0 => {
                bytes[0] = *self.rng.pick(&[33, 34, 128, 255]);
                "voters: 33 or more"
            }
            1 => {
                let length = *self.rng.pick(&[0, 1, 1_024, 1_026, 2_050]);
                bytes = vec![0; length];
                "voters: not 1,025 bytes"
            }
            2 | 3 => {
                bytes[0] = self.rng.within(1, 32) as u8;
                for place in 0..usize::from(bytes[0]) {
                    let key = self.key();
                    put(&mut bytes, voters::KEYS + 32 * place, &key);
                }
                "voters: any"
            }
            _ => {
                bytes[0] = 0;
                "voters: none yet"
            }
        };
        (kind, bytes)
    }

    /// Document 01, read on its own: 10, 11, 5, 12, then one voter more.
    fn voted(&self, bytes: &[u8], author: &[u8]) -> (Answer, Vec<u8>) {
        let refused = |refusal| (Answer::refused(refusal), bytes.to_vec());
        let rust = match &self.list.rust {
            None => return refused(Refusal::BadCommittee),
            Some(rust) => rust,
        };
        if bytes.len() != voters::SIZE || bytes[0] > 32 || author.len() != 32 {
            return refused(Refusal::BadShape);
        }
        let keys = keys_in(bytes);
        let author = key_at(author, 0);
        if keys.contains(&author) {
            return refused(Refusal::AuthorityReuse);
        }
        if keys.len() == 32 {
            return refused(Refusal::NoRoom);
        }
        let mut tally = Tally::new(rust);
        for key in &keys {
            tally.count(*key, *key);
        }
        let reached = !tally.count(author, author).is_empty();
        let mut after = bytes.to_vec();
        put(&mut after, voters::KEYS + 32 * keys.len(), &author);
        after[0] += 1;
        (Answer::done(reached.into()), after)
    }

    /// The Rust counts the same, and certifies with the voters in the order counted.
    fn same_vote(
        &mut self,
        aggregator: &mut VotesAggregator,
        author: &[u8],
        answer: Answer,
        after: &[u8],
    ) -> Result<(), Difference> {
        let rust = match &self.list.rust {
            Some(rust) if [0, 5].contains(&answer.number) => rust,
            _ => return Ok(()),
        };
        self.coverage.beside_the_rust("count_vote", answer);
        let header = Header::default();
        let vote = Vote {
            id: Digest::default(),
            round: 1,
            origin: PublicKey::default(),
            author: PublicKey(key_at(author, 0)),
            signature: Signature::default(),
        };
        let same = match aggregator.append(vote, rust, &header) {
            Err(_) => answer.number == 5,
            Ok(None) => answer == Answer::done(0),
            Ok(Some(certificate)) => {
                let voters = certificate.votes.iter();
                let voters: Vec<_> = voters.map(|(key, _)| key.0).collect();
                answer == Answer::done(1) && voters == keys_in(after)
            }
        };
        agreed(
            same,
            "the Rust counts votes in another way than document 01",
        )
    }

    fn certificates(&mut self) -> Result<(), Difference> {
        let (kinds, mut bytes) = self.some_counts();
        let mut rust = (kinds.1 == "counts: none yet").then(HashMap::new);
        for _ in 0..self.events() {
            let asked = self.some_certificate();
            let out = self.some_out();
            let (answer, after, given) = self.certified(&bytes, &asked, out.bytes.len());
            if let Some(rust) = &mut rust {
                self.same_certificate(rust, &asked, answer, &given)?;
            }
            let call = Call {
                entry: "count_certificate",
                slices: &[
                    ("members", &self.list.bytes),
                    ("origin", &asked.origin.bytes),
                    ("digest", &asked.digest.bytes),
                ],
                numbers: &[("round", asked.round)],
                kinds: &[
                    self.list.kind,
                    kinds.0,
                    kinds.1,
                    asked.round_kind,
                    asked.origin.kind,
                    asked.digest.kind,
                    out.kind,
                ],
            };
            let left = made::with_front(&out.bytes, &given.concat());
            let written = [
                Written::new("counts", &bytes, &after),
                Written::new("out", &out.bytes, &left),
            ];
            let round = asked.round;
            call.compare_writing(self.rng, self.coverage, &written, answer, |x, y| match y {
                [counts, out] => raw::count_certificate(x[0], counts, round, x[1], x[2], out),
                _ => unreachable!("two buffers are written"),
            })?;
            bytes = after;
        }
        Ok(())
    }

    fn some_out(&mut self) -> Made {
        let kinds = ["out: 1,024 bytes", "out: not 1,024 bytes"];
        made::buffer(self.rng, kinds, layout::DIGESTS)
    }

    /// A table without rounds, or with rounds that no count has left; at times damaged.
    fn some_counts(&mut self) -> ((&'static str, &'static str), Vec<u8>) {
        if !self.rng.once_in(3) {
            let places = self.rng.within(1, 4);
            let mut bytes = self.rng.bytes(table::ROWS + places * count::SIZE);
            bytes[..table::ROWS].fill(0);
            return (("table: empty", "counts: none yet"), bytes);
        }
        let rounds = self.rng.within(0, 3);
        let mut kind = "counts: any";
        let mut rows: Vec<_> = (0..rounds).map(|_| self.some_row()).collect();
        if rounds > 0 && self.rng.once_in(4) {
            rows[rounds - 1][count::PAIR_COUNT] = *self.rng.pick(&[33, 64, 255]);
            kind = "counts: 33 pairs or more";
        }
        let made = tables::make(self.rng, count::SIZE, &rows, &[]);
        ((made.kind, kind), made.bytes)
    }

    fn some_row(&mut self) -> Vec<u8> {
        let mut row = self.rng.bytes(count::SIZE);
        let some = self.rng.within(0, 32) as u8;
        let round = self.rng.within(1, 3) as u32;
        put(&mut row, 0, &round.to_le_bytes());
        row[count::PAIR_COUNT] = *self.rng.pick(&[0, 1, some, some, 31, 32]);
        for place in 0..usize::from(row[count::PAIR_COUNT]) {
            let key = self.key();
            put(&mut row, count::PAIRS + count::PAIR * place, &key);
        }
        row
    }

    fn some_certificate(&mut self) -> Asked {
        let small = *self.rng.pick(&[1, 1, 1, 2, 2, 3, 4]);
        let (round_kind, round) = match self.rng.below(24) {
            0 => ("round: 0", 0),
            1 => ("round: over 32 bits", over_32_bits(self.rng, small)),
            2 => ("round: the last", MAX),
            _ => ("round: small", small),
        };
        let record = Record {
            round: round as u32,
            origin: self.key(),
            digest: members::key(self.rng),
        };
        let digest = record.rust().digest().0;
        let origins = ["origin: 32 bytes", "origin: not 32 bytes"];
        let digests = ["digest: 32 bytes", "digest: not 32 bytes"];
        Asked {
            round_kind,
            round,
            origin: made::of_32(self.rng, origins, &record.origin),
            digest: made::of_32(self.rng, digests, &digest),
            record,
        }
    }

    /// Document 01, read on its own: 10, 11, a repeated origin, 12, then one pair more.
    fn certified(&self, bytes: &[u8], asked: &Asked, out: usize) -> (Answer, Vec<u8>, Vec<Key>) {
        let stay = |answer| (answer, bytes.to_vec(), Vec::new());
        let rust = match &self.list.rust {
            None => return stay(Answer::refused(Refusal::BadCommittee)),
            Some(rust) => rust,
        };
        let rows = match read_counts(bytes) {
            Some(rows) if asked.in_shape() && out == layout::DIGESTS => rows,
            _ => return stay(Answer::refused(Refusal::BadShape)),
        };
        let (origin, digest) = (asked.record.origin, key_at(&asked.digest.bytes, 0));
        let found = rows.iter().position(|row| row.round == asked.round as u32);
        let fresh = Count::default();
        let row = found.map_or(&fresh, |place| &rows[place]);
        if row.pairs.iter().any(|pair| pair.0 == origin) {
            return stay(Answer::done(0));
        }
        let after = match found {
            Some(_) if row.pairs.len() == 32 => None,
            Some(place) => Some(with_pair(bytes, place, row.pairs.len(), origin, digest)),
            None => with_row(bytes, asked.round as u32, origin, digest),
        };
        let mut tally = Tally::new(rust);
        for (key, digest) in &row.pairs {
            tally.count(*key, *digest);
        }
        match after {
            None => stay(Answer::refused(Refusal::NoRoom)),
            Some(after) => {
                let given = tally.count(origin, digest);
                (Answer::done(given.len() as u64), after, given)
            }
        }
    }

    /// The Rust gives the same digests.
    fn same_certificate(
        &mut self,
        rounds: &mut HashMap<u64, CertificatesAggregator>,
        asked: &Asked,
        answer: Answer,
        given: &[Key],
    ) -> Result<(), Difference> {
        let rust = match &self.list.rust {
            Some(rust) if answer.number == 0 => rust,
            _ => return Ok(()),
        };
        self.coverage.beside_the_rust("count_certificate", answer);
        let aggregator = rounds.entry(asked.round);
        let aggregator = aggregator.or_insert_with(CertificatesAggregator::new);
        let result = aggregator.append(asked.record.rust(), rust);
        let digests = result.expect("a certificate is not refused");
        let digests: Vec<_> = digests.unwrap_or_default().iter().map(|x| x.0).collect();
        let what = "the Rust counts certificates in another way than document 01";
        agreed(digests == given, what)
    }
}

struct Asked {
    round_kind: &'static str,
    round: u64,
    origin: Made,
    digest: Made,
    record: Record,
}

impl Asked {
    fn in_shape(&self) -> bool {
        is_round(self.round) && self.origin.bytes.len() == 32 && self.digest.bytes.len() == 32
    }
}

fn keys_in(voters: &[u8]) -> Vec<Key> {
    let places = 0..usize::from(voters[0]);
    places
        .map(|x| key_at(voters, voters::KEYS + 32 * x))
        .collect()
}

/// A round's row.
#[derive(Default)]
struct Count {
    round: u32,
    pairs: Vec<(Key, Key)>,
}

/// The rows in use; none for bytes outside the domain.
fn read_counts(bytes: &[u8]) -> Option<Vec<Count>> {
    let rows = tables::read(bytes, count::SIZE)?;
    rows.into_iter().map(read_count).collect()
}

fn read_count(row: &[u8]) -> Option<Count> {
    let pairs = usize::from(row[count::PAIR_COUNT]);
    let places = (0..pairs).map(|place| count::PAIRS + count::PAIR * place);
    (pairs <= 32).then(|| Count {
        round: u32::from_le_bytes(row[..4].try_into().expect("4 bytes")),
        pairs: places
            .map(|at| (key_at(row, at), key_at(row, at + layout::KEY)))
            .collect(),
    })
}

/// The table with a pair more in the row at a place.
fn with_pair(bytes: &[u8], place: usize, pairs: usize, origin: Key, digest: Key) -> Vec<u8> {
    let mut after = bytes.to_vec();
    let row = &mut after[table::ROWS + place * count::SIZE..];
    row[count::PAIR_COUNT] += 1;
    let pair = [origin, digest].concat();
    put(row, count::PAIRS + count::PAIR * pairs, &pair);
    after
}

/// The table with a row more, of one pair and zeros; none where it is full.
fn with_row(bytes: &[u8], round: u32, origin: Key, digest: Key) -> Option<Vec<u8>> {
    let mut row = vec![0; count::SIZE];
    put(&mut row, 0, &round.to_le_bytes());
    row[count::PAIR_COUNT] = 1;
    put(&mut row, count::PAIRS, &[origin, digest].concat());
    tables::appended(bytes, count::SIZE, &row)
}
