//! Parents, payload and the known table: what is missing is what the Rust asks its waiters for.

use crate::call::{Call, Written};
use crate::coverage::Coverage;
use crate::headers::{self, Parts};
use crate::listed::Listed;
use crate::made::{self, Made};
use crate::members::{self, Key};
use crate::records::{self, Record};
use crate::rng::Rng;
use crate::tables;
use crate::{agreed, Difference, Module};
use oracle::narwhal::config::Committee;
use oracle::narwhal::crypto::{Digest, PublicKey};
use oracle::narwhal::messages::Certificate;
use oracle::synchronizer::SynchronizerDriver;
use std::collections::BTreeSet;
use tundrimela::layout::{self, batch, record};
use tundrimela::raw::{self, Answer};
use tundrimela::Refusal;

pub const MODULE: Module = Module {
    name: "synchronizer",
    case,
};

fn case(rng: &mut Rng, coverage: &mut Coverage) -> Result<(), Difference> {
    parents(rng, coverage)?;
    payload(rng, coverage)?;
    learn(rng, coverage)
}

/// What a question about parents lends.
struct Lent {
    members: Listed,
    genesis: Made,
    known: Made,
    header: Made,
}

/// The same where document 01 takes it.
struct Read {
    /// The Rust's committee, where genesis is the Rust's.
    rust: Option<Committee>,
    genesis: Vec<Record>,
    known: Vec<Record>,
    header: Parts,
}

impl Lent {
    fn any(rng: &mut Rng) -> Lent {
        let members = Listed::any(rng);
        let genesis = records::genesis(rng, &members.rows);
        let (known, behind) = (some_records(rng), some_records(rng));
        let mut header = headers::parts(rng);
        header.parents = some_parents(rng, &genesis.bytes, &known, &behind);
        Lent {
            members,
            genesis,
            known: records::known(rng, &known, &behind),
            header: headers::some(rng, header),
        }
    }

    /// 10, then 11.
    fn read(&self) -> Result<Read, Refusal> {
        let rust = self.members.rust.clone().ok_or(Refusal::BadCommittee)?;
        self.read_rest(rust).ok_or(Refusal::BadShape)
    }

    fn read_rest(&self, rust: Committee) -> Option<Read> {
        let rows = &self.members.rows;
        let genesis = records::read_genesis(rows, &self.genesis.bytes)?;
        Some(Read {
            rust: (genesis == records::rust_genesis(rows)).then_some(rust),
            genesis,
            known: records::read_known(&self.known.bytes)?,
            header: headers::read(&self.header.bytes)?,
        })
    }

    fn slices(&self) -> [(&'static str, &[u8]); 4] {
        [
            ("members", &self.members.bytes),
            ("genesis", &self.genesis.bytes),
            ("known", &self.known.bytes),
            ("header", &self.header.bytes),
        ]
    }

    fn kinds(&self) -> [&'static str; 4] {
        [
            self.members.kind,
            self.genesis.kind,
            self.known.kind,
            self.header.kind,
        ]
    }
}

fn some_records(rng: &mut Rng) -> Vec<Record> {
    let count = *rng.pick(&[0, 1, 2, 5, 20]);
    (0..count).map(|_| Record::any(rng)).collect()
}

/// Up to 32 digests, ascending: of genesis, of known ones, of records that no longer count, and
/// of none.
fn some_parents(rng: &mut Rng, genesis: &[u8], known: &[Record], behind: &[Record]) -> Vec<Key> {
    let records = genesis.chunks_exact(record::SIZE).map(Record::read);
    let genesis: Vec<_> = records.map(|x| x.digest).collect();
    let digests = |list: &[Record]| -> Vec<_> { list.iter().map(|x| x.digest).collect() };
    let mut pools = vec![genesis, digests(known), digests(known), digests(behind)];
    pools.retain(|x| !x.is_empty());
    let wanted = *rng.pick(&[0, 1, 2, 4, 11, 32]);
    let strange = rng.within(0, 2);
    let mut parents = BTreeSet::new();
    for place in 0..wanted {
        let digest = if place < strange || pools.is_empty() {
            members::key(rng)
        } else {
            let pool = rng.below(pools.len());
            *rng.pick(&pools[pool])
        };
        parents.insert(digest);
    }
    parents.into_iter().collect()
}

fn parents(rng: &mut Rng, coverage: &mut Coverage) -> Result<(), Difference> {
    let lent = Lent::any(rng);
    let out = made::buffer(
        rng,
        ["out: 1,024 bytes", "out: not 1,024 bytes"],
        layout::DIGESTS,
    );
    let read = lent.read();
    let missing = match &read {
        Ok(read) => missing_parents(read)?,
        Err(_) => Vec::new(),
    };
    if let Ok(Read { rust: Some(_), .. }) = read {
        for entry in ["get_parents", "deliver"] {
            coverage.beside_the_rust(entry, Answer::done(missing.len() as u64));
        }
    }
    deliver(
        rng,
        coverage,
        &lent,
        read.as_ref().map(|_| missing.is_empty()),
    )?;
    let missing = match read {
        Ok(_) if out.bytes.len() != layout::DIGESTS => Err(Refusal::BadShape),
        other => other.map(|_| missing.concat()),
    };
    let (answer, after) = at_the_front(&out.bytes, missing, layout::DIGEST);
    let mut kinds = lent.kinds().to_vec();
    kinds.push(out.kind);
    let call = Call {
        entry: "get_parents",
        slices: &lent.slices(),
        numbers: &[],
        kinds: &kinds,
    };
    let written = [Written::new("out", &out.bytes, &after)];
    call.compare_writing(rng, coverage, &written, answer, |x, out| {
        raw::get_parents(x[0], x[1], x[2], x[3], out[0])
    })
}

fn deliver(
    rng: &mut Rng,
    coverage: &mut Coverage,
    lent: &Lent,
    delivered: Result<bool, &Refusal>,
) -> Result<(), Difference> {
    let expected = match delivered {
        Ok(delivered) => Answer::done(delivered.into()),
        Err(refusal) => Answer::refused(*refusal),
    };
    let call = Call {
        entry: "deliver",
        slices: &lent.slices(),
        numbers: &[],
        kinds: &lent.kinds(),
    };
    call.compare(rng, coverage, expected, |x| {
        raw::deliver(x[0], x[1], x[2], x[3])
    })
}

/// What is neither in genesis nor known, in the header's order. Where genesis is the Rust's, the
/// Rust says the same of both questions.
fn missing_parents(read: &Read) -> Result<Vec<Key>, Difference> {
    let held = read.genesis.iter().chain(&read.known);
    let held: BTreeSet<_> = held.map(|x| x.digest).collect();
    let parents = read.header.parents.iter().copied();
    let missing: Vec<_> = parents.filter(|x| !held.contains(x)).collect();
    if let Some(rust) = &read.rust {
        let same = rust_parents(rust, read) == (missing.clone(), missing.is_empty());
        agreed(
            same,
            "the Rust finds other parents missing than document 01",
        )?;
    }
    Ok(missing)
}

/// The parents that the Rust asks for, and whether it delivers the certificate.
fn rust_parents(committee: &Committee, read: &Read) -> (Vec<Key>, bool) {
    let mut driver = SynchronizerDriver::new(PublicKey::default(), committee);
    for record in &read.known {
        driver.add_certificate(&Digest(record.digest), &record.rust());
    }
    let header = read.header.rust();
    let missing = driver.parents(&header).err().unwrap_or_default();
    let votes = Vec::new();
    let delivered = driver.deliver(&Certificate { header, votes });
    (missing.into_iter().map(|x| x.0).collect(), delivered)
}

/// What is put at the front of a buffer, in items of one size, and how many; a refusal leaves it.
fn at_the_front(out: &[u8], items: Result<Vec<u8>, Refusal>, size: usize) -> (Answer, Vec<u8>) {
    match items {
        Err(refusal) => (Answer::refused(refusal), out.to_vec()),
        Ok(items) => {
            let count = (items.len() / size) as u64;
            (Answer::done(count), made::with_front(out, &items))
        }
    }
}

fn payload(rng: &mut Rng, coverage: &mut Coverage) -> Result<(), Difference> {
    let parts = headers::parts(rng);
    let own = if rng.once_in(6) {
        parts.author
    } else {
        members::key(rng)
    };
    let pairs = some_pairs(rng, &parts.payload);
    let own = made::of_32(rng, ["own: 32 bytes", "own: not 32 bytes"], &own);
    let header = headers::some(rng, parts);
    let out = made::buffer(
        rng,
        ["out: 2,304 bytes", "out: not 2,304 bytes"],
        layout::BATCHES,
    );
    let in_shape = own.bytes.len() == 32
        && pairs.bytes.len() % batch::SIZE == 0
        && out.bytes.len() == layout::BATCHES;
    let missing = match headers::read(&header.bytes) {
        Some(header) if in_shape => Ok(rust_payload(&own.bytes, &pairs.bytes, &header)),
        _ => Err(Refusal::BadShape),
    };
    let (answer, after) = at_the_front(&out.bytes, missing, batch::SIZE);
    if answer.number == 0 {
        coverage.beside_the_rust("missing_payload", answer);
    }
    let call = Call {
        entry: "missing_payload",
        slices: &[
            ("own", &own.bytes),
            ("pairs", &pairs.bytes),
            ("header", &header.bytes),
        ],
        numbers: &[],
        kinds: &[own.kind, pairs.kind, header.kind, out.kind],
    };
    let written = [Written::new("out", &out.bytes, &after)];
    call.compare_writing(rng, coverage, &written, answer, |x, out| {
        raw::missing_payload(x[0], x[1], x[2], out[0])
    })
}

/// Pairs of which some are the header's, some have another worker, some another digest.
fn some_pairs(rng: &mut Rng, payload: &[(Key, u32)]) -> Made {
    let mut bytes = Vec::new();
    for (digest, worker) in payload {
        let (digest, worker) = match rng.below(8) {
            0 => (*digest, worker ^ 1),
            1 => (members::key(rng), *worker),
            2 => continue,
            _ => (*digest, *worker),
        };
        bytes.extend_from_slice(&digest);
        bytes.extend_from_slice(&worker.to_le_bytes());
    }
    if rng.once_in(3) {
        let rows = bytes.chunks(batch::SIZE).rev();
        bytes = rows.flatten().copied().collect();
    }
    if rng.once_in(16) {
        let length = bytes.len() + rng.within(1, batch::SIZE - 1);
        bytes.resize(length, 0);
        return Made::new("pairs: ragged", bytes);
    }
    let kind = if bytes.is_empty() {
        "pairs: none"
    } else {
        "pairs: some"
    };
    Made::new(kind, bytes)
}

/// The pairs that the Rust asks for, as bytes in ascending order of their digests.
fn rust_payload(own: &[u8], pairs: &[u8], header: &Parts) -> Vec<u8> {
    let own = PublicKey(own.try_into().expect("32 bytes"));
    let nobody = Committee {
        authorities: Default::default(),
    };
    let mut driver = SynchronizerDriver::new(own, &nobody);
    for at in (0..pairs.len()).step_by(batch::SIZE) {
        let (digest, worker) = headers::batch_at(pairs, at);
        driver.add_payload(&Digest(digest), worker);
    }
    let missing = driver.missing_payload(&header.rust()).into_iter();
    missing
        .flat_map(|(digest, worker)| [&digest.0[..], &worker.to_le_bytes()].concat())
        .collect()
}

/// The Rust stores under the digest; that the first record stays is document 01's.
fn learn(rng: &mut Rng, coverage: &mut Coverage) -> Result<(), Difference> {
    let (records, behind) = (some_records(rng), some_records(rng));
    let known = records::known(rng, &records, &behind);
    let new = new_record(rng, &records, &behind);
    let (answer, after) = match learnt(&known.bytes, &new.bytes) {
        Ok(None) => (Answer::done(0), None),
        Ok(after) => (Answer::done(1), after),
        Err(refusal) => (Answer::refused(refusal), None),
    };
    let call = Call {
        entry: "learn",
        slices: &[("record", &new.bytes)],
        numbers: &[],
        kinds: &[known.kind, new.kind],
    };
    let after = after.unwrap_or_else(|| known.bytes.clone());
    let written = [Written::new("known", &known.bytes, &after)];
    call.compare_writing(rng, coverage, &written, answer, |x, known| {
        raw::learn(known[0], x[0])
    })
}

fn new_record(rng: &mut Rng, records: &[Record], behind: &[Record]) -> Made {
    let mut record = Record::any(rng);
    let kind = match rng.below(8) {
        0 | 1 if !records.is_empty() => {
            record.digest = rng.pick(records).digest;
            "record: known"
        }
        2 if !behind.is_empty() => {
            record.digest = rng.pick(behind).digest;
            "record: behind the rows in use"
        }
        3 => {
            record.round = 0;
            "record: round 0"
        }
        4 => {
            let mut bytes = record.write();
            bytes.extend(rng.bytes(record::SIZE));
            bytes.truncate(*rng.pick(&[0, 4, 67, 69, 136]));
            return Made::new("record: not 68 bytes", bytes);
        }
        _ => "record: new",
    };
    Made::new(kind, record.write())
}

/// The table with the record, or none where its digest is known.
fn learnt(known: &[u8], new: &[u8]) -> Result<Option<Vec<u8>>, Refusal> {
    let records = records::read_known(known).ok_or(Refusal::BadShape)?;
    if new.len() != record::SIZE || Record::read(new).round == 0 {
        return Err(Refusal::BadShape);
    }
    let digest = Record::read(new).digest;
    if records.iter().any(|x| x.digest == digest) {
        return Ok(None);
    }
    let after = tables::appended(known, record::SIZE, new);
    after.map(Some).ok_or(Refusal::NoRoom)
}
