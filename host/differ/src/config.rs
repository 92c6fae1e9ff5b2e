//! The committee: thresholds, stakes, workers and leaders beside the Rust's.

use crate::call::Call;
use crate::coverage::Coverage;
use crate::made::Made;
use crate::members;
use crate::numbers::{is_round, over_32_bits, round, MAX};
use crate::rng::Rng;
use crate::{Difference, Module};
use oracle::committee::from_members;
use oracle::consensus::leader_of;
use oracle::narwhal::config::Committee;
use oracle::narwhal::crypto::PublicKey;
use tundrimela::layout::member;
use tundrimela::raw::{self, Answer};
use tundrimela::Refusal;

pub const MODULE: Module = Module {
    name: "config",
    case,
};

/// Every entry is asked about one member list.
fn case(rng: &mut Rng, coverage: &mut Coverage) -> Result<(), Difference> {
    let list = members::list(rng);
    let rust = committee(&list.bytes);
    let mut asked = Asked {
        rng,
        coverage,
        list,
        rust,
    };
    asked.whole_list()?;
    asked.setup()?;
    asked.stake()?;
    asked.worker()?;
    asked.leader()
}

/// The Rust's committee of these members; none where document 01 has none.
pub fn committee(members: &[u8]) -> Option<Committee> {
    let rows = members::read(members)?.into_iter();
    Some(from_members(rows.map(|x| (x.key, x.stake, x.workers))))
}

struct Asked<'a> {
    rng: &'a mut Rng,
    coverage: &'a mut Coverage,
    list: Made,
    rust: Option<Committee>,
}

impl Asked<'_> {
    fn whole_list(&mut self) -> Result<(), Difference> {
        let size = self.expected(true, |rust| rust.size() as u64);
        self.compare("committee", raw::committee, size)?;
        let quorum = self.expected(true, |rust| rust.quorum_threshold().into());
        self.compare("quorum", raw::quorum, quorum)?;
        let validity = self.expected(true, |rust| rust.validity_threshold().into());
        self.compare("validity", raw::validity, validity)
    }

    fn compare(
        &mut self,
        entry: &'static str,
        ask: fn(&[u8]) -> Answer,
        expected: Answer,
    ) -> Result<(), Difference> {
        let call = Call {
            entry,
            slices: &[("members", &self.list.bytes)],
            numbers: &[],
            kinds: &[self.list.kind],
        };
        call.compare(self.rng, self.coverage, expected, |x| ask(x[0]))
    }

    fn setup(&mut self) -> Result<(), Difference> {
        let (depth_kind, depth) = depth(self.rng);
        let mut setup = [&depth.to_le_bytes(), &self.list.bytes[..]].concat();
        let mut kinds = vec![self.list.kind, depth_kind];
        if self.rng.once_in(8) {
            setup.truncate(self.rng.below(8));
            kinds = vec!["setup: under 8 bytes"];
        }
        let expected = match &self.rust {
            Some(rust) if depth <= MAX && setup.len() >= 8 => Answer::done(rust.size() as u64),
            _ => Answer::refused(Refusal::BadCommittee),
        };
        let call = Call {
            entry: "setup",
            slices: &[("setup", &setup)],
            numbers: &[],
            kinds: &kinds,
        };
        call.compare(self.rng, self.coverage, expected, |x| raw::setup(x[0]))
    }

    fn stake(&mut self) -> Result<(), Difference> {
        let row = self.some_row();
        let (key_kind, key) = key(self.rng, &row);
        let expected = self.expected(key.len() == 32, |rust| rust.stake(&public(&key)).into());
        let call = Call {
            entry: "stake",
            slices: &[("members", &self.list.bytes), ("key", &key)],
            numbers: &[],
            kinds: &[self.list.kind, key_kind],
        };
        call.compare(self.rng, self.coverage, expected, |x| {
            raw::stake(x[0], x[1])
        })
    }

    fn worker(&mut self) -> Result<(), Difference> {
        let row = self.some_row();
        let (key_kind, key) = key(self.rng, &row);
        let (id_kind, id) = worker_id(self.rng, &row);
        let expected = self.expected(key.len() == 32 && id <= MAX, |rust| {
            rust.worker(&public(&key), &(id as u32)).is_ok().into()
        });
        let call = Call {
            entry: "worker",
            slices: &[("members", &self.list.bytes), ("key", &key)],
            numbers: &[("id", id)],
            kinds: &[self.list.kind, key_kind, id_kind],
        };
        call.compare(self.rng, self.coverage, expected, |x| {
            raw::worker(x[0], x[1], id)
        })
    }

    fn leader(&mut self) -> Result<(), Difference> {
        let (round_kind, round) = round(self.rng);
        let expected = self.expected(is_round(round), |rust| place(rust, round));
        let call = Call {
            entry: "leader",
            slices: &[("members", &self.list.bytes)],
            numbers: &[("round", round)],
            kinds: &[self.list.kind, round_kind],
        };
        call.compare(self.rng, self.coverage, expected, |x| {
            raw::leader(x[0], round)
        })
    }

    /// The list comes first, then the other inputs, then the Rust's value.
    fn expected(&self, in_shape: bool, value: impl Fn(&Committee) -> u64) -> Answer {
        match &self.rust {
            None => Answer::refused(Refusal::BadCommittee),
            Some(_) if !in_shape => Answer::refused(Refusal::BadShape),
            Some(rust) => Answer::done(value(rust)),
        }
    }

    /// A member's row; where the list has no whole one, a random one.
    fn some_row(&mut self) -> Vec<u8> {
        let rows: Vec<_> = self.list.bytes.chunks_exact(member::SIZE).collect();
        if rows.is_empty() {
            return self.rng.bytes(member::SIZE);
        }
        self.rng.pick(&rows).to_vec()
    }
}

/// The place, in key order, of the member that the Rust's consensus takes as leader.
fn place(rust: &Committee, round: u64) -> u64 {
    let leader = leader_of(rust, round);
    let place = rust.authorities.keys().position(|key| *key == leader);
    place.expect("the leader is a member") as u64
}

fn public(key: &[u8]) -> PublicKey {
    PublicKey(key.try_into().expect("32 bytes"))
}

fn key(rng: &mut Rng, row: &[u8]) -> (&'static str, Vec<u8>) {
    let mut key = row[..32].to_vec();
    match rng.below(6) {
        0 => {
            key[rng.below(32)] ^= 1 << rng.below(8);
            ("key: a bit beside a member's", key)
        }
        1 => ("key: any", rng.bytes(32)),
        2 => {
            key.extend(rng.bytes(32));
            key.truncate(*rng.pick(&[0, 1, 31, 33, 64]));
            ("key: not 32 bytes", key)
        }
        _ => ("key: a member's", key),
    }
}

fn worker_id(rng: &mut Rng, row: &[u8]) -> (&'static str, u64) {
    let in_row = u64::from(members::worker_at(row, rng.below(8)));
    match rng.below(4) {
        0 => ("id: any", members::worker_id(rng).into()),
        1 => ("id: over 32 bits", over_32_bits(rng, in_row)),
        _ => ("id: in a member's row", in_row),
    }
}

fn depth(rng: &mut Rng) -> (&'static str, u64) {
    let random = rng.u32().into();
    match rng.below(4) {
        0 => ("depth: over 32 bits", over_32_bits(rng, 50)),
        _ => ("depth: any", *rng.pick(&[0, 50, MAX, random])),
    }
}
