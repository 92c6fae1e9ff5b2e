//! States and events: of a run, at the edges of the domain, and outside it.

use super::reading::{round_of, Event};
use super::Run;
use crate::made::put;
use crate::members;
use crate::numbers::{over_32_bits, MAX};
use crate::rng::Rng;
use tundrimela::layout::proposer;

/// Sizes that the Rust takes: it makes room for twice as many digests at its start.
pub fn header_size(rng: &mut Rng) -> u64 {
    let some = rng.within(0, 2_048) as u64;
    *rng.pick(&[0, 1, 32, 33, 64, 320, some, 2_048, 2_049, 10_000])
}

impl Run<'_> {
    /// Noise with a round and counts of the domain.
    pub fn some_state(&mut self) -> Vec<u8> {
        let mut state = self.rng.bytes(proposer::SIZE);
        let small = self.rng.within(1, 9) as u32;
        let round = *self.rng.pick(&[1, small, small, u32::MAX - 1, u32::MAX]);
        put(&mut state, proposer::ROUND, &round.to_le_bytes());
        let parents = self.rng.within(0, 32) as u8;
        let waiting = self.rng.within(0, 64) as u8;
        state[proposer::PARENT_COUNT] = *self.rng.pick(&[0, 1, parents, 32]);
        state[proposer::WAITING_COUNT] = *self.rng.pick(&[0, 1, waiting, 63, 64]);
        state
    }

    /// Parents, a digest or the timer, at times outside the domain. What belongs to another tag
    /// is noise.
    pub fn some_event(&mut self) -> Event {
        let noise = self.rng.within(0, 70);
        let mut event = Event {
            kind: "event: timer",
            tag: 3,
            p: self.rng.u64(),
            parents: self.rng.bytes(noise),
            digest: self.rng.bytes(noise / 2),
            worker: self.rng.u64(),
        };
        match self.rng.below(12) {
            0 => {}
            1 => {
                event.tag = *self.rng.pick(&[0, 4, 5, 129, 255]);
                event.kind = "event: another tag";
            }
            2..=4 => self.parents(&mut event),
            _ => self.digest(&mut event),
        }
        event
    }

    fn parents(&mut self, event: &mut Event) {
        event.tag = 1;
        let count = *self.rng.pick(&[0, 1, 2, 4, 31, 32]);
        let few = self.rng.within(1, 32);
        let pool: Vec<_> = (0..few).map(|_| members::key(self.rng)).collect();
        let list = (0..count).map(|_| *self.rng.pick(&pool));
        event.parents = list.collect::<Vec<_>>().concat();
        let round = match self.state.len() {
            proposer::SIZE => round_of(&self.state),
            _ => 1,
        };
        let (kind, p) = match self.rng.below(16) {
            0 => ("parents: p over 32 bits", over_32_bits(self.rng, round)),
            1 => ("parents: p 4,294,967,295", MAX),
            2 if self.rng.once_in(4) => ("parents: p 4,294,967,294", MAX - 1),
            3 | 4 => ("parents: of a round below", round.saturating_sub(1)),
            5 => ("parents: of round 0", 0),
            6..=8 => (
                "parents: of a round above",
                (round + few as u64).min(MAX - 1),
            ),
            _ => ("parents: of the round", round.min(MAX - 1)),
        };
        event.p = p;
        event.kind = kind;
        match self.rng.below(16) {
            0 => {
                event.parents = self.rng.bytes(33 * 32);
                event.kind = "parents: 33";
            }
            1 => {
                event.parents.extend(self.rng.bytes(31));
                event.kind = "parents: ragged";
            }
            _ => {}
        }
    }

    fn digest(&mut self, event: &mut Event) {
        event.tag = 2;
        event.worker = members::worker_id(self.rng).into();
        event.kind = "digest: new";
        let mut digest = members::key(self.rng);
        if !self.digests.is_empty() && self.rng.once_in(3) {
            digest = *self.rng.pick(&self.digests);
            event.kind = "digest: given before";
        }
        self.digests.push(digest);
        event.digest = digest.to_vec();
        match self.rng.below(24) {
            0 => {
                event.digest.extend(self.rng.bytes(32));
                event.digest.truncate(*self.rng.pick(&[0, 31, 33, 64]));
                event.kind = "digest: not 32 bytes";
            }
            1 => {
                event.worker = over_32_bits(self.rng, event.worker);
                event.kind = "digest: worker over 32 bits";
            }
            _ => {}
        }
    }
}
