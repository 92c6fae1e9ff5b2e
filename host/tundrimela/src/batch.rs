use crate::bytes::{array, items, number, put};
use crate::layout::{self, batch};
use crate::raw;
use crate::{Digest, Header, Key};

/// A batch of a worker.
#[derive(Clone, Copy, Debug, PartialEq, Eq)]
pub struct Batch {
    /// Its digest.
    pub digest: Digest,
    /// The id of its worker.
    pub worker: u32,
}

impl Batch {
    pub(crate) fn encode(&self) -> [u8; batch::SIZE] {
        let mut row = [0; batch::SIZE];
        put(&mut row, 0, &self.digest);
        put(&mut row, batch::WORKER, &self.worker.to_le_bytes());
        row
    }

    pub(crate) fn decode(row: [u8; batch::SIZE]) -> Batch {
        Batch {
            digest: array(&row, 0),
            worker: number(&row, batch::WORKER),
        }
    }
}

/// The batches that a member's own workers have.
#[derive(Clone, Debug, PartialEq, Eq)]
pub struct Batches {
    own: Key,
    pairs: Vec<u8>,
}

impl Batches {
    /// No batch yet, for the member of this key.
    pub fn new(own: Key) -> Batches {
        let pairs = Vec::new();
        Batches { own, pairs }
    }

    /// Notes a batch that one of the own workers has.
    pub fn add(&mut self, batch: Batch) {
        self.pairs.extend_from_slice(&batch.encode())
    }

    /// The batches of a header that no own worker has, in the header's order. Nothing is missing
    /// for a header of the own key.
    pub fn missing(&self, header: &Header) -> Vec<Batch> {
        let mut out = [0; layout::BATCHES];
        let answer = raw::missing_payload(&self.own, &self.pairs, header.as_bytes(), &mut out);
        let count = answer.result().expect("all is of the domain");
        items(&out, 0, count as usize).map(Batch::decode).collect()
    }
}
