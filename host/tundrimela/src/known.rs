use crate::bytes::{array, number, put};
use crate::layout::record;
use crate::table::Table;
use crate::{raw, Digest, Key, Refusal};

/// A certificate by its record.
#[derive(Clone, Copy, Debug, PartialEq, Eq)]
pub struct Record {
    /// Its round.
    pub round: u32,
    /// Its origin's key.
    pub origin: Key,
    /// Its digest.
    pub digest: Digest,
}

impl Record {
    pub(crate) fn encode(&self) -> [u8; record::SIZE] {
        let mut row = [0; record::SIZE];
        put(&mut row, 0, &self.round.to_le_bytes());
        put(&mut row, record::ORIGIN, &self.origin);
        put(&mut row, record::DIGEST, &self.digest);
        row
    }

    fn decode(row: [u8; record::SIZE]) -> Record {
        Record {
            round: number(&row, 0),
            origin: array(&row, record::ORIGIN),
            digest: array(&row, record::DIGEST),
        }
    }
}

/// The certificates that a member knows: a table with a fixed number of places.
#[derive(Clone, Debug, PartialEq, Eq)]
pub struct Known(Table<{ record::SIZE }>);

impl Known {
    /// No certificate yet.
    ///
    /// A table without a place is [`Refusal::BadShape`].
    pub fn new(places: usize) -> Result<Known, Refusal> {
        Table::new(places).map(Known)
    }

    /// Whether the record is new; a digest that is known keeps its first record.
    ///
    /// Refused: [`Refusal::BadShape`] for round 0, whose certificates are genesis;
    /// [`Refusal::NoRoom`] for a new digest without a free place.
    pub fn learn(&mut self, record: &Record) -> Result<bool, Refusal> {
        let answer = raw::learn(self.0.as_bytes_mut(), &record.encode());
        Ok(answer.result()? == 1)
    }

    /// How many certificates are known.
    pub fn len(&self) -> usize {
        self.0.len()
    }

    /// Whether no certificate is known.
    pub fn is_empty(&self) -> bool {
        self.len() == 0
    }

    /// How many certificates there are places for.
    pub fn places(&self) -> usize {
        self.0.places()
    }

    /// The records, in the order in which they came.
    pub fn records(&self) -> impl ExactSizeIterator<Item = Record> + '_ {
        self.0.rows().map(Record::decode)
    }

    /// The table, as the library reads it.
    pub fn as_bytes(&self) -> &[u8] {
        self.0.as_bytes()
    }
}
