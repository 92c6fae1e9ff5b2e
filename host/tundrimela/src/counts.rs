use crate::bytes::items;
use crate::layout::{self, count};
use crate::table::Table;
use crate::{raw, Committee, Digest, Record, Refusal};

/// The certificates of each round, counted up to a quorum: a table with a place for each round.
#[derive(Clone, Debug, PartialEq, Eq)]
pub struct Counts(Table<{ count::SIZE }>);

impl Counts {
    /// No round yet.
    ///
    /// A table without a place is [`Refusal::BadShape`].
    pub fn new(places: usize) -> Result<Counts, Refusal> {
        Table::new(places).map(Counts)
    }

    /// Counts a certificate in its round. At the quorum gives the digests gathered, in the order
    /// counted; else gives none. A repeated origin is not counted.
    ///
    /// Refused: [`Refusal::BadShape`] for round 0; [`Refusal::NoRoom`] for a new round without a
    /// free place, and for a 33rd origin in a round.
    pub fn count(
        &mut self,
        committee: &Committee,
        certificate: &Record,
    ) -> Result<Vec<Digest>, Refusal> {
        let mut out = [0; layout::DIGESTS];
        let answer = raw::count_certificate(
            committee.as_bytes(),
            self.0.as_bytes_mut(),
            certificate.round.into(),
            &certificate.origin,
            &certificate.digest,
            &mut out,
        );
        Ok(items(&out, 0, answer.result()? as usize).collect())
    }

    /// How many rounds are in use.
    pub fn rounds(&self) -> usize {
        self.0.len()
    }

    /// How many rounds there are places for.
    pub fn places(&self) -> usize {
        self.0.places()
    }

    /// The table, as the library reads it.
    pub fn as_bytes(&self) -> &[u8] {
        self.0.as_bytes()
    }
}
