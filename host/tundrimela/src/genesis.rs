use crate::bytes::items;
use crate::layout;
use crate::raw::{self, Answer};
use crate::{Committee, Digest, Header, Known, Record, Refusal};
use std::iter::repeat;

/// A committee with the certificates of its round 0, one for each member.
#[derive(Clone, Debug, PartialEq, Eq)]
pub struct Genesis {
    committee: Committee,
    records: Vec<u8>,
}

impl Genesis {
    /// The genesis whose certificates have these digests, in the order of the members.
    ///
    /// Refused as [`Refusal::BadShape`]: another number of digests than of members, equal ones.
    pub fn new(committee: &Committee, digests: &[Digest]) -> Result<Genesis, Refusal> {
        let origins = committee.keys().chain(repeat([0; layout::KEY]));
        let record = |(origin, digest)| Record {
            round: 0,
            origin,
            digest,
        };
        let records = origins.zip(digests.iter().copied()).map(record);
        let genesis = Genesis {
            committee: committee.clone(),
            records: records.flat_map(|x| x.encode()).collect(),
        };
        let nothing = Header::new([0; layout::KEY], 1, &[], &[])?;
        genesis.deliver(&Known::new(1)?, &nothing).result()?;
        Ok(genesis)
    }

    /// The committee.
    pub fn committee(&self) -> &Committee {
        &self.committee
    }

    /// The parents of a header that are neither in genesis nor known, in the header's order.
    pub fn missing_parents(&self, known: &Known, header: &Header) -> Vec<Digest> {
        let mut out = [0; layout::DIGESTS];
        let answer = raw::get_parents(
            self.committee.as_bytes(),
            &self.records,
            known.as_bytes(),
            header.as_bytes(),
            &mut out,
        );
        items(&out, 0, accepted(answer) as usize).collect()
    }

    /// Whether no parent of a certificate's header is missing.
    pub fn delivers(&self, known: &Known, header: &Header) -> bool {
        accepted(self.deliver(known, header)) == 1
    }

    fn deliver(&self, known: &Known, header: &Header) -> Answer {
        let members = self.committee.as_bytes();
        raw::deliver(members, &self.records, known.as_bytes(), header.as_bytes())
    }

    /// The records, as the library reads them.
    pub fn as_bytes(&self) -> &[u8] {
        &self.records
    }
}

fn accepted(answer: Answer) -> u64 {
    answer.result().expect("all is of the domain")
}
