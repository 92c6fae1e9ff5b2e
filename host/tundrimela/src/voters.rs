use crate::bytes::items;
use crate::layout::voters;
use crate::{raw, Committee, Key, Refusal};

/// The voters of one header, in the order in which they are counted.
#[derive(Clone, Debug, PartialEq, Eq)]
pub struct Voters {
    bytes: [u8; voters::SIZE],
}

impl Default for Voters {
    fn default() -> Voters {
        let bytes = [0; voters::SIZE];
        Voters { bytes }
    }
}

impl Voters {
    /// No voter yet.
    pub fn new() -> Voters {
        Voters::default()
    }

    /// Counts a vote, and says whether it reaches the quorum. It is reached once; the weight
    /// begins again, and each voter stays counted.
    ///
    /// Refused: [`Refusal::AuthorityReuse`] for one already counted, then [`Refusal::NoRoom`] for
    /// a 33rd.
    pub fn count(&mut self, committee: &Committee, author: &Key) -> Result<bool, Refusal> {
        let answer = raw::count_vote(committee.as_bytes(), &mut self.bytes, author);
        Ok(answer.result()? == 1)
    }

    /// The voters' keys.
    pub fn keys(&self) -> impl ExactSizeIterator<Item = Key> + '_ {
        items(&self.bytes, voters::KEYS, self.bytes[0].into())
    }

    /// The voters, as the library reads them.
    pub fn as_bytes(&self) -> &[u8] {
        &self.bytes
    }
}
