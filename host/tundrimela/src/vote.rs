use crate::bytes::{array, number, put};
use crate::layout::vote;
use crate::raw::{self, Answer};
use crate::{Digest, Header, Key, Refusal};

/// A vote of the domain.
#[derive(Clone, Debug, PartialEq, Eq)]
pub struct Vote {
    bytes: [u8; vote::SIZE],
}

impl Vote {
    /// The vote of `author` for the header of this id, author and round.
    ///
    /// Round 0 has no header: [`Refusal::BadShape`].
    pub fn new(id: Digest, origin: Key, author: Key, round: u32) -> Result<Vote, Refusal> {
        let mut bytes = [0; vote::SIZE];
        put(&mut bytes, 0, &id);
        put(&mut bytes, vote::ORIGIN, &origin);
        put(&mut bytes, vote::AUTHOR, &author);
        put(&mut bytes, vote::ROUND, &u64::from(round).to_le_bytes());
        string(raw::vote_string, &id, round, &origin)?;
        Ok(Vote { bytes })
    }

    /// The vote of `author` for a header.
    pub fn of(header: &Header, author: Key) -> Vote {
        let vote = Vote::new(header.id(), header.author(), author, header.round());
        vote.expect("the header is of the domain")
    }

    /// The header's id.
    pub fn id(&self) -> Digest {
        array(&self.bytes, 0)
    }

    /// The key of the header's author.
    pub fn origin(&self) -> Key {
        array(&self.bytes, vote::ORIGIN)
    }

    /// The voter's key.
    pub fn author(&self) -> Key {
        array(&self.bytes, vote::AUTHOR)
    }

    /// The header's round.
    pub fn round(&self) -> u32 {
        number(&self.bytes, vote::ROUND)
    }

    /// The string whose hash the voter signs: id, round, origin.
    pub fn string(&self) -> Vec<u8> {
        let string = string(raw::vote_string, &self.id(), self.round(), &self.origin());
        string.expect("the vote is of the domain")
    }

    /// The vote, as the library reads it.
    pub fn as_bytes(&self) -> &[u8] {
        &self.bytes
    }
}

/// A call that writes id, round and origin to a buffer from a place on.
pub(crate) type Writer = fn(&[u8], u64, &[u8], &mut [u8], u64) -> Answer;

/// What a writer writes.
pub(crate) fn string(
    write: Writer,
    id: &Digest,
    round: u32,
    origin: &Key,
) -> Result<Vec<u8>, Refusal> {
    let mut out = vec![0; vote::STRING];
    write(id, round.into(), origin, &mut out, 0).result()?;
    Ok(out)
}
