use crate::bytes::{array, items, number, put, put_list};
use crate::layout::{header, header_string};
use crate::raw;
use crate::{Batch, Digest, Key, Refusal};

/// A header of the domain.
#[derive(Clone, Debug, PartialEq, Eq)]
pub struct Header {
    bytes: Vec<u8>,
}

impl Header {
    /// A header with an id of zeros. The id is for the host: the hash of [`string`](Self::string).
    ///
    /// Refused as [`Refusal::BadShape`]: round 0, over 32 parents, over 64 batches, digests of
    /// parents or of batches that are not strictly ascending.
    pub fn new(
        author: Key,
        round: u32,
        parents: &[Digest],
        payload: &[Batch],
    ) -> Result<Header, Refusal> {
        let mut bytes = vec![0; header::SIZE];
        put(&mut bytes, header::AUTHOR, &author);
        put(&mut bytes, header::ROUND, &u64::from(round).to_le_bytes());
        put_list(
            &mut bytes,
            header::PARENT_COUNT,
            header::PARENTS..header::PAYLOAD,
            parents.iter().copied(),
        );
        put_list(
            &mut bytes,
            header::PAYLOAD_COUNT,
            header::PAYLOAD..header::SIZE,
            payload.iter().map(Batch::encode),
        );
        let header = Header { bytes };
        header.write_string(&mut [0; header_string::MAX], 0)?;
        Ok(header)
    }

    /// A header that the library has made.
    pub(crate) fn made(bytes: Vec<u8>) -> Header {
        Header { bytes }
    }

    /// The same header with this id.
    pub fn with_id(mut self, id: Digest) -> Header {
        put(&mut self.bytes, 0, &id);
        self
    }

    /// The id.
    pub fn id(&self) -> Digest {
        array(&self.bytes, 0)
    }

    /// The author's key.
    pub fn author(&self) -> Key {
        array(&self.bytes, header::AUTHOR)
    }

    /// The round.
    pub fn round(&self) -> u32 {
        number(&self.bytes, header::ROUND)
    }

    /// The parents' digests, ascending.
    pub fn parents(&self) -> impl ExactSizeIterator<Item = Digest> + '_ {
        self.list(header::PARENT_COUNT, header::PARENTS)
    }

    /// The batches, in ascending order of their digests.
    pub fn payload(&self) -> impl ExactSizeIterator<Item = Batch> + '_ {
        let rows = self.list(header::PAYLOAD_COUNT, header::PAYLOAD);
        rows.map(Batch::decode)
    }

    fn list<const N: usize>(
        &self,
        count: usize,
        at: usize,
    ) -> impl ExactSizeIterator<Item = [u8; N]> + '_ {
        items(&self.bytes, at, self.bytes[count].into())
    }

    /// The string whose hash is the id: author, round, batches, parents.
    pub fn string(&self) -> Vec<u8> {
        let mut out = vec![0; header_string::MAX];
        let length = self.write_string(&mut out, 0);
        out.truncate(length.expect("of the domain, and there is room"));
        out
    }

    /// Writes the string to a buffer from a place on, and gives its length.
    ///
    /// Refused as [`Refusal::BadShape`]: a buffer that ends before the string does.
    pub fn write_string(&self, out: &mut [u8], at: usize) -> Result<usize, Refusal> {
        let length = raw::header_string(&self.bytes, out, at as u64).result()?;
        Ok(length as usize)
    }

    /// The header, as the library reads it.
    pub fn as_bytes(&self) -> &[u8] {
        &self.bytes
    }
}
