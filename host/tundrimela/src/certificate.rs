use crate::bytes::{array, items, put, put_list};
use crate::layout::{self, certificate};
use crate::vote::string;
use crate::{raw, Digest, Header, Key, Refusal};

/// A certificate of the domain: a header with its voters.
#[derive(Clone, Debug, PartialEq, Eq)]
pub struct Certificate {
    header: Header,
    bytes: Vec<u8>,
}

impl Certificate {
    /// A header's certificate with a digest of zeros. The digest is for the host: the hash of
    /// [`string`](Self::string).
    ///
    /// Refused as [`Refusal::BadShape`]: over 64 voters.
    pub fn new(header: Header, voters: &[Key]) -> Result<Certificate, Refusal> {
        if voters.len() > layout::MAX_VOTES {
            return Err(Refusal::BadShape);
        }
        let mut bytes = vec![0; certificate::SIZE];
        put(&mut bytes, 0, header.as_bytes());
        put_list(
            &mut bytes,
            certificate::VOTE_COUNT,
            certificate::VOTERS..certificate::SIZE,
            voters.iter().copied(),
        );
        Ok(Certificate { header, bytes })
    }

    /// The same certificate with this digest.
    pub fn with_digest(mut self, digest: Digest) -> Certificate {
        put(&mut self.bytes, certificate::DIGEST, &digest);
        self
    }

    /// The digest.
    pub fn digest(&self) -> Digest {
        array(&self.bytes, certificate::DIGEST)
    }

    /// The header.
    pub fn header(&self) -> &Header {
        &self.header
    }

    /// The voters' keys, in their order.
    pub fn voters(&self) -> impl ExactSizeIterator<Item = Key> + '_ {
        let count = self.bytes[certificate::VOTE_COUNT];
        items(&self.bytes, certificate::VOTERS, count.into())
    }

    /// The string whose hash is the digest: the header's id, round and author.
    pub fn string(&self) -> Vec<u8> {
        let (id, author) = (self.header.id(), self.header.author());
        let string = string(raw::certificate_string, &id, self.header.round(), &author);
        string.expect("the header is of the domain")
    }

    /// The certificate, as the library reads it.
    pub fn as_bytes(&self) -> &[u8] {
        &self.bytes
    }
}
