//! How the byte slices are laid out. Every number is little-endian.

/// Bytes of a key.
pub const KEY: usize = 32;
/// Bytes of a digest.
pub const DIGEST: usize = 32;

/// A member's row: its key, then these.
pub mod member {
    /// Where the stake begins, in 4 bytes.
    pub const STAKE: usize = super::KEY;
    /// Where the number of workers stands, in 1 byte.
    pub const WORKER_COUNT: usize = STAKE + 4;
    /// Where the workers' ids begin, in 4 bytes each. Those past the number are ignored.
    pub const WORKERS: usize = WORKER_COUNT + 1;
    /// Bytes of a worker's id.
    pub const WORKER: usize = 4;
    /// Bytes of the whole row.
    pub const SIZE: usize = WORKERS + super::MAX_WORKERS * WORKER;
}

/// A setup: the depth, then the members' rows.
pub mod setup {
    /// Where the members begin; the depth stands before them, in 8 bytes.
    pub const MEMBERS: usize = 8;
}

/// A batch that a worker has: its digest, then the worker's id.
pub mod batch {
    /// Where the worker's id begins, in 4 bytes.
    pub const WORKER: usize = super::DIGEST;
    /// Bytes of the whole pair.
    pub const SIZE: usize = WORKER + super::member::WORKER;
}

/// A header: its id, then these. What stands past the counts is ignored.
pub mod header {
    /// Where the author's key begins.
    pub const AUTHOR: usize = super::DIGEST;
    /// Where the round begins, in 8 bytes.
    pub const ROUND: usize = AUTHOR + super::KEY;
    /// Where the number of parents stands, in 1 byte.
    pub const PARENT_COUNT: usize = ROUND + 8;
    /// Where the number of batches stands, in 1 byte.
    pub const PAYLOAD_COUNT: usize = PARENT_COUNT + 1;
    /// Where the parents' digests begin.
    pub const PARENTS: usize = PAYLOAD_COUNT + 1;
    /// Where the batches begin.
    pub const PAYLOAD: usize = PARENTS + super::MAX_PARENTS * super::DIGEST;
    /// Bytes of the whole header.
    pub const SIZE: usize = PAYLOAD + super::MAX_PAYLOAD * super::batch::SIZE;
}

/// A header's string: author, round, batches, parents.
pub mod header_string {
    /// Bytes of the author and the round.
    pub const FIXED: usize = super::KEY + 8;
    /// Bytes of the longest one.
    pub const MAX: usize =
        FIXED + super::MAX_PAYLOAD * super::batch::SIZE + super::MAX_PARENTS * super::DIGEST;
}

/// A vote: the header's id, then these.
pub mod vote {
    /// Where the key of the header's author begins.
    pub const ORIGIN: usize = super::DIGEST;
    /// Where the voter's key begins.
    pub const AUTHOR: usize = ORIGIN + super::KEY;
    /// Where the round begins, in 8 bytes.
    pub const ROUND: usize = AUTHOR + super::KEY;
    /// Bytes of the whole vote.
    pub const SIZE: usize = ROUND + 8;
    /// Bytes of the string of a vote, and of that of a certificate: id, round, origin.
    pub const STRING: usize = super::DIGEST + 8 + super::KEY;
}

/// A certificate: its header, then these. What stands past the count is ignored.
pub mod certificate {
    /// Where the certificate's digest begins.
    pub const DIGEST: usize = super::header::SIZE;
    /// Where the number of votes stands, in 1 byte.
    pub const VOTE_COUNT: usize = DIGEST + super::DIGEST;
    /// Where the voters' keys begin.
    pub const VOTERS: usize = VOTE_COUNT + 1;
    /// Bytes of the whole certificate.
    pub const SIZE: usize = VOTERS + super::MAX_VOTES * super::KEY;
}

/// A record of a certificate: its round in 4 bytes, then these. Genesis is one for each member.
pub mod record {
    /// Where the origin's key begins.
    pub const ORIGIN: usize = 4;
    /// Where the digest begins.
    pub const DIGEST: usize = ORIGIN + super::KEY;
    /// Bytes of the whole record.
    pub const SIZE: usize = DIGEST + super::DIGEST;
}

/// A table: how many rows are in use, in 8 bytes, then its rows.
pub mod table {
    /// Where the rows begin.
    pub const ROWS: usize = 8;
}

/// A round's row of the table of certificate counts: its round in 4 bytes, then these.
pub mod count {
    /// Where the number of pairs stands, in 1 byte.
    pub const PAIR_COUNT: usize = 4;
    /// Where the pairs begin: an origin's key and a digest each, in the order counted.
    pub const PAIRS: usize = PAIR_COUNT + 1;
    /// Bytes of a pair.
    pub const PAIR: usize = super::KEY + super::DIGEST;
    /// Bytes of the whole row.
    pub const SIZE: usize = PAIRS + super::MAX_MEMBERS * PAIR;
}

/// The voters of a header: how many, in 1 byte, then their keys in the order counted.
pub mod voters {
    /// Where the keys begin.
    pub const KEYS: usize = 1;
    /// Bytes of the whole.
    pub const SIZE: usize = KEYS + super::MAX_MEMBERS * super::KEY;
}

/// A proposer's state: its own key, then these.
pub mod proposer {
    /// Where the round begins, in 4 bytes.
    pub const ROUND: usize = super::KEY;
    /// Where the number of parents stands, in 1 byte.
    pub const PARENT_COUNT: usize = ROUND + 4;
    /// Where the number of waiting batches stands, in 1 byte.
    pub const WAITING_COUNT: usize = PARENT_COUNT + 1;
    /// Where the parents' digests begin, as they were given.
    pub const PARENTS: usize = WAITING_COUNT + 1;
    /// Where the waiting batches begin, in the order in which they came.
    pub const WAITING: usize = PARENTS + super::MAX_PARENTS * super::DIGEST;
    /// Bytes of the whole state.
    pub const SIZE: usize = WAITING + super::MAX_PAYLOAD * super::batch::SIZE;
}

/// Bytes of the buffer for missing or gathered digests.
pub const DIGESTS: usize = MAX_PARENTS * DIGEST;
/// Bytes of the buffer for missing batches.
pub const BATCHES: usize = MAX_PAYLOAD * batch::SIZE;

/// The most members of a committee.
pub const MAX_MEMBERS: usize = 32;
/// The most workers of a member.
pub const MAX_WORKERS: usize = 8;
/// The most stake of a committee.
pub const MAX_TOTAL_STAKE: u32 = 16_777_216;
/// The most parents of a header.
pub const MAX_PARENTS: usize = 32;
/// The most batches of a header.
pub const MAX_PAYLOAD: usize = 64;
/// The most votes of a certificate.
pub const MAX_VOTES: usize = 64;
