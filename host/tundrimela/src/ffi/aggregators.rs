//! Votes and certificates that are counted up to a quorum.

entries! {
    /// Counts a vote: 1 if it reaches the quorum, else 0.
    count_vote = tundrimela_count_vote(members: &[u8], voters: &mut [u8], author: &[u8]);

    /// Counts a certificate. At the quorum, writes the digests gathered, in the order counted,
    /// and gives their number; else gives 0.
    count_certificate = tundrimela_count_certificate(
        members: &[u8], counts: &mut [u8], round: u64, origin: &[u8], digest: &[u8],
        out: &mut [u8]);
}
