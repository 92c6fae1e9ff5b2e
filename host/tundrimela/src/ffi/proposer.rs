//! The proposer. The timer's verdict is 1 once the timer has run out, else 0.

entries! {
    /// Starts a proposer at round 1 over genesis: 1 if a header is made, else 0.
    proposer_start = tundrimela_proposer_start(
        members: &[u8], own: &[u8], genesis: &[u8], header_size: u64, timer: u8,
        state: &mut [u8], header: &mut [u8]);

    /// One event: 1 if a header is made, else 0. Tag 1 is the parents of round `p`, 2 a worker's
    /// digest, 3 the timer; what belongs to the other tags is not looked at.
    proposer_event = tundrimela_proposer_event(
        tag: u8, p: u64, parents: &[u8], digest: &[u8], worker: u64, header_size: u64, timer: u8,
        state: &mut [u8], header: &mut [u8]);
}
