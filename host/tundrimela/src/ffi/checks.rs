//! The checks of what peers send. A verdict is 1 for good and 0 for bad.

entries! {
    /// Checks a header: its id, its author, its workers, its signature.
    header_check = tundrimela_header_check(members: &[u8], header: &[u8], id_ok: u8, sig_ok: u8);

    /// Checks a vote: its author, its signature.
    vote_check = tundrimela_vote_check(members: &[u8], vote: &[u8], sig_ok: u8);

    /// Checks a certificate: its header, each of its voters, their stake, their signatures.
    certificate_check = tundrimela_certificate_check(
        members: &[u8], certificate: &[u8], id_ok: u8, sig_ok: u8, batch_ok: u8);
}
