//! Strings for hashing, written to a buffer at a place.

entries! {
    /// Writes the string of a header, and gives its length.
    header_string = tundrimela_header_string(header: &[u8], out: &mut [u8], at: u64);

    /// Writes the string of a vote, and gives its length.
    vote_string =
        tundrimela_vote_string(id: &[u8], round: u64, origin: &[u8], out: &mut [u8], at: u64);

    /// Writes the string of a certificate, and gives its length.
    certificate_string =
        tundrimela_certificate_string(id: &[u8], round: u64, origin: &[u8], out: &mut [u8], at: u64);
}
