//! Parents and payload of a header, and the known table.

entries! {
    /// Writes the digests of the missing parents, in their order, and gives their number.
    get_parents = tundrimela_get_parents(
        members: &[u8], genesis: &[u8], known: &[u8], header: &[u8], out: &mut [u8]);

    /// 1 if no parent of the header is missing, else 0.
    deliver =
        tundrimela_deliver(members: &[u8], genesis: &[u8], known: &[u8], header: &[u8]);

    /// Writes the batches of the header that are not among the pairs, in their order, and gives
    /// their number. No batch of an own header is missing.
    missing_payload =
        tundrimela_missing_payload(own: &[u8], pairs: &[u8], header: &[u8], out: &mut [u8]);

    /// Puts a record at the end of the known table: 1, or 0 if its digest stands there.
    learn = tundrimela_learn(known: &mut [u8], record: &[u8]);
}
