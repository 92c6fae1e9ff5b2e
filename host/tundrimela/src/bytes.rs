//! Numbers and lists within byte slices.

use std::ops::Range;

/// The bytes from a place on, as many as an array has.
pub fn array<const N: usize>(bytes: &[u8], at: usize) -> [u8; N] {
    bytes[at..at + N].try_into().expect("a range of N bytes")
}

/// The number of 4 bytes from a place on.
pub fn number(bytes: &[u8], at: usize) -> u32 {
    u32::from_le_bytes(array(bytes, at))
}

/// Writes a part from a place on.
pub fn put(bytes: &mut [u8], at: usize, part: &[u8]) {
    bytes[at..at + part.len()].copy_from_slice(part)
}

/// Writes how many items there are, in 1 byte, and the items into their places. A number over the
/// places has no room for its items; the library refuses it for the number alone.
pub fn put_list<const N: usize>(
    bytes: &mut [u8],
    count: usize,
    places: Range<usize>,
    items: impl ExactSizeIterator<Item = [u8; N]>,
) {
    bytes[count] = u8::try_from(items.len()).unwrap_or(u8::MAX);
    for (place, item) in bytes[places].chunks_exact_mut(N).zip(items) {
        place.copy_from_slice(&item)
    }
}

/// The first items of one size from a place on.
pub fn items<const N: usize>(
    bytes: &[u8],
    at: usize,
    count: usize,
) -> impl ExactSizeIterator<Item = [u8; N]> + '_ {
    (0..count).map(move |place| array(bytes, at + place * N))
}
