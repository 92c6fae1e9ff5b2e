//! Bytes to lend, with the kind that they were made as.

use crate::rng::Rng;

pub struct Made {
    pub kind: &'static str,
    pub bytes: Vec<u8>,
}

impl Made {
    pub fn new(kind: &'static str, bytes: Vec<u8>) -> Made {
        Made { kind, bytes }
    }
}

/// The same bytes with another length, or with a bit flipped. The kinds are in this order: cut
/// short, grown, a bit flipped, noise.
pub fn damaged(rng: &mut Rng, kinds: &[&'static str; 4], mut bytes: Vec<u8>) -> Made {
    let which = rng.below(4);
    let some = rng.within(1, 40);
    match which {
        0 => bytes.truncate(bytes.len().saturating_sub(some)),
        1 => bytes.extend(rng.bytes(some)),
        2 => flip(rng, &mut bytes),
        _ => bytes = rng.bytes(bytes.len()),
    }
    Made::new(kinds[which], bytes)
}

fn flip(rng: &mut Rng, bytes: &mut [u8]) {
    let place = rng.below(bytes.len().max(1));
    let bit = 1 << rng.below(8);
    if let Some(byte) = bytes.get_mut(place) {
        *byte ^= bit
    }
}

/// A slice that is to have 32 bytes: mostly `bytes`, at times another length.
pub fn of_32(rng: &mut Rng, kinds: [&'static str; 2], bytes: &[u8; 32]) -> Made {
    let mut bytes = bytes.to_vec();
    if !rng.once_in(16) {
        return Made::new(kinds[0], bytes);
    }
    bytes.extend(rng.bytes(32));
    bytes.truncate(*rng.pick(&[0, 1, 31, 33, 64]));
    Made::new(kinds[1], bytes)
}

/// A buffer of a fixed length, with noise in it; at times of another length.
pub fn buffer(rng: &mut Rng, kinds: [&'static str; 2], length: usize) -> Made {
    if !rng.once_in(16) {
        return Made::new(kinds[0], rng.bytes(length));
    }
    let other = *rng.pick(&[0, 1, length - 1, length + 1, 2 * length]);
    Made::new(kinds[1], rng.bytes(other))
}

/// A buffer with other bytes at its front.
pub fn with_front(buffer: &[u8], front: &[u8]) -> Vec<u8> {
    [front, &buffer[front.len()..]].concat()
}

/// Writes a part from a place on.
pub fn put(bytes: &mut [u8], at: usize, part: &[u8]) {
    bytes[at..at + part.len()].copy_from_slice(part)
}
