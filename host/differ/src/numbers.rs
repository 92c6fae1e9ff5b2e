//! Rounds and other numbers: of the domain, at its ends, and past 32 bits.

use crate::rng::Rng;

/// Document 01's end of rounds, depths and ids.
pub const MAX: u64 = 4_294_967_295;

pub fn round(rng: &mut Rng) -> (&'static str, u64) {
    let small = rng.within(1, 100) as u64;
    match rng.below(6) {
        0 => ("round: 0", 0),
        1 => ("round: over 32 bits", over_32_bits(rng, small)),
        2 => ("round: small", small),
        3 => ("round: the last", MAX),
        _ => ("round: any", u64::from(rng.u32()).max(1)),
    }
}

/// Whether a round is document 01's.
pub fn is_round(round: u64) -> bool {
    (1..=MAX).contains(&round)
}

/// A number whose low half looks right.
pub fn over_32_bits(rng: &mut Rng, low: u64) -> u64 {
    let high = u64::from(rng.u32()).max(1) << 32;
    *rng.pick(&[MAX + 1, (1 << 32) | low, high | low, u64::MAX])
}

/// A verdict: mostly the true one, at times none at all.
pub fn verdict(rng: &mut Rng, truth: bool) -> (&'static str, u8) {
    match rng.below(24) {
        0 => ("verdict: over 1", *rng.pick(&[2, 3, 128, 254, 255])),
        _ if truth => ("verdict: yes", 1),
        _ => ("verdict: no", 0),
    }
}
