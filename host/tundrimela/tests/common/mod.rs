//! Small committees, and keys and digests to fill messages with.

use tundrimela::{Committee, Key, Member};

/// The key, or the digest, of a small number.
pub fn key(name: u8) -> Key {
    [name; 32]
}

/// Members 1, 2, .. with these stakes, each with worker 0.
pub fn committee(stakes: &[u32]) -> Committee {
    let member = |(name, stake): (u8, &u32)| Member {
        key: key(name),
        stake: *stake,
        workers: vec![0],
    };
    let members: Vec<_> = (1..).zip(stakes).map(member).collect();
    Committee::new(&members).expect("a committee of the domain")
}
