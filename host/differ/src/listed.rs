//! A member list on both sides.

use crate::config::committee;
use crate::made::Made;
use crate::members::{self, Row};
use crate::rng::Rng;
use oracle::narwhal::config::Committee;

pub struct Listed {
    pub kind: &'static str,
    pub bytes: Vec<u8>,
    /// The members; none for a list outside the domain.
    pub rows: Vec<Row>,
    /// The Rust's committee; none for a list outside the domain.
    pub rust: Option<Committee>,
}

impl Listed {
    /// Mostly a list of the domain.
    pub fn any(rng: &mut Rng) -> Listed {
        let Made { kind, bytes } = members::mostly_good(rng);
        Listed {
            rows: members::read(&bytes).unwrap_or_default(),
            rust: committee(&bytes),
            kind,
            bytes,
        }
    }
}
