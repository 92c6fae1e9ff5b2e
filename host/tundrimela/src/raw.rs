//! The library's calls on any byte slices at all.
//!
//! No input is wrong here: one outside the domain is refused. A slice lent as `&[u8]` is only
//! read; one lent as `&mut [u8]` is written as the call says, and left as it is by a refusal.
//! [`layout`](crate::layout) says what the slices mean.

use crate::Refusal;

pub use crate::ffi::aggregators::*;
pub use crate::ffi::checks::*;
pub use crate::ffi::committee::*;
pub use crate::ffi::proposer::*;
pub use crate::ffi::strings::*;
pub use crate::ffi::sync::*;

/// What the library answers: document 01's number, 0 for an answer, and a count.
#[derive(Clone, Copy, Debug, PartialEq, Eq, Hash)]
pub struct Answer {
    /// 0, or the refusal's number.
    pub number: u8,
    /// The value asked for; 0 with a refusal.
    pub count: u64,
}

impl Answer {
    /// The answer that gives a value.
    pub fn done(count: u64) -> Answer {
        Answer { number: 0, count }
    }

    /// The answer that refuses.
    pub fn refused(refusal: Refusal) -> Answer {
        Answer {
            number: refusal.number(),
            count: 0,
        }
    }

    /// The value, or why there is none.
    ///
    /// # Panics
    ///
    /// If the number is not in use. The library gives no such number.
    pub fn result(self) -> Result<u64, Refusal> {
        match self.number {
            0 => Ok(self.count),
            number => Err(Refusal::from_number(number).expect("a number in use")),
        }
    }

    /// The library's word is the number plus 256 times the count.
    pub(crate) fn from_word(word: u64) -> Answer {
        Answer {
            number: word as u8,
            count: word >> 8,
        }
    }
}
