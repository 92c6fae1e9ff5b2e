//! A slice to lend, in a buffer whose other bytes tell of a write beside it.

use crate::rng::Rng;

const GUARD: usize = 64;

pub struct Guarded {
    buffer: Vec<u8>,
    before: Vec<u8>,
    start: usize,
    end: usize,
}

impl Guarded {
    /// The start is moved by a few bytes, so that no call can lean on an alignment.
    pub fn new(rng: &mut Rng, content: &[u8]) -> Guarded {
        let start = GUARD + rng.below(8);
        let end = start + content.len();
        let mut buffer = rng.bytes(end + GUARD);
        buffer[start..end].copy_from_slice(content);
        let before = buffer.clone();
        Guarded {
            buffer,
            before,
            start,
            end,
        }
    }

    pub fn lend(&self) -> &[u8] {
        &self.buffer[self.start..self.end]
    }

    pub fn lend_mut(&mut self) -> &mut [u8] {
        &mut self.buffer[self.start..self.end]
    }

    /// Says which byte of the buffer a call has changed, if any.
    pub fn unchanged(&self) -> Result<(), String> {
        self.same(&self.before)
    }

    /// Says which byte of the buffer is not as a call has to leave it, if any: the slice has to
    /// hold `content`, and the bytes beside it are unchanged.
    pub fn holds(&self, content: &[u8]) -> Result<(), String> {
        let mut expected = self.before.clone();
        expected[self.start..self.end].copy_from_slice(content);
        self.same(&expected)
    }

    fn same(&self, expected: &[u8]) -> Result<(), String> {
        let pairs = expected.iter().zip(&self.buffer);
        match pairs.clone().position(|(old, new)| old != new) {
            None => Ok(()),
            Some(place) => Err(format!(
                "byte {} of {} lent ones has to be {} and is {}",
                place as i64 - self.start as i64,
                self.end - self.start,
                expected[place],
                self.buffer[place],
            )),
        }
    }
}

#[cfg(test)]
mod tests {
    use super::*;

    fn changed_at(place: usize) -> String {
        let mut guarded = Guarded::new(&mut Rng::of_case(1, 1), &[1, 2, 3]);
        let place = guarded.start - 1 + place;
        guarded.buffer[place] ^= 0x10;
        guarded.unchanged().unwrap_err()
    }

    #[test]
    fn a_write_within_or_beside_the_slice_is_told() {
        assert!(changed_at(0).starts_with("byte -1 of 3 lent ones has to be"));
        assert_eq!(changed_at(1), "byte 0 of 3 lent ones has to be 1 and is 17");
        assert_eq!(changed_at(3), "byte 2 of 3 lent ones has to be 3 and is 19");
        assert!(changed_at(4).starts_with("byte 3 of 3 lent ones has to be"));
    }

    #[test]
    fn the_content_is_lent() {
        let guarded = Guarded::new(&mut Rng::of_case(1, 1), &[1, 2, 3]);
        assert_eq!(guarded.lend(), [1, 2, 3]);
        assert_eq!(guarded.unchanged(), Ok(()));
    }

    #[test]
    fn a_write_is_told_where_it_is_not_the_promised_one() {
        let mut guarded = Guarded::new(&mut Rng::of_case(1, 1), &[1, 2, 3]);
        guarded.lend_mut().copy_from_slice(&[1, 5, 3]);
        assert_eq!(guarded.holds(&[1, 5, 3]), Ok(()));
        let told = guarded.holds(&[1, 6, 3]).unwrap_err();
        assert_eq!(told, "byte 1 of 3 lent ones has to be 6 and is 5");
        guarded.buffer[guarded.end] ^= 1;
        let told = guarded.holds(&[1, 5, 3]).unwrap_err();
        assert!(told.starts_with("byte 3 of 3 lent ones has to be"));
    }
}
