//! One call of the library: asked, compared, noted, and told as text where it differs.

use crate::coverage::Coverage;
use crate::guarded::Guarded;
use crate::rng::Rng;
use crate::Difference;
use tundrimela::raw::Answer;

/// An entry with the inputs that it is lent and given, each under its name.
pub struct Call<'a> {
    pub entry: &'static str,
    pub slices: &'a [(&'static str, &'a [u8])],
    pub numbers: &'a [(&'static str, u64)],
    /// The kinds that the inputs were made as.
    pub kinds: &'a [&'a str],
}

/// A buffer that a call writes: what it holds before, and what it has to hold after.
pub struct Written<'a> {
    pub name: &'static str,
    pub before: &'a [u8],
    pub after: &'a [u8],
}

impl<'a> Written<'a> {
    pub fn new(name: &'static str, before: &'a [u8], after: &'a [u8]) -> Written<'a> {
        Written {
            name,
            before,
            after,
        }
    }
}

impl Call<'_> {
    /// Asks the library, each slice in a guarded buffer, and compares with what the other side
    /// says. No slice and no guard may change.
    pub fn compare(
        &self,
        rng: &mut Rng,
        coverage: &mut Coverage,
        expected: Answer,
        ask: impl FnOnce(&[&[u8]]) -> Answer,
    ) -> Result<(), Difference> {
        self.compare_writing(rng, coverage, &[], expected, |lent, _| ask(lent))
    }

    /// The same with buffers that the call writes.
    pub fn compare_writing(
        &self,
        rng: &mut Rng,
        coverage: &mut Coverage,
        written: &[Written],
        expected: Answer,
        ask: impl FnOnce(&[&[u8]], &mut [&mut [u8]]) -> Answer,
    ) -> Result<(), Difference> {
        let slices = self.slices.iter();
        let guarded: Vec<_> = slices.map(|(_, x)| Guarded::new(rng, x)).collect();
        let buffers = written.iter();
        let mut buffers: Vec<_> = buffers.map(|x| Guarded::new(rng, x.before)).collect();
        let lent: Vec<_> = guarded.iter().map(Guarded::lend).collect();
        let mut lent_mut: Vec<_> = buffers.iter_mut().map(Guarded::lend_mut).collect();
        let answer = ask(&lent, &mut lent_mut);
        for ((name, _), slice) in self.slices.iter().zip(&guarded) {
            let changed = |what| self.difference(written, format!("{} changed: {}", name, what));
            slice.unchanged().map_err(changed)?;
        }
        if answer != expected {
            let told = format!("answer {:?}, expected {:?}", answer, expected);
            return Err(self.difference(written, told));
        }
        for (promise, buffer) in written.iter().zip(&buffers) {
            let other = |what| self.difference(written, format!("{}: {}", promise.name, what));
            buffer.holds(promise.after).map_err(other)?;
        }
        coverage.note(self.entry, self.kinds, answer);
        Ok(())
    }

    fn difference(&self, written: &[Written], what: String) -> Difference {
        let mut text = format!("{}: {}", self.entry, what);
        text += &format!("\nmade as: {}", self.kinds.join("; "));
        for (name, value) in self.numbers {
            text += &format!("\n{}: {}", name, value);
        }
        let written = written.iter().map(|x| (x.name, x.before));
        for (name, bytes) in self.slices.iter().copied().chain(written) {
            text += &format!("\n{}, {} bytes:{}", name, bytes.len(), hex(bytes));
        }
        Difference(text)
    }
}

/// Lines of 32 bytes, each after the place of its first one.
fn hex(bytes: &[u8]) -> String {
    let mut text = String::new();
    for (line, part) in bytes.chunks(32).enumerate() {
        text += &format!("\n{:>6} ", 32 * line);
        text.extend(part.iter().map(|x| format!("{:02x}", x)));
    }
    text
}

#[cfg(test)]
mod tests {
    use super::*;

    const CALL: Call = Call {
        entry: "stake",
        slices: &[("members", &[1, 255]), ("key", &[])],
        numbers: &[("round", 5)],
        kinds: &["list: cut short", "key: not 32 bytes"],
    };

    fn compare(expected: Answer) -> (Result<(), Difference>, Coverage) {
        let mut coverage = Coverage::default();
        let mut rng = Rng::of_case(1, 2);
        let ask = |lent: &[&[u8]]| Answer::done((lent[0].len() + lent[1].len()) as u64);
        let result = CALL.compare(&mut rng, &mut coverage, expected, ask);
        (result, coverage)
    }

    #[test]
    fn the_same_answer_is_noted() {
        let (result, coverage) = compare(Answer::done(2));
        assert_eq!(result, Ok(()));
        assert_eq!(coverage.count("call stake", 0), 1);
        assert_eq!(coverage.count("list: cut short", 0), 1);
    }

    #[test]
    fn another_answer_is_told_with_its_case() {
        let (result, coverage) = compare(Answer::done(3));
        let text = "stake: answer Answer { number: 0, count: 2 }, \
            expected Answer { number: 0, count: 3 }\n\
            made as: list: cut short; key: not 32 bytes\n\
            round: 5\n\
            members, 2 bytes:\n     0 01ff\n\
            key, 0 bytes:";
        assert_eq!(result, Err(Difference(text.into())));
        assert_eq!(coverage.calls(), 0);
    }

    fn write(after: &[u8]) -> Result<(), Difference> {
        let written = Written::new("out", &[1, 2], after);
        let mut rng = Rng::of_case(1, 3);
        let mut coverage = Coverage::default();
        let ask = |_: &[&[u8]], out: &mut [&mut [u8]]| {
            out[0][1] = 9;
            Answer::done(1)
        };
        CALL.compare_writing(&mut rng, &mut coverage, &[written], Answer::done(1), ask)
    }

    #[test]
    fn a_buffer_has_to_hold_what_is_promised() {
        assert_eq!(write(&[1, 9]), Ok(()));
        let Difference(text) = write(&[1, 2]).unwrap_err();
        assert!(text.starts_with("stake: out: byte 1 of 2 lent ones has to be 2 and is 9"));
        assert!(text.ends_with("out, 2 bytes:\n     0 0102"));
    }
}
