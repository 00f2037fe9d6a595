//! What is wrong with bytes: the refusal, the place and the reason in words.

use second::numbers::{shortest, Reader, Spelled};
use second::refusal::{Refusal, BYTES_REMAIN, ENDS_TOO_SOON, PADDED};

/// A flaw that a program answers with `refused` and its number.
#[derive(Clone, Debug, PartialEq, Eq)]
pub struct Flaw {
    pub refusal: Refusal,
    pub words: String,
}

/// Numbers read one by one, with their places.
pub struct Numbers<'a> {
    reader: Reader<'a>,
    /// Whether a number may be padded: a plan's may, evidence's may not.
    may_be_padded: bool,
    /// How many numbers have been read.
    count: usize,
    /// The first byte of the number read last.
    last: usize,
}

impl<'a> Numbers<'a> {
    pub fn of_plan(bytes: &'a [u8]) -> Numbers<'a> {
        Numbers {
            reader: Reader::new(bytes),
            may_be_padded: true,
            count: 0,
            last: 0,
        }
    }

    pub fn of_evidence(bytes: &'a [u8]) -> Numbers<'a> {
        Numbers {
            may_be_padded: false,
            ..Numbers::of_plan(bytes)
        }
    }

    /// The next number; what it was to be is named if it cannot be read.
    pub fn next(&mut self, what: &str) -> Result<u32, Flaw> {
        let place = self.reader.place();
        let number = self.reader.spelled().map_err(|refusal| {
            let why = if refusal == ENDS_TOO_SOON {
                format!("there are only {} bytes", place + self.reader.left())
            } else {
                "its third byte says that a fourth follows".to_string()
            };
            let place = format!("number {} (from byte {})", self.count + 1, place + 1);
            Flaw {
                refusal,
                words: format!("{place}, {what}: {why}"),
            }
        })?;
        self.last = place;
        self.count += 1;
        if number.padded && !self.may_be_padded {
            return Err(self.padding(number, what));
        }
        Ok(number.value)
    }

    /// The flaw of a number of evidence that is spelt longer than it need be.
    fn padding(&self, number: Spelled, what: &str) -> Flaw {
        let value = number.value;
        let (long, short) = (number.next - self.last, shortest(&[value]).len());
        let enough = if short == 1 { "1 is" } else { "2 are" };
        let words = format!("{what}: it is {value}, spelt in {long} bytes where {enough} enough");
        self.flaw(PADDED, &words)
    }

    /// A flaw of the number read last.
    pub fn flaw(&self, refusal: Refusal, what: &str) -> Flaw {
        Flaw {
            refusal,
            words: format!("number {} (byte {}), {what}", self.count, self.last + 1),
        }
    }

    /// Nothing may follow.
    pub fn end(&self, what: &str) -> Result<(), Flaw> {
        let left = self.reader.left();
        if left == 0 {
            return Ok(());
        }
        let words = format!(
            "{what} ends with byte {}, but {left} more follow{}",
            self.reader.place(),
            if left == 1 { "s" } else { "" }
        );
        Err(Flaw {
            refusal: BYTES_REMAIN,
            words,
        })
    }
}
