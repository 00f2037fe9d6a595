//! Numbers read one by one from lent bytes.

use crate::boundary::{accepted, drift_next_number, field, NEXT, PADDED, VALUE};
use crate::Refusal;

/// A number that was read, and its form.
#[derive(Clone, Copy, Debug, PartialEq, Eq)]
pub struct Spelled {
    pub value: u32,
    /// The offset after its last byte.
    pub next: usize,
    /// Whether fewer bytes spell it too. A plan may have such a number,
    /// evidence is refused for it.
    pub padded: bool,
}

/// The number that begins at an offset, padded or not; refusal 1 or 2 where
/// there is none.
pub fn next_number(bytes: &[u8], at: usize) -> Result<Spelled, Refusal> {
    let answer = accepted(drift_next_number(bytes, at))?;
    // It lies one to three bytes on, which the lower 32 bits tell.
    let length = (field(answer, NEXT) as u32).wrapping_sub(at as u32);
    Ok(Spelled {
        value: field(answer, VALUE) as u32,
        next: at + length as usize,
        padded: field(answer, PADDED) == 1,
    })
}

/// A reader over lent bytes. It is no `Iterator`, since it does not end: past
/// the last number it gives refusal 1 as often as it is asked.
#[derive(Clone, Debug)]
pub struct Numbers<'a> {
    bytes: &'a [u8],
    at: usize,
}

impl<'a> Numbers<'a> {
    pub fn new(bytes: &'a [u8]) -> Numbers<'a> {
        Numbers { bytes, at: 0 }
    }

    /// The next number with its form, after which the reader then stands. A
    /// refusal, 1 or 2, leaves it at that number's first byte.
    pub fn spelled(&mut self) -> Result<Spelled, Refusal> {
        let number = next_number(self.bytes, self.at)?;
        self.at = number.next;
        Ok(number)
    }

    /// The next number, in any form.
    pub fn number(&mut self) -> Result<u32, Refusal> {
        self.spelled().map(|number| number.value)
    }

    /// The offset of the next number.
    pub fn place(&self) -> usize {
        self.at
    }

    /// Whether all bytes are read: what tells an end from bytes that end too
    /// soon, both 1.
    pub fn at_end(&self) -> bool {
        self.at == self.bytes.len()
    }
}

#[cfg(test)]
mod tests {
    use super::*;
    use Refusal::{EndsTooSoon, NumberTooLong};

    #[test]
    fn padding_is_told() {
        let largest = (1 << 21) - 1;
        for (bytes, value, padded) in [
            (&[9, 5][..], 5, false),
            (&[9, 133, 0], 5, true),
            (&[9, 133, 128, 0], 5, true),
            (&[9, 0], 0, false),
            (&[9, 128, 0], 0, true),
            (&[9, 128, 1], 128, false),
            (&[9, 128, 129, 0], 128, true),
            (&[9, 255, 255, 127], largest, false),
        ] {
            let next = bytes.len();
            let number = Spelled {
                value,
                next,
                padded,
            };
            assert_eq!(next_number(bytes, 1), Ok(number));
        }
    }

    #[test]
    fn refusals() {
        assert_eq!(next_number(&[], 0), Err(EndsTooSoon));
        assert_eq!(next_number(&[5], 1), Err(EndsTooSoon));
        assert_eq!(next_number(&[5], usize::MAX), Err(EndsTooSoon));
        assert_eq!(next_number(&[133, 128], 0), Err(EndsTooSoon));
        assert_eq!(next_number(&[133, 128, 128], 0), Err(NumberTooLong));
        assert_eq!(next_number(&[133, 128, 128, 0], 0), Err(NumberTooLong));
    }

    #[test]
    fn numbers_one_by_one() {
        let mut numbers = Numbers::new(&[7, 133, 0, 255, 255, 127]);
        for (value, place, padded) in [(7, 1, false), (5, 3, true), ((1 << 21) - 1, 6, false)] {
            assert!(!numbers.at_end());
            assert_eq!(numbers.clone().number(), Ok(value));
            assert_eq!(numbers.spelled().map(|number| number.padded), Ok(padded));
            assert_eq!(numbers.place(), place);
        }
        assert!(numbers.at_end());
    }

    #[test]
    fn a_refusal_leaves_the_reader_in_place() {
        for (rest, refusal) in [
            (&[] as &[u8], EndsTooSoon),
            (&[128, 128], EndsTooSoon),
            (&[128, 128, 128, 0], NumberTooLong),
        ] {
            let bytes = [&[7], rest].concat();
            let mut numbers = Numbers::new(&bytes);
            assert_eq!(numbers.number(), Ok(7));
            for _ in 0..2 {
                assert_eq!(numbers.number(), Err(refusal));
                assert_eq!(numbers.place(), 1);
                assert_eq!(numbers.at_end(), rest.is_empty());
            }
        }
    }
}
