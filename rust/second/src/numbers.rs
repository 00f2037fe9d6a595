//! Numbers: one to three groups of seven bits, lowest group first, one group
//! per byte. The top bit of a byte says that another group follows. Reading a
//! number tells whether its form was shortest; what a longer form means is for
//! the caller to say.

use crate::limits::NUMBER_BYTES;
use crate::refusal::{Refusal, ENDS_TOO_SOON, NUMBER_TOO_LONG};

/// The largest value that there is a spelling of.
pub const LARGEST: u32 = (1 << (7 * NUMBER_BYTES)) - 1;

/// A number that was read, and its form.
#[derive(Clone, Copy, Debug, PartialEq, Eq)]
pub struct Spelled {
    pub value: u32,
    /// The place after its last byte.
    pub next: usize,
    /// Whether fewer bytes spell this value too.
    pub padded: bool,
}

/// Reads the number whose first byte stands at `at`, or gives refusal 1 or 2.
/// A padded number is no refusal here.
pub fn spelled_at(bytes: &[u8], at: usize) -> Result<Spelled, Refusal> {
    let rest = bytes.get(at..).unwrap_or(&[]);
    let mut value = 0;
    for group in 0..NUMBER_BYTES {
        let Some(&byte) = rest.get(group) else {
            return Err(ENDS_TOO_SOON);
        };
        value |= u32::from(byte & 0x7f) << (7 * group);
        if byte & 0x80 == 0 {
            return Ok(Spelled {
                value,
                next: at + group + 1,
                // An empty last group adds nothing, but 0 needs one group.
                padded: group > 0 && byte == 0,
            });
        }
    }
    Err(NUMBER_TOO_LONG)
}

/// Reads a number in any form. Gives it and the place after it, or refusal 1
/// or 2.
pub fn number_at(bytes: &[u8], at: usize) -> Result<(u32, usize), Refusal> {
    spelled_at(bytes, at).map(|number| (number.value, number.next))
}

/// Appends the shortest spelling of a number.
pub fn push_number(bytes: &mut Vec<u8>, value: u32) {
    assert!(value <= LARGEST);
    let mut rest = value;
    while rest >= 0x80 {
        bytes.push(rest as u8 | 0x80);
        rest >>= 7;
    }
    bytes.push(rest as u8);
}

/// The shortest spellings of some numbers, one after the other.
pub fn shortest(numbers: &[u32]) -> Vec<u8> {
    let mut bytes = Vec::new();
    for &number in numbers {
        push_number(&mut bytes, number);
    }
    bytes
}

/// Appends a spelling of `length` bytes, padded with empty groups. A value
/// that needs more bytes gets as many as it needs, and none gets too many.
pub fn push_padded(bytes: &mut Vec<u8>, value: u32, length: usize) {
    let first = bytes.len();
    push_number(bytes, value);
    while bytes.len() - first < length.min(NUMBER_BYTES) {
        let last = bytes.len() - 1;
        bytes[last] |= 0x80;
        bytes.push(0);
    }
}

/// All numbers that bytes spell; the refusal if they do not end with one.
pub fn numbers_of(bytes: &[u8]) -> Result<Vec<u32>, Refusal> {
    let mut reader = Reader::new(bytes);
    let mut numbers = Vec::new();
    while !reader.at_end() {
        numbers.push(reader.number()?);
    }
    Ok(numbers)
}

/// The reader: a slice with an offset. A refusal, which is 1 or 2, leaves it at
/// the first byte of the number that it could not read. After a padded number
/// it stands behind it, as after any other.
pub struct Reader<'a> {
    bytes: &'a [u8],
    at: usize,
}

impl<'a> Reader<'a> {
    pub fn new(bytes: &'a [u8]) -> Self {
        Reader { bytes, at: 0 }
    }

    /// The next number with its form.
    pub fn spelled(&mut self) -> Result<Spelled, Refusal> {
        let number = spelled_at(self.bytes, self.at)?;
        self.at = number.next;
        Ok(number)
    }

    /// The next number, in any form.
    pub fn number(&mut self) -> Result<u32, Refusal> {
        self.spelled().map(|number| number.value)
    }

    pub fn place(&self) -> usize {
        self.at
    }

    /// How many bytes are still to be read.
    pub fn left(&self) -> usize {
        self.bytes.len() - self.at
    }

    pub fn at_end(&self) -> bool {
        self.left() == 0
    }
}

#[cfg(test)]
mod tests {
    use super::*;
    use crate::brute::spellings::is_shortest;
    use crate::random::Random;

    #[test]
    fn padding_is_told_and_no_refusal() {
        for (bytes, value, padded) in [
            (&[5][..], 5, false),
            (&[133, 0], 5, true),
            (&[133, 128, 0], 5, true),
            (&[0], 0, false),
            (&[128, 0], 0, true),
            (&[128, 128, 0], 0, true),
            (&[128, 1], 128, false),
            (&[128, 129, 0], 128, true),
            (&[128, 128, 1], 16_384, false),
            (&[255, 255, 127], LARGEST, false),
        ] {
            let next = bytes.len();
            let number = Spelled {
                value,
                next,
                padded,
            };
            assert_eq!(spelled_at(bytes, 0), Ok(number));
            assert_eq!(number_at(bytes, 0), Ok((value, next)));
        }
    }

    #[test]
    fn refusals_of_the_reader() {
        for (bytes, at, refusal) in [
            (&[][..], 0, 1),
            (&[5], 1, 1),
            (&[5], usize::MAX, 1),
            (&[133], 0, 1),
            (&[133, 128], 0, 1),
            (&[133, 128, 128], 0, 2),
            (&[133, 128, 128, 0], 0, 2),
        ] {
            assert_eq!(spelled_at(bytes, at), Err(refusal));
            assert_eq!(number_at(bytes, at), Err(refusal));
        }
    }

    #[test]
    fn a_refusal_leaves_the_reader_in_place() {
        let mut reader = Reader::new(&[7, 128, 128, 128]);
        assert_eq!(reader.number(), Ok(7));
        for _ in 0..2 {
            assert_eq!(reader.spelled(), Err(2));
            assert_eq!(reader.number(), Err(2));
            assert_eq!(reader.place(), 1);
        }
    }

    #[test]
    fn a_padded_number_moves_the_reader() {
        let mut reader = Reader::new(&[133, 0, 128, 128, 0, 6, 129]);
        for (value, next, padded) in [(5, 2, true), (0, 5, true), (6, 6, false)] {
            let number = Spelled {
                value,
                next,
                padded,
            };
            assert_eq!(reader.spelled(), Ok(number));
            assert_eq!(reader.place(), next);
        }
        assert_eq!((reader.spelled(), reader.place()), (Err(1), 6));
    }

    #[test]
    fn spellings_read_back() {
        let values = (0..300).chain([16_383, 16_384, 31_631, LARGEST]);
        for value in values {
            let mut short = Vec::new();
            push_number(&mut short, value);
            for length in 1..=NUMBER_BYTES {
                let mut bytes = vec![9];
                push_padded(&mut bytes, value, length);
                let number = Spelled {
                    value,
                    next: bytes.len(),
                    padded: bytes.len() > 1 + short.len(),
                };
                assert_eq!(spelled_at(&bytes, 1), Ok(number));
                assert_eq!(bytes.len(), 1 + length.max(short.len()));
            }
        }
    }

    /// Whether bytes that are a number are padded, by trying all shorter ones.
    fn agrees_with_the_definition(bytes: &[u8]) -> bool {
        match spelled_at(bytes, 0) {
            Ok(number) if number.next == bytes.len() => {
                assert_eq!(number.padded, !is_shortest(bytes), "{bytes:?}");
                true
            }
            _ => false,
        }
    }

    #[test]
    fn padded_means_that_a_shorter_spelling_exists() {
        let all = 0..=255;
        let one = all.clone().filter(|&a| agrees_with_the_definition(&[a]));
        assert_eq!(one.count(), 128);
        let pairs = all.clone().flat_map(|a| all.clone().map(move |b| [a, b]));
        let two = pairs.filter(|pair| agrees_with_the_definition(pair));
        assert_eq!(two.count(), 128 * 128);
        // Of three bytes some, many with an empty group or two.
        let mut random = Random::new(0);
        for _ in 0..400 {
            let mut group = || {
                let values = *random.pick(&[1, 2, 128]);
                random.below(values) as u8
            };
            let [a, b, c] = [group() | 128, group() | 128, group()];
            for bytes in [[a, b, c], [a, b, 0], [a, 128, 0], [a, 128, c]] {
                assert!(agrees_with_the_definition(&bytes));
            }
        }
    }
}
