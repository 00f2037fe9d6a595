//! Scratch for calls: who lends it, and an owner of it.

use crate::Word;

/// The most states that an accepted model has.
pub const MOST_STATES: usize = 15_816;

/// Four slices of numbers, lent for a call.
pub type Scratch<'a> = [&'a mut [Word]; 4];

/// Owns scratch that is lent again and again.
#[derive(Clone, Debug)]
pub struct Buffers([Vec<Word>; 4]);

impl Buffers {
    /// Enough for plans of so many states: what `room` tells of one is enough
    /// for that, `MOST_STATES` for every plan.
    pub fn new(states: usize) -> Buffers {
        Buffers(std::array::from_fn(|_| vec![0; states]))
    }

    pub fn lend(&mut self) -> Scratch<'_> {
        self.0.each_mut().map(Vec::as_mut_slice)
    }
}

#[cfg(test)]
mod tests {
    use super::*;

    #[test]
    fn four_of_one_length() {
        let mut buffers = Buffers::new(7);
        assert_eq!(buffers.lend().map(|slice| slice.len()), [7; 4]);
    }

    #[test]
    fn the_most_states_are_those_of_the_header() {
        let header = include_str!("../../../c/drift.h");
        assert!(header.contains(&format!("#define DRIFT_MOST_STATES {MOST_STATES}\n")));
    }
}
