//! Scratch and output lent for a call, and what must be left of them.

use drift::Word;
use second::random::Random;

/// The most that a slice has beyond what is asked for.
const BEYOND: usize = 40;

/// Numbers or bytes on each side of a lent slice that no call may touch.
const MARGIN: usize = 8;

/// Four dirty scratch slices, each with a margin around it.
pub struct Lent {
    before: [Vec<Word>; 4],
}

/// A length near one that is asked for: mostly enough, at times one short or none.
pub fn length_near(random: &mut Random, asked: usize) -> usize {
    match random.below(12) {
        0 => asked.saturating_sub(1),
        1 => random.below(asked + 1),
        2 | 3 => asked,
        _ => asked + random.below(BEYOND),
    }
}

/// Lengths of an output for evidence of so many bytes: too short, just
/// enough, longer. Any length where there is none.
pub fn rooms(random: &mut Random, asked: usize) -> Vec<usize> {
    if asked == 0 {
        return vec![random.below(BEYOND)];
    }
    let shorter = if random.one_in(2) {
        asked - 1
    } else {
        random.below(asked)
    };
    vec![shorter, asked, asked + 1 + random.below(BEYOND)]
}

fn dirty(random: &mut Random, length: usize) -> Vec<Word> {
    (0..length).map(|_| random.bits() as Word).collect()
}

impl Lent {
    /// Slices of these lengths.
    pub fn of(random: &mut Random, lengths: [usize; 4]) -> Lent {
        let before = lengths.map(|length| dirty(random, length + 2 * MARGIN));
        Lent { before }
    }

    /// Slices of just so many numbers.
    pub fn enough(random: &mut Random, states: usize) -> Lent {
        Lent::of(random, [states; 4])
    }

    /// Slices for so many states; some are shorter or longer.
    pub fn near(random: &mut Random, states: usize) -> Lent {
        let before = std::array::from_fn(|_| {
            let length = if random.one_in(6) {
                length_near(random, states)
            } else {
                states + 3
            };
            dirty(random, length + 2 * MARGIN)
        });
        Lent { before }
    }

    pub fn lengths(&self) -> [usize; 4] {
        [0, 1, 2, 3].map(|at| self.before[at].len() - 2 * MARGIN)
    }

    /// Runs a call on a copy and compares all that it leaves: so many first
    /// numbers at zero, if any, and the rest as before.
    pub fn run<T>(
        &self,
        call: impl FnOnce(drift::Scratch) -> T,
        zeroed: Option<usize>,
    ) -> Result<T, String> {
        let mut after = self.before.clone();
        let [a, b, c, d] = &mut after;
        let answer = call([a, b, c, d].map(|whole| {
            let end = whole.len() - MARGIN;
            &mut whole[MARGIN..end]
        }));
        let zeroed = zeroed.unwrap_or(0);
        let same = self.before.iter().zip(&after).all(|(before, after)| {
            let end = MARGIN + zeroed;
            before[..MARGIN] == after[..MARGIN]
                && after[MARGIN..end].iter().all(|&number| number == 0)
                && before[end..] == after[end..]
        });
        if same {
            Ok(answer)
        } else {
            Err("scratch is not as it should be".into())
        }
    }
}

/// A dirty output with a margin around it.
#[derive(Clone, PartialEq, Eq)]
pub struct Output {
    whole: Vec<u8>,
}

impl Output {
    pub fn new(random: &mut Random, room: usize) -> Output {
        let whole = (0..room + 2 * MARGIN)
            .map(|_| random.bits() as u8)
            .collect();
        Output { whole }
    }

    /// The part that is lent.
    pub fn lent(&mut self) -> &mut [u8] {
        let end = self.whole.len() - MARGIN;
        &mut self.whole[MARGIN..end]
    }
}
