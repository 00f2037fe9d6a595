//! What several test programs use.
#![allow(dead_code)]

use second::limits::MAX_STATES;
use second::numbers::numbers_of;
use second::program::OUTPUT;
use second::Model;

/// Enough scratch for every model.
pub const ENOUGH: [usize; 4] = [MAX_STATES; 4];

/// The loop plan of "Plans on the bench".
pub const LOOP: [u8; 46] = [
    1, 2, 2, 4, 4, 0, //
    0, 0, 0, 0, 0, 0, 0, 0, 0, 1, 0, 0, //
    0, 1, 2, 1, 1, 1, 1, //
    1, 2, 1, 0, 2, 0, 2, //
    2, 1, 2, 0, 2, 2, 2, //
    2, 3, 0, 0, 0, 2, 2,
];

/// Its passing trail of "Plans on the bench", perhaps not ours.
pub const LOOP_TRAIL: [u8; 34] = [
    2, 8, 0, 0, 1, 0, 0, 1, 1, 3, 0, 1, 0, 1, 10, 0, 0, 1, 2, 0, 0, 0, 0, 0, 0, 1, 1, 2, 0, 2, 0,
    0, 1, 3,
];

/// One clock, ceiling 1, one location: three states in a row.
pub const ROW: [u8; 8] = [1, 1, 1, 1, 0, 0, 0, 0];

/// One clock, ceiling 1, two locations with an edge at 1 that keeps the clock.
pub const TWO: [u8; 15] = [1, 1, 1, 2, 1, 0, 0, 0, 0, 0, 0, 1, 0, 1, 1];

/// How many numbers spell a model.
pub fn count_of_numbers(model: &Model) -> usize {
    let (locations, edges) = (model.locations.len(), model.edges.len());
    6 + locations * (1 + model.clocks) + edges * (3 + 2 * model.clocks)
}

/// Whether some stay field of an accepted model is M+1.
pub fn has_stay_above_ceiling(model: &[u8]) -> bool {
    let numbers = numbers_of(model).expect("an accepted model");
    let [_, clocks, ceiling, locations, ..] = numbers[..] else {
        panic!("an accepted model has a header");
    };
    let mut all = numbers[6..]
        .chunks(1 + clocks as usize)
        .take(locations as usize);
    all.any(|location| location[1..].contains(&(ceiling + 1)))
}

pub fn evidence(model: &[u8]) -> Vec<u8> {
    let mut out = vec![0; OUTPUT];
    let (_, written) = second::write_evidence(model, ENOUGH, &mut out).expect("an accepted model");
    out.truncate(written);
    out
}

/// A byte 1 or 0 for each state.
pub fn marks_of(plan: &[u8]) -> Vec<u8> {
    let mut out = vec![9; MAX_STATES];
    let states = second::marks(plan, ENOUGH, &mut out).expect("an accepted model");
    out.truncate(states);
    out
}

pub fn check(model: &[u8], evidence: &[u8]) -> Result<u32, u8> {
    second::check_evidence(model, evidence, ENOUGH)
}
