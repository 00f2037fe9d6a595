//! The room that a plan needs, request (h) of document 02: all states are put down, a
//! number of scratch for each, the longest sheet byte by byte, and a trail that goes
//! through all of them.

use super::read::read;
use super::regions::all_regions;
use super::{shortest, spelled_out};

/// The number of states, the length of a scratch slice, the most bytes of a sheet and
/// the most steps of a trail that is in no state twice; or a refusal, 1 to 7.
pub fn room(bytes: &[u8]) -> Result<[usize; 4], u8> {
    let plan = read(bytes)?;
    let regions = all_regions(plan.clocks, plan.ceiling);
    let locations = 0..plan.forbidden.len();
    let states: Vec<_> = locations
        .flat_map(|location| regions.iter().map(move |region| (location, region)))
        .collect();
    let slice: Vec<u16> = states.iter().map(|_| 0).collect();
    let longest = longest_number(states.len() as u32);
    let sheet = [vec![1], vec![longest; states.len()]].concat();
    let steps = states.windows(2).count();
    Ok([states.len(), slice.len(), spelled_out(sheet).len(), steps])
}

/// Of all numbers that a sheet of so many states may have, one that takes the most
/// bytes in shortest form.
fn longest_number(states: u32) -> u32 {
    let all = 0..=2 * states - 1;
    all.max_by_key(|&number| shortest(number).len())
        .expect("there is a state")
}
