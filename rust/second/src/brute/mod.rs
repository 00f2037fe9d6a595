//! The brute-force route: everything again by naive definitions, sharing no
//! code with the plain route, only the limits. Fit for small models only.
//!
//! Regions are met through a sample valuation each, in eighths of a unit;
//! corners are the whole points of a region's closure; closed walks of steps come
//! from a transitive closure, those of edges are gone one by one or all listed;
//! marks, their rounds and heights come from repeated sweeps;
//! trails and walks are compared as whole lists, and walks within a fringe
//! lengthened step by step; least times are those of runs wait by wait; limits
//! that blank stay fields mean, and spellings of a number and of a plan, are
//! tried one by one; the room that a plan needs is filled and counted.

pub mod check;
pub mod harm;
pub mod joint;
pub mod margin;
pub mod read;
pub mod regions;
pub mod room;
pub mod rounds;
pub mod soonest;
pub mod spellings;
pub mod states;
pub mod trails;

use read::{read, Plan};
use states::States;

pub struct Brute {
    pub plan: Plan,
    pub states: States,
}

impl Brute {
    /// Refusals 1 to 7.
    pub fn new(bytes: &[u8]) -> Result<Brute, u8> {
        let plan = read(bytes)?;
        let states = States::new(&plan);
        Ok(Brute { plan, states })
    }

    pub fn is_unsafe(&self) -> bool {
        self.has_forbidden(&self.states.marked())
    }

    fn has_forbidden(&self, marked: &[bool]) -> bool {
        (0..marked.len()).any(|state| marked[state] && self.states.forbidden[state])
    }

    /// The numbers of the sheet we write for a safe model.
    pub fn sheet(&self) -> Vec<u32> {
        self.sheet_of(&self.states.marked())
    }

    fn sheet_of(&self, marked: &[bool]) -> Vec<u32> {
        let heights = self.states.heights();
        let mut numbers = vec![1];
        for state in 0..marked.len() {
            numbers.push(2 * heights[state] + u32::from(marked[state]));
        }
        numbers
    }

    /// The numbers of the trail we write for an unsafe model.
    pub fn trail(&self) -> Vec<u32> {
        let trail = trails::least_trail(&self.states);
        let walk = |state| trails::least_walk(&self.states, state);
        trails::spell(&self.states, &trail, walk)
    }

    pub fn evidence(&self) -> Vec<u8> {
        let numbers = if self.is_unsafe() {
            self.trail()
        } else {
            self.sheet()
        };
        spelled_out(numbers)
    }
}

fn spelled_out(numbers: Vec<u32>) -> Vec<u8> {
    numbers.into_iter().flat_map(shortest).collect()
}

/// The shortest spelling: as many groups as the value has digits of base 128.
pub fn shortest(value: u32) -> Vec<u8> {
    match value {
        0..=127 => vec![value as u8],
        128..=16_383 => vec![(value % 128 + 128) as u8, (value / 128) as u8],
        _ => vec![
            (value % 128 + 128) as u8,
            (value / 128 % 128 + 128) as u8,
            (value / 16_384) as u8,
        ],
    }
}
