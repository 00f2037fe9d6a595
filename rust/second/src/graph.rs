//! States and the time and jump steps between allowed states.
//!
//! A state is a location with a region, numbered by location, then region.
//! Face and touch steps are not stored: they follow from the region table
//! and from the closed walks.

use crate::model::Model;
use crate::regions::Regions;

/// Kinds of steps, as trails spell them.
pub const TIME: u8 = 0;
pub const JUMP: u8 = 1;
pub const FACE: u8 = 2;
pub const TOUCH: u8 = 3;

/// A time or jump step, as seen from the state it leaves. The derived order
/// is the one in which our trails choose: state, kind, edge.
#[derive(Clone, Copy, Debug, PartialEq, Eq, PartialOrd, Ord)]
pub struct Step {
    pub to: u32,
    pub kind: u8,
    /// The edge number of a jump, else 0.
    pub edge: u8,
}

pub struct Graph {
    pub model: Model,
    pub regions: &'static Regions,
    pub start: usize,
    pub allowed: Vec<bool>,
    /// The steps of state s stand at first[s]..first[s + 1].
    first: Vec<u32>,
    steps: Vec<Step>,
}

impl Graph {
    pub fn new(model: Model) -> Graph {
        let regions = Regions::of(model.clocks, model.ceiling);
        let count = regions.count();
        let mut allowed = Vec::with_capacity(model.locations.len() * count);
        for location in &model.locations {
            allowed.extend(
                regions
                    .list
                    .iter()
                    .map(|region| region.is_allowed_in(location, model.clocks)),
            );
        }
        let mut first = vec![0];
        let mut steps = Vec::new();
        for state in 0..allowed.len() {
            if allowed[state] {
                push_steps(&model, regions, &allowed, state, &mut steps);
            }
            first.push(steps.len() as u32);
        }
        // The region with all clocks 0 is the first of the order.
        let start = model.start * count;
        Graph {
            model,
            regions,
            start,
            allowed,
            first,
            steps,
        }
    }

    /// The number of states (S).
    pub fn states(&self) -> usize {
        self.allowed.len()
    }

    pub fn location_of(&self, state: usize) -> usize {
        state / self.regions.count()
    }

    pub fn region_of(&self, state: usize) -> usize {
        state % self.regions.count()
    }

    /// The state with region 0 of the state's own location.
    pub fn base_of(&self, state: usize) -> usize {
        state - self.region_of(state)
    }

    pub fn is_forbidden(&self, state: usize) -> bool {
        self.model.locations[self.location_of(state)].forbidden
    }

    /// The time and jump steps of a state: time first, then by edge number.
    pub fn steps(&self, state: usize) -> &[Step] {
        &self.steps[self.first[state] as usize..self.first[state + 1] as usize]
    }

    /// For each state the states that have a time or jump step to it.
    pub fn reversed(&self) -> Reversed {
        let mut first = vec![0u32; self.states() + 1];
        for step in &self.steps {
            first[step.to as usize + 1] += 1;
        }
        for state in 0..self.states() {
            first[state + 1] += first[state];
        }
        let mut next = first.clone();
        let mut from = vec![0; self.steps.len()];
        for state in 0..self.states() {
            for step in self.steps(state) {
                let slot = &mut next[step.to as usize];
                from[*slot as usize] = state as u32;
                *slot += 1;
            }
        }
        Reversed { first, from }
    }
}

/// The time and jump steps backward.
pub struct Reversed {
    first: Vec<u32>,
    from: Vec<u32>,
}

impl Reversed {
    pub fn sources(&self, state: usize) -> &[u32] {
        &self.from[self.first[state] as usize..self.first[state + 1] as usize]
    }
}

fn push_steps(
    model: &Model,
    regions: &Regions,
    allowed: &[bool],
    state: usize,
    steps: &mut Vec<Step>,
) {
    if let Some(to) = time_step(regions, allowed, state) {
        steps.push(Step {
            to: to as u32,
            kind: TIME,
            edge: 0,
        });
    }
    for edge in 0..model.edges.len() {
        if let Some(to) = jump_step(model, regions, allowed, state, edge) {
            steps.push(Step {
                to: to as u32,
                kind: JUMP,
                edge: edge as u8,
            });
        }
    }
}

/// Where the time step of an allowed state leads, if it has one.
pub fn time_step(regions: &Regions, allowed: &[bool], state: usize) -> Option<usize> {
    let region = state % regions.count();
    let to = state - region + regions.successor[region]?;
    allowed[to].then_some(to)
}

/// Where the jump of an allowed state along an edge leads, if it can.
pub fn jump_step(
    model: &Model,
    regions: &Regions,
    allowed: &[bool],
    state: usize,
    edge: usize,
) -> Option<usize> {
    let edge = &model.edges[edge];
    let count = regions.count();
    let region = &regions.list[state % count];
    if edge.from != state / count || !region.meets_guard(edge, model.clocks) {
        return None;
    }
    let to = edge.to * count + regions.index(&region.reset(edge.resets));
    allowed[to].then_some(to)
}
