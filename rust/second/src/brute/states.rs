//! States, all labelled steps between them, closed walks, the marked set and
//! the heights, by sweeps over everything until nothing changes.

use super::read::Plan;
use super::regions::{NaiveRegions, UNIT};
use std::ops::Range;

/// A labelled step: where it leads, its kind (0 to 3), its edge if a jump.
#[derive(Clone, Copy, Debug, PartialEq, Eq)]
pub struct Label {
    pub to: usize,
    pub kind: u32,
    pub edge: usize,
}

pub struct States {
    pub regions: &'static NaiveRegions,
    /// Location and region of each state.
    pub list: Vec<(usize, usize)>,
    pub start: usize,
    pub allowed: Vec<bool>,
    pub forbidden: Vec<bool>,
    /// Steps of all four kinds.
    pub steps: Vec<Vec<Label>>,
    /// walk[s][t]: one or more time and jump steps lead from s to t.
    pub walk: Vec<Vec<bool>>,
}

impl States {
    pub fn new(plan: &Plan) -> States {
        let regions = NaiveRegions::of(plan.clocks, plan.ceiling);
        let mut list = Vec::new();
        for location in 0..plan.forbidden.len() {
            for region in 0..regions.list.len() {
                list.push((location, region));
            }
        }
        let within = |location: usize, region: usize| {
            regions
                .sample(region)
                .iter()
                .zip(&plan.limits[location])
                .all(|(v, limit)| *v <= limit * UNIT)
        };
        let zero = regions.region_of(&vec![0; plan.clocks]);
        let mut states = States {
            regions,
            start: list
                .iter()
                .position(|&state| state == (plan.start, zero))
                .expect("the start"),
            allowed: list
                .iter()
                .map(|&(location, region)| within(location, region))
                .collect(),
            forbidden: list
                .iter()
                .map(|&(location, _)| plan.forbidden[location])
                .collect(),
            steps: vec![Vec::new(); list.len()],
            walk: vec![vec![false; list.len()]; list.len()],
            list,
        };
        states.add_time_and_jumps(plan);
        states.close_walks();
        states.add_faces_and_touches();
        states
    }

    pub fn number(&self, location: usize, region: usize) -> usize {
        location * self.regions.list.len() + region
    }

    fn add(&mut self, from: usize, to: usize, kind: u32, edge: usize) {
        if self.allowed[from] && self.allowed[to] {
            self.steps[from].push(Label { to, kind, edge });
        }
    }

    fn add_time_and_jumps(&mut self, plan: &Plan) {
        for state in 0..self.list.len() {
            let (location, region) = self.list[state];
            if let Some(after) = self.regions.after_time(region, plan.ceiling) {
                self.add(state, self.number(location, after), 0, 0);
            }
            for (number, edge) in plan.edges.iter().enumerate() {
                let mut valuation = self.regions.sample(region);
                let meets = valuation
                    .iter()
                    .zip(&edge.guard)
                    .all(|(v, (low, high))| *v >= low * UNIT && *v <= high * UNIT);
                if edge.from == location && meets {
                    for (clock, reset) in edge.resets.iter().enumerate() {
                        if *reset {
                            valuation[clock] = 0;
                        }
                    }
                    let after = self.regions.region_of(&valuation);
                    self.add(state, self.number(edge.to, after), 1, number);
                }
            }
        }
    }

    /// Warshall's transitive closure.
    fn close_walks(&mut self) {
        let count = self.list.len();
        for state in 0..count {
            for label in &self.steps[state] {
                self.walk[state][label.to] = true;
            }
        }
        for middle in 0..count {
            for from in 0..count {
                if self.walk[from][middle] {
                    for to in 0..count {
                        if self.walk[middle][to] {
                            self.walk[from][to] = true;
                        }
                    }
                }
            }
        }
    }

    fn add_faces_and_touches(&mut self) {
        for from in 0..self.list.len() {
            for to in 0..self.list.len() {
                let ((here, one), (there, other)) = (self.list[from], self.list[to]);
                if here == there && self.regions.is_face[one][other] {
                    self.add(from, to, 2, 0);
                }
                if here == there && self.regions.shares[one][other] && self.walk[to][to] {
                    self.add(from, to, 3, 0);
                }
            }
        }
    }

    /// The smallest set with the start that is closed under all steps.
    pub fn marked(&self) -> Vec<bool> {
        self.closed_under(0..4)
    }

    /// The smallest set with the start that is closed under steps of these kinds.
    pub fn closed_under(&self, kinds: Range<u32>) -> Vec<bool> {
        let mut marked = vec![false; self.list.len()];
        marked[self.start] = true;
        loop {
            let before = marked.clone();
            for state in 0..self.list.len() {
                for label in &self.steps[state] {
                    if marked[state] && kinds.contains(&label.kind) {
                        marked[label.to] = true;
                    }
                }
            }
            if marked == before {
                return marked;
            }
        }
    }

    /// The most steps without return that a walk from each state takes.
    pub fn heights(&self) -> Vec<u32> {
        let mut heights = vec![0; self.list.len()];
        loop {
            let before = heights.clone();
            for state in 0..self.list.len() {
                for label in self.steps[state].iter().filter(|label| label.kind < 2) {
                    let no_return = label.to != state && !self.walk[label.to][state];
                    heights[state] = heights[state].max(heights[label.to] + u32::from(no_return));
                }
            }
            if heights == before {
                return heights;
            }
        }
    }
}
