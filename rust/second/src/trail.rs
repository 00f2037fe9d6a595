//! Trails: 2, a step count, then steps from the start to a forbidden
//! location, and the choice of the trail that we write.

use crate::components::Components;
use crate::graph::{Graph, Reversed, Step, FACE, JUMP, TIME, TOUCH};
use crate::marking::{Closure, UNREACHED};
use crate::numbers::push_number;

/// The number with which a trail begins.
pub const TRAIL: u32 = 2;

/// A step of a trail with all that it spells.
#[derive(Clone, Debug, PartialEq, Eq)]
pub enum TrailStep {
    Time,
    /// The edge number.
    Jump(usize),
    /// The region of the face.
    Face(usize),
    /// The touched region, and the closed walk of time and jump steps from it.
    Touch(usize, Vec<TrailStep>),
}

/// The trail we write for an unsafe model, of the chosen steps: fewest of them, then
/// least in state numbers, then in kinds, then in edges. The distances are those by
/// the same steps.
///
/// With the distances known, choosing the least next state that is one step
/// nearer gives the least list of states; the kinds and edges between given
/// states are independent of each other, so each can be the least of its own.
pub fn our_trail(
    graph: &Graph,
    closure: Closure,
    reversed: &Reversed,
    distance: &[u32],
) -> Vec<TrailStep> {
    let walks = |components| Walks::new(graph, components, reversed);
    let mut walks = closure.touch.map(walks);
    let mut trail = Vec::new();
    let mut state = graph.start;
    assert_ne!(distance[state], UNREACHED);
    while distance[state] > 0 {
        let step = graph
            .steps(state)
            .iter()
            .copied()
            .chain(steps_within(graph, closure, state))
            .filter(|step| {
                graph.allowed[step.to as usize] && distance[step.to as usize] == distance[state] - 1
            })
            .min()
            .expect("a state at a distance has a step that is nearer");
        state = step.to as usize;
        trail.push(match step.kind {
            FACE => TrailStep::Face(graph.region_of(state)),
            TOUCH => {
                let walks = walks.as_mut().expect("closed walks are known");
                TrailStep::Touch(graph.region_of(state), walks.least_closed_walk(state))
            }
            _ => walk_step(&step),
        });
    }
    trail
}

/// The face and touch steps from a state, as far as they are chosen. Not all of the
/// states that they lead to need be allowed.
fn steps_within(graph: &Graph, closure: Closure, state: usize) -> Vec<Step> {
    let (base, region) = (graph.base_of(state), graph.region_of(state));
    let step = |kind: u8, region: usize| Step {
        to: (base + region) as u32,
        kind,
        edge: 0,
    };
    let mut steps = Vec::new();
    if closure.face {
        let faces = graph.regions.faces[region].iter();
        steps.extend(faces.map(|&face| step(FACE, face)));
    }
    if let Some(components) = closure.touch {
        let mut near = graph.regions.near(region);
        near.retain(|near| components.on_cycle[base + near]);
        steps.extend(near.into_iter().map(|near| step(TOUCH, near)));
    }
    steps
}

fn walk_step(step: &Step) -> TrailStep {
    match step.kind {
        TIME => TrailStep::Time,
        _ => TrailStep::Jump(step.edge as usize),
    }
}

/// Finds closed walks of time and jump steps.
struct Walks<'a> {
    graph: &'a Graph,
    components: &'a Components,
    reversed: &'a Reversed,
    /// Distance to the state in question; UNREACHED between two searches.
    back: Vec<u32>,
}

impl<'a> Walks<'a> {
    fn new(graph: &'a Graph, components: &'a Components, reversed: &'a Reversed) -> Walks<'a> {
        Walks {
            graph,
            components,
            reversed,
            back: vec![UNREACHED; graph.states()],
        }
    }

    /// The closed walk from a state, chosen like a trail: fewest steps, then
    /// least in states, kinds, edges.
    fn least_closed_walk(&mut self, home: usize) -> Vec<TrailStep> {
        let reached = self.search_back(home);
        // The last steps of the walk are the ways home; the first leads to
        // the state that has the shortest way home.
        let mut left = 1 + self
            .graph
            .steps(home)
            .iter()
            .map(|step| self.back[step.to as usize])
            .min()
            .expect("a step");
        let mut state = home;
        let mut walk = Vec::new();
        while left > 0 {
            left -= 1;
            let step = self
                .graph
                .steps(state)
                .iter()
                .filter(|step| self.back[step.to as usize] == left)
                .min()
                .expect("a state on the way home has a next one");
            walk.push(walk_step(step));
            state = step.to as usize;
        }
        for state in reached {
            self.back[state] = UNREACHED;
        }
        walk
    }

    /// Breadth-first search backward from a state, within its component.
    fn search_back(&mut self, home: usize) -> Vec<usize> {
        self.back[home] = 0;
        let mut queue = vec![home];
        let mut at = 0;
        while at < queue.len() {
            let state = queue[at];
            at += 1;
            for &from in self.reversed.sources(state) {
                let from = from as usize;
                if self.components.of[from] == self.components.of[home]
                    && self.back[from] == UNREACHED
                {
                    self.back[from] = self.back[state] + 1;
                    queue.push(from);
                }
            }
        }
        queue
    }
}

/// The bytes of a trail.
pub fn spell_trail(graph: &Graph, trail: &[TrailStep]) -> Vec<u8> {
    let mut bytes = Vec::new();
    push_number(&mut bytes, TRAIL);
    push_steps(graph, trail, &mut bytes);
    bytes
}

/// Appends a count and that many steps.
fn push_steps(graph: &Graph, steps: &[TrailStep], bytes: &mut Vec<u8>) {
    push_number(bytes, steps.len() as u32);
    for step in steps {
        match step {
            TrailStep::Time => push_number(bytes, TIME.into()),
            TrailStep::Jump(edge) => {
                push_number(bytes, JUMP.into());
                push_number(bytes, *edge as u32);
            }
            TrailStep::Face(region) => {
                push_number(bytes, FACE.into());
                push_region(graph, *region, bytes);
            }
            TrailStep::Touch(region, walk) => {
                push_number(bytes, TOUCH.into());
                push_region(graph, *region, bytes);
                push_steps(graph, walk, bytes);
            }
        }
    }
}

/// Appends whole parts and ranks.
fn push_region(graph: &Graph, region: usize, bytes: &mut Vec<u8>) {
    let clocks = graph.regions.clocks;
    let region = &graph.regions.list[region];
    for &number in region.whole[..clocks].iter().chain(&region.rank[..clocks]) {
        push_number(bytes, number.into());
    }
}
