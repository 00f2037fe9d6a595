//! The rules of a sheet one by one, and sheets that break a single one.

use crate::components::Components;
use crate::graph::{Graph, FACE, JUMP, TIME};
use crate::marking::marked_set;
use crate::sheet::greatest_number;

#[derive(Clone, Copy, Debug, PartialEq, Eq, PartialOrd, Ord)]
pub enum Rule {
    /// The start is in.
    Start,
    /// The in-states are closed under time, jump, face.
    Time,
    Jump,
    Face,
    /// No time or jump step raises the height.
    Raised,
    /// An out-state that touches an in-state lowers its height by each step.
    Touching,
    /// No in-state is forbidden.
    Forbidden,
}

pub const RULES: [Rule; 7] = [
    Rule::Start,
    Rule::Time,
    Rule::Jump,
    Rule::Face,
    Rule::Raised,
    Rule::Touching,
    Rule::Forbidden,
];

impl Rule {
    /// How a sheet breaks it.
    pub fn words(self) -> &'static str {
        match self {
            Rule::Start => "start out",
            Rule::Time => "not closed under time",
            Rule::Jump => "not closed under jump",
            Rule::Face => "not closed under face",
            Rule::Raised => "a height raised",
            Rule::Touching => "an out-state that touches keeps its height",
            Rule::Forbidden => "an in-state forbidden",
        }
    }
}

/// The numbers that follow the 1 of a sheet.
type Numbers = Vec<u32>;

/// The rules that the numbers of a sheet break, each looked at by itself.
pub fn broken_rules(graph: &Graph, numbers: &[u32]) -> Vec<Rule> {
    let some = |test: &dyn Fn(usize) -> bool| (0..graph.states()).any(test);
    let broken = |rule: &Rule| match rule {
        Rule::Start => !is_in(numbers, graph.start),
        Rule::Time => leaves(graph, numbers, TIME),
        Rule::Jump => leaves(graph, numbers, JUMP),
        Rule::Face => leaves(graph, numbers, FACE),
        Rule::Raised => {
            some(&|state| next_height(graph, numbers, state) > Some(numbers[state] / 2))
        }
        Rule::Touching => some(&|state| {
            touches_in(graph, numbers, state)
                && next_height(graph, numbers, state) == Some(numbers[state] / 2)
        }),
        Rule::Forbidden => some(&|state| is_in(numbers, state) && graph.is_forbidden(state)),
    };
    RULES.into_iter().filter(broken).collect()
}

fn is_in(numbers: &[u32], state: usize) -> bool {
    numbers[state] % 2 == 1
}

/// Where the steps of a kind lead from an allowed state.
fn steps_of(graph: &Graph, state: usize, kind: u8) -> Vec<usize> {
    if kind != FACE {
        let steps = graph.steps(state).iter().filter(|step| step.kind == kind);
        return steps.map(|step| step.to as usize).collect();
    }
    let base = graph.base_of(state);
    let faces = graph.regions.faces[graph.region_of(state)].iter();
    faces
        .map(|face| base + face)
        .filter(|&face| graph.allowed[face])
        .collect()
}

/// Some step of a kind leads from an in-state to an out-state.
fn leaves(graph: &Graph, numbers: &[u32], kind: u8) -> bool {
    let out = |&to: &usize| !is_in(numbers, to);
    (0..graph.states())
        .filter(|&state| is_in(numbers, state))
        .any(|state| steps_of(graph, state, kind).iter().any(out))
}

/// The greatest height that a time or jump step leads to, if there is a step.
fn next_height(graph: &Graph, numbers: &[u32], state: usize) -> Option<u32> {
    let steps = graph.steps(state).iter();
    steps.map(|step| numbers[step.to as usize] / 2).max()
}

/// An out-state that shares a corner with an in-state of its location.
fn touches_in(graph: &Graph, numbers: &[u32], state: usize) -> bool {
    let base = graph.base_of(state);
    let near = graph.regions.near(graph.region_of(state));
    !is_in(numbers, state) && near.iter().any(|near| is_in(numbers, base + near))
}

/// The first of our candidates that breaks this rule and no other.
pub fn breaking(graph: &Graph, rule: Rule) -> Option<Numbers> {
    let components = Components::new(graph);
    let mut candidates = not_closed(graph, &components);
    candidates.extend(other_heights(graph, &components));
    candidates
        .into_iter()
        .find(|numbers| broken_rules(graph, numbers) == [rule])
}

/// With our heights.
pub fn with_in(components: &Components, is_in: &[bool]) -> Numbers {
    let heights = components.height.iter();
    heights
        .zip(is_in)
        .map(|(height, &is_in)| 2 * height + u32::from(is_in))
        .collect()
}

/// The states that some begin with under steps of some kinds.
pub fn closed_under(graph: &Graph, begin: &[usize], kinds: &[u8]) -> Vec<bool> {
    let mut is_in = vec![false; graph.states()];
    let mut waiting = begin.to_vec();
    while let Some(state) = waiting.pop() {
        if !is_in[state] {
            is_in[state] = true;
            waiting.extend(kinds.iter().flat_map(|&kind| steps_of(graph, state, kind)));
        }
    }
    is_in
}

/// Nothing in; then sets closed under two or three kinds of steps that begin
/// with the start, alone or with one more state.
fn not_closed(graph: &Graph, components: &Components) -> Vec<Numbers> {
    let mut sets = vec![vec![false; graph.states()]];
    for kinds in [
        &[JUMP, FACE][..],
        &[TIME, FACE],
        &[TIME, JUMP],
        &[TIME, JUMP, FACE],
    ] {
        sets.push(closed_under(graph, &[graph.start], kinds));
        for state in (0..graph.states()).filter(|&state| graph.allowed[state]) {
            sets.push(closed_under(graph, &[graph.start, state], kinds));
        }
    }
    sets.iter()
        .map(|is_in| with_in(components, is_in))
        .collect()
}

/// The marked set with the height of one state raised by two or lowered by one.
fn other_heights(graph: &Graph, components: &Components) -> Vec<Numbers> {
    let ours = with_in(components, &marked_set(graph, components));
    let changed = |state: usize, number: u32| {
        let mut numbers = ours.clone();
        numbers[state] = number;
        numbers
    };
    let most = greatest_number(graph.states());
    let allowed = (0..graph.states()).filter(|&state| graph.allowed[state]);
    allowed
        .flat_map(|state| {
            [
                (state, ours[state] + 4),
                (state, ours[state].saturating_sub(2)),
            ]
        })
        .filter(|&(_, number)| number <= most)
        .map(|(state, number)| changed(state, number))
        .collect()
}
