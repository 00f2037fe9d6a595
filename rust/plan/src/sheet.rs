//! A sheet read from evidence bytes, with the first rule that it breaks.

use crate::flaw::{Flaw, Numbers};
use crate::tell::region_words;
use crate::Plan;
use second::graph::Graph;
use second::marking::CornerNotes;
use second::refusal::{BAD_SHEET_NUMBER, SHEET_RULE_BROKEN};
use second::sheet::{greatest_number, SHEET};

/// Whether evidence begins like a sheet.
pub fn is_sheet(evidence: &[u8]) -> bool {
    matches!(second::number_at(evidence, 0), Ok((SHEET, _)))
}

/// How many states there are and how many of them are in.
#[derive(Clone, Copy, Debug, PartialEq, Eq)]
pub struct Tally {
    pub states: usize,
    pub inside: usize,
}

pub fn read_sheet(plan: &Plan, evidence: &[u8]) -> Result<Tally, Flaw> {
    let graph = Graph::new(plan.model());
    let sheet = Sheet {
        plan,
        numbers: sheet_numbers(plan, &graph, evidence)?,
        graph,
    };
    match sheet.broken_rule() {
        Some(words) => Err(Flaw {
            refusal: SHEET_RULE_BROKEN,
            words,
        }),
        None => Ok(Tally {
            states: sheet.numbers.len(),
            inside: sheet
                .numbers
                .iter()
                .filter(|&&number| number % 2 == 1)
                .count(),
        }),
    }
}

fn sheet_numbers(plan: &Plan, graph: &Graph, evidence: &[u8]) -> Result<Vec<u32>, Flaw> {
    let mut numbers = Numbers::of_evidence(evidence);
    numbers.next("the mark of the evidence")?;
    let most = greatest_number(graph.states());
    let mut all = Vec::new();
    for state in 0..graph.states() {
        let what = || format!("state {state}, {}", state_words(plan, graph, state));
        let number = numbers.next(&what())?;
        if number > most {
            let words = format!("{}: it is {number}, but must be at most {most}", what());
            return Err(numbers.flaw(BAD_SHEET_NUMBER, &words));
        }
        if number != 0 && !graph.allowed[state] {
            let words = format!(
                "{}: it is {number}, but must be 0 beyond a stay limit",
                what()
            );
            return Err(numbers.flaw(BAD_SHEET_NUMBER, &words));
        }
        all.push(number);
    }
    numbers.end("the sheet")?;
    Ok(all)
}

/// A state by its location and clocks.
fn state_words(plan: &Plan, graph: &Graph, state: usize) -> String {
    let region = &graph.regions.list[graph.region_of(state)];
    format!(
        "{} at {}",
        plan.quoted(graph.location_of(state)),
        region_words(plan, region)
    )
}

struct Sheet<'a> {
    plan: &'a Plan,
    graph: Graph,
    numbers: Vec<u32>,
}

impl Sheet<'_> {
    fn is_in(&self, state: usize) -> bool {
        self.numbers[state] % 2 == 1
    }

    fn height(&self, state: usize) -> u32 {
        self.numbers[state] / 2
    }

    fn words(&self, state: usize) -> String {
        format!(
            "state {state} ({})",
            state_words(self.plan, &self.graph, state)
        )
    }

    fn broken_rule(&self) -> Option<String> {
        if !self.is_in(self.graph.start) {
            return Some(format!(
                "the start is not in: {}",
                self.words(self.graph.start)
            ));
        }
        let mut corners = CornerNotes::new(&self.graph);
        let inside = (0..self.numbers.len()).filter(|&state| self.is_in(state));
        inside.for_each(|state| corners.note(&self.graph, state));
        (0..self.numbers.len())
            .find_map(|state| self.broken_at(state, corners.has_any(&self.graph, state)))
    }

    /// The rule broken at a state, if any.
    fn broken_at(&self, state: usize, touches: bool) -> Option<String> {
        let here = || self.words(state);
        if self.is_in(state) && self.graph.is_forbidden(state) {
            return Some(format!("{} is in, though forbidden", here()));
        }
        let mut steps = self.graph.steps(state).iter().map(|step| step.to as usize);
        if let Some((to, why)) =
            steps.find_map(|to| Some((to, self.broken_step(state, to, touches)?)))
        {
            return Some(format!("{} {why} {}", here(), self.words(to)));
        }
        let face = self.face_out(state)?;
        Some(format!(
            "{} is in, but not its face {}",
            here(),
            self.words(face)
        ))
    }

    /// What is wrong with a time or jump step, if anything.
    fn broken_step(&self, from: usize, to: usize, touches: bool) -> Option<&'static str> {
        let (here, there) = (self.height(from), self.height(to));
        if self.is_in(from) && !self.is_in(to) {
            Some("is in, but not what a step leads to:")
        } else if there > here {
            Some("is lower than what a step leads to:")
        } else if !self.is_in(from) && touches && there == here {
            Some("is out and touches what is in, but is no higher than what a step leads to:")
        } else {
            None
        }
    }

    fn face_out(&self, state: usize) -> Option<usize> {
        let base = self.graph.base_of(state);
        let faces = self.graph.regions.faces[self.graph.region_of(state)].iter();
        let mut faces = faces
            .map(|face| base + face)
            .filter(|&face| self.graph.allowed[face]);
        faces.find(|&face| self.is_in(state) && !self.is_in(face))
    }
}
