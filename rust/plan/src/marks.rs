//! Where a trail goes: the numbers of its steps, by location and by edge.

use crate::tell::story::{Event, Part, Story};
use crate::Plan;

/// What is noted at one location or edge.
#[derive(Clone, Debug, Default, PartialEq, Eq)]
pub struct Mark {
    /// Steps of the trail: waits or jumps.
    pub steps: Vec<usize>,
    /// Steps to a face.
    pub faces: Vec<usize>,
    /// Steps that drift round a loop, and the number of the loop.
    pub drifts: Vec<(Vec<usize>, usize)>,
    /// The numbers of the loops that lead along here.
    pub loops: Vec<usize>,
}

impl Mark {
    pub fn on_trail(&self) -> bool {
        !self.steps.is_empty()
    }

    pub fn on_loop(&self) -> bool {
        !self.loops.is_empty()
    }
}

#[derive(Clone, Debug, PartialEq, Eq)]
pub struct Marks {
    pub locations: Vec<Mark>,
    pub edges: Vec<Mark>,
}

/// The marks of a trail; without parts nothing is marked.
pub fn marks_of(plan: &Plan, story: &Story) -> Marks {
    let mut marks = Marks {
        locations: vec![Mark::default(); plan.locations.len()],
        edges: vec![Mark::default(); plan.edges.len()],
    };
    for part in &story.parts {
        marks.note(part);
    }
    for (number, edges) in story.loops.iter().enumerate() {
        for &edge in edges {
            marks.note_loop(edge, number);
        }
    }
    marks
}

impl Marks {
    fn note(&mut self, part: &Part) {
        let here = &mut self.locations[part.to.location];
        let steps = part.first..=part.last;
        match &part.event {
            Event::Wait => here.steps.extend(steps),
            Event::Face => here.faces.extend(steps),
            Event::Jump(edge) => self.edges[*edge].steps.extend(steps),
            Event::Drift { number, .. } => here.drifts.push((steps.collect(), *number)),
        }
    }

    fn note_loop(&mut self, edge: usize, number: usize) {
        let loops = &mut self.edges[edge].loops;
        if !loops.contains(&number) {
            loops.push(number);
        }
    }
}

/// Ascending numbers, with runs shortened: 1-3, 5.
pub fn numbers_words(numbers: &[usize]) -> String {
    let mut runs: Vec<(usize, usize)> = Vec::new();
    for &number in numbers {
        match runs.last_mut() {
            Some((_, last)) if *last + 1 == number => *last = number,
            _ => runs.push((number, number)),
        }
    }
    let words = runs.iter().map(|(first, last)| match last - first {
        0 => first.to_string(),
        1 => format!("{first}, {last}"),
        _ => format!("{first}-{last}"),
    });
    words.collect::<Vec<String>>().join(", ")
}

#[cfg(test)]
mod tests {
    use super::*;

    #[test]
    fn runs_are_shortened() {
        assert_eq!(numbers_words(&[1, 2, 3, 5, 7, 8]), "1-3, 5, 7, 8");
        assert_eq!(numbers_words(&[]), "");
    }
}
