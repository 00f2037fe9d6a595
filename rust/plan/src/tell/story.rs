//! A trail as people tell it: waits folded, and what goes round a loop told
//! as one thing. The numbers of its steps stay those of the evidence.

use crate::marks::numbers_words;
use crate::tell::edge_name;
use crate::trail::{Kind, State, Step};
use crate::Plan;

#[derive(Clone, Debug, PartialEq, Eq)]
pub struct Story {
    pub parts: Vec<Part>,
    /// The loops that the trail drifts into, each by its edges in order.
    pub loops: Vec<Vec<usize>>,
}

/// One or more steps of a trail.
#[derive(Clone, Debug, PartialEq, Eq)]
pub struct Part {
    /// The numbers of its first and last step, counted from 1.
    pub first: usize,
    pub last: usize,
    pub from: State,
    pub to: State,
    pub event: Event,
}

#[derive(Clone, Debug, PartialEq, Eq)]
pub enum Event {
    Wait,
    /// The edge number.
    Jump(usize),
    /// The clocks count as on a face of their region, a hair away.
    Face,
    /// Round a loop of the story, a hair later each time. The turn is one
    /// walk of it from where the trail goes on.
    Drift {
        number: usize,
        turn: Vec<Part>,
    },
}

impl Part {
    /// How long a wait takes with perfect clocks, at least and at most, in
    /// units. Corners of the two regions that are a wait apart give both: the
    /// waits between them are limited by differences of whole numbers.
    pub fn wait(&self, clocks: usize) -> (u8, u8) {
        let (from, to) = (self.from.region.corners(), self.to.region.corners());
        let pairs = from.iter().flat_map(|a| to.iter().map(move |b| (a, b)));
        let waits = pairs.filter_map(|(a, b)| {
            let wait = b[0].checked_sub(a[0])?;
            (1..clocks)
                .all(|clock| a[clock] + wait == b[clock])
                .then_some(wait)
        });
        waits.fold((u8::MAX, 0), |(least, most), wait| {
            (least.min(wait), most.max(wait))
        })
    }

    /// The numbers of its steps: step 3, steps 4-6.
    pub fn steps_words(&self) -> String {
        let steps: Vec<usize> = (self.first..=self.last).collect();
        let plural = if steps.len() == 1 { "" } else { "s" };
        format!("step{plural} {}", numbers_words(&steps))
    }
}

impl Story {
    pub fn of(steps: &[Step]) -> Story {
        let mut story = Story {
            parts: Vec::new(),
            loops: Vec::new(),
        };
        for (number, step) in (1..).zip(steps) {
            let event = match &step.kind {
                Kind::Time => Event::Wait,
                Kind::Jump(edge) => Event::Jump(*edge),
                Kind::Face => Event::Face,
                Kind::Touch(walk) => story.drift(walk),
            };
            story.push(number, step, event);
        }
        story
    }

    fn drift(&mut self, walk: &[Step]) -> Event {
        let edges = edges_of(walk);
        let known = self.loops.iter().position(|other| same_loop(other, &edges));
        if known.is_none() {
            self.loops.push(edges);
        }
        Event::Drift {
            number: known.unwrap_or(self.loops.len() - 1),
            turn: Story::of(walk).parts,
        }
    }

    /// Adds a step, to the last part if they are told together.
    fn push(&mut self, number: usize, step: &Step, event: Event) {
        let first = match event {
            Event::Drift { number, .. } => self.take_turns(number),
            Event::Wait => self.take_last(|part| part.event == Event::Wait),
            _ => None,
        };
        let (first, from) = first.unwrap_or((number, step.from));
        self.parts.push(Part {
            first,
            last: number,
            from,
            to: step.to,
            event,
        });
    }

    /// Takes the last part away if it is such a one: where it began.
    fn take_last(&mut self, wanted: impl Fn(&Part) -> bool) -> Option<(usize, State)> {
        let part = self.parts.pop_if(|part| wanted(part))?;
        Some((part.first, part.from))
    }

    /// Takes the parts away that go round a loop since the trail drifted into
    /// it, if it did and has stayed on it: where that began.
    fn take_turns(&mut self, number: usize) -> Option<(usize, State)> {
        let edges = &self.loops[number];
        let off = |part: &Part| match part.event {
            Event::Jump(edge) => !edges.contains(&edge),
            Event::Drift { number: other, .. } => other != number,
            Event::Wait | Event::Face => false,
        };
        let on = self.parts.iter().rposition(off).map_or(0, |at| at + 1);
        let is_drift = |part: &Part| matches!(part.event, Event::Drift { .. });
        let began = on + self.parts[on..].iter().position(is_drift)?;
        let part = &self.parts[began];
        let (first, from) = (part.first, part.from);
        self.parts.truncate(began);
        Some((first, from))
    }
}

fn edges_of(walk: &[Step]) -> Vec<usize> {
    let edges = walk.iter().filter_map(|step| match step.kind {
        Kind::Jump(edge) => Some(edge),
        _ => None,
    });
    edges.collect()
}

/// Whether two walks go round the same edges, wherever they begin.
fn same_loop(one: &[usize], other: &[usize]) -> bool {
    let twice = [other, other].concat();
    one.len() == other.len() && twice.windows(one.len()).any(|turn| turn == one)
}

/// Loops are called A, B, C and so on.
pub fn loop_name(number: usize) -> String {
    let letter = char::from(b'A' + (number % 26) as u8);
    match number / 26 {
        0 => format!("loop {letter}"),
        more => format!("loop {letter}{more}"),
    }
}

/// The way round a loop: by refresh to 'shown', by poll to 'waiting'.
pub fn loop_words(plan: &Plan, edges: &[usize]) -> String {
    let jumps = edges.iter().map(|&edge| {
        let to = plan.quoted(plan.edges[edge].to);
        format!("by {} to {to}", edge_name(plan, edge))
    });
    jumps.collect::<Vec<String>>().join(", ")
}

#[cfg(test)]
mod tests {
    use super::*;
    use second::regions::Region;

    fn state(location: usize, whole: [u8; 3], rank: [u8; 3]) -> State {
        let region = Region { whole, rank };
        State { location, region }
    }

    fn step(kind: Kind, from: State, to: State) -> Step {
        Step { kind, from, to }
    }

    /// A touch whose walk, for what is told of it, is edges alone.
    fn touch(at: State, edges: &[usize]) -> Step {
        let jumps = edges.iter().map(|&edge| step(Kind::Jump(edge), at, at));
        step(Kind::Touch(jumps.collect()), at, at)
    }

    fn events(steps: &[Step]) -> Vec<(usize, usize, String)> {
        let word = |event: &Event| match event {
            Event::Wait => "wait".to_string(),
            Event::Jump(edge) => format!("jump {edge}"),
            Event::Face => "face".to_string(),
            Event::Drift { number, .. } => loop_name(*number),
        };
        let parts = Story::of(steps).parts;
        let told = parts.iter();
        told.map(|part| (part.first, part.last, word(&part.event)))
            .collect()
    }

    fn told(first: usize, last: usize, word: &str) -> (usize, usize, String) {
        (first, last, word.to_string())
    }

    #[test]
    fn what_goes_round_a_loop_is_one_part() {
        let at = state(0, [0; 3], [0; 3]);
        let wait = || step(Kind::Time, at, at);
        let jump = |edge| step(Kind::Jump(edge), at, at);
        let face = || step(Kind::Face, at, at);
        let steps = [wait(), wait(), jump(1), touch(at, &[1, 2]), face()];
        let on_loop = [wait(), jump(2), touch(at, &[2, 1]), wait(), jump(0)];
        let other = [touch(at, &[1, 2]), touch(at, &[1])];
        let all = [&steps[..], &on_loop, &other].concat();
        let whole = [
            told(1, 2, "wait"),
            told(3, 3, "jump 1"),
            told(4, 8, "loop A"),
            told(9, 9, "wait"),
            told(10, 10, "jump 0"),
            told(11, 11, "loop A"),
            told(12, 12, "loop B"),
        ];
        assert_eq!(events(&all), whole);
        assert_eq!(Story::of(&all).loops, [vec![1, 2], vec![1]]);
    }

    #[test]
    fn waits_in_units() {
        let wait = |from: State, to: State, clocks| {
            let steps = [step(Kind::Time, from, to)];
            Story::of(&steps).parts[0].wait(clocks)
        };
        let start = state(0, [0; 3], [0; 3]);
        assert_eq!(wait(start, state(0, [2, 2, 0], [0; 3]), 2), (2, 2));
        assert_eq!(wait(start, state(0, [2, 2, 0], [1, 1, 0]), 2), (2, 3));
        // From 0 < x < y < 1 until y is 2: at least 1, less than 2 units.
        let from = state(0, [0; 3], [1, 2, 0]);
        assert_eq!(wait(from, state(0, [1, 2, 0], [1, 0, 0]), 2), (1, 2));
    }

    #[test]
    fn loops_have_letters() {
        let names = [0, 25, 26].map(loop_name);
        assert_eq!(names, ["loop A", "loop Z", "loop A1"]);
    }
}
