//! Models before they become bytes: sizes, random drawings, and variations of
//! a loop that only drift can leave.

use crate::dead_links::is_refused_by_all_edges;
use crate::generate::Class;
use crate::limits::{MAX_CEILING, MAX_CLOCKS, MAX_EDGES, MAX_LOCATIONS, NUMBER_BYTES};
use crate::model::{Model, CEILING_MARK, EDGES_MARK};
use crate::numbers::{push_padded, shortest};
use crate::random::Random;
use crate::regions::Regions;

/// The size of a model.
#[derive(Clone, Copy, Debug, PartialEq, Eq)]
pub struct Shape {
    pub clocks: usize,
    pub ceiling: u32,
    pub locations: usize,
}

impl Shape {
    pub fn states(&self) -> usize {
        self.locations * Regions::of(self.clocks, self.ceiling as u8).count()
    }

    /// Room for a loop that only drift can leave: two clocks to play against
    /// each other, the two locations of the loop, and one to reach.
    pub fn has_room_for_drift(&self) -> bool {
        self.clocks >= 2 && self.locations >= 3
    }
}

/// All sizes that there are.
pub fn all_shapes() -> Vec<Shape> {
    let mut shapes = Vec::new();
    for clocks in 1..=MAX_CLOCKS {
        for ceiling in 1..=MAX_CEILING.into() {
            for locations in 1..=MAX_LOCATIONS {
                shapes.push(Shape {
                    clocks,
                    ceiling,
                    locations,
                });
            }
        }
    }
    shapes
}

/// One of the sizes that are wanted, if there is one.
pub fn pick_shape(random: &mut Random, wanted: impl Fn(&Shape) -> bool) -> Option<Shape> {
    let mut shapes = all_shapes();
    shapes.retain(wanted);
    (!shapes.is_empty()).then(|| *random.pick(&shapes))
}

/// A model before it becomes bytes, in the numbers that stand in the bytes.
#[derive(Clone, Debug)]
pub struct Draft {
    pub mark: u32,
    pub clocks: usize,
    pub ceiling: u32,
    pub start: usize,
    pub kinds: Vec<u32>,
    pub stays: Vec<Vec<u32>>,
    pub edges: Vec<DraftEdge>,
}

#[derive(Clone, Debug)]
pub struct DraftEdge {
    pub from: usize,
    pub to: usize,
    pub mask: u32,
    pub guard: Vec<(u32, u32)>,
}

impl Draft {
    /// One of mark 1 with ordinary locations, blank stay fields and no edges.
    pub fn new(shape: &Shape) -> Draft {
        Draft {
            mark: CEILING_MARK,
            clocks: shape.clocks,
            ceiling: shape.ceiling,
            start: 0,
            kinds: vec![0; shape.locations],
            stays: vec![vec![0; shape.clocks]; shape.locations],
            edges: Vec::new(),
        }
    }

    pub fn numbers(&self) -> Vec<u32> {
        let header = [
            self.mark,
            self.clocks as u32,
            self.ceiling,
            self.kinds.len() as u32,
            self.edges.len() as u32,
        ];
        let mut numbers = header.to_vec();
        numbers.push(self.start as u32);
        for (kind, stays) in self.kinds.iter().zip(&self.stays) {
            numbers.push(*kind);
            numbers.extend(stays);
        }
        for edge in &self.edges {
            numbers.extend([edge.from as u32, edge.to as u32, edge.mask]);
            numbers.extend(edge.guard.iter().flat_map(|&(low, high)| [low, high]));
        }
        numbers
    }

    pub fn bytes(&self) -> Vec<u8> {
        shortest(&self.numbers())
    }

    /// The model with the limits that the stay fields mean, refused by 7 or not.
    pub fn model(&self) -> Model {
        let mut numbers = self.numbers().into_iter();
        let read = Model::from_fields(&mut |_, _| numbers.next().ok_or(()));
        read.expect("a number for each field")
    }

    pub fn all_clocks(&self) -> u32 {
        (1 << self.clocks) - 1
    }

    /// An edge without guard.
    pub fn open_edge(&self, from: usize, to: usize, mask: u32) -> DraftEdge {
        DraftEdge {
            from,
            to,
            mask,
            guard: vec![(0, self.ceiling); self.clocks],
        }
    }

    /// Adds random edges, as far as the limit allows.
    pub fn add_random_edges(&mut self, random: &mut Random, count: usize) {
        let locations = self.kinds.len();
        for _ in 0..count {
            let mask = random.below(1 << self.clocks) as u32;
            let mut edge = self.open_edge(random.below(locations), random.below(locations), mask);
            for bounds in &mut edge.guard {
                if random.one_in(2) {
                    let low = random.range(0, self.ceiling as usize);
                    *bounds = (low as u32, random.range(low, self.ceiling as usize) as u32);
                }
            }
            self.add_edge(edge);
        }
    }

    /// Adds an edge, as far as the limit allows. One that would close a walk
    /// with a clock unreset resets all clocks instead, even if the walk does not
    /// count: stay fields may be drawn afterwards.
    pub fn add_edge(&mut self, edge: DraftEdge) {
        if self.edges.len() == MAX_EDGES {
            return;
        }
        self.edges.push(edge);
        if is_refused_by_all_edges(&self.model()) {
            self.edges.last_mut().expect("just added").mask = self.all_clocks();
        }
    }

    /// Per location and clock, the stay field that spells out what a blank one
    /// means.
    pub fn spelt_out_blanks(&self) -> Vec<Vec<u32>> {
        let mut blank = self.clone();
        blank.stays.iter_mut().flatten().for_each(|stay| *stay = 0);
        let model = blank.model();
        let fields = |limit: &[u8]| limit.iter().map(|&limit| u32::from(limit) + 1).collect();
        let limits = model.locations.iter().map(|location| &location.limit);
        limits.map(|limit| fields(&limit[..self.clocks])).collect()
    }

    /// Spells out some invariants, as the ceiling or as what a blank field
    /// means; narrows some if asked to.
    pub fn vary_stays(&mut self, random: &mut Random, narrow: bool) {
        let blanks = self.spelt_out_blanks().concat();
        for (stay, blank) in self.stays.iter_mut().flatten().zip(blanks) {
            if random.one_in(4) {
                *stay = *random.pick(&[self.ceiling + 1, blank]);
            }
            if narrow && random.one_in(6) {
                *stay = random.range(0, self.ceiling as usize + 1) as u32;
            }
        }
    }
}

pub fn random_mark(random: &mut Random) -> u32 {
    *random.pick(&[CEILING_MARK, EDGES_MARK])
}

/// Spellings of random lengths, with one padded number at least.
pub fn padded(random: &mut Random, numbers: &[u32]) -> Vec<u8> {
    let mut bytes = Vec::new();
    let sure = random.below(numbers.len());
    for (index, &number) in numbers.iter().enumerate() {
        let length = if index == sure {
            random.range(2, NUMBER_BYTES)
        } else {
            random.range(1, NUMBER_BYTES)
        };
        push_padded(&mut bytes, number, length);
    }
    bytes
}

/// A variation of the loop that only drift can leave. Between its two
/// locations one clock is reset on the way there, another on the way back,
/// and both must stay within one period; perfect clocks keep their distance,
/// drifting clocks lose it little by little. With `noise`, edges and
/// invariants are added that may spoil this.
pub fn loop_draft(random: &mut Random, shape: &Shape, class: Class, noise: bool) -> Draft {
    let mut draft = Draft::new(shape);
    draft.mark = random_mark(random);
    let ceiling = shape.ceiling;
    let mut places: Vec<usize> = (0..shape.locations).collect();
    random.shuffle(&mut places);
    let mut clocks: Vec<usize> = (0..shape.clocks).collect();
    random.shuffle(&mut clocks);
    let (one, other) = (clocks[0], clocks[1]);
    let (there, back, goal) = (places[0], places[1], places[2]);
    let mut spare = places.split_off(3);
    let period = random.range(1, ceiling as usize) as u32;

    // A third clock is reset on one way at least.
    let third = clocks.get(2).map_or(0, |clock| 1u32 << clock);
    let resets = random.range(1, 3) as u32;
    let third_there = third * (resets & 1);
    let third_back = third * (resets >> 1);

    let mut go = draft.open_edge(there, back, 1 << one | third_there);
    go.guard[one].1 = period;
    let mut come = draft.open_edge(back, there, 1 << other | third_back);
    come.guard[other] = (
        period,
        random.range(period as usize, ceiling as usize) as u32,
    );
    let mut leave = draft.open_edge(back, goal, random.below(1 << shape.clocks) as u32);
    leave.guard[other].0 = period;
    leave.guard[one].1 = if class == Class::Plain {
        random.range(0, period as usize) as u32
    } else {
        0
    };
    draft.kinds[goal] = u32::from(class != Class::Safe || random.one_in(4));

    draft.start = back;
    if random.one_in(2) {
        if let Some(entry) = spare.pop() {
            // Enter the loop with the distance k between the clocks.
            let k = random.range(1, period as usize) as u32;
            let mut enter = draft.open_edge(entry, there, 1 << other);
            enter.guard[one] = (k, k);
            enter.guard[other] = (k, k);
            draft.edges.push(enter);
            draft.start = entry;
        }
    }
    if random.one_in(2) {
        if let Some(middle) = spare.pop() {
            // A longer way to the goal.
            draft
                .edges
                .push(draft.open_edge(middle, goal, random.below(1 << shape.clocks) as u32));
            leave.to = middle;
        }
    }
    draft.edges.extend([go, come, leave]);
    if class == Class::Safe && !spare.is_empty() {
        draft.kinds[*random.pick(&spare)] = 1;
    }
    if noise {
        // Mostly a few edges, sometimes many.
        let most = if random.one_in(3) { 20 } else { 4 };
        let count = random.below(most);
        draft.add_random_edges(random, count);
    }
    draft.vary_stays(random, noise);
    random.shuffle(&mut draft.edges);
    draft
}

/// A random drawing in which each closed walk resets each clock.
pub fn random_draft(random: &mut Random, shape: &Shape) -> Draft {
    let mut draft = Draft::new(shape);
    draft.mark = random_mark(random);
    draft.start = random.below(shape.locations);
    for place in 0..shape.locations {
        let rarely = if place == draft.start { 16 } else { 4 };
        draft.kinds[place] = u32::from(random.one_in(rarely));
    }
    let count = random.range(0, (3 * shape.locations).min(MAX_EDGES));
    draft.add_random_edges(random, count);
    draft.vary_stays(random, true);
    draft
}
