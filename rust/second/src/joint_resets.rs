//! Generated models with a joint reset, in which each closed walk that counts has an
//! edge that resets every clock (request (g) of document 02), and models that lack
//! one, mostly on a single walk whose edges reset every clock between them.

use crate::calls::{evidence_of, joint_evidence_of};
use crate::dead_links::with_every_edge_open;
use crate::draft::{loop_draft, pick_shape, random_mark, Draft, Shape};
use crate::generate::{classify, drawing, Class, MIDDLE, SMALL, TRIES};
use crate::graph::Graph;
use crate::limits::{MAX_CLOCKS, MAX_EDGES, MAX_STATES};
use crate::model::{read_model, Model};
use crate::random::Random;
use crate::slow;

/// The most links of a ring that is added.
const LONGEST: usize = 3;

/// Whether a closed walk would lack a joint reset if every edge could open.
pub fn lacks_by_all_edges(model: &Model) -> bool {
    with_every_edge_open(model).lacks_a_joint_reset()
}

/// Whether our trail of an unsafe model with a joint reset is not the one that may
/// touch: that one has a touch, and mostly fewer steps.
pub fn has_another_trail(model: &Model) -> bool {
    let graph = Graph::new(model.clone());
    evidence_of(&graph).1 != joint_evidence_of(&graph).1
}

/// What a model with a joint reset is drawn for.
#[derive(Clone, Copy, PartialEq, Eq)]
enum Aim {
    Safe,
    Unsafe,
    /// Unsafe, with a touch in the trail that may have one.
    OtherTrail,
}

impl Aim {
    fn is_met_by(self, model: &Model) -> bool {
        match self {
            Aim::Safe => classify(model) == Class::Safe,
            Aim::Unsafe => classify(model) != Class::Safe,
            Aim::OtherTrail => has_another_trail(model),
        }
    }
}

/// Safe, or unsafe with perfect clocks. Some have no closed walk, and some one that
/// only dead edges keep from counting.
pub fn joint_model(random: &mut Random) -> Draft {
    let aim = *random.pick(&[Aim::Safe, Aim::Unsafe, Aim::OtherTrail]);
    let size = Size::draw(random);
    for _ in 0..TRIES {
        let shape = size.shape(random, |_| true);
        let draft = joint_draft(random, &shape);
        if aim.is_met_by(&draft.model()) {
            return draft;
        }
    }
    sure_joint(random, size, aim)
}

/// Accepted models of every class that lack a joint reset.
pub fn disjoint_model(random: &mut Random) -> Draft {
    let class = *random.pick(&[Class::Safe, Class::Drift, Class::Plain]);
    let size = Size::draw(random);
    for attempt in 0..TRIES {
        let draft = if class == Class::Drift {
            let shape = size.shape(random, Shape::has_room_for_drift);
            drawing(random, &shape, class, attempt < TRIES / 2)
        } else {
            let shape = size.shape(random, has_room_to_lack);
            nearly_joint(random, &shape)
        };
        let fits = |model: Model| model.lacks_a_joint_reset() && classify(&model) == class;
        if read_model(&draft.bytes()).is_ok_and(fits) {
            return draft;
        }
    }
    sure_disjoint(random, size, class)
}

/// A closed walk of one edge has a joint reset in an accepted model, and so has each
/// one with a single clock.
fn has_room_to_lack(shape: &Shape) -> bool {
    shape.clocks > 1 && shape.locations > 1
}

/// A touch saves a step to where one waits for two units.
fn has_room_to_wait(shape: &Shape) -> bool {
    shape.ceiling > 1 && shape.locations > 1
}

/// Mostly small enough for the brute-force route.
#[derive(Clone, Copy)]
enum Size {
    Small,
    Middle,
    Largest,
}

impl Size {
    fn draw(random: &mut Random) -> Size {
        match random.below(60) {
            0 => Size::Largest,
            1..=9 => Size::Middle,
            _ => Size::Small,
        }
    }

    /// Of any number of clocks that there is with this size.
    fn shape(self, random: &mut Random, has_room: fn(&Shape) -> bool) -> Shape {
        let (least, most) = match self {
            Size::Small => (1, SMALL),
            Size::Middle => (SMALL + 1, MIDDLE),
            Size::Largest => (MAX_STATES, MAX_STATES),
        };
        let fits = |shape: &Shape| (least..=most).contains(&shape.states()) && has_room(shape);
        let clocks = random.range(1, MAX_CLOCKS);
        pick_shape(random, |shape| shape.clocks == clocks && fits(shape))
            .or_else(|| pick_shape(random, fits))
            .expect("a size that there is")
    }
}

/// A drawing of any family in which each closed walk that counts has a joint reset.
fn joint_draft(random: &mut Random, shape: &Shape) -> Draft {
    let mut draft = match random.below(4) {
        0 | 1 => poll_draft(random, shape),
        2 if slow::has_room(shape) => slow::slow_draft(random, shape),
        _ => drawing(random, shape, Class::Plain, true),
    };
    if random.one_in(8) {
        draft.keep_ways_on(random);
    }
    if shape.locations > 1 && random.one_in(4) {
        let first = draft.add_shared_ring(random);
        let link = random.range(first, draft.edges.len() - 1);
        draft.shut(random, link);
        random.shuffle(&mut draft.edges);
    }
    draft.make_joint(random);
    draft
}

/// A round of locations that the poll edge begins anew when a clock is at its period,
/// and mostly a forbidden location that one has to wait for.
fn poll_draft(random: &mut Random, shape: &Shape) -> Draft {
    let mut draft = Draft::new(shape);
    draft.mark = random_mark(random);
    let mut places: Vec<usize> = (0..shape.locations).collect();
    random.shuffle(&mut places);
    let spare = places.split_off(random.range(1, shape.locations.min(4)));
    draft.start = places[0];
    if random.one_in(3) {
        draft.start = random.below(shape.locations);
    }
    for at in 1..places.len() {
        let mask = random.below(1 << shape.clocks) as u32;
        let edge = draft.open_edge(places[at - 1], places[at], mask);
        draft.edges.push(edge);
    }
    let last = places[places.len() - 1];
    draft.add_way_at(random, last, places[0], draft.all_clocks());
    for &goal in spare.iter().take(2) {
        draft.kinds[goal] = u32::from(!random.one_in(4));
        let at = random.below(places.len());
        if at > 0 && !random.one_in(4) {
            draft.add_way_on(random, at - 1, goal);
        } else {
            let mask = random.below(1 << shape.clocks) as u32;
            draft.add_way_at(random, places[at], goal, mask);
        }
    }
    let count = random.below(4);
    draft.add_random_edges(random, count);
    let narrow = random.one_in(3);
    draft.vary_stays(random, narrow);
    random.shuffle(&mut draft.edges);
    draft
}

/// A drawing with joint resets that one change takes them from, or any other.
fn nearly_joint(random: &mut Random, shape: &Shape) -> Draft {
    let mut draft = joint_draft(random, shape);
    match random.below(5) {
        0 => {
            draft.add_shared_ring(random);
        }
        1 => draft.add_link_beside(random),
        2 | 3 => draft.take_out_clocks(random),
        _ => return drawing(random, shape, Class::Plain, true),
    }
    random.shuffle(&mut draft.edges);
    draft
}

/// Where one waits for the ceiling, or a start without edges.
fn sure_joint(random: &mut Random, size: Size, aim: Aim) -> Draft {
    let mut draft = Draft::new(&size.shape(random, has_room_to_wait));
    draft.mark = random_mark(random);
    match aim {
        Aim::Safe => {}
        Aim::Unsafe => draft.kinds[0] = 1,
        Aim::OtherTrail => {
            draft.kinds[1] = 1;
            for to in [0, 1] {
                let mut edge = draft.open_edge(0, to, draft.all_clocks());
                edge.guard[0].0 = draft.ceiling;
                draft.edges.push(edge);
            }
        }
    }
    draft
}

/// A ring by itself, without guards, or the loop that only drift can leave.
fn sure_disjoint(random: &mut Random, size: Size, class: Class) -> Draft {
    if class == Class::Drift {
        let shape = size.shape(random, Shape::has_room_for_drift);
        return loop_draft(random, &shape, class, false);
    }
    let mut draft = Draft::new(&size.shape(random, has_room_to_lack));
    draft.mark = random_mark(random);
    draft.kinds[0] = u32::from(class == Class::Plain);
    draft.add_shared_ring(random);
    let bounds = (0, draft.ceiling);
    let edges = draft.edges.iter_mut();
    edges.for_each(|edge| edge.guard.fill(bounds));
    draft
}

impl Draft {
    /// Leaves out the edges that do not lead on in some order of the locations, so
    /// that no walk closes.
    fn keep_ways_on(&mut self, random: &mut Random) {
        let mut rank: Vec<usize> = (0..self.kinds.len()).collect();
        random.shuffle(&mut rank);
        self.edges.retain(|edge| rank[edge.from] < rank[edge.to]);
    }

    /// Resets all clocks on no more edges than it takes: at first all do, then they
    /// get back their own masks one by one, unless a walk would lack a joint reset.
    fn make_joint(&mut self, random: &mut Random) {
        let all = self.all_clocks();
        let mut edges: Vec<usize> = (0..self.edges.len()).collect();
        random.shuffle(&mut edges);
        let own: Vec<u32> = self.edges.iter().map(|edge| edge.mask).collect();
        self.edges.iter_mut().for_each(|edge| edge.mask = all);
        for edge in edges {
            self.edges[edge].mask = own[edge];
            if self.model().lacks_a_joint_reset() {
                self.edges[edge].mask = all;
            }
        }
    }

    /// Draws masks anew that lack a clock, edge by edge and as long as each walk
    /// resets each clock, until one lacks a joint reset.
    fn take_out_clocks(&mut self, random: &mut Random) {
        let mut edges: Vec<usize> = (0..self.edges.len()).collect();
        random.shuffle(&mut edges);
        for edge in edges.repeat(3) {
            let some = random.below(self.all_clocks() as usize) as u32;
            let before = std::mem::replace(&mut self.edges[edge].mask, some);
            let model = self.model();
            if model.leaves_a_clock_unreset() {
                self.edges[edge].mask = before;
            } else if model.lacks_a_joint_reset() {
                return;
            }
        }
    }

    /// Adds a link beside one that resets all clocks, which resets fewer.
    fn add_link_beside(&mut self, random: &mut Random) {
        self.edges.truncate(MAX_EDGES - 1);
        let all = self.all_clocks();
        let mut joint = self.edges.clone();
        joint.retain(|edge| edge.mask == all);
        if !joint.is_empty() {
            let mut beside = random.pick(&joint).clone();
            beside.mask = random.below(all as usize) as u32;
            self.edges.push(beside);
        }
    }

    /// Adds an edge that opens when a clock is at some value above 0, more often a
    /// great one.
    fn add_way_at(&mut self, random: &mut Random, from: usize, to: usize, mask: u32) {
        let clock = random.below(self.clocks);
        let least = random.range(1, self.ceiling as usize);
        let value = random.range(least, self.ceiling as usize) as u32;
        let mut edge = self.open_edge(from, to, mask);
        edge.guard[clock] = (value, *random.pick(&[value, self.ceiling]));
        self.edges.push(edge);
    }

    /// Adds an edge that opens when one has just entered by another, with all clocks
    /// at 1 before.
    fn add_way_on(&mut self, random: &mut Random, entry: usize, to: usize) {
        let mask = random.below(1 << self.clocks) as u32;
        let (from, reset) = (self.edges[entry].to, self.edges[entry].mask);
        let mut edge = self.open_edge(from, to, mask);
        for (clock, bounds) in edge.guard.iter_mut().enumerate() {
            let value = u32::from(reset >> clock & 1 == 0);
            *bounds = (value, value);
        }
        self.edges.push(edge);
    }

    /// Adds links from location to location and back, with lows within the limits so
    /// far, that reset every clock between them, and none alone. Gives the number of
    /// the first.
    fn add_shared_ring(&mut self, random: &mut Random) -> usize {
        self.edges.truncate(MAX_EDGES - LONGEST);
        let mut places: Vec<usize> = (0..self.kinds.len()).collect();
        random.shuffle(&mut places);
        places.truncate(random.range(2, LONGEST));
        let masks = self.shared_masks(random, places.len());
        let first = self.edges.len();
        for (at, mask) in masks.into_iter().enumerate() {
            self.push_link(random, places[at], places[(at + 1) % places.len()], mask);
        }
        first
    }

    /// Masks for two links or more: the first two get a clock each, so that no link
    /// gets all of them. A single clock cannot be shared and is left.
    fn shared_masks(&self, random: &mut Random, links: usize) -> Vec<u32> {
        let mut masks = vec![0; links];
        if self.clocks == 1 {
            return masks;
        }
        let mut clocks: Vec<usize> = (0..self.clocks).collect();
        random.shuffle(&mut clocks);
        for (at, clock) in clocks.into_iter().enumerate() {
            let link = if at < 2 { at } else { random.below(links) };
            masks[link] |= 1 << clock;
        }
        random.shuffle(&mut masks);
        masks
    }
}
