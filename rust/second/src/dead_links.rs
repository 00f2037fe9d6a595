//! Generated models with links that nobody can walk: edges whose low is above a
//! limit, so that closed walks through them do not count (request (f) of document
//! 02), beside links whose low is just at a limit or whose reset opens them.

use crate::draft::{pick_shape, Draft, Shape};
use crate::generate::{classify, drawing, Class, MIDDLE, SMALL, TRIES};
use crate::limits::{MAX_CLOCKS, MAX_EDGES};
use crate::model::{read_model, Model, EDGES_MARK};
use crate::random::Random;

/// Where the low of a test link stands, for one of its clocks: above the limit of
/// the location that it leaves; of the one that it enters, which the stay field
/// spells out or leaves blank; above that too, but the clock is reset; at the
/// lesser of both limits.
#[derive(Clone, Copy, PartialEq, Eq)]
enum Test {
    AboveFrom,
    AboveTo,
    AboveBlank,
    AboveReset,
    AtLimit,
}

/// With these it never opens; by the others alone it is not shut.
const DEAD: [Test; 3] = [Test::AboveFrom, Test::AboveTo, Test::AboveBlank];
const LIVE: [Test; 2] = [Test::AboveReset, Test::AtLimit];
const ALL: [Test; 5] = [
    Test::AboveFrom,
    Test::AboveTo,
    Test::AboveBlank,
    Test::AboveReset,
    Test::AtLimit,
];

/// The most edges of a walk with a test link. Two walks are added at most, and
/// two links that stand alone.
const LONGEST: usize = 3;
const ROOM: usize = 2 * LONGEST + 2;

/// Whether a closed walk of any edges leaves a clock unreset: the test that
/// document 01 makes without request (f).
pub fn is_refused_by_all_edges(model: &Model) -> bool {
    with_every_edge_open(model).leaves_a_clock_unreset()
}

/// The model with limits at the ceiling, where each edge can open.
pub fn with_every_edge_open(model: &Model) -> Model {
    let mut open = model.clone();
    for location in &mut open.locations {
        location.limit[..open.clocks].fill(open.ceiling);
    }
    open
}

/// Whether some edge cannot open.
pub fn has_dead_edge(model: &Model) -> bool {
    !model.edges.iter().all(|edge| model.can_open(edge))
}

/// One in six is refused by 7. The others are of every class, have an edge that
/// cannot open, and mostly a closed walk that such an edge keeps from counting.
pub fn dead_links_model(random: &mut Random) -> Draft {
    let class = *random.pick(&[Class::Safe, Class::Drift, Class::Plain]);
    let refused = random.one_in(6);
    for attempt in 0..TRIES {
        let shape = shape_for(random, class);
        let mut draft = drawing(random, &shape, class, attempt < TRIES / 2);
        draft.add_test_links(random, refused);
        let fits = match read_model(&draft.bytes()) {
            Ok(model) => !refused && has_dead_edge(&model) && classify(&model) == class,
            Err(_) => refused,
        };
        if fits {
            return draft;
        }
    }
    sure_dead_link(random, class, refused)
}

/// Mostly small enough for the brute-force route.
fn shape_for(random: &mut Random, class: Class) -> Shape {
    let most = if random.one_in(5) { MIDDLE } else { SMALL };
    let clocks = random.range(1 + usize::from(class == Class::Drift), MAX_CLOCKS);
    let fits = |shape: &Shape| {
        let roomy = class != Class::Drift || shape.has_room_for_drift();
        shape.clocks == clocks && shape.states() <= most && roomy
    };
    pick_shape(random, fits).expect("a size that there is")
}

/// A loop at the start that is shut there, or open.
fn sure_dead_link(random: &mut Random, class: Class, refused: bool) -> Draft {
    let mut draft = Draft::new(&shape_for(random, class));
    draft.kinds[0] = u32::from(class != Class::Safe);
    draft.stays[0][0] = 1;
    let mut link = draft.open_edge(0, 0, 0);
    link.guard[0].0 = u32::from(!refused);
    draft.edges.push(link);
    draft
}

impl Draft {
    /// Adds closed walks that keep a clock: dead ones, mostly one or two of them,
    /// or a live one and mostly a dead one; then links that close no such walk.
    fn add_test_links(&mut self, random: &mut Random, refused: bool) {
        self.edges.truncate(MAX_EDGES - ROOM);
        let mut tests = Vec::new();
        if refused {
            tests.push(*random.pick(&LIVE));
        }
        if !random.one_in(5) {
            tests.push(*random.pick(&DEAD));
        }
        if !refused && random.one_in(2) {
            tests.push(*random.pick(&DEAD));
        }
        for test in tests {
            self.add_tested_walk(random, test);
        }
        for _ in 0..random.below(3) {
            let test = *random.pick(&ALL);
            self.add_loose_link(random, test, refused);
        }
        random.shuffle(&mut self.edges);
    }

    /// Adds links from location to location and back that keep one clock, their
    /// lows within the limits but for the one that is put to the test.
    fn add_tested_walk(&mut self, random: &mut Random, test: Test) {
        let mut places: Vec<usize> = (0..self.kinds.len()).collect();
        random.shuffle(&mut places);
        // Only a way out of another location closes before this one opens.
        let least = if test == Test::AboveBlank { 2 } else { 1 };
        places.truncate(random.range(least, LONGEST));
        let kept = random.below(self.clocks);
        let tested = self.edges.len() + random.below(places.len());
        for at in 0..places.len() {
            let mask = random.below(1 << self.clocks) as u32 & !(1 << kept);
            self.push_link(random, places[at], places[(at + 1) % places.len()], mask);
        }
        self.put_to_test(random, tested, test);
    }

    /// Adds a link by itself. One that would bring about 7 resets all clocks
    /// instead.
    fn add_loose_link(&mut self, random: &mut Random, test: Test, refused: bool) {
        let locations = self.kinds.len();
        let (from, to) = (random.below(locations), random.below(locations));
        let mask = random.below(1 << self.clocks) as u32;
        self.push_link(random, from, to, mask);
        let tested = self.edges.len() - 1;
        self.put_to_test(random, tested, test);
        if !refused && self.model().leaves_a_clock_unreset() {
            self.edges[tested].mask = self.all_clocks();
        }
    }

    /// An edge whose lows are within the limits of both locations.
    pub fn push_link(&mut self, random: &mut Random, from: usize, to: usize, mask: u32) {
        let mut link = self.open_edge(from, to, mask);
        let limits = self.model().locations;
        for (clock, (low, high)) in link.guard.iter_mut().enumerate() {
            let most = limits[from].limit[clock].min(limits[to].limit[clock]);
            if random.one_in(2) {
                *low = random.range(0, most.into()) as u32;
                *high = random.range(*low as usize, self.ceiling as usize) as u32;
            }
        }
        self.edges.push(link);
    }

    /// Makes a link of a walk of two or more one that cannot open.
    pub fn shut(&mut self, random: &mut Random, link: usize) {
        let test = *random.pick(&DEAD);
        self.put_to_test(random, link, test);
    }

    /// Draws the clock of a test, narrows a limit for it, and sets the low.
    fn put_to_test(&mut self, random: &mut Random, link: usize, test: Test) {
        let clock = random.below(self.clocks);
        let (from, to) = (self.edges[link].from, self.edges[link].to);
        let limit = match test {
            Test::AboveFrom => self.spelt_below_ceiling(random, from, clock),
            Test::AboveBlank if self.mark == EDGES_MARK && from != to => {
                self.closed_below_ceiling(random, to, clock)
            }
            Test::AboveTo | Test::AboveBlank | Test::AboveReset => {
                self.spelt_below_ceiling(random, to, clock)
            }
            Test::AtLimit => self.lesser_limit(random, from, to, clock),
        };
        let ceiling = self.ceiling as usize;
        let edge = &mut self.edges[link];
        let low = match test {
            Test::AtLimit => limit as usize,
            _ => random.range(limit as usize + 1, ceiling),
        };
        edge.guard[clock] = (low as u32, random.range(low, ceiling) as u32);
        match test {
            Test::AboveTo | Test::AboveBlank => edge.mask &= !(1 << clock),
            Test::AboveReset => edge.mask |= 1 << clock,
            Test::AboveFrom | Test::AtLimit => {}
        }
    }

    /// The limit of a location that its stay field spells out; drawn if it is
    /// the ceiling or the field is blank.
    fn spelt_below_ceiling(&mut self, random: &mut Random, at: usize, clock: usize) -> u32 {
        let ceiling = self.ceiling;
        let stay = &mut self.stays[at][clock];
        if *stay == 0 || *stay > ceiling {
            *stay = random.range(1, ceiling as usize) as u32;
        }
        *stay - 1
    }

    /// At least the limit that a blank stay field means with mark 2, below the
    /// ceiling since every way out is closed by then.
    fn closed_below_ceiling(&mut self, random: &mut Random, at: usize, clock: usize) -> u32 {
        let last = random.below(self.ceiling as usize) as u32;
        self.stays[at][clock] = 0;
        for edge in self.edges.iter_mut().filter(|edge| edge.from == at) {
            let (low, high) = &mut edge.guard[clock];
            *high = last.min(*high);
            *low = (*low).min(*high);
        }
        last
    }

    /// The lesser of two locations' limits, one of them below the ceiling.
    fn lesser_limit(&mut self, random: &mut Random, from: usize, to: usize, clock: usize) -> u32 {
        let narrow = *random.pick(&[from, to]);
        self.spelt_below_ceiling(random, narrow, clock);
        let limits = self.model().locations;
        let lesser = [from, to]
            .map(|at| limits[at].limit[clock])
            .into_iter()
            .min();
        lesser.map_or(0, u32::from)
    }
}
