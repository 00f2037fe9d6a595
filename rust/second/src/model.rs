//! Models: reading the bytes (refusals 1 to 6), the limits that blank stay
//! fields mean (mark 2 is request (c) of document 02), and the test that each
//! closed walk of edges that can open resets each clock (refusal 7; which edges
//! can is request (f)) or has one that resets every clock (refusal 17, request
//! (g), which some calls alone give).

use crate::limits::{MAX_CEILING, MAX_CLOCKS, MAX_EDGES, MAX_LOCATIONS};
use crate::numbers::Reader;
use crate::refusal::*;
use std::ops::RangeInclusive;

/// The mark of a plan, its first number, tells what a stay field of 0 means:
/// with this one the ceiling.
pub const CEILING_MARK: u32 = 1;
/// With this one the greatest high of the edges that leave the location.
pub const EDGES_MARK: u32 = 2;

#[derive(Clone, Debug, PartialEq, Eq)]
pub struct Location {
    pub forbidden: bool,
    /// Per clock the limit of the invariant ("stay limit"), at most the ceiling.
    pub limit: [u8; MAX_CLOCKS],
}

#[derive(Clone, Debug, PartialEq, Eq)]
pub struct Edge {
    pub from: usize,
    pub to: usize,
    /// Bit i resets clock i.
    pub resets: u8,
    /// The guard: low <= clock <= high.
    pub low: [u8; MAX_CLOCKS],
    pub high: [u8; MAX_CLOCKS],
}

impl Edge {
    pub fn keeps(&self, clock: usize) -> bool {
        self.resets >> clock & 1 == 0
    }
}

#[derive(Clone, Debug, PartialEq, Eq)]
pub struct Model {
    pub clocks: usize,
    pub ceiling: u8,
    pub start: usize,
    pub locations: Vec<Location>,
    pub edges: Vec<Edge>,
}

/// What a plan says: the model, and beside it the mark with which its stay
/// fields were read.
#[derive(Clone, Debug, PartialEq, Eq)]
pub struct Reading {
    pub mark: u32,
    pub model: Model,
}

/// What a number of a model stands for; clocks, locations and edges are
/// counted from 0.
#[derive(Clone, Copy, Debug, PartialEq, Eq)]
pub enum Field {
    Mark,
    Clocks,
    Ceiling,
    Locations,
    Edges,
    Start,
    Kind { location: usize },
    Stay { location: usize, clock: usize },
    From { edge: usize },
    To { edge: usize },
    Resets { edge: usize },
    Low { edge: usize, clock: usize },
    High { edge: usize, clock: usize },
}

impl Field {
    /// The refusal of a number out of its range.
    pub fn refusal(self) -> Refusal {
        use Field::*;
        match self {
            Mark | Clocks | Ceiling | Locations | Edges | Start => BAD_HEADER,
            Kind { .. } | Stay { .. } => BAD_LOCATION,
            From { .. } | To { .. } | Resets { .. } | Low { .. } | High { .. } => BAD_EDGE,
        }
    }
}

/// Gives the next number of a model, which stands for this and must be within
/// this range; or ends the reading.
pub type Next<'a, E> = &'a mut dyn FnMut(Field, RangeInclusive<u32>) -> Result<u32, E>;

/// Reads a whole model; refusals 1 to 7 in the order of document 01.
pub fn read_model(bytes: &[u8]) -> Result<Model, Refusal> {
    read_plan(bytes).map(|reading| reading.model)
}

/// The same, with the mark.
pub fn read_plan(bytes: &[u8]) -> Result<Reading, Refusal> {
    let mut reader = Reader::new(bytes);
    let reading = Reading::from_fields(&mut |field, range| {
        let number = reader.number()?;
        if range.contains(&number) {
            Ok(number)
        } else {
            Err(field.refusal())
        }
    })?;
    if !reader.at_end() {
        return Err(BYTES_REMAIN);
    }
    if reading.model.leaves_a_clock_unreset() {
        return Err(CLOCK_UNRESET);
    }
    Ok(reading)
}

impl Reading {
    /// The reading of numbers that are asked for one by one, in the order of the
    /// bytes: whoever gives them sees what each one stands for.
    pub fn from_fields<E>(next: Next<E>) -> Result<Reading, E> {
        let mark = next(Field::Mark, CEILING_MARK..=EDGES_MARK)?;
        let clocks = next(Field::Clocks, 1..=MAX_CLOCKS as u32)?;
        let ceiling = next(Field::Ceiling, 1..=MAX_CEILING.into())?;
        let locations = next(Field::Locations, 1..=MAX_LOCATIONS as u32)?;
        let edges = next(Field::Edges, 0..=MAX_EDGES as u32)?;
        let start = next(Field::Start, 0..=locations - 1)?;
        let mut model = Model {
            clocks: clocks as usize,
            ceiling: ceiling as u8,
            start: start as usize,
            locations: Vec::with_capacity(locations as usize),
            edges: Vec::with_capacity(edges as usize),
        };
        let mut blanks = Vec::new();
        for _ in 0..locations {
            blanks.extend(model.push_location(next)?);
        }
        for _ in 0..edges {
            model.push_edge(next)?;
        }
        // Only now are all edges known.
        for (location, clock) in blanks {
            model.locations[location].limit[clock] = model.blank_limit(mark, location, clock);
        }
        Ok(Reading { mark, model })
    }
}

impl Model {
    /// The model alone of numbers that are asked for one by one.
    pub fn from_fields<E>(next: Next<E>) -> Result<Model, E> {
        Reading::from_fields(next).map(|reading| reading.model)
    }

    /// The limit that a stay field of 0 means in a plan of this mark.
    pub fn blank_limit(&self, mark: u32, location: usize, clock: usize) -> u8 {
        let leaving = self.edges.iter().filter(|edge| edge.from == location);
        let last_to_close = leaving.map(|edge| edge.high[clock]).max();
        match mark {
            EDGES_MARK => last_to_close.unwrap_or(self.ceiling),
            _ => self.ceiling,
        }
    }

    /// Gives the blank stay fields, as location and clock. Their limits are
    /// left at 0.
    fn push_location<E>(&mut self, next: Next<E>) -> Result<Vec<(usize, usize)>, E> {
        let location = self.locations.len();
        let most = u32::from(self.ceiling) + 1;
        let forbidden = next(Field::Kind { location }, 0..=1)? == 1;
        let mut limit = [0; MAX_CLOCKS];
        let mut blanks = Vec::new();
        for clock in 0..self.clocks {
            match next(Field::Stay { location, clock }, 0..=most)? {
                0 => blanks.push((location, clock)),
                stay => limit[clock] = (stay - 1) as u8,
            }
        }
        self.locations.push(Location { forbidden, limit });
        Ok(blanks)
    }

    fn push_edge<E>(&mut self, next: Next<E>) -> Result<(), E> {
        let edge = self.edges.len();
        let last = self.locations.len() as u32 - 1;
        let ceiling = u32::from(self.ceiling);
        let from = next(Field::From { edge }, 0..=last)? as usize;
        let to = next(Field::To { edge }, 0..=last)? as usize;
        let resets = next(Field::Resets { edge }, 0..=(1 << self.clocks) - 1)? as u8;
        let mut low = [0; MAX_CLOCKS];
        let mut high = [0; MAX_CLOCKS];
        for clock in 0..self.clocks {
            let at_least = next(Field::Low { edge, clock }, 0..=ceiling)?;
            // One range serves for both tests made when the high is read.
            let at_most = next(Field::High { edge, clock }, at_least..=ceiling)?;
            low[clock] = at_least as u8;
            high[clock] = at_most as u8;
        }
        self.edges.push(Edge {
            from,
            to,
            resets,
            low,
            high,
        });
        Ok(())
    }

    /// Whether some closed walk of edges that can each open alone leaves some
    /// clock unreset. Whether a run can take the walk as a whole plays no part.
    pub fn leaves_a_clock_unreset(&self) -> bool {
        (0..self.clocks).any(|clock| self.has_closed_walk(|edge| edge.keeps(clock)))
    }

    /// Whether some closed walk of such edges has none that resets every clock:
    /// it is one of edges that each keep some clock.
    pub fn lacks_a_joint_reset(&self) -> bool {
        let keeps_any = |edge: &Edge| (0..self.clocks).any(|clock| edge.keeps(clock));
        self.has_closed_walk(keeps_any)
    }

    /// Whether some closed walk is made of these edges, as far as they can open.
    pub fn has_closed_walk(&self, of: impl Fn(&Edge) -> bool) -> bool {
        let edges = self.edges.iter();
        let counted: Vec<&Edge> = edges
            .filter(|edge| of(edge) && self.can_open(edge))
            .collect();
        has_cycle(self.locations.len(), &counted)
    }

    /// Whether some clock values let a run take this edge, looked at alone.
    /// Lows are at most highs, so the lows are such values if any are; a clock
    /// that is reset enters with 0, which every limit allows.
    pub fn can_open(&self, edge: &Edge) -> bool {
        (0..self.clocks).all(|clock| {
            let held = |at: usize| edge.low[clock] <= self.locations[at].limit[clock];
            held(edge.from) && (!edge.keeps(clock) || held(edge.to))
        })
    }
}

/// Peels off locations without a way on until none is left to peel. What
/// remains has a way on for ever, that is, a cycle.
fn has_cycle(locations: usize, edges: &[&Edge]) -> bool {
    let mut kept = vec![true; locations];
    loop {
        let leaf = (0..locations)
            .find(|&at| kept[at] && !edges.iter().any(|edge| edge.from == at && kept[edge.to]));
        match leaf {
            Some(at) => kept[at] = false,
            None => return kept.contains(&true),
        }
    }
}

#[cfg(test)]
mod tests {
    use super::*;

    #[test]
    fn the_limit_of_a_stay_field() {
        for (stay, limit) in [(0, 3), (1, 0), (2, 1), (4, 3)] {
            let model = read_model(&[1, 1, 3, 1, 0, 0, 0, stay]).unwrap();
            assert_eq!(model.locations[0].limit, [limit, 0, 0]);
        }
    }

    /// One clock, ceiling 3: three locations with edges from the first to each,
    /// closing at 0, 2 and 1, and one from the last to the first.
    fn blank(mark: u8) -> Model {
        let header = [mark, 1, 3, 3, 4, 0, 0, 0, 0, 0, 0, 0];
        let edges = [
            [0, 0, 1, 0, 0],
            [0, 1, 0, 2, 2],
            [0, 2, 0, 0, 1],
            [2, 0, 1, 0, 0],
        ];
        read_model(&[&header, edges.concat().as_slice()].concat()).unwrap()
    }

    #[test]
    fn the_limit_of_a_blank_stay_field() {
        let limits =
            |model: &Model| -> Vec<u8> { model.locations.iter().map(|at| at.limit[0]).collect() };
        let [one, two] = [blank(1), blank(2)];
        assert_eq!((limits(&one), limits(&two)), (vec![3; 3], vec![2, 3, 0]));
        // Nothing else is different.
        assert_eq!((&one.edges, one.start), (&two.edges, two.start));
        for (location, limit) in [(0, 2), (1, 3), (2, 0)] {
            assert_eq!(one.blank_limit(CEILING_MARK, location, 0), 3);
            assert_eq!(one.blank_limit(EDGES_MARK, location, 0), limit);
        }
    }

    #[test]
    fn blank_clock_by_clock() {
        // Two loops with highs 0, 2 and 1, 0 at ceiling 3; a field of M+1.
        let plan = |stays: [u8; 2]| {
            let [a, b] = stays;
            let edges = [0, 0, 3, 0, 0, 1, 2, 0, 0, 3, 1, 1, 0, 0];
            let bytes = [&[2, 2, 3, 1, 2, 0, 0, a, b], &edges[..]].concat();
            read_plan(&bytes).unwrap().model.locations[0].limit
        };
        assert_eq!(plan([0, 0]), [1, 2, 0]);
        assert_eq!(plan([4, 0]), [3, 2, 0]);
        assert_eq!(plan([0, 4]), [1, 3, 0]);
        assert_eq!(plan([1, 2]), [0, 1, 0]);
    }

    #[test]
    fn marks() {
        for (first, mark) in [(&[1][..], Ok(1)), (&[2], Ok(2)), (&[130, 128, 0], Ok(2))] {
            let bytes = [first, &[1, 1, 1, 0, 0, 0, 0]].concat();
            assert_eq!(read_plan(&bytes).map(|reading| reading.mark), mark);
        }
        for first in [&[0][..], &[3], &[131, 0], &[130, 1]] {
            assert_eq!(read_plan(&[first, &[1, 1, 1]].concat()), Err(3));
        }
    }

    #[test]
    fn unreset_loops() {
        // One location, two clocks, one loop with the given mask.
        let with = |mask| read_model(&[1, 2, 1, 1, 1, 0, 0, 0, 0, 0, 0, mask, 0, 1, 0, 1]);
        assert_eq!(with(0), Err(7));
        assert_eq!(with(1), Err(7));
        assert_eq!(with(2), Err(7));
        assert!(with(3).is_ok());
        // Two edges there and back that reset one clock each.
        let pair = |there, back| {
            read_model(&[
                1, 2, 1, 2, 2, 0, 0, 0, 0, 0, 0, 0, 0, 1, there, 0, 1, 0, 1, 1, 0, back, 0, 1, 0, 1,
            ])
        };
        assert!(pair(1, 2).is_ok());
        assert!(pair(3, 0).is_ok());
        assert_eq!(pair(1, 1), Err(7));
        assert_eq!(pair(0, 2), Err(7));
    }

    /// Two clocks, ceiling 2: an edge between two locations with these stay
    /// fields, and one back that resets nothing.
    fn there_and_back(stays: [[u8; 2]; 2], resets: u8, low: [u8; 2]) -> Result<Model, Refusal> {
        let [[a, b], [c, d]] = stays;
        let [x, y] = low;
        read_model(&[
            1, 2, 2, 2, 2, 0, 0, a, b, 0, c, d, 0, 1, resets, x, 2, y, 2, 1, 0, 0, 0, 2, 0, 2,
        ])
    }

    #[test]
    fn edges_that_cannot_open() {
        let open = [0, 0];
        // Above the limit of one clock, where it leaves or where it enters.
        for (stays, low) in [
            ([[2, 0], open], [2, 0]),
            ([[0, 2], open], [0, 2]),
            ([open, [2, 0]], [2, 0]),
            ([open, [0, 2]], [0, 2]),
            ([open, [1, 1]], [0, 1]),
        ] {
            assert!(there_and_back(stays, 0, low).is_ok());
            // At the limit, and with every limit at the ceiling.
            assert_eq!(there_and_back(stays, 0, low.map(|low| low / 2)), Err(7));
            assert_eq!(there_and_back([open; 2], 0, low), Err(7));
        }
    }

    #[test]
    fn resets_of_an_edge_that_cannot_open() {
        // Of the clock by which it is shut on entry, which opens it; of the other.
        let entry = |resets| there_and_back([[0, 0], [2, 0]], resets, [2, 0]);
        assert_eq!(entry(1), Err(7));
        assert!(entry(2).is_ok());
        // Where it leaves, a reset comes too late; the other clock is as shut.
        let leave = |resets| there_and_back([[2, 0], [0, 0]], resets, [2, 0]);
        assert!(leave(1).is_ok());
        assert!(leave(2).is_ok());
    }

    #[test]
    fn joint_resets() {
        // Two clocks, ceiling 1: there, once more with a low of this, and back. The
        // first clock is at 0 where they leave.
        let lacks = |masks: [u8; 3], low: u8| {
            let [there, again, back] = masks;
            let bytes = [
                &[1, 2, 1, 2, 3, 0, 0, 1, 0, 0, 0, 0][..],
                &[0, 1, there, 0, 1, 0, 1],
                &[0, 1, again, low, 1, 0, 1],
                &[1, 0, back, 0, 1, 0, 1],
            ];
            read_model(&bytes.concat()).unwrap().lacks_a_joint_reset()
        };
        assert!(lacks([1, 3, 2], 0) && lacks([3, 1, 2], 0) && lacks([1, 3, 2], 1));
        assert!(!lacks([3, 3, 0], 0) && !lacks([0, 0, 3], 0));
        // Where the second cannot open it brings about nothing.
        assert!(!lacks([3, 1, 2], 1) && !lacks([3, 0, 0], 1));
    }
}
