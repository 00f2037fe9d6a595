//! A plan: a model of document 01 whose clocks, locations and edges have names.

use crate::bytes::encode;
use crate::Units;
use second::limits::MAX_CLOCKS;
use second::{model, read_model, Model};

/// The mark of a plan whose blank stay fields mean the ceiling.
pub const CEILING_MARK: u8 = model::CEILING_MARK as u8;
/// The mark of one in which they last until the last edge closes.
pub const EDGES_MARK: u8 = model::EDGES_MARK as u8;

#[derive(Clone, Debug, PartialEq, Eq)]
pub struct Location {
    pub name: String,
    pub forbidden: bool,
    /// Per clock the stay limit (invariant) as it is written; none is a blank
    /// field. One that spells out what a blank means is kept apart, as it is in
    /// the bytes. The limit that holds is `Plan::limit`.
    pub stay: Vec<Option<u8>>,
}

#[derive(Clone, Debug, PartialEq, Eq)]
pub struct Edge {
    pub name: Option<String>,
    pub from: usize,
    pub to: usize,
    /// Bit i resets clock i.
    pub resets: u8,
    /// Per clock the guard: low and high.
    pub guard: Vec<(u8, u8)>,
}

#[derive(Clone, Debug, PartialEq, Eq)]
pub struct Plan {
    /// What a blank stay field means: `CEILING_MARK` or `EDGES_MARK`.
    pub mark: u8,
    pub clocks: Vec<String>,
    pub ceiling: u8,
    pub start: usize,
    pub locations: Vec<Location>,
    pub edges: Vec<Edge>,
    /// Beside the model.
    pub units: Units,
}

impl Plan {
    /// The name of a location, in quotation marks.
    pub fn quoted(&self, location: usize) -> String {
        format!("'{}'", self.locations[location].name)
    }

    /// An edge by its number, its name if it has one, and its ends.
    pub fn edge_title(&self, number: usize) -> String {
        let edge = &self.edges[number];
        let name = edge.name.as_ref().map(|name| format!(" '{name}'"));
        format!(
            "edge {number}{} ({} -> {})",
            name.unwrap_or_default(),
            self.locations[edge.from].name,
            self.locations[edge.to].name
        )
    }

    /// The stay limit that holds for a clock in a location, written or blank.
    pub fn limit(&self, location: usize, clock: usize) -> u8 {
        let written = self.locations[location].stay[clock];
        written.unwrap_or_else(|| self.blank_limit(location, clock))
    }

    /// What a blank stay field means by the plan's mark. Every edge that is
    /// drawn from the location counts, whether it can open or not.
    fn blank_limit(&self, location: usize, clock: usize) -> u8 {
        let leaving = self.edges.iter().filter(|edge| edge.from == location);
        let last_to_close = leaving.map(|edge| edge.guard[clock].1).max();
        match self.mark {
            EDGES_MARK => last_to_close.unwrap_or(self.ceiling),
            _ => self.ceiling,
        }
    }

    /// Whether the last edge sets a limit: its field is blank, and means less
    /// than the ceiling.
    pub fn ends_with_last_edge(&self, location: usize, clock: usize) -> bool {
        let is_blank = self.locations[location].stay[clock].is_none();
        is_blank && self.limit(location, clock) < self.ceiling
    }

    /// Whether the last edge sets a limit anywhere.
    pub fn has_last_edge_limits(&self) -> bool {
        let mut locations = 0..self.locations.len();
        locations.any(|at| !self.last_edge_words(at).is_empty())
    }

    /// The stay limits written for a location, as text.
    pub fn stay_words(&self, location: usize) -> Vec<String> {
        let stay = &self.locations[location].stay;
        self.limits_told(location, |clock| stay[clock].is_some())
    }

    /// Those that the last edge sets.
    pub fn last_edge_words(&self, location: usize) -> Vec<String> {
        self.limits_told(location, |clock| self.ends_with_last_edge(location, clock))
    }

    fn limits_told(&self, location: usize, is_told: impl Fn(usize) -> bool) -> Vec<String> {
        let clocks = (0..self.clocks.len()).filter(|&clock| is_told(clock));
        clocks
            .map(|clock| format!("{}<={}", self.clocks[clock], self.limit(location, clock)))
            .collect()
    }

    /// All of these, told apart. A blank limit that is the ceiling says nothing.
    pub fn limit_words(&self, location: usize) -> Vec<String> {
        let by_edges = self.last_edge_words(location).into_iter();
        let by_edges = by_edges.map(|words| format!("{words} {BY_LAST_EDGE}"));
        self.stay_words(location)
            .into_iter()
            .chain(by_edges)
            .collect()
    }

    /// The conditions of a guard, as text; a clock free up to the ceiling has none.
    pub fn guard_words(&self, edge: &Edge) -> Vec<String> {
        let bounds = edge.guard.iter().zip(&self.clocks);
        bounds
            .filter_map(|(&(low, high), clock)| self.condition(clock, low, high))
            .collect()
    }

    fn condition(&self, clock: &str, low: u8, high: u8) -> Option<String> {
        match (low, high) {
            (0, high) if high == self.ceiling => None,
            (low, high) if low == high => Some(format!("{clock}={low}")),
            (0, high) => Some(format!("{clock}<={high}")),
            (low, high) if high == self.ceiling => Some(format!("{clock}>={low}")),
            (low, high) => Some(format!("{low}<={clock}<={high}")),
        }
    }

    /// The names of the clocks that an edge resets.
    pub fn reset_names(&self, edge: &Edge) -> Vec<&str> {
        let clocks = self.clocks.iter().enumerate();
        clocks
            .filter(|(clock, _)| edge.resets >> clock & 1 == 1)
            .map(|(_, name)| name.as_str())
            .collect()
    }

    /// The plan without its names, as the second checker reads it.
    pub fn model(&self) -> Model {
        read_model(&encode(self)).expect("a plan without a flaw")
    }

    /// The same plan as its decoded bytes give it: with their names and without
    /// real units.
    pub fn with_plain_names(mut self) -> Plan {
        let clocks = self.clocks.len();
        self.clocks = CLOCK_NAMES[..clocks]
            .iter()
            .map(|name| name.to_string())
            .collect();
        for (at, location) in self.locations.iter_mut().enumerate() {
            location.name = location_name(at);
        }
        self.edges.iter_mut().for_each(|edge| edge.name = None);
        self.units = Units::default();
        self
    }
}

/// What stands behind a limit that the last edge sets.
pub const BY_LAST_EDGE: &str = "(last edge)";

/// The names of clocks and locations of which only bytes are known.
pub const CLOCK_NAMES: [&str; MAX_CLOCKS] = ["x", "y", "z"];

pub fn location_name(number: usize) -> String {
    format!("L{number}")
}
