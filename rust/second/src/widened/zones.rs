//! The search by zones: the clock values with which runs along given edges
//! enter a location are those of one difference bound matrix. It ends: clocks
//! are bounded and bounds are whole D-ths, so that there are finitely many
//! matrices, and a zone within another of its location leads to nothing new.

use super::runs::Runs;
use super::zone::Zone;
use crate::model::Model;

/// The fewest jumps with which a widened run enters a forbidden location.
#[derive(Clone, Copy, Debug, PartialEq, Eq)]
pub enum Fewest {
    Jumps(usize),
    /// No run ever does.
    Never,
    /// The zones allowed are used up: more jumps than these, or never.
    MoreThan(usize),
}

/// Searches with about so many zones at most.
pub fn fewest_jumps(model: &Model, e: i64, d: i64, most_zones: usize) -> Fewest {
    let mut search = Search {
        runs: Runs::new(model, e, d),
        noted: 0,
        seen: vec![Vec::new(); model.locations.len()],
    };
    let mut entered = vec![(model.start, Zone::zero(model.clocks))];
    let mut jumps = 0;
    loop {
        if entered.iter().any(|(at, _)| model.locations[*at].forbidden) {
            return Fewest::Jumps(jumps);
        }
        entered.retain(|(at, zone)| search.note(*at, zone));
        if entered.is_empty() {
            return Fewest::Never;
        }
        if search.noted > most_zones {
            return Fewest::MoreThan(jumps);
        }
        entered = search.after_a_jump(&entered);
        jumps += 1;
    }
}

/// A location with the zone of clock values on entry.
type Entry = (usize, Zone);

struct Search<'a> {
    runs: Runs<'a>,
    /// How many zones have been noted.
    noted: usize,
    /// For each location its zones, but those within a later one.
    seen: Vec<Vec<Zone>>,
}

impl Search<'_> {
    /// Notes a zone, unless it lies within another of its location.
    fn note(&mut self, at: usize, zone: &Zone) -> bool {
        let seen = &mut self.seen[at];
        if seen.iter().any(|other| other.contains(zone)) {
            return false;
        }
        seen.retain(|other| !zone.contains(other));
        seen.push(*zone);
        self.noted += 1;
        true
    }

    fn after_a_jump(&self, entered: &[Entry]) -> Vec<Entry> {
        let model = self.runs.model;
        let mut after = Vec::new();
        for (at, zone) in entered {
            let edges = model.edges.iter().filter(|edge| edge.from == *at);
            after.extend(edges.filter_map(|edge| Some((edge.to, self.runs.jump(*zone, edge)?))));
        }
        after
    }
}
