//! Edges that can open alone, and what keeps the others shut.

use crate::{Edge, Plan, BY_LAST_EDGE};

/// What keeps an edge shut for ever: its low for this clock is above the stay
/// limit of this location.
#[derive(Clone, Copy, Debug, PartialEq, Eq)]
pub struct Bar {
    pub clock: usize,
    pub location: usize,
}

impl Plan {
    /// Whether an edge can open alone: each low is within the stay limit of the
    /// location that it leaves and, for a clock that it does not reset, of the
    /// one that it enters. Neither high ends nor the way there play a part.
    pub fn opens_alone(&self, edge: &Edge) -> bool {
        self.bar(edge).is_none()
    }

    /// The first bar of an edge, if it has one.
    pub fn bar(&self, edge: &Edge) -> Option<Bar> {
        let mut bars = (0..self.clocks.len()).flat_map(|clock| {
            let is_kept = edge.resets >> clock & 1 == 0;
            let ends = [Some(edge.from), is_kept.then_some(edge.to)];
            let ends = ends.into_iter().flatten();
            ends.map(move |location| Bar { clock, location })
        });
        bars.find(|bar| edge.guard[bar.clock].0 > self.limit(bar.location, bar.clock))
    }

    /// One sentence on an edge that can never open, and why; none on others.
    pub fn shut_words(&self, number: usize) -> Option<String> {
        let edge = &self.edges[number];
        let Bar { clock, location } = self.bar(edge)?;
        let (name, low) = (&self.clocks[clock], edge.guard[clock].0);
        let kept = match location == edge.from {
            true => String::new(),
            false => format!(" and does not reset {name}"),
        };
        let by = match self.ends_with_last_edge(location, clock) {
            true => format!(" {BY_LAST_EDGE}"),
            false => String::new(),
        };
        Some(format!(
            "{} can never open: it needs {name}>={low}{kept}, but {} may be stayed in while \
             {name}<={}{by}",
            self.edge_title(number),
            self.quoted(location),
            self.limit(location, clock)
        ))
    }

    /// Whether some edge can never open.
    pub fn has_shut_edges(&self) -> bool {
        !self.edges.iter().all(|edge| self.opens_alone(edge))
    }
}
