//! Widened runs: runs whose lows give way downward and whose highs and
//! invariants give way upward by e/D. They are searched without regions, which
//! is a route of its own to what perfect clocks (e = 0) and drifting clocks
//! can reach: by lists of edges up to a number of jumps, or by zones to the end.

mod lists;
mod runs;
mod zone;
mod zones;

pub use lists::run_to_forbidden;
pub use runs::Runs;
pub use zones::{fewest_jumps, Fewest};

/// A widening of e/D, in units of 1/D.
#[derive(Clone, Copy)]
struct Widening {
    e: i64,
    d: i64,
}

impl Widening {
    /// What a low asks for.
    fn at_least(self, low: u8) -> i64 {
        i64::from(low) * self.d - self.e
    }

    /// What a high or an invariant allows.
    fn at_most(self, limit: u8) -> i64 {
        i64::from(limit) * self.d + self.e
    }
}

/// Whether runs of at most `jumps` jumps (K) are covered by a safe verdict at
/// widening e/D. The moments of such a run are its jumps and the start, and a
/// contradiction among them that is whole without widening stays one while
/// the widenings along it make less than 1.
pub fn is_covered(jumps: u64, e: u64, d: u64) -> bool {
    (jumps + 1) * e < d
}
