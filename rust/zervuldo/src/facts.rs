//! What judging gives: the answers of the proved library, and beside them
//! what searches that are not proved have found.

use plan::trail::{read_trail, Kind};
use plan::Plan;
use second::regions::Region;

/// All that is known of a plan once it is judged.
#[derive(Clone, Debug)]
pub struct Facts {
    /// The name of the plan's file, without folders and ending.
    pub title: String,
    /// The plan with its names, and with what it says of real units.
    pub plan: Plan,
    /// The bytes that were judged.
    pub model: Vec<u8>,
    /// The number of states (S), by the proved judge.
    pub states: usize,
    /// Whether the quicker judge took the plan: each loop that counts has an
    /// edge that resets every clock. Then our trail has no touch.
    pub is_joint: bool,
    pub finding: Finding,
    /// Our sheet or trail, which passed the proved check.
    pub evidence: Vec<u8>,
    pub warnings: Vec<Warning>,
}

impl Facts {
    /// The evidence that is told and drawn: ours, or where perfect clocks fail
    /// too the trail that shows it, since ours may take drift as a short cut.
    pub fn story(&self) -> &[u8] {
        match &self.finding {
            Finding::Unsafe(Unsafe {
                perfect: Perfect::FailsToo { trail, .. },
                ..
            }) => trail,
            _ => &self.evidence,
        }
    }
}

/// The proved verdict with what belongs to it.
#[derive(Clone, Debug)]
pub enum Finding {
    Safe(Safe),
    Unsafe(Unsafe),
}

/// Proved, all of it.
#[derive(Clone, Copy, Debug, PartialEq, Eq)]
pub struct Safe {
    /// How many states drift can reach.
    pub marked: usize,
    /// A: every drift below 1/A of a unit is harmless for ever.
    pub margin: u32,
}

#[derive(Clone, Debug)]
pub struct Unsafe {
    /// The steps of our trail, by the proved judge that took the plan.
    pub steps: usize,
    /// The forbidden location that our trail enters.
    pub location: usize,
    pub perfect: Perfect,
    /// Within how many jumps drift does harm by our trail: proved.
    pub base: u64,
    pub rate: u64,
    /// A run that a search found; not proved, and no more than an example.
    pub example: Option<Example>,
}

/// For drift e/D and every q with D <= q*e some run of at most base + rate*q
/// jumps does harm.
#[derive(Clone, Copy, Debug, PartialEq, Eq)]
pub struct Within {
    pub base: u64,
    pub rate: u64,
}

impl Unsafe {
    /// The jumps by our trail, or where perfect clocks fail too by the trail
    /// that shows it: its own, whatever the drift.
    pub fn within(&self, plan: &Plan) -> Within {
        match &self.perfect {
            Perfect::Clean => Within {
                base: self.base,
                rate: self.rate,
            },
            Perfect::FailsToo { trail, .. } => {
                let steps = read_trail(plan, trail).steps;
                let jumps = steps
                    .iter()
                    .filter(|step| matches!(step.kind, Kind::Jump(_)));
                Within {
                    base: jumps.count() as u64,
                    rate: 0,
                }
            }
        }
    }
}

/// Whether a forbidden location is entered with perfect clocks too: proved.
#[derive(Clone, Debug, PartialEq, Eq)]
pub enum Perfect {
    /// It is: this trail of time and jump steps alone passed the proved check.
    FailsToo { trail: Vec<u8>, soonest: Soonest },
    /// No run gets to any of them.
    Clean,
}

/// The forbidden location that perfect clocks enter soonest, of several the
/// first, and the least time that it takes.
#[derive(Clone, Copy, Debug, PartialEq, Eq)]
pub struct Soonest {
    pub location: usize,
    pub units: u64,
}

/// A run with drift e/D into a forbidden location.
#[derive(Clone, Debug, PartialEq, Eq)]
pub struct Example {
    pub e: u64,
    pub d: u64,
    /// The drift of the plan's own crystals; else one chosen for the example.
    pub is_crystals: bool,
    pub jumps: Vec<Jump>,
}

#[derive(Clone, Copy, Debug, PartialEq, Eq)]
pub struct Jump {
    pub edge: usize,
    /// When it is made, in D-ths of a unit since the start.
    pub moment: u64,
}

/// Where 'safe' could mislead.
#[derive(Clone, Copy, Debug, PartialEq, Eq)]
pub enum Warning {
    /// Nothing is forbidden, so the plan is safe whatever it does.
    NothingForbidden,
    /// With blank stay limits at the ceiling, as with mark 1, the proved verdict
    /// is unsafe.
    SafeByMark,
    /// With them there, an edge opens that cannot now, and the plan is refused
    /// for a loop that leaves a clock unreset.
    AcceptedByMark,
    /// Drift never leads into this location, by the proved marks.
    NeverEntered { location: usize },
    /// In no state that drift can reach does this edge open; not proved. Some
    /// can never open, whatever is reached: the drawing says so.
    NeverOpens { edge: usize },
    /// Drift can reach this state, in which neither time nor a jump can go
    /// on; that nothing can is not proved.
    Stuck { location: usize, region: Region },
}
