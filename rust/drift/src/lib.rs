//! The proved drift checker, for Rust callers: the functions of the static
//! library `drift_c`, with their answers taken apart. Whatever is lent, the
//! answers and what the calls leave in the lent memory are as document 01
//! says; the proofs are in the crate `drift` under crates/.

mod boundary;
mod buffers;
mod numbers;
mod refusal;
#[cfg(test)]
mod tests;

pub use boundary::Word;
pub use buffers::{Buffers, Scratch, MOST_STATES};
pub use numbers::{next_number, Numbers, Spelled};
pub use refusal::{NoRefusal, Refusal};

use boundary::*;
use std::fmt;

#[derive(Clone, Copy, Debug, PartialEq, Eq)]
pub enum Verdict {
    /// Some drift above 0 is harmless for ever.
    Safe,
    /// Every drift above 0 does harm in the end.
    Unsafe,
}

impl fmt::Display for Verdict {
    fn fmt(&self, formatter: &mut fmt::Formatter) -> fmt::Result {
        formatter.write_str(match self {
            Verdict::Safe => "safe",
            Verdict::Unsafe => "unsafe",
        })
    }
}

/// The room that a plan needs.
#[derive(Clone, Copy, Debug, PartialEq, Eq)]
pub struct Room {
    /// The number of states (S).
    pub states: usize,
    /// The length of each of the four scratch slices: with so much no call gives
    /// `ScratchTooShort`, with less in one of them each does.
    pub scratch: usize,
    /// The most bytes of a sheet that passes. With so much output no writer gives
    /// `OutputTooShort` for a safe plan; our trail may be longer.
    pub sheet: usize,
    /// The most steps of our trail.
    pub steps: usize,
}

#[derive(Clone, Copy, Debug, PartialEq, Eq)]
pub struct Judgement {
    pub verdict: Verdict,
    /// The number of states (S).
    pub states: usize,
    /// Marked states if safe, steps of our trail if unsafe.
    pub count: usize,
}

/// The evidence at the front of an output.
#[derive(Clone, Copy, Debug, PartialEq, Eq)]
pub struct Written {
    /// A sheet where safe, a trail where unsafe.
    pub verdict: Verdict,
    /// How many bytes it takes.
    pub bytes: usize,
}

/// What passed the check of evidence.
#[derive(Clone, Copy, Debug, PartialEq, Eq)]
pub enum Kind {
    /// A sheet that keeps the rules.
    Sheet,
    /// A trail that replays to a forbidden location.
    Trail,
}

impl fmt::Display for Kind {
    fn fmt(&self, formatter: &mut fmt::Formatter) -> fmt::Result {
        formatter.write_str(match self {
            Kind::Sheet => "sheet",
            Kind::Trail => "trail",
        })
    }
}

/// How slight a drift is harmless for ever if a plan is safe.
#[derive(Clone, Copy, Debug, PartialEq, Eq)]
pub struct Tolerance {
    /// The number of states (S).
    pub states: usize,
    /// A: every drift below 1/A of a unit is harmless.
    pub margin: u32,
}

/// How slight a drift is harmless for ever, by our sheet.
#[derive(Clone, Copy, Debug, PartialEq, Eq)]
pub enum SheetMargin {
    /// Every drift below 1/margin of a unit is.
    Safe { states: usize, margin: u32 },
    /// None is.
    Unsafe { states: usize },
}

/// Within how many jumps drift does harm, by our trail.
#[derive(Clone, Copy, Debug, PartialEq, Eq)]
pub enum Harm {
    /// There is no trail.
    Safe { states: usize },
    /// For drift e/D and every q with D <= q*e, some run of at most
    /// base + rate*q jumps enters a forbidden location.
    Within { states: usize, base: u64, rate: u64 },
}

/// What to lend for a plan, from its bytes alone.
pub fn room(model: &[u8]) -> Result<Room, Refusal> {
    let answer = accepted(drift_room(model))?;
    let states = states_of(answer);
    Ok(Room {
        states,
        scratch: states,
        sheet: field(answer, SHEET) as usize,
        steps: states - 1,
    })
}

/// The verdict on a plan.
pub fn judge(model: &[u8], scratch: Scratch) -> Result<Judgement, Refusal> {
    accepted(drift_judge(model, scratch)).map(judgement_of)
}

/// The same, quicker, for a plan with a joint reset: each closed walk of edges
/// that can open has an edge that resets every clock. `NotJoint` for any other.
/// The count of an unsafe plan is the steps of our trail without touch.
pub fn judge_joint(model: &[u8], scratch: Scratch) -> Result<Judgement, Refusal> {
    accepted(drift_judge_joint(model, scratch)).map(judgement_of)
}

fn judgement_of(answer: u64) -> Judgement {
    Judgement {
        verdict: verdict_of(answer),
        states: states_of(answer),
        count: field(answer, COUNT) as usize,
    }
}

/// A mark of 1 or 0 for each state, at the front of the output; the number
/// of states.
pub fn marks(model: &[u8], scratch: Scratch, out: &mut [u8]) -> Result<usize, Refusal> {
    accepted(drift_marks(model, scratch, out)).map(states_of)
}

/// The same marks, quicker, for a plan with a joint reset.
pub fn marks_joint(model: &[u8], scratch: Scratch, out: &mut [u8]) -> Result<usize, Refusal> {
    accepted(drift_marks_joint(model, scratch, out)).map(states_of)
}

/// Whether evidence from anywhere passes for a plan, and of which kind it is.
/// The refusals 1, 2 and 6 may come from the model, which leaves the scratch
/// untouched, or from the evidence, which leaves its first S at zero.
pub fn check_evidence(model: &[u8], evidence: &[u8], scratch: Scratch) -> Result<Kind, Refusal> {
    let answer = accepted(drift_check_evidence(model, evidence, scratch))?;
    match field(answer, KIND) {
        1 => Ok(Kind::Sheet),
        2 => Ok(Kind::Trail),
        kind => unreachable!("kind {kind}, where only 1 and 2 are proved possible"),
    }
}

/// Our sheet or trail for a plan, at the front of the output; the rest of the
/// output stays as it is, and all of it on a refusal.
pub fn write_evidence(model: &[u8], scratch: Scratch, out: &mut [u8]) -> Result<Written, Refusal> {
    accepted(drift_write_evidence(model, scratch, out)).map(evidence_of)
}

/// The same, quicker, for a plan with a joint reset: the same sheet, or our
/// trail without touch.
pub fn write_joint(model: &[u8], scratch: Scratch, out: &mut [u8]) -> Result<Written, Refusal> {
    accepted(drift_write_joint(model, scratch, out)).map(evidence_of)
}

fn evidence_of(answer: u64) -> Written {
    Written {
        verdict: verdict_of(answer),
        bytes: written_of(answer),
    }
}

/// The shortest form of a plan, at the front of the output, and how many bytes
/// it takes; the rest of the output stays as it is, and all of it on a refusal.
/// No scratch is needed, and an output as long as the plan is always enough.
pub fn write_plan(model: &[u8], out: &mut [u8]) -> Result<usize, Refusal> {
    accepted(drift_write_plan(model, out)).map(written_of)
}

/// The number of states of a plan and its margin by the drawing alone; no
/// scratch is needed. That of the sheet is far sharper.
pub fn margin(model: &[u8]) -> Result<Tolerance, Refusal> {
    let answer = accepted(drift_margin(model))?;
    Ok(Tolerance {
        states: states_of(answer),
        margin: field(answer, MARGIN) as u32,
    })
}

/// The margin of a safe plan by our sheet.
pub fn sheet_margin(model: &[u8], scratch: Scratch) -> Result<SheetMargin, Refusal> {
    let answer = accepted(drift_sheet_margin(model, scratch))?;
    let states = states_of(answer);
    Ok(match verdict_of(answer) {
        Verdict::Safe => SheetMargin::Safe {
            states,
            margin: field(answer, MARGIN) as u32,
        },
        Verdict::Unsafe => SheetMargin::Unsafe { states },
    })
}

/// The jumps within which drift does harm in an unsafe plan.
pub fn harm(model: &[u8], scratch: Scratch) -> Result<Harm, Refusal> {
    let mut out = [0; 2];
    let answer = accepted(drift_harm(model, scratch, &mut out))?;
    let (states, [base, rate]) = (states_of(answer), out);
    Ok(match verdict_of(answer) {
        Verdict::Safe => Harm::Safe { states },
        Verdict::Unsafe => Harm::Within { states, base, rate },
    })
}

/// The least time, in units, from the start to a location with perfect clocks:
/// some run on whole times takes just that long, and no run takes less, on
/// whatever times. `Unreached` where no run gets there, and for a number that is
/// no location's.
pub fn soonest(model: &[u8], location: u64, scratch: Scratch) -> Result<u64, Refusal> {
    accepted(drift_soonest(model, location, scratch)).map(|answer| field(answer, UNITS))
}
