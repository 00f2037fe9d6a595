//! The proved library, with scratch of its own that is enough for every plan.

use drift::{Buffers, Harm, Judgement, Kind, Refusal, SheetMargin, Written, MOST_STATES};

/// Room for evidence at first, and the most that is tried: more than any plan
/// of document 01 was seen to need by far.
const ROOM: usize = 1 << 16;
const MOST_ROOM: usize = 1 << 28;

pub struct Library {
    buffers: Buffers,
}

/// A verdict, and whether it is the quicker judge's, which takes just the plans
/// with a joint reset.
#[derive(Clone, Copy, Debug, PartialEq, Eq)]
pub struct Judged {
    pub judgement: Judgement,
    pub is_joint: bool,
}

impl Default for Library {
    fn default() -> Library {
        Library {
            buffers: Buffers::new(MOST_STATES),
        }
    }
}

impl Library {
    /// By the quicker judge where it serves.
    pub fn judge(&mut self, model: &[u8]) -> Result<Judged, Refusal> {
        let (judgement, is_joint) = match drift::judge_joint(model, self.buffers.lend()) {
            Err(Refusal::NotJoint) => (drift::judge(model, self.buffers.lend()), false),
            answer => (answer, true),
        };
        judgement.map(|judgement| Judged {
            judgement,
            is_joint,
        })
    }

    pub fn check(&mut self, model: &[u8], evidence: &[u8]) -> Result<Kind, Refusal> {
        drift::check_evidence(model, evidence, self.buffers.lend())
    }

    /// Our evidence, by the quicker writer where it serves.
    fn write(&mut self, model: &[u8], out: &mut [u8]) -> Result<Written, Refusal> {
        match drift::write_joint(model, self.buffers.lend(), out) {
            Err(Refusal::NotJoint) => drift::write_evidence(model, self.buffers.lend(), out),
            answer => answer,
        }
    }

    /// The same in as much room as it needs.
    pub fn evidence(&mut self, model: &[u8]) -> Result<Vec<u8>, Refusal> {
        let mut out = vec![0; ROOM];
        loop {
            match self.write(model, &mut out) {
                Ok(written) => {
                    out.truncate(written.bytes);
                    return Ok(out);
                }
                Err(Refusal::OutputTooShort) if out.len() < MOST_ROOM => {
                    out.resize(4 * out.len(), 0);
                }
                Err(refusal) => return Err(refusal),
            }
        }
    }

    /// A mark of 1 or 0 for each state.
    pub fn marks(&mut self, model: &[u8]) -> Result<Vec<u8>, Refusal> {
        let mut out = vec![0; MOST_STATES];
        let states = match drift::marks_joint(model, self.buffers.lend(), &mut out) {
            Err(Refusal::NotJoint) => drift::marks(model, self.buffers.lend(), &mut out),
            answer => answer,
        }?;
        out.truncate(states);
        Ok(out)
    }

    pub fn margin(&mut self, model: &[u8]) -> Result<SheetMargin, Refusal> {
        drift::sheet_margin(model, self.buffers.lend())
    }

    pub fn harm(&mut self, model: &[u8]) -> Result<Harm, Refusal> {
        drift::harm(model, self.buffers.lend())
    }

    /// The least time to a location with perfect clocks, in units; none where
    /// no run gets there.
    pub fn soonest(&mut self, model: &[u8], location: usize) -> Result<Option<u64>, Refusal> {
        match drift::soonest(model, location as u64, self.buffers.lend()) {
            Err(Refusal::Unreached) => Ok(None),
            answer => answer.map(Some),
        }
    }
}

/// For each location whether drift leads there, by the marks of all states,
/// which are numbered location by location.
pub fn entered(marks: &[u8], locations: usize) -> Vec<bool> {
    let regions = marks.len() / locations;
    let states = marks.chunks_exact(regions);
    states.map(|states| states.contains(&1)).collect()
}

/// The shortest form of a plan. It needs no scratch, and is never longer than
/// the bytes that are given.
pub fn shortest(model: &[u8]) -> Result<Vec<u8>, Refusal> {
    let mut out = vec![0; model.len()];
    let written = drift::write_plan(model, &mut out)?;
    out.truncate(written);
    Ok(out)
}
