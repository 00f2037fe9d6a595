//! The calls: judge, marks, evidence, check; of document 02 the shortest form of
//! a plan, the rounds of the marking, the least time to a location, the judge, marks
//! and evidence of plans with a joint reset, and the room that a plan needs; and beyond
//! both the margin of our sheet and the harm of our trail.
//! Scratch is given as the four lengths alone, since this checker uses memory of
//! its own; they decide only about refusal 8. Output is written on success and
//! not otherwise.

use crate::check::check;
use crate::components::Components;
use crate::graph::Graph;
use crate::harm::Bound;
use crate::margin::by_sheet;
use crate::marking::{distance_to_forbidden, is_unsafe, levels, marked_set, reached};
use crate::marking::{with_touch, Closure, WITHOUT_TOUCH};
use crate::model::{read_model, read_plan, Model};
use crate::refusal::*;
use crate::regions::Regions;
use crate::sheet::{most_bytes, our_sheet};
use crate::shortest_plan::shortest_plan;
use crate::soonest::least_time;
use crate::trail::{our_trail, spell_trail, TrailStep};

/// The lengths of the four scratch slices.
pub type Scratch = [usize; 4];

#[derive(Clone, Copy, Debug, PartialEq, Eq)]
pub struct Judgement {
    pub is_unsafe: bool,
    /// The number of states (S).
    pub states: usize,
    /// Marked states if safe, steps of our trail if unsafe.
    pub count: usize,
}

/// How soon the marking is done.
#[derive(Clone, Copy, Debug, PartialEq, Eq)]
pub struct Rounds {
    /// The rounds, with the one that marks nothing.
    pub rounds: usize,
    /// The marked states.
    pub marked: usize,
}

/// What a plan needs, known before anything is marked.
#[derive(Clone, Copy, Debug, PartialEq, Eq)]
pub struct Room {
    /// The number of states (S).
    pub states: usize,
    /// The length of each of the four scratch slices.
    pub scratch: usize,
    /// No sheet that passes has more bytes.
    pub sheet: usize,
    /// Our trail, also the one without a touch, has no more steps.
    pub steps: usize,
}

/// How slight a drift is harmless for ever.
#[derive(Clone, Copy, Debug, PartialEq, Eq)]
pub enum SheetMargin {
    /// Every drift e/D with margin*e < D is.
    Safe { states: usize, margin: u32 },
    /// None is known to be.
    Unsafe { states: usize },
}

/// How soon drift does harm.
#[derive(Clone, Copy, Debug, PartialEq, Eq)]
pub enum Harm {
    /// Slight drift never does.
    Safe { states: usize },
    /// Within so many jumps.
    Within { states: usize, bound: Bound },
}

/// The number of states of a model (S).
pub fn states_of(model: &Model) -> usize {
    model.locations.len() * Regions::of(model.clocks, model.ceiling).count()
}

/// Refusals 1 to 8, in which all calls that need scratch agree.
fn accept(model: &[u8], scratch: Scratch) -> Result<Graph, Refusal> {
    let model = read_model(model)?;
    if scratch.iter().any(|&length| length < states_of(&model)) {
        return Err(SCRATCH_TOO_SHORT);
    }
    Ok(Graph::new(model))
}

/// The same, then 17: what is taken has a joint reset.
fn accept_joint(model: &[u8], scratch: Scratch) -> Result<Graph, Refusal> {
    let graph = accept(model, scratch)?;
    if graph.model.lacks_a_joint_reset() {
        return Err(NO_JOINT_RESET);
    }
    Ok(graph)
}

pub fn judge(model: &[u8], scratch: Scratch) -> Result<Judgement, Refusal> {
    let graph = accept(model, scratch)?;
    Ok(judged_by(&graph, with_touch(&Components::new(&graph))))
}

/// The judge of plans with a joint reset: the verdict is the same, and a trail has
/// the fewest steps without a touch.
pub fn judge_joint(model: &[u8], scratch: Scratch) -> Result<Judgement, Refusal> {
    Ok(judged_by(&accept_joint(model, scratch)?, WITHOUT_TOUCH))
}

fn judged_by(graph: &Graph, closure: Closure) -> Judgement {
    let marked = reached(graph, closure);
    let is_unsafe = is_unsafe(graph, &marked);
    let count = if is_unsafe {
        distance_to_forbidden(graph, closure, &graph.reversed())[graph.start] as usize
    } else {
        marked.iter().filter(|&&mark| mark).count()
    };
    Judgement {
        is_unsafe,
        states: graph.states(),
        count,
    }
}

/// Writes a mark of 1 or 0 per state and gives the number of states.
pub fn marks(model: &[u8], scratch: Scratch, out: &mut [u8]) -> Result<usize, Refusal> {
    let graph = accept(model, scratch)?;
    put_marks(&graph, with_touch(&Components::new(&graph)), out)
}

/// The same marks, of plans with a joint reset.
pub fn marks_joint(model: &[u8], scratch: Scratch, out: &mut [u8]) -> Result<usize, Refusal> {
    put_marks(&accept_joint(model, scratch)?, WITHOUT_TOUCH, out)
}

fn put_marks(graph: &Graph, closure: Closure, out: &mut [u8]) -> Result<usize, Refusal> {
    let marked = reached(graph, closure);
    let bytes: Vec<u8> = marked.into_iter().map(u8::from).collect();
    put_first(&bytes, out)
}

/// Puts bytes at the front of the output and gives their number; refusal 9 if
/// there are more of them.
fn put_first(bytes: &[u8], out: &mut [u8]) -> Result<usize, Refusal> {
    let out = out.get_mut(..bytes.len()).ok_or(OUTPUT_TOO_SHORT)?;
    out.copy_from_slice(bytes);
    Ok(bytes.len())
}

/// The judgement of a model together with its evidence: the number of steps
/// or marked states comes with the trail or sheet.
pub fn evidence_of(graph: &Graph) -> (Judgement, Vec<u8>) {
    evidence_by(graph, with_touch(&Components::new(graph)))
}

/// The same of a model with a joint reset, whose trail has no touch.
pub fn joint_evidence_of(graph: &Graph) -> (Judgement, Vec<u8>) {
    evidence_by(graph, WITHOUT_TOUCH)
}

fn evidence_by(graph: &Graph, closure: Closure) -> (Judgement, Vec<u8>) {
    let marked = reached(graph, closure);
    let is_unsafe = is_unsafe(graph, &marked);
    let (count, bytes) = if is_unsafe {
        let trail = trail_by(graph, closure);
        (trail.len(), spell_trail(graph, &trail))
    } else {
        // Heights come from the closed walks, whether touches needed them or not.
        let sheet = match closure.touch {
            Some(components) => our_sheet(graph, components, &marked),
            None => our_sheet(graph, &Components::new(graph), &marked),
        };
        (marked.iter().filter(|&&mark| mark).count(), sheet)
    };
    (
        Judgement {
            is_unsafe,
            states: graph.states(),
            count,
        },
        bytes,
    )
}

/// Our trail of an unsafe model, of the chosen steps.
fn trail_by(graph: &Graph, closure: Closure) -> Vec<TrailStep> {
    let reversed = graph.reversed();
    let distance = distance_to_forbidden(graph, closure, &reversed);
    our_trail(graph, closure, &reversed, &distance)
}

/// Writes our sheet or trail; gives the verdict (true for unsafe) and the
/// number of bytes written.
pub fn write_evidence(
    model: &[u8],
    scratch: Scratch,
    out: &mut [u8],
) -> Result<(bool, usize), Refusal> {
    let (judgement, written) = judge_and_write(model, scratch, out)?;
    Ok((judgement.is_unsafe, written))
}

/// Like `write_evidence`, with the whole judgement.
pub fn judge_and_write(
    model: &[u8],
    scratch: Scratch,
    out: &mut [u8],
) -> Result<(Judgement, usize), Refusal> {
    let (judgement, bytes) = evidence_of(&accept(model, scratch)?);
    Ok((judgement, put_first(&bytes, out)?))
}

/// Like `write_evidence`, of plans with a joint reset: the same sheet, or our trail
/// without a touch.
pub fn write_joint(
    model: &[u8],
    scratch: Scratch,
    out: &mut [u8],
) -> Result<(bool, usize), Refusal> {
    let (judgement, written) = judge_and_write_joint(model, scratch, out)?;
    Ok((judgement.is_unsafe, written))
}

/// Like `write_joint`, with the whole judgement.
pub fn judge_and_write_joint(
    model: &[u8],
    scratch: Scratch,
    out: &mut [u8],
) -> Result<(Judgement, usize), Refusal> {
    let (judgement, bytes) = joint_evidence_of(&accept_joint(model, scratch)?);
    Ok((judgement, put_first(&bytes, out)?))
}

/// Checks evidence: 1 for a passing sheet, 2 for a passing trail.
pub fn check_evidence(model: &[u8], evidence: &[u8], scratch: Scratch) -> Result<u32, Refusal> {
    check(&accept(model, scratch)?, evidence)
}

/// Writes the shortest form of a model, with the mark that it has, and gives the
/// number of its bytes.
pub fn write_plan(model: &[u8], out: &mut [u8]) -> Result<usize, Refusal> {
    put_first(&shortest_plan(&read_plan(model)?), out)
}

/// The rounds in which the marked set is found. No scratch is lent, so that none
/// is too short.
pub fn rounds(model: &[u8]) -> Result<Rounds, Refusal> {
    let graph = Graph::new(read_model(model)?);
    let levels = levels(&graph, with_touch(&Components::new(&graph)));
    Ok(Rounds {
        rounds: levels.len(),
        marked: levels.iter().map(Vec::len).sum(),
    })
}

/// The least time, in units, in which a run with perfect clocks gets to a
/// location. The number is tested whole, before it is used as one of ours.
pub fn soonest(model: &[u8], location: u64, scratch: Scratch) -> Result<u64, Refusal> {
    let graph = accept(model, scratch)?;
    if location >= graph.model.locations.len() as u64 {
        return Err(NEVER_THERE);
    }
    least_time(&graph, location as usize).ok_or(NEVER_THERE)
}

/// The room that a plan needs. All of the plan is read, for its refusals, but the
/// header alone decides.
pub fn room(model: &[u8]) -> Result<Room, Refusal> {
    let states = states_of(&read_model(model)?);
    Ok(Room {
        states,
        scratch: states,
        sheet: most_bytes(states),
        // A shortest way is in no state twice.
        steps: states - 1,
    })
}

/// The margin of the sheet that we write for a safe model.
pub fn sheet_margin(model: &[u8], scratch: Scratch) -> Result<SheetMargin, Refusal> {
    let graph = accept(model, scratch)?;
    let components = Components::new(&graph);
    let marked = marked_set(&graph, &components);
    let states = graph.states();
    if is_unsafe(&graph, &marked) {
        return Ok(SheetMargin::Unsafe { states });
    }
    let margin = by_sheet(&graph, &components, &marked);
    Ok(SheetMargin::Safe { states, margin })
}

/// The harm of the trail that we write for an unsafe model.
pub fn harm(model: &[u8], scratch: Scratch) -> Result<Harm, Refusal> {
    let graph = accept(model, scratch)?;
    let components = Components::new(&graph);
    let marked = marked_set(&graph, &components);
    let states = graph.states();
    if !is_unsafe(&graph, &marked) {
        return Ok(Harm::Safe { states });
    }
    let trail = trail_by(&graph, with_touch(&components));
    let bound = Bound::of_trail(&graph, &trail);
    Ok(Harm::Within { states, bound })
}
