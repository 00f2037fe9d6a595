//! Refusals in words, and what in a given model or evidence they are about.

use crate::bytes::encode;
use crate::flaw::{Flaw, Numbers};
use crate::loops::{disjoint_loops, uncounted_words};
use crate::sheet::read_sheet;
use crate::trail::read_trail;
use crate::{Plan, CEILING_MARK, EDGES_MARK};
use second::calls::states_of;
use second::limits::{MAX_CEILING, MAX_CLOCKS, MAX_EDGES, MAX_LOCATIONS};
use second::numbers::shortest;
use second::program::SCRATCH;
use second::refusal::{
    Refusal, BAD_HEADER, LAST, NEVER_THERE, NO_EVIDENCE, NO_JOINT_RESET, OUTPUT_TOO_SHORT,
    SCRATCH_TOO_SHORT,
};
use second::sheet::{greatest_number, SHEET};
use second::trail::TRAIL;

/// What each refusal, from 1 on, means and what to do about it. The advice
/// about a header, which names the limits, is `header_advice`.
const REFUSALS: [(&str, &str); LAST as usize] = [
    (
        "the bytes end too soon",
        "The file stops in the middle of a plan or of evidence. It was probably cut when it \
         was copied: copy it again, or count what the header announces.",
    ),
    (
        "a number is spelt too long",
        "A number takes at most three bytes, and a third byte says that a fourth follows. The \
         file is damaged, or it is no plan or evidence at all.",
    ),
    ("a number of the header is out of range", ""),
    (
        "a number of a location is out of range",
        "A location's kind is 0 (ordinary) or 1 (forbidden); each stay field is one more than \
         the limit, so at most the ceiling plus 1, or 0 if it is left blank. A blank one means \
         the ceiling in a plan with mark 1. With mark 2 it means the greatest high for that \
         clock among the edges that leave the location, or the ceiling where no edge leaves.",
    ),
    (
        "a number of an edge is out of range, or a low is above its high",
        "An edge joins two of the plan's locations, resets only clocks that there are, and \
         opens from a low to a high of each clock, both at most the ceiling, the low not above \
         the high.",
    ),
    (
        "bytes remain at the end",
        "More follows than the plan, sheet or trail needs. Two files may have been joined, or \
         a count in the file is too small.",
    ),
    (
        "a loop of edges leaves a clock unreset",
        "Whoever walks along edges back to where he began must pass a reset of every clock, if \
         each of these edges can open alone: each low is within the stay limit of the location \
         that the edge leaves and, for a clock that it does not reset, of the one that it enters. \
         Let one edge of the loop reset the clock. An edge that can never open does not count. \
         Each edge is looked at by itself, clock by clock, so a loop counts even where its edges \
         never open one after the other.",
    ),
    (
        "the lent scratch memory is too small for the plan",
        "The four scratch slices need one number for each state, and the plan has more states \
         than that. Lend more, or draw a smaller plan: fewer clocks or a lower ceiling help \
         most.",
    ),
    (
        "the lent output is too short",
        "The marks, the evidence or the plan's shortest form do not fit into the output. Nothing \
         was written; lend more bytes.",
    ),
    (
        "the evidence is neither a sheet nor a trail",
        "Evidence begins with 1 (a sheet, for a safe plan) or 2 (a trail, for an unsafe one). \
         Perhaps this file is a plan, or another kind of file.",
    ),
    (
        "a number of the sheet is out of range",
        "Each state's number is at most twice the number of states less one, and 0 where the \
         state is beyond a stay limit. The sheet is damaged or belongs to another plan.",
    ),
    (
        "the sheet breaks a rule",
        "All numbers are in range, but they do not show that the plan is safe: the start must \
         be in, no step may lead out or raise the height, no loop may hide where drift can \
         touch it, and nothing forbidden may be in.",
    ),
    (
        "a step of the trail cannot be taken",
        "Followed from the start, some step is not possible in this plan: the wrong edge, a \
         guard or stay limit not met, a region that is not near, or a loop that does not \
         close. The trail is damaged or belongs to another plan.",
    ),
    (
        "the trail ends in an ordinary location",
        "Every step can be taken, but the last one does not lead into a forbidden location, so \
         the trail shows no danger.",
    ),
    (
        "a number of the evidence is not in shortest form",
        "Evidence goes by radio, so each of its numbers takes as few bytes as it can: one below \
         128, two below 16,384, else three. An empty last byte, 0, makes it too long. Have the \
         evidence written again without padding; a plan may be padded.",
    ),
    (
        "no run with perfect clocks gets to the location, or there is none",
        "The call for the least time alone says so, and neither plan nor evidence is at fault. \
         Locations are numbered from 0. Where there is such a location, it takes drift to get \
         there, or not even slight drift gets there.",
    ),
    (
        "a loop of edges has none that resets every clock",
        "The quicker calls alone say so, and the plan is not at fault: they take plans in which \
         whoever walks along edges that can open, back to where he began, passes one that resets \
         every clock at once. Edges that reset all clocks only together are not enough. The full \
         judge takes every plan.",
    ),
];

fn header_advice() -> String {
    format!(
        "A plan begins with the mark, {CEILING_MARK} or {EDGES_MARK}, then clocks (1 to \
         {MAX_CLOCKS}), ceiling (1 to {MAX_CEILING}), locations (1 to {MAX_LOCATIONS}), edges (0 \
         to {MAX_EDGES}) and the start location, which must be one of the locations. The mark \
         says what a stay field of 0 means: with {CEILING_MARK} the ceiling, with {EDGES_MARK} \
         the greatest high of the edges that leave the location, or the ceiling where none does."
    )
}

/// A refusal in words; none for a number that is no refusal.
pub fn refusal_words(number: Refusal) -> Option<String> {
    let (meaning, advice) = REFUSALS.get(usize::from(number).checked_sub(1)?)?;
    let advice = match number {
        BAD_HEADER => header_advice(),
        _ => advice.to_string(),
    };
    Some(format!("refused {number}: {meaning}\n{advice}\n"))
}

/// What in a plan, and in evidence for it if given, a refusal is about. A plan
/// that could not be read comes as its flaw.
pub fn about(number: Refusal, plan: Result<&Plan, &Flaw>, evidence: Option<&[u8]>) -> String {
    let plan = match plan {
        Err(flaw) => return matching(number, "this plan", flaw),
        Ok(plan) => plan,
    };
    let states = states_of(&plan.model());
    match (number, evidence) {
        (SCRATCH_TOO_SHORT, _) => room_words(states),
        (OUTPUT_TOO_SHORT, _) => {
            // A stay limit is as long spelt out as left blank.
            let (sheet, shortest) = (sheet_room(states), encode(plan).len());
            format!(
                "here: the marks take {states} bytes; a sheet takes at most {sheet}; the plan's \
                 shortest form takes {shortest}\n"
            )
        }
        (NEVER_THERE, _) => {
            let locations = plan.locations.len();
            format!(
                "here: the plan is read without a flaw, and the number of each location is below \
                 {locations}; zervuldo soonest tells which of them have a least time\n"
            )
        }
        (NO_JOINT_RESET, _) => joint_words(plan),
        (_, None) if number > OUTPUT_TOO_SHORT => {
            "here: the plan is read without a flaw; give the evidence too, since this refusal \
             is about it\n"
                .to_string()
        }
        (_, None) => {
            format!("here: this plan has no flaw {number}, nor any other that reading shows\n")
        }
        (_, Some(evidence)) => match read_evidence(plan, evidence) {
            Err(flaw) => matching(number, "this evidence", &flaw),
            Ok(kind) => {
                format!("here: no flaw in this {kind}; the proved check has the last word\n")
            }
        },
    }
}

/// A loop without a joint reset, if there is one.
fn joint_words(plan: &Plan) -> String {
    let Some(found) = disjoint_loops(plan).into_iter().next() else {
        return "here: each loop of edges that can open has one that resets every clock, so the \
                quicker calls take this plan\n"
            .to_string();
    };
    let edges: Vec<String> = found.iter().map(|&at| plan.edge_title(at)).collect();
    let (none, each) = match edges.len() {
        1 => ("", "does not reset every clock, and it"),
        _ => ("none of ", "resets every clock, and each of them"),
    };
    format!(
        "here: {none}{} {each} can open{}\n",
        edges.join(", "),
        uncounted_words(plan)
    )
}

/// The most bytes of a sheet: a mark, then the longest number for each state.
fn sheet_room(states: usize) -> usize {
    let longest = shortest(&[greatest_number(states)]).len();
    1 + longest * states
}

fn room_words(states: usize) -> String {
    let enough = if states <= SCRATCH {
        "so their scratch is enough"
    } else {
        "so they refuse it"
    };
    format!(
        "here: this plan has {states} states; the programs judge and evidence_bytes lend scratch \
         for {SCRATCH}, {enough}\n"
    )
}

fn matching(number: Refusal, what: &str, flaw: &Flaw) -> String {
    if flaw.refusal == number {
        return format!("here: {}\n", flaw.words);
    }
    format!(
        "here: {what} has no such flaw first; it is refused by {}: {}\n",
        flaw.refusal, flaw.words
    )
}

/// Follows evidence of either kind: its name, or its first flaw.
pub fn read_evidence(plan: &Plan, evidence: &[u8]) -> Result<&'static str, Flaw> {
    let mut numbers = Numbers::of_evidence(evidence);
    match numbers.next("the mark of the evidence")? {
        SHEET => read_sheet(plan, evidence).map(|_| "sheet"),
        TRAIL => read_trail(plan, evidence).flaw.map_or(Ok("trail"), Err),
        other => {
            let words =
                format!("the mark of the evidence: it is {other}, but must be {SHEET} or {TRAIL}");
            Err(numbers.flaw(NO_EVIDENCE, &words))
        }
    }
}
