//! The two programs of document 01, the same of plans with a joint reset, what the
//! command tells of drift, of the least time and of room or writes besides, and the text
//! form of byte files.

use crate::calls::{harm, judge_and_write, marks, room, sheet_margin, soonest};
use crate::calls::{judge_and_write_joint, marks_joint, write_joint};
use crate::calls::{write_evidence, write_plan, Harm, Judgement, SheetMargin};
use crate::refusal::Refusal;

/// What the programs lend unless told otherwise.
pub const SCRATCH: usize = 4_000;
pub const OUTPUT: usize = 65_536;

/// The three lines, or the refusal line. The output is lent for the evidence
/// here too, so evidence that is longer gives 9.
pub fn judge_lines(model: &[u8], scratch: usize, output: usize) -> String {
    three_lines(judge_and_write(model, [scratch; 4], &mut vec![0; output]))
}

/// Alike, of a plan with a joint reset.
pub fn joint_judge_lines(model: &[u8], scratch: usize, output: usize) -> String {
    three_lines(judge_and_write_joint(
        model,
        [scratch; 4],
        &mut vec![0; output],
    ))
}

fn three_lines(found: Result<(Judgement, usize), Refusal>) -> String {
    match found {
        Ok((judgement, _)) => {
            let counted = if judgement.is_unsafe { "steps" } else { "in" };
            lines(
                judgement.is_unsafe,
                judgement.states,
                &format!("{counted} {}", judgement.count),
            )
        }
        Err(refusal) => refusal_line(refusal),
    }
}

fn lines(is_unsafe: bool, states: usize, third: &str) -> String {
    let verdict = if is_unsafe { "unsafe" } else { "safe" };
    format!("verdict {verdict}\nstates {states}\n{third}\n")
}

/// Three lines with the margin of our sheet, or the refusal line.
pub fn margin_lines(model: &[u8], scratch: usize) -> String {
    match sheet_margin(model, [scratch; 4]) {
        Ok(SheetMargin::Safe { states, margin }) => {
            lines(false, states, &format!("margin {margin}"))
        }
        Ok(SheetMargin::Unsafe { states }) => lines(true, states, "margin none"),
        Err(refusal) => refusal_line(refusal),
    }
}

/// Three lines with the jumps within which a drift of 1/q does harm, or the
/// refusal line.
pub fn harm_lines(model: &[u8], scratch: usize) -> String {
    match harm(model, [scratch; 4]) {
        Ok(Harm::Safe { states }) => lines(false, states, "jumps none"),
        Ok(Harm::Within { states, bound }) => {
            let jumps = format!("jumps {} + {} q", bound.base, bound.rate);
            lines(true, states, &jumps)
        }
        Err(refusal) => refusal_line(refusal),
    }
}

/// The least time to a location, or the refusal line.
pub fn soonest_line(model: &[u8], location: u64, scratch: usize) -> String {
    match soonest(model, location, [scratch; 4]) {
        Ok(time) => format!("time {time}\n"),
        Err(refusal) => refusal_line(refusal),
    }
}

/// Four lines with the room that a plan needs, or the refusal line.
pub fn room_lines(model: &[u8]) -> String {
    match room(model) {
        Ok(room) => format!(
            "states {}\nscratch {}\nsheet {}\nsteps {}\n",
            room.states, room.scratch, room.sheet, room.steps
        ),
        Err(refusal) => refusal_line(refusal),
    }
}

pub fn refusal_line(refusal: Refusal) -> String {
    format!("refused {refusal}\n")
}

/// The evidence bytes, or the refusal line.
pub fn evidence_bytes(model: &[u8], scratch: usize, output: usize) -> Vec<u8> {
    written(output, |out| {
        let (_, bytes) = write_evidence(model, [scratch; 4], out)?;
        Ok(bytes)
    })
}

/// Alike, of a plan with a joint reset.
pub fn joint_evidence_bytes(model: &[u8], scratch: usize, output: usize) -> Vec<u8> {
    written(output, |out| {
        let (_, bytes) = write_joint(model, [scratch; 4], out)?;
        Ok(bytes)
    })
}

/// A byte for each state, 1 or 0, or the refusal line.
pub fn marks_bytes(model: &[u8], scratch: usize, output: usize) -> Vec<u8> {
    written(output, |out| marks(model, [scratch; 4], out))
}

/// Alike, of a plan with a joint reset.
pub fn joint_marks_bytes(model: &[u8], scratch: usize, output: usize) -> Vec<u8> {
    written(output, |out| marks_joint(model, [scratch; 4], out))
}

/// The shortest form of a model, or the refusal line.
pub fn shortest_bytes(model: &[u8], output: usize) -> Vec<u8> {
    written(output, |out| write_plan(model, out))
}

/// The bytes that a call writes into output of this length, or the refusal line.
fn written(output: usize, call: impl FnOnce(&mut [u8]) -> Result<usize, Refusal>) -> Vec<u8> {
    let mut out = vec![0; output];
    match call(&mut out) {
        Ok(bytes) => {
            out.truncate(bytes);
            out
        }
        Err(refusal) => refusal_line(refusal).into_bytes(),
    }
}

/// Reads the text form of bytes: numbers below 256, set apart by commas,
/// semicolons or white space; # begins a comment that ends with its line.
pub fn bytes_of_text(text: &str) -> Result<Vec<u8>, String> {
    text.lines()
        .flat_map(|line| {
            let line = line.split('#').next().unwrap_or("");
            line.split(|c: char| c == ',' || c == ';' || c.is_whitespace())
        })
        .filter(|word| !word.is_empty())
        .map(|word| word.parse().map_err(|_| format!("not a byte: {word}")))
        .collect()
}

#[cfg(test)]
mod tests {
    use super::*;

    #[test]
    fn text_form() {
        let text = "1,2; 3 # four, 4\n\t255,;0\n#\n";
        assert_eq!(bytes_of_text(text), Ok(vec![1, 2, 3, 255, 0]));
        assert!(bytes_of_text("256").is_err());
        assert!(bytes_of_text("1,x").is_err());
    }
}
