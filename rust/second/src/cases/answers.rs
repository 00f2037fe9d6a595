//! What the proved program prints for the text of cases.

use super::{listed, MOST};
use crate::calls::{check_evidence, harm, judge, marks, room, rounds, sheet_margin, soonest};
use crate::calls::{judge_joint, marks_joint, write_joint, Judgement};
use crate::calls::{states_of, write_evidence, write_plan, Harm, Scratch, SheetMargin};
use crate::margin::by_drawing;
use crate::model::read_model;
use crate::program::bytes_of_text;
use crate::refusal::{Refusal, NEVER_THERE, NO_JOINT_RESET, OUTPUT_TOO_SHORT};

/// What the output holds at first.
const DIRT: u8 = 7;

/// The lines that the program prints: all but the plans, a case with its
/// answer behind it. Scratch and output have this length where a line does
/// not say.
pub fn answers(text: &str, length: usize) -> Result<String, String> {
    let mut printed = String::new();
    let mut model = Vec::new();
    let mut lines = text.lines();
    while let Some(line) = lines.next() {
        printed += line;
        if line.starts_with('-') {
            model = bytes_of_text(lines.next().ok_or("a plan is missing")?)?;
        } else if !line.starts_with('#') {
            printed += &format!(": {}", answer(&model, line, length)?);
        }
        printed.push('\n');
    }
    Ok(printed)
}

/// 01's number and values; also how much of the scratch is zero, and the
/// output, where they are lent.
fn answer(model: &[u8], line: &str, length: usize) -> Result<String, String> {
    let (word, rest) = line.split_once(' ').unwrap_or((line, ""));
    // A location stands before the lengths.
    let (location, rest) = match word {
        "soonest" => rest.split_once(' ').unwrap_or((rest, "")),
        _ => ("", rest),
    };
    let lent = lengths(rest)?;
    let lent = |k: usize| lent.get(k).map_or(length, |&length| length.min(MOST));
    let scratch = |k: usize| [k, k + 1, k + 2, k + 3].map(lent);
    Ok(match word {
        "judge" => judge_answer(model, judge(model, scratch(0))),
        "marks" => marks_answer(model, marks, scratch(1), lent(0)),
        "write" => write_answer(model, write_evidence, scratch(1), lent(0)),
        "judge_joint" => judge_answer(model, judge_joint(model, scratch(0))),
        "marks_joint" => marks_answer(model, marks_joint, scratch(1), lent(0)),
        "write_joint" => write_answer(model, write_joint, scratch(1), lent(0)),
        "plan" => plan_answer(model, lent(0)),
        "margin" => margin_answer(model),
        "sheet_margin" => sheet_margin_answer(model, scratch(0)),
        "harm" => harm_answer(model, scratch(0)),
        "rounds" => rounds_answer(model),
        "room" => room_answer(model),
        "soonest" => soonest_answer(model, location, scratch(0))?,
        _ => {
            let evidence = bytes_of_text(line)?;
            let kind = check_evidence(model, &evidence, [length; 4]);
            told(kind.map(|kind| vec![kind as usize]))
        }
    })
}

/// The lengths on a line of an operation.
fn lengths(rest: &str) -> Result<Vec<usize>, String> {
    let words = rest.split(',').filter(|word| !word.is_empty());
    words
        .map(|word| word.parse().map_err(|_| format!("not a length: {word}")))
        .collect()
}

/// The number, and behind 0 the values.
fn told(answer: Result<Vec<usize>, Refusal>) -> String {
    match answer {
        Ok(values) => {
            let words = values.iter().map(|value| format!(" {value}"));
            format!("0{}", words.collect::<String>())
        }
        Err(refusal) => refusal.to_string(),
    }
}

/// "A call past number 8 leaves their first S at zero and the rest untouched;
/// earlier, untouched."
fn zeros<T>(model: &[u8], answer: &Result<T, Refusal>) -> String {
    let cleared = match answer {
        Ok(_) | Err(OUTPUT_TOO_SHORT | NEVER_THERE | NO_JOINT_RESET) => {
            read_model(model).map_or(0, |model| states_of(&model))
        }
        Err(_) => 0,
    };
    format!(", zero{}", format!(" {cleared}").repeat(4))
}

/// A call that writes to the output.
type Call<T> = fn(&[u8], Scratch, &mut [u8]) -> Result<T, Refusal>;

fn judge_answer(model: &[u8], found: Result<Judgement, Refusal>) -> String {
    let zeros = zeros(model, &found);
    let values = found.map(|found| vec![found.is_unsafe.into(), found.states, found.count]);
    told(values) + &zeros
}

fn marks_answer(model: &[u8], call: Call<usize>, scratch: Scratch, output: usize) -> String {
    let mut out = vec![DIRT; output];
    let found = call(model, scratch, &mut out);
    let zeros = zeros(model, &found);
    let bytes: String = out.iter().map(u8::to_string).collect();
    told(found.map(|states| vec![states])) + &zeros + &shown(bytes)
}

fn write_answer(
    model: &[u8],
    call: Call<(bool, usize)>,
    scratch: Scratch,
    output: usize,
) -> String {
    let mut out = vec![DIRT; output];
    let found = call(model, scratch, &mut out);
    let zeros = zeros(model, &found);
    let values = found.map(|(is_unsafe, bytes)| vec![is_unsafe.into(), bytes]);
    told(values) + &zeros + &shown(listed(&out))
}

fn plan_answer(model: &[u8], output: usize) -> String {
    let mut out = vec![DIRT; output];
    let found = write_plan(model, &mut out);
    told(found.map(|bytes| vec![bytes])) + &shown(listed(&out))
}

fn shown(bytes: String) -> String {
    format!(", out {bytes}").trim_end().to_string()
}

fn margin_answer(model: &[u8]) -> String {
    told(read_model(model).map(|model| vec![states_of(&model), by_drawing(&model)]))
}

fn sheet_margin_answer(model: &[u8], scratch: Scratch) -> String {
    let found = sheet_margin(model, scratch);
    let zeros = zeros(model, &found);
    let values = found.map(|found| match found {
        SheetMargin::Safe { states, margin } => vec![0, states, margin as usize],
        SheetMargin::Unsafe { states } => vec![1, states, 0],
    });
    told(values) + &zeros
}

fn harm_answer(model: &[u8], scratch: Scratch) -> String {
    let found = harm(model, scratch);
    let zeros = zeros(model, &found);
    let values = found.map(|found| match found {
        Harm::Safe { states } => vec![0, states, 0, 0],
        Harm::Within { states, bound } => {
            vec![1, states, bound.base as usize, bound.rate as usize]
        }
    });
    told(values) + &zeros
}

fn rounds_answer(model: &[u8]) -> String {
    told(rounds(model).map(|found| vec![found.rounds, found.marked]))
}

fn room_answer(model: &[u8]) -> String {
    told(room(model).map(|found| vec![found.states, found.scratch, found.sheet, found.steps]))
}

fn soonest_answer(model: &[u8], location: &str, scratch: Scratch) -> Result<String, String> {
    let location = location
        .parse()
        .map_err(|_| format!("not a location: {location}"))?;
    let found = soonest(model, location, scratch);
    let zeros = zeros(model, &found);
    Ok(told(found.map(|time| vec![time as usize])) + &zeros)
}
