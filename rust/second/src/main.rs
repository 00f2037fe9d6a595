//! The command. Answers, refusals too, go to standard output with status 0;
//! wrong arguments and unreadable files go to standard error with status 2.

use second::bench::bench;
use second::calls::check_evidence;
use second::cases::{answers, cases};
use second::generate::{generate, shares, KINDS};
use second::mutate;
use second::program::{bytes_of_text, evidence_bytes, marks_bytes, shortest_bytes};
use second::program::{harm_lines, judge_lines, margin_lines};
use second::program::{joint_evidence_bytes, joint_judge_lines, joint_marks_bytes};
use second::program::{refusal_line, room_lines, soonest_line, OUTPUT, SCRATCH};
use std::io::{Read, Write};
use std::process::ExitCode;
use std::str::FromStr;

fn usage() -> String {
    format!(
        "\
second judge FILE|- [SCRATCH]            three lines, or the refusal line
second evidence FILE|- [SCRATCH]         evidence bytes, or the refusal line
second marks FILE|- [SCRATCH]            one byte per state, 1 or 0, or the refusal line
second judge-joint FILE|- [SCRATCH]      the same of a plan with a joint reset
second evidence-joint FILE|- [SCRATCH]
second marks-joint FILE|- [SCRATCH]
second margin FILE|- [SCRATCH]           three lines with our sheet's margin, or the refusal line
second harm FILE|- [SCRATCH]             three lines with our trail's harm, or the refusal line
second soonest FILE|- LOCATION [SCRATCH] the least time to a location, or the refusal line
second check MODEL EVIDENCE [SCRATCH]    passes 1, passes 2, or the refusal line
second shortest FILE|- [--output N]      the model's shortest bytes, or the refusal line
second room FILE|-                       four lines with the room it needs, or the refusal line
second generate SEED KIND                a model's bytes
second generate --kinds                  the kinds
second generate --shares [COUNT]         shares of kinds, refusals, classes and marks
second mutate SEED MODEL EVIDENCE [KIND] changed evidence
second mutate --kinds                    the kinds of change
second cases                             cases of operations and evidence
second answers FILE|- [SCRATCH]          those cases with their answers
second bench                             timings

A file whose name ends in .plan holds bytes as text; - is standard input.
--scratch N and --output N change the lengths lent ({SCRATCH} and {OUTPUT}).
"
    )
}

fn main() -> ExitCode {
    match run(std::env::args().skip(1).collect()) {
        Ok(bytes) => {
            // A reader that went away is no failure of this program.
            let _ = std::io::stdout().write_all(&bytes);
            ExitCode::SUCCESS
        }
        Err(message) => {
            eprintln!("{message}");
            ExitCode::from(2)
        }
    }
}

fn run(mut arguments: Vec<String>) -> Result<Vec<u8>, String> {
    let mut scratch = take_flag(&mut arguments, "--scratch")?.unwrap_or(SCRATCH);
    let output = take_flag(&mut arguments, "--output")?.unwrap_or(OUTPUT);
    let mut words: Vec<&str> = arguments.iter().map(String::as_str).collect();
    // A last argument may give the scratch length too.
    let files = match words.first() {
        Some(&("judge" | "evidence" | "marks" | "margin" | "harm" | "answers")) => 1,
        Some(&("judge-joint" | "evidence-joint" | "marks-joint")) => 1,
        Some(&("check" | "soonest")) => 2,
        _ => usize::MAX,
    };
    if words.len().checked_sub(2) == Some(files) {
        scratch = number(words.pop().expect("a last argument"))?;
    }
    match words.as_slice() {
        ["judge", file] => Ok(judge_lines(&read(file)?, scratch, output).into_bytes()),
        ["evidence", file] => Ok(evidence_bytes(&read(file)?, scratch, output)),
        ["marks", file] => Ok(marks_bytes(&read(file)?, scratch, output)),
        ["judge-joint", file] => Ok(joint_judge_lines(&read(file)?, scratch, output).into_bytes()),
        ["evidence-joint", file] => Ok(joint_evidence_bytes(&read(file)?, scratch, output)),
        ["marks-joint", file] => Ok(joint_marks_bytes(&read(file)?, scratch, output)),
        ["margin", file] => Ok(margin_lines(&read(file)?, scratch).into_bytes()),
        ["harm", file] => Ok(harm_lines(&read(file)?, scratch).into_bytes()),
        ["soonest", file, location] => {
            Ok(soonest_line(&read(file)?, number(location)?, scratch).into_bytes())
        }
        ["check", model, evidence] => {
            Ok(check_line(&read(model)?, &read(evidence)?, scratch).into_bytes())
        }
        ["shortest", file] => Ok(shortest_bytes(&read(file)?, output)),
        ["room", file] => Ok(room_lines(&read(file)?).into_bytes()),
        ["generate", rest @ ..] => generated(rest),
        ["mutate", rest @ ..] => mutated(rest),
        ["cases"] => Ok(cases().into_bytes()),
        ["answers", file] => answered(file, scratch),
        ["bench"] => {
            bench(|line| println!("{line}"));
            Ok(Vec::new())
        }
        _ => Err(usage()),
    }
}

fn check_line(model: &[u8], evidence: &[u8], scratch: usize) -> String {
    match check_evidence(model, evidence, [scratch; 4]) {
        Ok(passes) => format!("passes {passes}\n"),
        Err(refusal) => refusal_line(refusal),
    }
}

fn answered(file: &str, scratch: usize) -> Result<Vec<u8>, String> {
    let text = String::from_utf8(read(file)?).map_err(|_| format!("{file}: not text"))?;
    Ok(answers(&text, scratch)?.into_bytes())
}

fn generated(words: &[&str]) -> Result<Vec<u8>, String> {
    match words {
        ["--kinds"] => Ok(KINDS.map(|kind| format!("{kind}\n")).concat().into_bytes()),
        ["--shares"] => Ok(shares(1_000).into_bytes()),
        ["--shares", count] => Ok(shares(number(count)?).into_bytes()),
        [seed, kind] => {
            generate(number(seed)?, kind).ok_or(format!("no kind {kind}; see generate --kinds"))
        }
        _ => Err(usage()),
    }
}

fn mutated(words: &[&str]) -> Result<Vec<u8>, String> {
    match words {
        ["--kinds"] => Ok(mutate::KINDS
            .map(|(kind, what)| format!("{kind}: {what}\n"))
            .concat()
            .into_bytes()),
        [seed, model, evidence] => {
            Ok(mutate::mutate(number(seed)?, &read(model)?, &read(evidence)?).1)
        }
        [seed, model, evidence, kind] => {
            mutate::mutate_as(number(seed)?, kind, &read(model)?, &read(evidence)?).ok_or(format!(
                "the change {kind} does not apply; see mutate --kinds"
            ))
        }
        _ => Err(usage()),
    }
}

/// Takes a flag and its value out of the arguments.
fn take_flag(arguments: &mut Vec<String>, flag: &str) -> Result<Option<usize>, String> {
    let Some(at) = arguments.iter().position(|argument| argument == flag) else {
        return Ok(None);
    };
    let value = arguments
        .get(at + 1)
        .ok_or(format!("{flag} needs a number"))?;
    let value = number(value)?;
    arguments.drain(at..at + 2);
    Ok(Some(value))
}

fn number<T: FromStr>(word: &str) -> Result<T, String> {
    word.parse().map_err(|_| format!("not a number: {word}"))
}

fn read(file: &str) -> Result<Vec<u8>, String> {
    if file == "-" {
        let mut bytes = Vec::new();
        std::io::stdin()
            .read_to_end(&mut bytes)
            .map_err(|error| error.to_string())?;
        return Ok(bytes);
    }
    let bytes = std::fs::read(file).map_err(|error| format!("{file}: {error}"))?;
    if file.ends_with(".plan") {
        let text = String::from_utf8(bytes).map_err(|_| format!("{file}: not text"))?;
        return bytes_of_text(&text).map_err(|error| format!("{file}: {error}"));
    }
    Ok(bytes)
}
