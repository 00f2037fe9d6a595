//! `check`: evidence from anywhere against a plan, by the proved check.

use super::{answer, source, Command, JSON, OUTPUT};
use crate::args::{Arguments, Takes};
use crate::files;
use crate::json::Json;
use crate::library::Library;
use crate::outcome::{Failure, Outcome, Status};
use crate::source::Accepted;
use drift::{Kind, Refusal};
use plan::explain::{about, refusal_words};
use plan::input::evidence_in;

pub const COMMAND: Command = Command {
    name: "check",
    summary: "say whether evidence from anywhere passes for a plan",
    details: "The proved check decides; it rests on no search. A sheet that passes shows \
              that the plan is safe, a trail that it is unsafe. Evidence that fails is \
              refused in words, with the place in its bytes.",
    takes: Takes {
        operands: "PLAN EVIDENCE",
        count: 2..=2,
        options: &[&JSON, &OUTPUT],
    },
    run,
};

fn run(arguments: &Arguments) -> Result<Outcome, Failure> {
    let [plan, evidence] = &arguments.operands[..] else {
        unreachable!("two operands are taken")
    };
    let accepted = source(arguments, plan)?.accepted()?;
    let evidence = read(evidence)?;
    let found = Library::default().check(&accepted.model, &evidence);
    let status = match found {
        Ok(_) => Status::Good,
        Err(_) => Status::Bad,
    };
    let output = match arguments.has(&JSON) {
        true => format!("{}\n", found_json(&accepted, &evidence, found)),
        false => found_words(&accepted, &evidence, found),
    };
    Ok(answer(output, status))
}

/// The evidence in a file.
pub fn read(file: &str) -> Result<Vec<u8>, Failure> {
    evidence_in(file, &files::read(file)?).map_err(Failure::refused)
}

fn found_words(accepted: &Accepted, evidence: &[u8], found: Result<Kind, Refusal>) -> String {
    match found {
        Ok(Kind::Sheet) => "passes: a sheet, which shows that the plan is safe\n".to_string(),
        Ok(Kind::Trail) => "passes: a trail, which shows that the plan is unsafe\n".to_string(),
        Err(refusal) => fails(accepted, evidence, refusal),
    }
}

/// The refusal in words, and where in the evidence it is.
pub fn fails(accepted: &Accepted, evidence: &[u8], refusal: Refusal) -> String {
    let number = refusal.number();
    let meaning = refusal_words(number).unwrap_or_default();
    let place = about(number, Ok(&accepted.plan), Some(evidence));
    format!("fails: {meaning}{place}")
}

fn found_json(accepted: &Accepted, evidence: &[u8], found: Result<Kind, Refusal>) -> Json {
    match found {
        Ok(kind) => Json::Object(vec![
            ("passes", Json::Bool(true)),
            ("kind", Json::text(kind.to_string())),
        ]),
        Err(refusal) => Json::Object(vec![
            ("passes", Json::Bool(false)),
            ("refusal", Json::number(refusal.number())),
            ("message", Json::text(fails(accepted, evidence, refusal))),
        ]),
    }
}
