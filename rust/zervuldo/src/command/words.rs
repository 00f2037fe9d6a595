//! `words`: evidence told in words.

use super::{answer, check, source, Command, OUTPUT};
use crate::args::{Arguments, Takes};
use crate::library::Library;
use crate::outcome::{Failure, Outcome, Status};
use crate::source::Accepted;
use drift::Refusal;
use plan::sheet::{is_sheet, read_sheet};
use plan::tell::trail_words;
use plan::trail::read_trail;
use plan::Plan;

pub const COMMAND: Command = Command {
    name: "words",
    summary: "evidence in words, step by step",
    details: "Without EVIDENCE it tells ours. Of a trail that fails it tells the steps that \
              can be followed, then why the proved check refuses it.",
    takes: Takes {
        operands: "PLAN [EVIDENCE]",
        count: 1..=2,
        options: &[&OUTPUT],
    },
    run,
};

fn run(arguments: &Arguments) -> Result<Outcome, Failure> {
    let source = source(arguments, &arguments.operands[0])?;
    let mut library = Library::default();
    let Some(file) = arguments.operands.get(1) else {
        let facts = source.facts(&mut library)?;
        return Ok(Outcome::done(passing_words(&facts.plan, facts.story())));
    };
    let accepted = source.accepted()?;
    let evidence = check::read(file)?;
    Ok(match library.check(&accepted.model, &evidence) {
        Ok(_) => Outcome::done(passing_words(&accepted.plan, &evidence)),
        Err(refusal) => answer(failing_words(&accepted, &evidence, refusal), Status::Bad),
    })
}

/// Evidence that passes.
fn passing_words(plan: &Plan, evidence: &[u8]) -> String {
    if !is_sheet(evidence) {
        return trail_words(plan, &read_trail(plan, evidence));
    }
    match read_sheet(plan, evidence) {
        Ok(tally) => format!(
            "a sheet: of {} states {} are in, none of them forbidden, and no drift below the \
             margin leads out of them\n",
            tally.states, tally.inside
        ),
        Err(flaw) => format!(
            "a sheet that passes, though it reads as if not: {}\n",
            flaw.words
        ),
    }
}

/// The steps of a failing trail up to what is wrong.
fn failing_words(accepted: &Accepted, evidence: &[u8], refusal: Refusal) -> String {
    let reading = read_trail(&accepted.plan, evidence);
    if reading.steps.is_empty() {
        return check::fails(accepted, evidence, refusal);
    }
    let followed = trail_words(&accepted.plan, &reading);
    let number = refusal.number();
    format!("{followed}fails by the proved check, refused {number}: {refusal}\n")
}
