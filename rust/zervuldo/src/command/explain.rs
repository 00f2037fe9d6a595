//! `explain`: a refusal in words, and what in a plan or evidence it is about.

use super::{check, Command, OUTPUT};
use crate::args::{Arguments, Takes};
use crate::files;
use crate::outcome::{Failure, Outcome};
use drift::Refusal;
use plan::explain::{about, refusal_words};
use plan::input::content_of;

pub const COMMAND: Command = Command {
    name: "explain",
    summary: "a refusal in words, and where it is",
    details: "NUMBER is the number of the refusal, 1 to 17. With a plan, and evidence for \
              it, the place is shown too.",
    takes: Takes {
        operands: "NUMBER [PLAN [EVIDENCE]]",
        count: 1..=3,
        options: &[&OUTPUT],
    },
    run,
};

fn run(arguments: &Arguments) -> Result<Outcome, Failure> {
    let [number, files @ ..] = &arguments.operands[..] else {
        unreachable!("an operand is taken")
    };
    let number = number_of(number)?;
    let mut words = refusal_words(number).unwrap_or_default();
    if let Some(file) = files.first() {
        let content = content_of(file, &files::read(file)?).map_err(Failure::refused)?;
        let evidence = files.get(1).map(|file| check::read(file)).transpose()?;
        words += &about(number, content.plan.as_ref(), evidence.as_deref());
    }
    Ok(Outcome::done(words))
}

fn number_of(word: &str) -> Result<u8, Failure> {
    let wrong = |words: String| Failure::failed(format!("zervuldo explain: {words}\n"));
    let Ok(number) = word.parse::<u8>() else {
        return Err(wrong(format!("'{word}' is no number of a refusal")));
    };
    let refusal = Refusal::try_from(number).map_err(|error| wrong(error.to_string()))?;
    Ok(refusal.number())
}
