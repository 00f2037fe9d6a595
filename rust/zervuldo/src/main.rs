//! The command; see `zervuldo help`.

use std::io::Write;
use std::process::ExitCode;
use zervuldo::command::run;
use zervuldo::files;
use zervuldo::outcome::{Failure, Outcome};

fn main() -> ExitCode {
    let words: Result<Vec<String>, _> = std::env::args_os()
        .skip(1)
        .map(|word| word.into_string())
        .collect();
    let outcome = match words {
        Ok(words) => run(&words),
        Err(word) => Failure::failed(format!("zervuldo: {word:?} is not UTF-8\n")).into(),
    };
    ended(outcome)
}

/// Says what there is to say; an output that fails is noticed.
fn ended(mut outcome: Outcome) -> ExitCode {
    if !outcome.output.is_empty() {
        if let Err(failure) = files::write(files::STANDARD, &outcome.output) {
            outcome.messages += &failure.message;
            outcome.status = failure.status;
        }
    }
    // There is nowhere left to tell that standard error fails.
    let _ = std::io::stderr().write_all(outcome.messages.as_bytes());
    ExitCode::from(outcome.status as u8)
}
