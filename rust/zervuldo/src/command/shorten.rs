//! `shorten`: a plan in its shortest form, by the proved writer.

use super::{answer, source, Command, OUTPUT};
use crate::args::{Arguments, Opt, Takes};
use crate::files;
use crate::outcome::{Failure, Outcome, Status};
use crate::spelling::Spelling;
use plan::input::Form;
use plan::print::write_list;

const CHECK: Opt = Opt {
    name: "--check",
    value: None,
    about: "write no plan, but say whether it is in its shortest form; if not, the status is 1",
};

pub const COMMAND: Command = Command {
    name: "shorten",
    summary: "a plan in its shortest form, the same bytes for the same plan",
    details: "The proved writer spells each number in the fewest bytes, and as 0 a stay limit \
              that is the default: with mark 1 the ceiling, with mark 2 the greatest high of \
              the edges that leave the location, or the ceiling where none does. The plan \
              stays the same, and keeps its mark. Bytes come out as bytes, a list \
              of numbers as a list on one line, without its comments. A text comes out as \
              bytes: its names, units and comments are no part of them. FILE may be PLAN \
              itself, unless that is a text. With --check a text counts as the bytes that \
              encode makes of it, and a list as the bytes in it.",
    takes: Takes {
        operands: "PLAN",
        count: 1..=1,
        options: &[&CHECK, &OUTPUT],
    },
    run,
};

fn run(arguments: &Arguments) -> Result<Outcome, Failure> {
    let file = &arguments.operands[0];
    let output = arguments.value(&OUTPUT);
    if arguments.has(&CHECK) && output.is_some() {
        return Err(wrong("--check writes no plan; leave out --check or -o"));
    }
    let spelling = source(arguments, file)?.spelling()?;
    if arguments.has(&CHECK) {
        return Ok(checked(file, &spelling));
    }
    let is_text = spelling.form == Form::Text;
    if is_text && output.is_some_and(|output| files::are_one(file, output)) {
        let words = format!("{file} is a text, which its bytes would replace; name another file");
        return Err(wrong(&words));
    }
    Ok(Outcome::done(match spelling.form {
        Form::List => write_list(&spelling.shortest).into_bytes(),
        Form::Text | Form::Bytes => spelling.shortest,
    }))
}

fn checked(file: &str, spelling: &Spelling) -> Outcome {
    let status = match spelling.is_shortest() {
        true => Status::Good,
        false => Status::Bad,
    };
    answer(format!("{file}: {}\n", spelling.words()), status)
}

fn wrong(words: &str) -> Failure {
    Failure::failed(format!("zervuldo shorten: {words}\n"))
}
