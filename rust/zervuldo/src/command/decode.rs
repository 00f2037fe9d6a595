//! `decode`: a plan as text.

use super::{Command, OUTPUT};
use crate::args::{Arguments, Takes};
use crate::files;
use crate::outcome::{Failure, Outcome};
use plan::input::plan_in;
use plan::print::write_text;

pub const COMMAND: Command = Command {
    name: "decode",
    summary: "a plan as text, from its bytes",
    details: "Bytes hold no names: clocks become x, y, z and locations L0, L1 and so on. The \
              mark is told where it is 2, and blank stay limits stay blank.",
    takes: Takes {
        operands: "PLAN",
        count: 1..=1,
        options: &[&OUTPUT],
    },
    run,
};

fn run(arguments: &Arguments) -> Result<Outcome, Failure> {
    let file = &arguments.operands[0];
    let plan = plan_in(file, &files::read(file)?).map_err(Failure::refused)?;
    Ok(Outcome::done(write_text(&plan)))
}
