//! `encode`: the model bytes of a plan.

use super::{Command, OUTPUT};
use crate::args::{Arguments, Takes};
use crate::files;
use crate::outcome::{Failure, Outcome};
use plan::input::plan_in;

pub const COMMAND: Command = Command {
    name: "encode",
    summary: "the model bytes of a plan, in shortest numbers",
    details: "Names and real units are no part of them. A stay limit that spells out what a \
              blank one means comes out as it is; shorten drops it.",
    takes: Takes {
        operands: "PLAN",
        count: 1..=1,
        options: &[&OUTPUT],
    },
    run,
};

fn run(arguments: &Arguments) -> Result<Outcome, Failure> {
    let file = &arguments.operands[0];
    let plan = plan_in(file, &files::read(file)?).map_err(Failure::refused)?;
    Ok(Outcome::done(plan::bytes::encode(&plan)))
}
