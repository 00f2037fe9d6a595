//! `draw`: a plan as a picture.

use super::{check, source, Command, OUTPUT};
use crate::args::{Arguments, Opt, Takes};
use crate::files;
use crate::library::Library;
use crate::outcome::{Failure, Outcome, Status};
use crate::report::verdict_line;
use crate::source::Accepted;
use plan::draw::{draw, Heading};
use plan::input::plan_in;
use plan::sheet::is_sheet;
use plan::trail::read_trail;

const PLAIN: Opt = Opt {
    name: "--plain",
    value: None,
    about: "draw the plan alone, and judge nothing",
};

pub const COMMAND: Command = Command {
    name: "draw",
    summary: "a plan as an SVG picture, with its verdict and a trail",
    details: "Without EVIDENCE the trail is ours; with it, that one, once the proved check \
              has passed it. A safe plan has no trail. With mark 2 a blank stay limit below \
              the ceiling is shown, and told apart: (last edge). An edge that can never open \
              is dotted.",
    takes: Takes {
        operands: "PLAN [EVIDENCE]",
        count: 1..=2,
        options: &[&PLAIN, &OUTPUT],
    },
    run,
};

fn run(arguments: &Arguments) -> Result<Outcome, Failure> {
    let file = &arguments.operands[0];
    if arguments.has(&PLAIN) {
        return plain(arguments, file);
    }
    let mut library = Library::default();
    let facts = source(arguments, file)?.facts(&mut library)?;
    let evidence = match arguments.operands.get(1) {
        Some(file) => {
            let accepted = Accepted {
                plan: facts.plan.clone(),
                model: facts.model.clone(),
            };
            passing(&mut library, &accepted, file)?
        }
        None => facts.story().to_vec(),
    };
    let trail = (!is_sheet(&evidence)).then(|| read_trail(&facts.plan, &evidence).steps);
    let verdict = verdict_line(&facts);
    let heading = Heading {
        title: &facts.title,
        verdict: Some(&verdict),
    };
    Ok(Outcome::done(draw(&facts.plan, &heading, trail.as_deref())))
}

fn plain(arguments: &Arguments, file: &str) -> Result<Outcome, Failure> {
    if arguments.operands.len() > 1 {
        let words = "zervuldo draw: --plain draws no evidence; leave one of them out\n";
        return Err(Failure::failed(words));
    }
    let plan = plan_in(file, &files::read(file)?).map_err(Failure::refused)?;
    let heading = Heading {
        title: &files::title(file),
        verdict: None,
    };
    Ok(Outcome::done(draw(&plan, &heading, None)))
}

/// Evidence that the proved check passes.
fn passing(library: &mut Library, accepted: &Accepted, file: &str) -> Result<Vec<u8>, Failure> {
    let evidence = check::read(file)?;
    match library.check(&accepted.model, &evidence) {
        Ok(_) => Ok(evidence),
        Err(refusal) => Err(Failure {
            status: Status::Bad,
            message: format!("{file}: {}", check::fails(accepted, &evidence, refusal)),
        }),
    }
}
