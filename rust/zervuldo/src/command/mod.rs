//! The subcommands, one in each module: what it takes, what its help says and
//! what it does.

mod check;
mod compare;
mod completion;
mod decode;
mod draw;
mod encode;
mod explain;
mod help;
mod judge;
mod report;
mod room;
mod shorten;
mod soonest;
mod words;

use crate::args::{Arguments, Opt, Takes};
use crate::files;
use crate::outcome::{Failure, Outcome, Status};
use crate::source::Source;
use plan::mistake::guess;
use plan::units::Quantity;
use plan::Units;

/// A subcommand.
pub struct Command {
    pub name: &'static str,
    pub summary: &'static str,
    /// Sentences of the help, one paragraph.
    pub details: &'static str,
    pub takes: Takes,
    run: fn(&Arguments) -> Result<Outcome, Failure>,
}

pub const COMMANDS: [&Command; 14] = [
    &judge::COMMAND,
    &check::COMMAND,
    &report::COMMAND,
    &draw::COMMAND,
    &words::COMMAND,
    &soonest::COMMAND,
    &room::COMMAND,
    &encode::COMMAND,
    &decode::COMMAND,
    &shorten::COMMAND,
    &compare::COMMAND,
    &explain::COMMAND,
    &completion::COMMAND,
    &help::COMMAND,
];

const OUTPUT: Opt = Opt {
    name: "-o",
    value: Some("FILE"),
    about: "write to FILE, not to standard output",
};
const EVIDENCE: Opt = Opt {
    name: "--evidence",
    value: Some("DIR"),
    about: "write the evidence into the folder DIR, and check it there",
};
const JSON: Opt = Opt {
    name: "--json",
    value: None,
    about: "answer in JSON",
};
const UNIT: Opt = Opt {
    name: "--unit",
    value: Some("TIME"),
    about: "how long a unit is, such as 20ms",
};
const CRYSTAL: Opt = Opt {
    name: "--crystal",
    value: Some("PPM"),
    about: "how good the crystals are, such as 50ppm",
};
const BIT_RATE: Opt = Opt {
    name: "--bit-rate",
    value: Some("RATE"),
    about: "bits a second on the ring, such as 19200: signals may come one bit late",
};

/// Ends the words that were given with an outcome.
pub fn run(words: &[String]) -> Outcome {
    let Some((name, rest)) = words.split_first() else {
        return Failure::failed(help::usage()).into();
    };
    match name.as_str() {
        "--help" | "-h" => return Outcome::done(help::usage()),
        "--version" | "-V" => return Outcome::done(help::version()),
        _ => {}
    }
    let Some(command) = COMMANDS.iter().find(|command| command.name == name) else {
        let hint = guess(name, COMMANDS.iter().map(|command| command.name));
        let words = format!("zervuldo: there is no command '{name}'{hint}\n\n");
        return Failure::failed(words + &help::usage()).into();
    };
    let mut options = rest.iter().take_while(|word| *word != "--");
    if options.any(|word| word == "--help" || word == "-h") {
        return Outcome::done(help::of(command));
    }
    command.outcome(rest)
}

impl Command {
    fn outcome(&self, words: &[String]) -> Outcome {
        match Arguments::parse(&self.takes, words) {
            Ok(arguments) => self.delivered(&arguments).unwrap_or_else(Outcome::from),
            Err(wrong) => {
                let (name, words) = (self.name, wrong.message);
                let usage = help::usage_of(self);
                let message = format!("zervuldo {name}: {words}\n{usage}");
                Failure::failed(message).into()
            }
        }
    }

    /// Runs the command, and writes its output where it is wanted.
    fn delivered(&self, arguments: &Arguments) -> Result<Outcome, Failure> {
        let mut outcome = (self.run)(arguments)?;
        if let Some(file) = arguments.value(&OUTPUT) {
            files::write(file, &outcome.output)?;
            outcome.output.clear();
        }
        Ok(outcome)
    }
}

/// A plan's file with what options say of its units.
fn source(arguments: &Arguments, file: &str) -> Result<Source, Failure> {
    Ok(Source {
        file: file.to_string(),
        title: files::title(file),
        content: files::read(file)?,
        units: units(arguments)?,
    })
}

fn units(arguments: &Arguments) -> Result<Units, Failure> {
    let mut units = Units::default();
    for (option, quantity) in [
        (&UNIT, Quantity::Unit),
        (&CRYSTAL, Quantity::Crystal),
        (&BIT_RATE, Quantity::BitRate),
    ] {
        if let Some(text) = arguments.value(option) {
            let value = quantity
                .read(text)
                .map_err(|words| Failure::failed(format!("{}: {words}\n", option.name)))?;
            units.set(quantity, value);
        }
    }
    Ok(units)
}

/// An answer that ends with a status of its own.
fn answer(output: impl Into<Vec<u8>>, status: Status) -> Outcome {
    Outcome {
        status,
        ..Outcome::done(output)
    }
}
