//! What the command says of itself: help, the man page, its version.

use super::{Command, COMMANDS};
use crate::args::{Arguments, Opt, Takes};
use crate::outcome::{Failure, Outcome};
use crate::text::{columns, wrapped};
use plan::mistake::guess;

const MAN: Opt = Opt {
    name: "--man",
    value: None,
    about: "print the man page",
};

pub const COMMAND: Command = Command {
    name: "help",
    summary: "tell what the commands do",
    details: "Without a name it lists them all.",
    takes: Takes {
        operands: "[COMMAND]",
        count: 0..=1,
        options: &[&MAN, &super::OUTPUT],
    },
    run,
};

const ABOUT: &str = "judge the timing of fire-alarm rings under drift";

const PURPOSE: &str = "\
Decides whether drift of the clocks, however slight, added up for ever, can \
bring a ring into a forbidden location, and gives evidence that anyone can \
check. Verdicts, evidence and its check, margins, the jumps before harm, least \
times with perfect clocks, the room to lend and the shortest forms of plans are \
answers of a proved library; what is not proved is named so.";

const FILES: &str = "\
PLAN, or OTHER, is a plan as text, as a list of numbers or as model bytes; \
EVIDENCE is bytes or a list of numbers. Which of them is seen from the \
content. A dash is standard input. Lines of a text plan may say: unit 20 ms, \
crystal 50 ppm, bit rate 19200; options say it in their place. The first number \
of a plan is its mark, 1 or 2; a text has mark 1 unless a line says: mark 2. A \
blank stay limit is the ceiling with mark 1; with mark 2 that of the last edge \
to close, or the ceiling where no edge leaves.";

const STATUSES: [(&str, &str); 4] = [
    (
        "0",
        "safe; the evidence passes; the plans are the same; or what was asked for is done",
    ),
    (
        "1",
        "unsafe; the evidence fails; the plans differ; or a plan is not in its shortest form",
    ),
    ("2", "a plan is refused, or its text has mistakes"),
    ("3", "wrong use, or a file or pipe that fails"),
];

const HELP: Opt = Opt {
    name: "--help",
    value: None,
    about: "print this help",
};

fn run(arguments: &Arguments) -> Result<Outcome, Failure> {
    if arguments.has(&MAN) {
        return Ok(Outcome::done(man()));
    }
    let Some(name) = arguments.operands.first() else {
        return Ok(Outcome::done(usage()));
    };
    match COMMANDS.iter().find(|command| command.name == name) {
        Some(command) => Ok(Outcome::done(of(command))),
        None => {
            let hint = guess(name, COMMANDS.iter().map(|command| command.name));
            let words = format!("zervuldo help: there is no command '{name}'{hint}\n");
            Err(Failure::failed(words))
        }
    }
}

pub fn version() -> String {
    format!("zervuldo {}\n", env!("CARGO_PKG_VERSION"))
}

/// The commands in a list, and what holds for all of them.
pub fn usage() -> String {
    let rows: Vec<(String, &str)> = COMMANDS
        .iter()
        .map(|command| (synopsis(command), command.summary))
        .collect();
    [
        format!("zervuldo: {ABOUT}\n\n"),
        wrapped("", 0, PURPOSE),
        "\n".to_string(),
        columns(&rows),
        "\n".to_string(),
        wrapped("", 0, FILES),
        "\nExit status:\n".to_string(),
        columns(&STATUSES.map(|(status, meaning)| (status.to_string(), meaning))),
        "\nzervuldo COMMAND --help tells more of each; zervuldo --version prints the version.\n"
            .to_string(),
    ]
    .concat()
}

/// The line that shows how a command is used.
pub fn usage_of(command: &Command) -> String {
    let options = command.takes.options.iter();
    let options: String = options
        .map(|option| format!(" [{}]", spelt(option)))
        .collect();
    let label = "usage: ";
    let line = format!("zervuldo {}{options}", synopsis(command));
    wrapped(label, label.len(), &line)
}

/// The whole help of a command.
pub fn of(command: &Command) -> String {
    let options = command.takes.options.iter().copied().chain([&HELP]);
    let rows: Vec<(String, &str)> = options
        .map(|option| (spelt(option), option.about))
        .collect();
    [
        format!("zervuldo {}: {}\n", command.name, command.summary),
        usage_of(command),
        "\n".to_string(),
        wrapped("", 0, command.details),
        "\n".to_string(),
        columns(&rows),
    ]
    .concat()
}

fn synopsis(command: &Command) -> String {
    let words = format!("{} {}", command.name, command.takes.operands);
    words.trim_end().to_string()
}

fn spelt(option: &Opt) -> String {
    match option.value {
        Some(value) => format!("{} {value}", option.name),
        None => option.name.to_string(),
    }
}

/// The man page, from the same words.
fn man() -> String {
    let commands: String = COMMANDS.iter().map(|command| man_of(command)).collect();
    let statuses: String = STATUSES
        .iter()
        .map(|(status, meaning)| tagged(status, meaning))
        .collect();
    [
        ".TH ZERVULDO 1\n.SH NAME\n".to_string(),
        format!("zervuldo \\- {}\n", escaped(ABOUT)),
        ".SH SYNOPSIS\n.B zervuldo\nCOMMAND [OPTION]... [FILE]...\n".to_string(),
        format!(
            ".SH DESCRIPTION\n{}\n.PP\n{}\n",
            escaped(PURPOSE),
            escaped(FILES)
        ),
        format!(".SH COMMANDS\n{commands}"),
        format!(".SH EXIT STATUS\n{statuses}"),
    ]
    .concat()
}

fn man_of(command: &Command) -> String {
    let options: String = command
        .takes
        .options
        .iter()
        .map(|option| tagged(&spelt(option), option.about))
        .collect();
    let summary = format!("{}. {}", capital(command.summary), command.details);
    format!(
        ".SS {}\n{}\n{options}",
        escaped(&synopsis(command)),
        escaped(&summary)
    )
}

/// A paragraph under a tag.
fn tagged(tag: &str, words: &str) -> String {
    format!(".TP\n.B {}\n{}\n", escaped(tag), escaped(words))
}

fn capital(words: &str) -> String {
    let mut letters = words.chars();
    let first = letters.next().map(|letter| letter.to_ascii_uppercase());
    first.into_iter().chain(letters).collect()
}

/// Words in which nothing is a sign of the man page's language.
fn escaped(words: &str) -> String {
    let words = words.replace('\\', "\\e").replace('-', "\\-");
    match words.starts_with(['.', '\'']) {
        true => format!("\\&{words}"),
        false => words,
    }
}
