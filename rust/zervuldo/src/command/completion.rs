//! `completion`: what bash completes the command with.

use super::{Command, COMMANDS, OUTPUT};
use crate::args::{Arguments, Takes};
use crate::outcome::{Failure, Outcome};

pub const COMMAND: Command = Command {
    name: "completion",
    summary: "the completion for bash",
    details: "Read it with: source <(zervuldo completion)",
    takes: Takes {
        operands: "",
        count: 0..=0,
        options: &[&OUTPUT],
    },
    run,
};

/// Where nothing fits, bash goes on with names of files.
const FRAME: &str = "\
_zervuldo() {
    local word=${COMP_WORDS[COMP_CWORD]} words=
    case $COMP_CWORD:${COMP_WORDS[1]}:$word in
    1:* | *:help:[^-]* | *:help:) words='COMMANDS' ;;
OPTIONS    esac
    mapfile -t COMPREPLY < <(compgen -W \"$words\" -- \"$word\")
}
complete -o default -F _zervuldo zervuldo
";

fn run(_: &Arguments) -> Result<Outcome, Failure> {
    let names: Vec<&str> = COMMANDS.iter().map(|command| command.name).collect();
    let options: String = COMMANDS.iter().map(|command| line(command)).collect();
    Ok(Outcome::done(
        FRAME
            .replace("OPTIONS", &options)
            .replace("COMMANDS", &names.join(" ")),
    ))
}

fn line(command: &Command) -> String {
    let options = command.takes.options.iter().map(|option| option.name);
    let names: Vec<&str> = options.chain(["--help"]).collect();
    format!(
        "    *:{}:-*) words='{}' ;;\n",
        command.name,
        names.join(" ")
    )
}
