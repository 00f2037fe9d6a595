//! Help, options, files and exit statuses.

mod common;

use common::*;
use std::process::Command;
use zervuldo::command::COMMANDS;

#[test]
fn help_for_all_and_for_each() {
    let all = printed(&["--help"], GOOD);
    assert_eq!(printed(&["help"], GOOD), all);
    for command in COMMANDS {
        assert!(all.contains(&format!("\n  {}", command.name)), "{all}");
        let told = printed(&[command.name, "--help"], GOOD);
        assert_eq!(printed(&["help", command.name], GOOD), told);
        assert!(told.contains(&format!("usage: zervuldo {}", command.name)));
        for option in command.takes.options {
            assert!(told.contains(&format!("\n  {}", option.name)), "{told}");
        }
        assert!(
            told.lines().all(|line| line.chars().count() <= 80),
            "{told}"
        );
    }
    let version = format!("zervuldo {}\n", env!("CARGO_PKG_VERSION"));
    assert_eq!(printed(&["--version"], GOOD), version);
}

/// What a blank stay limit means is told for both marks.
#[test]
fn marks_in_the_help() {
    for (arguments, told) in [
        (
            &["help"][..],
            "A blank stay limit is the ceiling with mark 1; with mark 2 that of the last edge to \
             close, or the ceiling where no edge leaves.",
        ),
        (
            &["help", "shorten"],
            "as 0 a stay limit that is the default: with mark 1 the ceiling, with mark 2 the \
             greatest high of the edges that leave the location, or the ceiling where none does.",
        ),
        (
            &["help", "shorten"],
            "The plan stays the same, and keeps its mark.",
        ),
        (
            &["help", "compare"],
            "plans of two marks differ, even if in nothing else.",
        ),
        (&["help", "decode"], "The mark is told where it is 2"),
    ] {
        let help = joined(&printed(arguments, GOOD));
        assert!(help.contains(told), "{help}");
    }
}

/// Wrong arguments, P standing for a plan, and what is said of them.
const WRONG: [(&str, &str); 24] = [
    ("", "zervuldo: judge the timing"),
    (
        "jugde P",
        "there is no command 'jugde'; did you mean 'judge'?",
    ),
    ("judge", "too few arguments: it takes PLAN..."),
    ("check P", "too few arguments: it takes PLAN EVIDENCE"),
    ("encode P P", "too many arguments"),
    ("shorten P P", "too many arguments: it takes PLAN"),
    ("compare P", "too few arguments: it takes PLAN OTHER"),
    ("soonest", "too few arguments: it takes PLAN [LOCATION]"),
    (
        "soonest P blank P",
        "too many arguments: it takes PLAN [LOCATION]",
    ),
    (
        "soonest P --crystal 50ppm",
        "there is no option '--crystal' here",
    ),
    ("soonest none", "none: No such file"),
    ("room", "too few arguments: it takes PLAN"),
    ("room P P", "too many arguments: it takes PLAN"),
    ("room P --unit 20ms", "there is no option '--unit' here"),
    ("completion P", "too many arguments: it takes none"),
    (
        "judge P --jsn",
        "there is no option '--jsn' here; did you mean '--json'?",
    ),
    ("judge P --json=1", "the option --json takes no value"),
    ("judge P --json --json", "the option --json is given twice"),
    ("judge P -o", "FILE is missing after -o"),
    ("judge P --unit 20", "--unit: the measure is missing"),
    (
        "check - -",
        "standard input, -, can stand for one file only",
    ),
    (
        "help judg",
        "there is no command 'judg'; did you mean 'judge'?",
    ),
    ("judge none", "none: No such file"),
    ("judge -- -o", "-o: No such file"),
];

#[test]
fn wrong_use() {
    let poll = plan("poll.txt");
    for (words, said) in WRONG {
        let words = words.split_whitespace();
        let words: Vec<&str> = words
            .map(|word| if word == "P" { &poll } else { word })
            .collect();
        let shown = complaint(&words, FAILED);
        assert!(shown.contains(said), "{words:?}: {shown}");
    }
}

#[test]
fn output_to_a_file() {
    let out = file("out.svg", "");
    assert_eq!(
        printed(&["draw", "--plain", &plan("tiny.txt"), "-o", &out], GOOD),
        ""
    );
    let written = std::fs::read_to_string(&out).unwrap();
    assert_eq!(
        written,
        printed(&["draw", "--plain", &plan("tiny.txt")], GOOD)
    );
    assert_eq!(
        printed(&["decode", &plan("tiny.txt"), "-o", "-"], GOOD)
            .lines()
            .count(),
        4
    );
    let shown = complaint(
        &["encode", &plan("tiny.txt"), "-o", "no/such/folder"],
        FAILED,
    );
    assert!(shown.contains("no/such/folder: No such file"));
}

/// A full disk is noticed, wherever the output goes, and so is a reader that
/// went away.
#[test]
fn a_full_disk() {
    onto_a_full_disk(&["judge", &plan("tiny.txt")]);
    let shown = complaint(&["report", &plan("tiny.txt"), "-o", "/dev/full"], FAILED);
    assert!(
        shown.starts_with("/dev/full: No space left on device"),
        "{shown}"
    );
    into_a_closed_pipe(&["draw", "-"]);
}

/// The man page has every command and option, and none of its signs by chance.
#[test]
fn man_page() {
    let page = printed(&["help", "--man"], GOOD);
    assert!(page.starts_with(".TH ZERVULDO 1\n.SH NAME\nzervuldo \\- "));
    for command in COMMANDS {
        assert!(page.contains(&format!("\n.SS {}", command.name)));
        for option in command.takes.options {
            assert!(page.contains(&format!("\n.B {}", option.name.replace('-', "\\-"))));
        }
    }
    let requests = [".TH ", ".SH ", ".SS ", ".TP", ".PP", ".B "];
    for line in page.lines().filter(|line| line.starts_with(['.', '\''])) {
        assert!(
            requests.iter().any(|request| line.starts_with(request)),
            "{line}"
        );
    }
}

/// Bash itself completes with it.
#[test]
fn completion() {
    let script = file("completion.bash", bytes(&["completion"]));
    let completed = |words: &str| {
        let count = words.split(' ').count();
        let ask = format!(
            "source {script}; COMP_WORDS=({words}); COMP_CWORD=$(({count} - 1)); _zervuldo; echo \"${{COMPREPLY[*]}}\""
        );
        let output = Command::new("bash").args(["-ec", &ask]).output().unwrap();
        assert!(
            output.status.success(),
            "{}",
            String::from_utf8_lossy(&output.stderr)
        );
        String::from_utf8(output.stdout).unwrap()
    };
    assert_eq!(completed("zervuldo ju"), "judge\n");
    assert_eq!(completed("zervuldo judge --e"), "--evidence\n");
    assert_eq!(completed("zervuldo draw --p"), "--plain\n");
    assert_eq!(completed("zervuldo sh"), "shorten\n");
    assert_eq!(completed("zervuldo shorten --c"), "--check\n");
    assert_eq!(completed("zervuldo so"), "soonest\n");
    assert_eq!(completed("zervuldo soonest --u"), "--unit\n");
    assert_eq!(completed("zervuldo help com"), "compare completion\n");
    assert_eq!(completed("zervuldo help ex"), "explain\n");
    assert_eq!(completed("zervuldo judge pol"), "\n");
}
