//! The command run as a program, and files for it.
#![allow(dead_code)]

use std::fs::OpenOptions;
use std::io::Write;
use std::path::{Path, PathBuf};
use std::process::{Command, Output, Stdio};
use zervuldo::outcome::Outcome;

pub const GOOD: i32 = 0;
pub const BAD: i32 = 1;
pub const REFUSED: i32 = 2;
pub const FAILED: i32 = 3;

/// The trail of document 01 for the loop plan.
pub const LOOP_TRAIL: [u8; 34] = [
    2, 8, 0, 0, 1, 0, 0, 1, 1, 3, 0, 1, 0, 1, 10, 0, 0, 1, 2, 0, 0, 0, 0, 0, 0, 1, 1, 2, 0, 2, 0,
    0, 1, 3,
];

/// A plan that the mark decides: with mark 1 its forbidden location is entered
/// late, with mark 2 the last edge out of it has closed by then.
pub const LATE: [u8; 20] = [1, 1, 2, 2, 2, 0, 0, 0, 1, 0, 0, 1, 0, 2, 2, 1, 0, 1, 0, 1];

pub fn zervuldo() -> Command {
    Command::new(env!("CARGO_BIN_EXE_zervuldo"))
}

pub fn run_on(arguments: &[&str], input: &[u8]) -> Output {
    let mut child = zervuldo()
        .args(arguments)
        .stdin(Stdio::piped())
        .stdout(Stdio::piped())
        .stderr(Stdio::piped())
        .spawn()
        .unwrap();
    // A command that reads no input may be gone before all is written.
    let _ = child.stdin.take().unwrap().write_all(input);
    child.wait_with_output().unwrap()
}

/// The same without a program of its own, for many runs.
pub fn outcome(arguments: &[&str]) -> Outcome {
    let words: Vec<String> = arguments.iter().map(|word| word.to_string()).collect();
    zervuldo::command::run(&words)
}

/// A command whose output goes to a full disk: it says so.
pub fn onto_a_full_disk(arguments: &[&str]) {
    let full = OpenOptions::new().write(true).open("/dev/full").unwrap();
    let output = zervuldo()
        .args(arguments)
        .stdout(Stdio::from(full))
        .output()
        .unwrap();
    assert_eq!(output.status.code(), Some(FAILED), "{arguments:?}");
    let shown = text(output.stderr);
    assert!(shown.contains("No space left on device"), "{shown}");
}

/// A command whose reader went away before it wrote: it ends with a failure.
pub fn into_a_closed_pipe(arguments: &[&str]) {
    let mut child = zervuldo()
        .args(arguments)
        .stdin(Stdio::piped())
        .stdout(Stdio::piped())
        .stderr(Stdio::piped())
        .spawn()
        .unwrap();
    drop(child.stdout.take());
    // It waits for its input, so that the reader is gone by then.
    let plan = std::fs::read(plan("tiny.plan")).unwrap();
    child.stdin.take().unwrap().write_all(&plan).unwrap();
    assert_eq!(child.wait().unwrap().code(), Some(FAILED), "{arguments:?}");
}

fn text(bytes: Vec<u8>) -> String {
    String::from_utf8(bytes).unwrap()
}

/// What is printed with a status; messages beside it must be none.
pub fn printed(arguments: &[&str], status: i32) -> String {
    let output = run_on(arguments, b"");
    let messages = text(output.stderr);
    assert_eq!(
        output.status.code(),
        Some(status),
        "{arguments:?} {messages}"
    );
    assert_eq!(messages, "", "{arguments:?}");
    text(output.stdout)
}

/// The bytes that are printed.
pub fn bytes(arguments: &[&str]) -> Vec<u8> {
    let output = run_on(arguments, b"");
    assert_eq!(output.status.code(), Some(GOOD), "{arguments:?}");
    output.stdout
}

/// The messages with a status; nothing else must be printed.
pub fn complaint(arguments: &[&str], status: i32) -> String {
    let output = run_on(arguments, b"");
    assert_eq!(output.status.code(), Some(status), "{arguments:?}");
    assert_eq!(text(output.stdout), "", "{arguments:?}");
    text(output.stderr)
}

/// A file of the folder plans/.
pub fn plan(name: &str) -> String {
    let folder = Path::new(env!("CARGO_MANIFEST_DIR")).join("../../plans");
    folder.join(name).to_str().unwrap().to_string()
}

/// A folder of the tests' own, empty.
pub fn folder(name: &str) -> PathBuf {
    let folder = Path::new(env!("CARGO_TARGET_TMPDIR")).join(name);
    let _ = std::fs::remove_dir_all(&folder);
    std::fs::create_dir_all(&folder).unwrap();
    folder
}

/// A file of the given name in the tests' own folder.
pub fn file(name: &str, content: impl AsRef<[u8]>) -> String {
    let path = Path::new(env!("CARGO_TARGET_TMPDIR")).join(name);
    std::fs::write(&path, content).unwrap();
    path.to_str().unwrap().to_string()
}

/// The words of a text with each gap one blank, however its lines are broken.
pub fn joined(text: &str) -> String {
    text.split_whitespace().collect::<Vec<&str>>().join(" ")
}
