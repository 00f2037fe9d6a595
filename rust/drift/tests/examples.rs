//! The C example, compiled with the header and the static library, and the
//! Rust example print the same lines.

#[allow(dead_code)]
#[path = "../examples/loop_plan.rs"]
mod loop_plan;

use std::path::{Path, PathBuf};
use std::process::Command;

const LINES: &str = "\
room for 132 numbers of scratch, four times
room for 265 bytes of a sheet, 131 steps of a trail
verdict unsafe
states 132
steps 8
joint reset no
bytes 42
passes trail
numbers 2 8 0 0 1 0 3 0 0 2 1 9 0 0 0 0 1 1 0 0 1 2 0 3 1 1 1 1 6 0 1 1 1 2 0 0 0 0 1 1 1 3
harm within 15 + 26q jumps
soonest 0 1 1 never
";

fn c_folder() -> PathBuf {
    Path::new(env!("CARGO_MANIFEST_DIR")).join("../../c")
}

/// A compiler that takes each warning for an error.
fn strict(standard: &str) -> Command {
    let mut command = Command::new("cc");
    command.args(["-std=".to_owned() + standard, "-Wall".into()]);
    command.args(["-Wextra", "-Wconversion", "-pedantic", "-Werror"]);
    command.arg("-I").arg(c_folder());
    command
}

/// What a command prints; it must succeed.
fn printed(command: &mut Command) -> String {
    let output = command.output().expect("the command runs");
    let complaint = String::from_utf8_lossy(&output.stderr);
    assert!(output.status.success(), "{command:?}: {complaint}");
    String::from_utf8(output.stdout).expect("text")
}

#[test]
fn the_rust_example() {
    assert_eq!(loop_plan::report().as_deref(), Ok(LINES));
}

#[test]
fn the_c_example() {
    for standard in ["c99", "c17"] {
        let program = Path::new(env!("CARGO_TARGET_TMPDIR")).join(format!("example-{standard}"));
        let library = Path::new(env!("DRIFT_FOLDER")).join("libdrift_c.a");
        let source = c_folder().join("example.c");
        printed(
            strict(standard)
                .arg("-o")
                .arg(&program)
                .arg(source)
                .arg(library),
        );
        assert_eq!(printed(&mut Command::new(program)), LINES);
    }
}
