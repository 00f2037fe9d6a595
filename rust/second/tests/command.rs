//! The command, run as a program.

mod common;

use common::*;
use std::io::Write;
use std::process::{Command, Output, Stdio};

fn second(arguments: &[&str], input: &[u8]) -> Output {
    let mut child = Command::new(env!("CARGO_BIN_EXE_second"))
        .args(arguments)
        .stdin(Stdio::piped())
        .stdout(Stdio::piped())
        .stderr(Stdio::piped())
        .spawn()
        .unwrap();
    // A command that reads no input may be gone before all is written.
    let _ = child.stdin.take().unwrap().write_all(input);
    child.wait_with_output().unwrap()
}

fn answer(arguments: &[&str], input: &[u8]) -> Vec<u8> {
    let output = second(arguments, input);
    assert_eq!(output.status.code(), Some(0), "{arguments:?}");
    output.stdout
}

/// A file of the given name in the tests' own directory.
fn file(name: &str, bytes: &[u8]) -> String {
    let path = std::path::Path::new(env!("CARGO_TARGET_TMPDIR")).join(name);
    std::fs::write(&path, bytes).unwrap();
    path.to_str().unwrap().to_string()
}

#[test]
fn judge_and_evidence() {
    assert_eq!(
        answer(&["judge", "-"], &LOOP),
        b"verdict unsafe\nstates 132\nsteps 8\n"
    );
    assert_eq!(
        answer(&["judge", "-"], &ROW),
        b"verdict safe\nstates 3\nin 3\n"
    );
    let mut blank = LOOP;
    blank[0] = 2;
    assert_eq!(
        answer(&["judge", "-"], &blank),
        b"verdict unsafe\nstates 132\nsteps 8\n"
    );
    assert_eq!(answer(&["judge", "-"], &LOOP[..10]), b"refused 1\n");
    assert_eq!(answer(&["judge", "-", "131"], &LOOP), b"refused 8\n");
    assert_eq!(
        answer(&["judge", "-", "--scratch", "131"], &LOOP),
        b"refused 8\n"
    );
    assert_eq!(
        answer(&["judge", "-", "--output", "3"], &ROW),
        b"refused 9\n"
    );
    assert_eq!(answer(&["evidence", "-"], &LOOP), evidence(&LOOP));
    assert_eq!(answer(&["evidence", "-", "2"], &ROW), b"refused 8\n");
    assert_eq!(answer(&["marks", "-"], &TWO), [1, 1, 1, 0, 0, 1]);
}

/// One clock, ceiling 2: a loop with a reset, and a forbidden location that one waits
/// for until 2.
const WAIT: [u8; 20] = [1, 1, 2, 2, 2, 0, 0, 0, 1, 0, 0, 0, 1, 0, 2, 0, 1, 0, 2, 2];

#[test]
fn joint_resets() {
    for (arguments, input, output) in [
        (
            &["judge-joint", "-"][..],
            &WAIT[..],
            &b"verdict unsafe\nstates 10\nsteps 5\n"[..],
        ),
        (
            &["judge", "-"],
            &WAIT,
            b"verdict unsafe\nstates 10\nsteps 4\n",
        ),
        (
            &["judge-joint", "-", "3"],
            &ROW,
            b"verdict safe\nstates 3\nin 3\n",
        ),
        (&["evidence-joint", "-"], &WAIT, &[2, 5, 0, 0, 0, 0, 1, 1]),
        (&["evidence-joint", "-"], &ROW, &[1, 5, 3, 1]),
        (
            &["marks-joint", "-", "10"],
            &WAIT,
            &[1, 1, 1, 1, 1, 0, 0, 0, 0, 1],
        ),
        // The evidence is lent eight bytes here, and has as many.
        (
            &["judge-joint", "-", "--output", "8"],
            &WAIT,
            b"verdict unsafe\nstates 10\nsteps 5\n",
        ),
        (
            &["judge-joint", "-", "--output", "7"],
            &WAIT,
            b"refused 9\n",
        ),
        (
            &["marks-joint", "-", "--output", "9"],
            &WAIT,
            b"refused 9\n",
        ),
    ] {
        assert_eq!(answer(arguments, input), output, "{arguments:?}");
    }
    for command in ["judge-joint", "evidence-joint", "marks-joint"] {
        assert_eq!(answer(&[command, "-"], &LOOP), b"refused 17\n");
        assert_eq!(answer(&[command, "-", "132"], &LOOP), b"refused 17\n");
        assert_eq!(answer(&[command, "-", "131"], &LOOP), b"refused 8\n");
        assert_eq!(answer(&[command, "-"], &LOOP[..45]), b"refused 1\n");
    }
}

#[test]
fn margin_and_harm() {
    assert_eq!(
        answer(&["margin", "-"], &ROW),
        b"verdict safe\nstates 3\nmargin 2\n"
    );
    assert_eq!(
        answer(&["margin", "-"], &LOOP),
        b"verdict unsafe\nstates 132\nmargin none\n"
    );
    assert_eq!(
        answer(&["harm", "-"], &LOOP),
        b"verdict unsafe\nstates 132\njumps 15 + 26 q\n"
    );
    assert_eq!(
        answer(&["harm", "-"], &ROW),
        b"verdict safe\nstates 3\njumps none\n"
    );
    for command in ["margin", "harm"] {
        assert_eq!(answer(&[command, "-"], &ROW[..7]), b"refused 1\n");
        assert_eq!(answer(&[command, "-", "131"], &LOOP), b"refused 8\n");
    }
}

#[test]
fn soonest_times() {
    for (arguments, input, line) in [
        (&["-", "0"][..], &LOOP[..], &b"time 0\n"[..]),
        (&["-", "2"], &LOOP, b"time 1\n"),
        (&["-", "3"], &LOOP, b"refused 16\n"),
        (&["-", "18446744073709551615"], &LOOP, b"refused 16\n"),
        (&["-", "4294967298", "132"], &LOOP, b"refused 16\n"),
        (&["-", "2", "132"], &LOOP, b"time 1\n"),
        (&["-", "2", "131"], &LOOP, b"refused 8\n"),
        (&["-", "4", "--scratch", "131"], &LOOP, b"refused 8\n"),
        (&["-", "4"], &LOOP[..45], b"refused 1\n"),
    ] {
        let arguments = [&["soonest"], arguments].concat();
        assert_eq!(answer(&arguments, input), line, "{arguments:?}");
    }
    let row = file("soonest.plan", b"1,1,1,1; 0,0 # header\n 0,2");
    assert_eq!(answer(&["soonest", &row, "0"], &[]), b"time 0\n");
}

#[test]
fn shortest_plans() {
    let row = b"129,128,0; 1,129,0,1; 0,0 # header\n 0,2 # M+1";
    assert_eq!(answer(&["shortest", &file("row.plan", row)], &[]), ROW);
    assert_eq!(answer(&["shortest", "-"], &LOOP), LOOP);
    assert_eq!(answer(&["shortest", "-", "--output", "46"], &LOOP), LOOP);
    for (output, input, line) in [
        ("45", &LOOP[..], &b"refused 9\n"[..]),
        ("0", &LOOP, b"refused 9\n"),
        ("0", &LOOP[..45], b"refused 1\n"),
        ("46", &[0; 46], b"refused 3\n"),
    ] {
        assert_eq!(answer(&["shortest", "-", "--output", output], input), line);
    }
    // With mark 2, where the only edge closes at 0, blank means a limit of 0.
    let loops = b"130,0; 1,2,1,1,0; 0,1; 0,0,1,0,0";
    let short = [2, 1, 2, 1, 1, 0, 0, 0, 0, 0, 1, 0, 0];
    assert_eq!(
        answer(&["shortest", &file("loops.plan", loops)], &[]),
        short
    );
    assert_eq!(answer(&["shortest", "-"], &[3; 13]), b"refused 3\n");
    // No scratch is needed, so none is too short.
    let many = second::generate::generate(0, "largest").unwrap();
    let short = answer(&["shortest", "-"], &many);
    assert_eq!(second::read_plan(&short), second::read_plan(&many));
}

/// Neither scratch nor output is lent, so that none is too short.
#[test]
fn room_lines() {
    for (arguments, input, lines) in [
        (
            &["-"][..],
            &ROW[..],
            &b"states 3\nscratch 3\nsheet 4\nsteps 2\n"[..],
        ),
        (
            &["-"],
            &LOOP,
            b"states 132\nscratch 132\nsheet 265\nsteps 131\n",
        ),
        (
            &["-", "--scratch", "0", "--output", "0"],
            &ROW,
            b"states 3\nscratch 3\nsheet 4\nsteps 2\n",
        ),
        (&["-"], &LOOP[..45], b"refused 1\n"),
        (&["-"], &[0; 46], b"refused 3\n"),
        (
            &["-"],
            &[1, 1, 1, 1, 1, 0, 0, 0, 0, 0, 0, 0, 1],
            b"refused 7\n",
        ),
    ] {
        let arguments = [&["room"], arguments].concat();
        assert_eq!(answer(&arguments, input), lines, "{arguments:?}");
    }
    let many = second::generate::generate(0, "largest").unwrap();
    assert_eq!(
        answer(&["room", "-"], &many),
        b"states 15816\nscratch 15816\nsheet 47449\nsteps 15815\n"
    );
    let row = file("room.plan", b"1,1,1,1; 0,0 # header\n 0,2");
    assert!(answer(&["room", &row], &[]).starts_with(b"states 3\n"));
}

#[test]
fn more_states_than_the_scratch() {
    let three_locations = [1, 3, 4, 3, 0, 0, 0, 0, 0, 0, 0, 0, 0, 0, 0, 0, 0, 0];
    assert_eq!(answer(&["judge", "-"], &three_locations), b"refused 8\n");
    let lines = answer(&["judge", "-", "5931"], &three_locations);
    assert!(lines.starts_with(b"verdict safe\nstates 5931\n"));
}

#[test]
fn check_files() {
    let model = file(
        "loop.plan",
        b"1,2,2,4,4,0; 0,0,0; 0,0,0; 0,0,0; 1,0,0 # locations
        0,1,2,1,1,1,1; 1,2,1,0,2,0,2
        2,1,2,0,2,2,2; 2,3,0,0,0,2,2",
    );
    let trail = file("loop.trail", &LOOP_TRAIL);
    let short = file("loop.short", &LOOP_TRAIL[..33]);
    assert_eq!(answer(&["check", &model, &trail], &[]), b"passes 2\n");
    assert_eq!(answer(&["check", &model, &short], &[]), b"refused 1\n");
    assert_eq!(
        answer(&["check", &model, &trail, "131"], &[]),
        b"refused 8\n"
    );
    assert_eq!(answer(&["check", "-", &trail], &LOOP), b"passes 2\n");
}

#[test]
fn padded_evidence() {
    let model = file("padded.model", &LOOP);
    let trail = file("padded.trail", &LOOP_TRAIL);
    for (seed, kind) in [("1", "pad"), ("2", "pad"), ("1", "pad-many")] {
        let padded = answer(&["mutate", seed, &model, &trail, kind], &[]);
        assert!(padded.len() > LOOP_TRAIL.len());
        let padded = file("padded.other", &padded);
        assert_eq!(answer(&["check", &model, &padded], &[]), b"refused 15\n");
    }
    let both = answer(&["mutate", "1", &model, &trail, "pad-order"], &[]);
    assert!(check(&LOOP, &both).is_err());
}

#[test]
fn generated_models() {
    let kinds = String::from_utf8(answer(&["generate", "--kinds"], &[])).unwrap();
    for kind in kinds.lines() {
        assert_eq!(
            answer(&["generate", "3", kind], &[]),
            second::generate::generate(3, kind).unwrap()
        );
    }
}

#[test]
fn wrong_arguments() {
    for arguments in [
        &["judge"][..],
        &["judge", "no such file"],
        &["generate", "1", "x"],
        &[],
        &["judge", "-", "x"],
        &["judge-joint"],
        &["evidence-joint", "-", "x"],
        &["marks-joint", "-", "1", "2"],
        &["shortest"],
        &["shortest", "-", "4000"],
        &["room"],
        &["room", "-", "4000"],
        &["soonest", "-"],
        &["soonest", "-", "x"],
        &["soonest", "-", "-1"],
        &["soonest", "-", "18446744073709551616"],
    ] {
        assert_eq!(second(arguments, &[]).status.code(), Some(2));
    }
}

#[test]
fn cases_and_answers() {
    let text = answer(&["cases"], b"");
    let printed = String::from_utf8(answer(&["answers", "-"], &text)).unwrap();
    assert!(printed.starts_with("- line\nroom: 0 3 3 4 2\n#"));
    assert!(printed.contains("\n1,5,3,1: 0 1\n"));
    assert!(printed.contains("\njudge: 0 1 132 8, zero 132 132 132 132\n"));
    let row = b"- row\n1,1,1,1,0,0,0,0\n1,5,3,1\njudge\njudge 3,3,3,3\nmarks 4,3,3,3,3\n\
        sheet_margin\nsheet_margin 3,3,3,3\nharm 3,3,3,3\nplan\nplan 0\nplan 9\nrounds\nroom\n\
        soonest 0\nsoonest 0 3,3,3,3\nsoonest 1 3,4,5,6\nsoonest 1 2,3,3,3\n\
        judge_joint\njudge_joint 3,4,5,6\nmarks_joint 4,3,3,3,3\nwrite_joint 3,3,3,3,3\n\
        - loop\n1,2,2,4,4,0,0,0,0,0,0,0,0,0,0,1,0,0,0,1,2,1,1,1,1,1,2,1,0,2,0,2,2,1,2,0,2,2,2,2,3,0,0,0,2,2\n\
        judge_joint 132,132,132,132\nmarks_joint 1,132,132,132,132\nwrite_joint 1\n\
        - mark 3\n3\nroom\n";
    let lent = String::from_utf8(answer(&["answers", "-", "2"], row)).unwrap();
    let lines: Vec<&str> = lent.lines().collect();
    assert_eq!(
        lines,
        [
            "- row",
            "1,5,3,1: 8",
            "judge: 8, zero 0 0 0 0",
            "judge 3,3,3,3: 0 0 3 3, zero 3 3 3 3",
            "marks 4,3,3,3,3: 0 3, zero 3 3 3 3, out 1117",
            "sheet_margin: 8, zero 0 0 0 0",
            "sheet_margin 3,3,3,3: 0 0 3 2, zero 3 3 3 3",
            "harm 3,3,3,3: 0 0 3 0 0, zero 3 3 3 3",
            "plan: 9, out 7,7",
            "plan 0: 9, out",
            "plan 9: 0 8, out 1,1,1,1,0,0,0,0,7",
            "rounds: 0 3 3",
            "room: 0 3 3 4 2",
            "soonest 0: 8, zero 0 0 0 0",
            "soonest 0 3,3,3,3: 0 0, zero 3 3 3 3",
            "soonest 1 3,4,5,6: 16, zero 3 3 3 3",
            "soonest 1 2,3,3,3: 8, zero 0 0 0 0",
            "judge_joint: 8, zero 0 0 0 0",
            "judge_joint 3,4,5,6: 0 0 3 3, zero 3 3 3 3",
            "marks_joint 4,3,3,3,3: 0 3, zero 3 3 3 3, out 1117",
            "write_joint 3,3,3,3,3: 9, zero 3 3 3 3, out 7,7,7",
            "- loop",
            "judge_joint 132,132,132,132: 17, zero 132 132 132 132",
            "marks_joint 1,132,132,132,132: 17, zero 132 132 132 132, out 7",
            "write_joint 1: 8, zero 0 0 0 0, out 7",
            "- mark 3",
            "room: 3",
        ]
    );
}

#[test]
fn wrong_cases() {
    for wrong in [
        &b"- no plan\n"[..],
        b"- row\n1\nmark 3\n",
        b"- row\n1\njudge x\n",
        b"- row\n1\nsoonest\n",
        b"- row\n1\njudge_joint x\n",
        b"- row\n1\nwrite-joint 3\n",
        b"- row\n1\nsoonest -1\n",
        b"- row\n1\nsoonest 18446744073709551616\n",
    ] {
        assert_eq!(second(&["answers", "-"], wrong).status.code(), Some(2));
    }
}

/// A file of the folder plans/.
fn plan(name: &str) -> String {
    let path = std::path::Path::new(env!("CARGO_MANIFEST_DIR")).join("../../plans");
    path.join(name).to_str().unwrap().to_string()
}

/// The example plans under plans/ judge as their comments say.
#[test]
fn example_plans() {
    assert_eq!(
        answer(&["judge", &plan("loop.plan")], b""),
        b"verdict unsafe\nstates 132\nsteps 8\n"
    );
    assert_eq!(
        answer(&["judge", &plan("tiny.plan")], b""),
        b"verdict safe\nstates 3\nin 3\n"
    );
}
