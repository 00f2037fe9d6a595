//! The stored cases of the proved programs, answered by this checker. What
//! stands where is in tests/programs/README.md at the repository's root.

use second::calls::states_of;
use second::margin::by_drawing;
use second::program::{bytes_of_text, evidence_bytes, judge_lines, refusal_line, shortest_bytes};
use second::program::{room_lines, OUTPUT, SCRATCH};
use second::refusal::SCRATCH_TOO_SHORT;
use second::{read_model, soonest};
use std::collections::BTreeSet;
use std::fs::{read, read_dir, read_to_string};
use std::path::{Path, PathBuf};

fn root() -> PathBuf {
    Path::new(env!("CARGO_MANIFEST_DIR")).join("../..")
}

fn list(path: &Path) -> Vec<u8> {
    bytes_of_text(&read_to_string(path).unwrap()).unwrap()
}

/// The plan of a case, from the cases' own folder or from plans/.
fn plan(name: &str) -> Vec<u8> {
    let own = root().join(format!("tests/programs/{name}.plan"));
    if own.exists() {
        list(&own)
    } else {
        list(&root().join(format!("plans/{name}.plan")))
    }
}

fn names() -> BTreeSet<String> {
    let files = read_dir(root().join("tests/programs")).unwrap();
    let names = files.map(|file| file.unwrap().file_name().into_string().unwrap());
    names.collect()
}

/// Plan, program and expected output of each case.
fn cases() -> Vec<(String, String, Vec<u8>)> {
    let case = |name: String| {
        let path = root().join("tests/programs").join(&name);
        let [plan, program, form] = name.split('.').collect::<Vec<_>>()[..] else {
            return None;
        };
        let expected = match form {
            "text" => read(path).unwrap(),
            "numbers" => list(&path),
            _ => panic!("{name}"),
        };
        Some((plan.to_string(), program.to_string(), expected))
    };
    names().into_iter().filter_map(case).collect()
}

/// What the program beyond document 01 prints.
fn tolerance_lines(plan: &[u8]) -> String {
    match read_model(plan) {
        Ok(model) => format!(
            "states {}\nmargin {}\n",
            states_of(&model),
            by_drawing(&model)
        ),
        Err(refusal) => refusal_line(refusal),
    }
}

/// What the program of request (e) of document 02 prints.
fn soonest_lines(plan: &[u8]) -> String {
    let locations = match read_model(plan) {
        Ok(model) if states_of(&model) <= SCRATCH => model.locations.len(),
        Ok(_) => return refusal_line(SCRATCH_TOO_SHORT),
        Err(refusal) => return refusal_line(refusal),
    };
    let line = |location| match soonest(plan, location, [SCRATCH; 4]) {
        Ok(time) => format!("location {location} time {time}\n"),
        Err(_) => format!("location {location} never\n"),
    };
    (0..locations as u64).map(line).collect()
}

#[test]
fn the_programs_write_what_is_stored() {
    for (name, program, expected) in cases() {
        let written = match program.as_str() {
            "judge" => judge_lines(&plan(&name), SCRATCH, OUTPUT).into_bytes(),
            "evidence_bytes" => evidence_bytes(&plan(&name), SCRATCH, OUTPUT),
            "plan_bytes" => shortest_bytes(&plan(&name), OUTPUT),
            "tolerance" => tolerance_lines(&plan(&name)).into_bytes(),
            "soonest" => soonest_lines(&plan(&name)).into_bytes(),
            "room" => room_lines(&plan(&name)).into_bytes(),
            _ => panic!("{program}"),
        };
        assert_eq!(written, expected, "{name} {program}");
    }
}

/// Refusals 1 to 8, both verdicts, a sheet and a trail; each stored plan is
/// used.
#[test]
fn every_answer_is_among_them() {
    let cases = cases();
    let has = |program: &str, start: &[u8]| {
        cases
            .iter()
            .any(|(_, by, expected)| by == program && expected.starts_with(start))
    };
    for refusal in 1..=8 {
        assert!(has("judge", format!("refused {refusal}\n").as_bytes()));
    }
    assert!(has("judge", b"verdict safe\n") && has("judge", b"verdict unsafe\n"));
    assert!(has("evidence_bytes", &[1]) && has("evidence_bytes", &[2]));
    assert!(has("evidence_bytes", b"refused ") && has("tolerance", b"refused "));
    assert!(has("tolerance", b"states "));
    assert!(has("plan_bytes", &[1]) && has("plan_bytes", b"refused "));
    assert!(has("soonest", b"location 0 time 0\n") && has("soonest", b"refused "));
    for refusal in 1..=7 {
        assert!(has("room", format!("refused {refusal}\n").as_bytes()));
    }
    assert!(has("room", b"states 15816\n"));
    for name in names() {
        if let Some(plan) = name.strip_suffix(".plan") {
            assert!(cases.iter().any(|(used, _, _)| used == plan), "{plan}");
        }
    }
}
