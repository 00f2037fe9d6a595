//! `room`: what to lend for a plan, and that it is what the library needs.

mod common;

use common::*;
use drift::{Buffers, Refusal, Verdict};

const ROOM: &str = "room";

#[test]
fn in_words() {
    assert_eq!(
        printed(&[ROOM, &plan("loop.txt")], GOOD),
        "\
loop: room
  states          132
  scratch         132 numbers of 16 bits in each of four slices: 1056 bytes in
                  all
  sheet           at most 265 bytes
  trail           at most 131 steps; of its bytes nothing is known beforehand
  proved          all of it: states and scratch exactly, the bytes of every
                  sheet that passes, the steps of our trail
"
    );
}

/// Plans of every size; nothing is lent, so the largest is answered too.
#[test]
fn in_json() {
    for (file, told) in [
        (
            "tiny.plan",
            r#"{"plan":"tiny","states":3,"scratch":3,"sheet":4,"steps":2}"#,
        ),
        (
            "loop.plan",
            r#"{"plan":"loop","states":132,"scratch":132,"sheet":265,"steps":131}"#,
        ),
        (
            "largest.txt",
            r#"{"plan":"largest","states":15816,"scratch":15816,"sheet":47449,"steps":15815}"#,
        ),
    ] {
        let printed = printed(&[ROOM, &plan(file), "--json"], GOOD);
        assert_eq!(printed.trim_end(), told);
    }
}

#[test]
fn into_a_file_and_from_standard_input() {
    let told = printed(&[ROOM, &plan("tiny.plan"), "--json"], GOOD);
    let file = file("room.json", "");
    assert_eq!(
        printed(&[ROOM, &plan("tiny.plan"), "--json", "-o", &file], GOOD),
        ""
    );
    assert_eq!(std::fs::read_to_string(file).unwrap(), told);
    let tiny = std::fs::read(plan("tiny.plan")).unwrap();
    let output = run_on(&[ROOM, "-"], &tiny);
    assert_eq!(output.status.code(), Some(GOOD));
    let output = String::from_utf8(output.stdout).unwrap();
    assert!(
        joined(&output).contains("states 3 scratch 3 numbers"),
        "{output}"
    );
}

/// A plan that is refused says why, as with every command.
#[test]
fn refused() {
    let unreset = file("unreset.model", [1, 1, 1, 1, 1, 0, 0, 0, 0, 0, 0, 0, 1]);
    let words = complaint(&[ROOM, &unreset], REFUSED);
    assert_eq!(words, complaint(&["judge", &unreset], REFUSED));
    assert!(words.contains("unreset"), "{words}");
}

#[test]
fn outputs_that_fail() {
    onto_a_full_disk(&[ROOM, &plan("tiny.plan")]);
    into_a_closed_pipe(&[ROOM, "-"]);
}

/// With the room told no call on an example plan is refused for room, but for
/// the trail's bytes; with one number less of scratch every call is.
#[test]
fn as_much_as_is_told_is_needed() {
    for name in [
        "tiny",
        "loop",
        "poll",
        "poll-mended",
        "two-repeaters",
        "hasty",
    ] {
        let model = bytes(&["encode", &plan(&format!("{name}.txt"))]);
        let room = drift::room(&model).unwrap();
        let mut buffers = Buffers::new(room.scratch);
        let judged = drift::judge(&model, buffers.lend()).unwrap();
        assert_eq!(judged.states, room.states);
        let mut out = vec![0; room.sheet];
        let written = drift::write_evidence(&model, buffers.lend(), &mut out);
        match judged.verdict {
            Verdict::Safe => assert!(written.is_ok()),
            Verdict::Unsafe => assert!(judged.count <= room.steps),
        }
        for short in 0..4 {
            let mut lent = buffers.lend();
            let slice = std::mem::take(&mut lent[short]);
            lent[short] = &mut slice[1..];
            let refused = drift::judge(&model, lent).unwrap_err();
            assert_eq!(refused, Refusal::ScratchTooShort, "{name}");
        }
    }
}
