//! `encode`, `decode`, `draw`, `words`, `explain`: plans and evidence for people.

mod common;

use common::*;
use drift::Refusal;

#[test]
fn encode_and_decode() {
    let model = bytes(&["encode", &plan("loop.txt")]);
    assert_eq!(bytes(&["encode", &plan("loop.plan")]), model);
    let file = file("loop.model", &model);
    let text = printed(&["decode", &file], GOOD);
    assert_eq!(
        text,
        "\
clocks x y
ceiling 2

location L0 start
location L1
location L2
location L3 forbidden

edge L0 -> L1 when x=1, y=1 reset y
edge L1 -> L2 reset x
edge L2 -> L1 when y=2 reset y
edge L2 -> L3 when x=0, y=2
"
    );
    assert_eq!(run_on(&["encode", "-"], text.as_bytes()).stdout, model);
    let units = run_on(
        &["decode", "-"],
        format!("{text}unit 2.5ms\nbit rate 300\n").as_bytes(),
    );
    let units = String::from_utf8(units.stdout).unwrap();
    assert!(units.contains("\nceiling 2\nunit 2.5 ms\nbit rate 300\n\nlocation"));
}

/// The mark and the blank fields come back, in bytes and as text.
#[test]
fn encode_and_decode_a_mark() {
    let model = bytes(&["encode", &plan("poll-blank.txt")]);
    assert_eq!(model[..14], [2, 2, 3, 4, 4, 0, 0, 0, 0, 0, 0, 0, 0, 0]);
    let file = file("blank.model", &model);
    let text = printed(&["decode", &file], GOOD);
    assert!(text.starts_with("mark 2\nclocks x y\nceiling 3\n\nlocation L0 start\nlocation L1\n"));
    assert_eq!(run_on(&["encode", "-"], text.as_bytes()).stdout, model);
    // Without its first line it is a plan of mark 1 with the same fields.
    let old = run_on(
        &["encode", "-"],
        text.trim_start_matches("mark 2\n").as_bytes(),
    );
    assert_eq!(old.stdout, [&[1], &model[1..]].concat());
    let wrong = text.replace("mark 2", "mark 3");
    let shown = run_on(&["encode", "-"], wrong.as_bytes());
    assert_eq!(shown.status.code(), Some(REFUSED));
    let shown = String::from_utf8(shown.stderr).unwrap();
    let words = "-, line 1, column 6: the mark is 3, but it can only be 1 or 2\n    mark 3\n";
    assert!(shown.starts_with(words), "{shown}");
}

#[test]
fn mistakes_are_shown() {
    let text = file("wrong.txt", "clocks x\nceiling 5\nlocation a\n");
    for command in [
        "encode", "decode", "draw", "words", "report", "judge", "soonest",
    ] {
        let shown = complaint(&[command, &text], REFUSED);
        assert!(
            shown.contains("wrong.txt, line 2, column 9: the ceiling is 5"),
            "{shown}"
        );
        assert!(shown.ends_with("2 mistakes\n"), "{shown}");
    }
    let shown = complaint(&["draw", "--plain", &text], REFUSED);
    assert!(shown.ends_with("2 mistakes\n"), "{shown}");
}

#[test]
fn draw() {
    let plain = printed(&["draw", "--plain", &plan("loop.txt")], GOOD);
    let judged = printed(&["draw", &plan("loop.txt")], GOOD);
    let trail = file("draw.trail", LOOP_TRAIL);
    let other = printed(&["draw", &plan("loop.txt"), &trail], GOOD);
    for picture in [&plain, &judged, &other] {
        assert!(picture.starts_with("<svg ") && picture.ends_with("</svg>\n"));
    }
    assert!(!plain.to_lowercase().contains("unsafe"));
    assert!(judged.to_lowercase().contains("unsafe"));
    assert!(judged != other && judged != plain);
    let cut = file("draw.cut", &LOOP_TRAIL[..33]);
    let shown = complaint(&["draw", &plan("loop.txt"), &cut], BAD);
    assert!(shown.contains("draw.cut: fails: refused 1: ") && shown.contains("number 34"));
    let safe = printed(&["draw", &plan("poll-mended.txt")], GOOD);
    assert!(safe.to_lowercase().contains("safe"));
    complaint(&["draw", "--plain", &plan("loop.txt"), &trail], FAILED);
}

#[test]
fn draw_by_the_mark() {
    for arguments in [&["draw"][..], &["draw", "--plain"]] {
        let [old, new] = ["poll.txt", "poll-blank.txt"]
            .map(|name| printed(&[arguments, &[&plan(name)]].concat(), GOOD));
        assert!(
            new.contains(">clocks panel, repeater; ceiling 3; mark 2<"),
            "{new}"
        );
        assert_eq!(new.matches(">(last edge)<").count(), 1);
        assert_eq!(new.matches(">(last edge): no limit is written").count(), 1);
        assert!(old.contains(">clocks panel, repeater; ceiling 3<"), "{old}");
        assert!(!old.contains("last edge"));
        assert!(old.contains(">stay panel≤1<") && new.contains(">stay panel≤1<"));
    }
}

#[test]
fn words() {
    let trail = file("words.trail", LOOP_TRAIL);
    let told = printed(&["words", &plan("loop.txt"), &trail], GOOD);
    assert_eq!(told, include_str!("loop-trail.golden"));
    // Ours, and of a plan that fails with perfect clocks too one without drift.
    let ours = printed(&["words", &plan("loop.txt")], GOOD);
    assert!(
        ours.contains("drift in 'one'") && ours.ends_with("end in 'blank', which is forbidden\n")
    );
    let hasty = printed(&["words", &plan("hasty.txt")], GOOD);
    assert!(!hasty.contains("drift") && hasty.contains("edge 0 'send' (home -> at-east)"));
    let wrong = file("words.wrong", [2, 2, 0, 1, 0]);
    let told = printed(&["words", &plan("loop.txt"), &wrong], BAD);
    assert!(told.contains("1 time passes in 'entry'"), "{told}");
    assert!(told
        .ends_with("fails by the proved check, refused 13: a step of the trail cannot be taken\n"));
    let safe = printed(&["words", &plan("tiny.txt")], GOOD);
    assert!(safe.starts_with("a sheet: of 3 states 3 are in, none of them forbidden"));
}

/// The words of both crates are the same.
#[test]
fn explain() {
    for refusal in Refusal::ALL {
        let number = refusal.number();
        let told = printed(&["explain", &number.to_string()], GOOD);
        assert_eq!(Some(&told), plan::explain::refusal_words(number).as_ref());
        assert!(told.starts_with(&format!("refused {number}: {refusal}\n")));
    }
    let model = file("explain.model", [1, 1, 9]);
    let told = printed(&["explain", "3", &model], GOOD);
    assert!(told.ends_with("\nhere: number 3 (byte 3), the ceiling: it is 9, but must be 1 to 4\n"));
    let model = file("explain.mark", [3, 1, 9]);
    let told = printed(&["explain", "3", &model], GOOD);
    assert!(
        told.contains("\nA plan begins with the mark, 1 or 2, then clocks "),
        "{told}"
    );
    assert!(told.ends_with("\nhere: number 1 (byte 1), the mark: it is 3, but must be 1 or 2\n"));
    let trail = file("explain.trail", [2, 1, 1, 1]);
    let told = printed(&["explain", "13", &plan("loop.txt"), &trail], GOOD);
    assert!(
        told.contains("edge 1 (one -> two) does not leave 'entry'"),
        "{told}"
    );
    let sheet = file("explain.sheet", [1, 5, 3, 129, 0]);
    let told = printed(&["explain", "15", &plan("tiny.txt"), &sheet], GOOD);
    assert!(
        told.ends_with("'idle' at x=1: it is 1, spelt in 2 bytes where 1 is enough\n"),
        "{told}"
    );
    let told = printed(&["explain", "16", &plan("loop.txt")], GOOD);
    assert!(told.starts_with(
        "refused 16: no run with perfect clocks gets to the location, or there is none\n\
         The call for the least time alone says so, and neither plan nor evidence is at fault."
    ));
    assert!(
        told.ends_with("; zervuldo soonest tells which of them have a least time\n"),
        "{told}"
    );
    let told = printed(&["explain", "17", &plan("loop.txt")], GOOD);
    assert!(
        told.starts_with("refused 17: a loop of edges has none that resets every clock\n")
            && told.contains("here: none of edge 1 (one -> two), edge 2 (two -> one) resets"),
        "{told}"
    );
    for wrong in ["0", "18", "x", "-1"] {
        complaint(&["explain", "--", wrong], FAILED);
    }
    assert!(joined(&printed(&["help", "explain"], GOOD)).contains("the refusal, 1 to 17."));
}
