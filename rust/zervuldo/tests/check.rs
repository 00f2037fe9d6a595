//! `check`: evidence from anywhere, by the proved check.

mod common;

use common::*;

fn checked(plan_file: &str, evidence: &str, status: i32) -> String {
    printed(&["check", &plan(plan_file), evidence], status)
}

#[test]
fn evidence_that_passes() {
    let trail = file("01.trail", LOOP_TRAIL);
    let words = "passes: a trail, which shows that the plan is unsafe\n";
    assert_eq!(checked("loop.txt", &trail, GOOD), words);
    let sheet = file("01.sheet", [1, 5, 3, 1]);
    let words = "passes: a sheet, which shows that the plan is safe\n";
    assert_eq!(checked("tiny.txt", &sheet, GOOD), words);
    // As a list of numbers, and for the plan's bytes.
    let listed = file("01.numbers", "1,5,3,1");
    assert_eq!(checked("tiny.plan", &listed, GOOD), words);
}

/// A plan, evidence that fails for it, the refusal, and what is said of the
/// place.
type Failing = (&'static str, &'static [u8], u8, &'static str);

/// The loop plan's trail with its last number another.
const ORDINARY: [u8; 34] = {
    let mut trail = LOOP_TRAIL;
    trail[33] = 2;
    trail
};

/// The same with an edge of the closed walk padded: number 19, a 2.
const PADDED: [u8; 35] = {
    let mut trail = [0; 35];
    let mut at = 0;
    while at < 34 {
        trail[if at < 19 { at } else { at + 1 }] = LOOP_TRAIL[at];
        at += 1;
    }
    trail[18] |= 0x80;
    trail
};

const FAILING: [Failing; 11] = [
    ("loop.txt", &[], 1, "there are only 0 bytes"),
    (
        "loop.txt",
        LOOP_TRAIL.split_at(33).0,
        1,
        "number 34 (from byte 34), the edge of step 8",
    ),
    ("loop.txt", &[2, 128, 128, 128], 2, "a fourth follows"),
    (
        "tiny.txt",
        &[1, 5, 3, 1, 0],
        6,
        "the sheet ends with byte 4, but 1 more follows",
    ),
    ("loop.txt", &[3], 10, "it is 3, but must be 1 or 2"),
    (
        "tiny.txt",
        &[1, 5, 3, 6],
        11,
        "state 2, 'idle' at x=1: it is 6",
    ),
    (
        "tiny.txt",
        &[1, 4, 3, 1],
        12,
        "the start is not in: state 0 ('idle' at x=0)",
    ),
    (
        "loop.txt",
        &[2, 1, 1, 1],
        13,
        "does not leave 'entry', where the trail is",
    ),
    (
        "loop.txt",
        &ORDINARY,
        14,
        "ends in 'one', which is not forbidden",
    ),
    (
        "loop.txt",
        &PADDED,
        15,
        "number 19 (byte 19), the edge of step 6.3: it is 2, spelt in 2 bytes",
    ),
    (
        "tiny.txt",
        &[1, 133, 0, 3, 1],
        15,
        "number 2 (byte 2), state 0, 'idle' at x=0: it is 5, spelt in 2 bytes",
    ),
];

/// Each refusal of evidence, with the place in its bytes and the plan's names.
#[test]
fn evidence_that_fails() {
    for (at, (plan_file, evidence, number, place)) in FAILING.into_iter().enumerate() {
        let evidence = file(&format!("fails-{at}"), evidence);
        let told = checked(plan_file, &evidence, BAD);
        let meaning = format!("fails: refused {number}: ");
        assert!(told.starts_with(&meaning), "{told}");
        let last = told.lines().last().unwrap();
        assert!(last.starts_with("here: ") && last.contains(place), "{told}");
    }
}

/// The trail of a plan with mark 1 for its copy with mark 2, whose last edge has
/// closed: the place names the limit.
#[test]
fn evidence_for_the_other_mark() {
    let [old, new] = [1, 2].map(|mark| {
        let name = format!("check-late-{mark}.model");
        file(&name, [&[mark], &LATE[1..]].concat())
    });
    let trail = file("late.trail", [2, 5, 0, 0, 0, 0, 1, 0]);
    printed(&["check", &old, &trail], GOOD);
    let told = printed(&["check", &new, &trail], BAD);
    assert!(told.starts_with("fails: refused 13: "), "{told}");
    let place = "step 5: 'L1' may be stayed in while x<=1 (last edge), not at x=2\n";
    assert!(told.ends_with(place), "{told}");
}

#[test]
fn a_refused_plan_is_not_the_evidence() {
    let model = file("short.model", [1, 1]);
    let sheet = file("short.sheet", [1, 5, 3, 1]);
    let told = complaint(&["check", &model, &sheet], REFUSED);
    assert!(told.contains("refused 1: the bytes end too soon"));
    let listed = file("bad.numbers", "1,5,300");
    let told = complaint(&["check", &plan("tiny.txt"), &listed], REFUSED);
    assert!(told.contains("line 1, column 5: '300' is no number from 0 to 255"));
}

#[test]
fn json() {
    let trail = file("json.trail", LOOP_TRAIL);
    let told = printed(&["check", &plan("loop.txt"), &trail, "--json"], GOOD);
    assert_eq!(told, "{\"passes\":true,\"kind\":\"trail\"}\n");
    let cut = file("json.cut", &LOOP_TRAIL[..5]);
    let told = printed(&["check", "--json", &plan("loop.txt"), &cut], BAD);
    assert!(told.starts_with("{\"passes\":false,\"refusal\":1,\"message\":\"fails: refused 1"));
}
