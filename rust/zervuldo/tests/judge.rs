//! `judge`: verdicts, what is told with them, evidence, tables, JSON.

mod common;

use common::*;

fn judged(name: &str, options: &[&str], status: i32) -> String {
    let plan = plan(name);
    let arguments = [&["judge", &plan], options].concat();
    joined(&printed(&arguments, status))
}

#[test]
fn safe_plans() {
    let told = judged("poll-mended.txt", &[], GOOD);
    assert!(told.starts_with("poll-mended: safe meaning drift below 1/6 of a unit"));
    assert!(told.contains("states 268, 41 of them reached by drift margin 6"));
    assert!(told.contains("good to 52631.578 ppm or better they are harmless for ever"));
    assert!(told.contains("the sheet passes the proved check"));
    // More states than the programs of document 01 have scratch for.
    let told = judged("largest.txt", &[], GOOD);
    assert!(told.starts_with("largest: safe") && told.contains("states 15816,"));
}

#[test]
fn unsafe_by_drift_only() {
    let told = judged("poll.txt", &[], BAD);
    assert!(told.starts_with("poll: unsafe meaning with any drift, however slight"));
    assert!(told.contains("states 268 trail 9 steps into 'blank'"));
    assert!(told.contains("no run of fewer than q - 1 jumps does harm"));
}

/// That perfect clocks are clean is proved, and with it the fewest jumps; the
/// example alone is searched for.
#[test]
fn perfect_clocks_are_clean() {
    let told = judged("loop.txt", &[], BAD);
    for part in [
        "states 132 trail 8 steps into 'blank' perfect clocks clean: it takes drift to get there \
         harm at a drift of 1/q of a unit no run of fewer than q - 1 jumps does harm",
        " proved verdict, states, trail, that perfect clocks are clean, the jumps before harm and \
         those within which it comes; the trail passes the proved check not proved how long \
         jumps take; how crystals make a drift (docs/DRIFT.md argues it)",
    ] {
        assert!(told.contains(part), "{told}");
    }
    assert_eq!(told.matches("(by a search, not proved)").count(), 1);
}

#[test]
fn unsafe_with_perfect_clocks() {
    let told = judged("hasty.txt", &[], BAD);
    assert!(told.starts_with("hasty: unsafe"));
    assert!(told.contains(
        "perfect clocks fail too: 'ring-open' after 4 units at the soonest; a trail of time and \
         jump steps alone passes the proved check"
    ));
    assert!(told.contains("some run does harm within 3 jumps, whatever the drift"));
    assert!(told.contains(" proved verdict, states, trail, the units at the soonest, the jumps"));
    assert!(told.contains("; the trails pass the proved check not proved how long jumps take;"));
    assert!(!told.contains("example"));
    let told = judged("hasty.txt", &["--unit", "20ms"], BAD);
    assert!(
        told.contains("'ring-open' after 4 units at the soonest, 80 ms; a trail"),
        "{told}"
    );
}

/// The trail with the fewest steps waits for 'late', but jumps get to 'early'
/// sooner, and as soon to 'too', which comes behind it.
const SOONER: &str = "clocks x\nceiling 2\n\
                      location s start\nlocation late forbidden\nlocation a\nlocation b\n\
                      location c\nlocation early forbidden\nlocation too forbidden\n\
                      edge s -> late when x=2\nedge s -> a when x=1\nedge a -> b\n\
                      edge b -> c\nedge c -> early\nedge c -> too\n";

#[test]
fn the_soonest_of_several() {
    let sooner = file("sooner.txt", SOONER);
    let told = joined(&printed(&["judge", &sooner], BAD));
    assert!(
        told.contains("perfect clocks fail too: 'early' after 1 unit at the soonest; a trail"),
        "{told}"
    );
    let words = printed(&["words", &sooner], GOOD);
    assert!(words.ends_with("end in 'late', which is forbidden\n"));
    let told = printed(&["judge", &sooner, "--json", "--unit=3s"], BAD);
    let part = "\"perfect_clocks\":{\"clean\":false,\"proved\":true,\"soonest\":{\"location\":\
                \"early\",\"units\":1,\"ns\":3000000000}}";
    assert!(told.contains(part), "{told}");
    let begun = file(
        "begun.txt",
        "clocks x\nceiling 1\nlocation a start forbidden\n",
    );
    let told = joined(&printed(&["judge", &begun, "--unit=3s"], BAD));
    assert!(
        told.contains("perfect clocks fail too: 'a' at once; a trail"),
        "{told}"
    );
}

/// The crystals' drift against the margin, and as jumps and time before harm.
#[test]
fn real_units() {
    let options = ["--crystal", "50ppm", "--unit", "20 ms"];
    let told = judged("poll-mended.txt", &options, GOOD);
    assert!(told.contains("crystal 50 ppm, ceiling 3: drift 0.00015 of a unit"));
    assert!(told.contains("crystals harmless for ever"));
    let slow = [&options[..], &["--bit-rate", "200"]].concat();
    let told = judged("poll-mended.txt", &slow, GOOD);
    assert!(
        told.contains("bit rate 200, ceiling 3: drift 0.25 of a unit"),
        "{told}"
    );
    assert!(told.contains("NOT shown harmless"));
    let told = judged("poll.txt", &options, BAD);
    assert!(
        told.contains("no run of fewer than 6,666 jumps does harm"),
        "{told}"
    );
    assert!(told.contains("time not before 3.3 minutes;"), "{told}");
    assert!(
        told.contains("example at a drift of 1/6,667, which the crystals make, a run of"),
        "{told}"
    );
    let lone = complaint(&["judge", &plan("poll.txt"), "--bit-rate", "9600"], REFUSED);
    assert!(lone.contains("a bit rate says nothing without the length of a unit"));
}

/// Lines of the plan say the same as options, and an option has the last word.
#[test]
fn units_in_the_plan() {
    let text = std::fs::read_to_string(plan("poll.txt")).unwrap();
    let with = file(
        "with-units.txt",
        format!("unit 20 ms\ncrystal 50 ppm\n{text}"),
    );
    let told = joined(&printed(&["judge", &with], BAD));
    assert!(told.contains("crystal 50 ppm, ceiling 3: drift 0.00015 of a unit"));
    let told = joined(&printed(&["judge", &with, "--crystal=10ppm"], BAD));
    assert!(told.contains("crystal 10 ppm, ceiling 3: drift 0.00003 of a unit"));
}

#[test]
fn warnings() {
    let told = judged("tiny.txt", &[], GOOD);
    assert!(told.contains("warning no location is forbidden, so the plan is safe whatever it does"));
    assert!(told.contains("warning the plan can get stuck in 'idle' at x=1"));
    let text =
        "clocks x\nceiling 2\nlocation a start stay x<=1\nlocation b\nlocation c forbidden\n\
                edge go: a -> b when x=2\nedge on: a -> a when x=1 reset x\n";
    let shut = file("shut.txt", text);
    let told = joined(&printed(&["judge", &shut], GOOD));
    assert!(told.contains("warning 'b' is never entered "), "{told}");
    assert!(
        told.contains(
            "warning edge 0 'go' (a -> b) can never open: it needs x>=2, but 'a' may be stayed in \
             while x<=1 (not proved)"
        ),
        "{told}"
    );
    assert!(!told.contains("stuck"), "{told}");
    // Alone it could open, but no run gets there in time.
    let late = text.replace("stay x<=1\nlocation b", "\nlocation b");
    let late = late.replace("a -> a when x=1", "a -> a when x<=1");
    let late = late.replace("edge go: a -> b", "edge go: b -> a");
    let told = joined(&printed(&["judge", &file("late.txt", late)], GOOD));
    assert!(
        told.contains("warning edge 0 'go' (b -> a) never opens (not proved)"),
        "{told}"
    );
}

/// What is told of a plan with mark 2.
const MARK_2: &str = " mark 2: a blank stay limit is that of the last edge to close, or the \
                      ceiling where no edge leaves";

const SAFE_BY_MARK: &str =
    " warning the plan is safe by its mark: with mark 1, where a blank stay \
                            limit is the ceiling, it is unsafe";

#[test]
fn a_verdict_by_the_mark() {
    let told = |mark: u8, status| {
        let model = file("late.model", [&[mark], &LATE[1..]].concat());
        joined(&printed(&["judge", &model], status))
    };
    let old = told(1, BAD);
    assert!(old.contains("states 10 trail 5 steps into 'L1'"), "{old}");
    assert!(!old.contains(" mark "), "{old}");
    let new = told(2, GOOD);
    assert!(
        new.contains("states 10, 5 of them reached by drift"),
        "{new}"
    );
    assert!(new.contains(MARK_2), "{new}");
    assert!(new.contains(SAFE_BY_MARK), "{new}");
    // Safe with either mark: the edge into the forbidden location never opens.
    let shut = [&[2], &LATE[1..7], &[1], &LATE[8..]].concat();
    let shut = joined(&printed(&["judge", &file("late.model", shut)], GOOD));
    assert!(shut.contains(MARK_2), "{shut}");
    assert!(!shut.contains("by its mark"), "{shut}");
    // The limit that mark 1 gave it, written out.
    let moved = [&[2], &LATE[1..9], &[3], &LATE[10..]].concat();
    let moved = joined(&printed(&["judge", &file("late.model", moved)], BAD));
    assert_eq!(moved.replace(MARK_2, ""), old);
}

/// With no limit written, all that is told but the mark is what poll.txt has.
#[test]
fn blank_limits() {
    let options = ["--unit", "20ms", "--crystal", "50ppm"];
    let [old, new] = ["poll", "poll-blank"].map(|name| {
        let told = judged(&format!("{name}.txt"), &options, BAD);
        told.strip_prefix(name).unwrap().to_string()
    });
    assert!(!old.contains(MARK_2) && new.contains(MARK_2), "{new}");
    assert_eq!(new.replace(MARK_2, ""), old);
}

#[test]
fn every_form_by_content() {
    let model = bytes(&["encode", &plan("loop.txt")]);
    let text = std::fs::read(plan("loop.txt")).unwrap();
    let listed = std::fs::read(plan("loop.plan")).unwrap();
    for content in [model, text, listed] {
        let output = run_on(&["judge", "-"], &content);
        assert_eq!(output.status.code(), Some(BAD));
        let told = String::from_utf8(output.stdout).unwrap();
        assert!(told.starts_with("standard-input: unsafe\n"), "{told}");
        assert!(joined(&told).contains("trail 8 steps"));
    }
}

#[test]
fn mistakes_and_refusals() {
    let stray = file(
        "stray.txt",
        b"clocks x\nceiling 1\nlocation a start # \xe9\n",
    );
    let shown = complaint(&["judge", &stray], REFUSED);
    assert!(
        shown.contains("stray.txt, line 3, column 20: the byte 233 is no UTF-8"),
        "{shown}"
    );
    let refused = file("refused.model", [1, 1, 9]);
    let shown = complaint(&["judge", &refused], REFUSED);
    assert!(shown.contains("refused 3: a number of the header is out of range\n"));
    assert!(shown.ends_with("here: number 3 (byte 3), the ceiling: it is 9, but must be 1 to 4\n"));
}

#[test]
fn several_plans() {
    let refused = file("cut.model", [1, 1, 1]);
    let files = [
        plan("tiny.txt"),
        plan("poll.txt"),
        refused,
        plan("hasty.txt"),
    ];
    let output = run_on(&["judge", &files[0], &files[1], &files[2], &files[3]], b"");
    assert_eq!(output.status.code(), Some(REFUSED));
    let told = String::from_utf8(output.stdout).unwrap();
    let lines: Vec<&str> = told.lines().collect();
    assert_eq!(lines[0], "plan   verdict  states  finding");
    assert!(lines[1].starts_with("tiny   safe          3  harmless for ever below 1/2 of a unit"));
    assert_eq!(
        lines[2],
        "poll   unsafe      268  'blank' in 9 steps, by drift only"
    );
    assert!(lines[3].starts_with("cut    none "), "{told}");
    assert_eq!(
        lines[4],
        "hasty  unsafe     1172  'ring-open' in 11 steps, with perfect clocks too"
    );
    assert!(told.ends_with("\n4 plans: 1 safe, 2 unsafe, 1 without a verdict\n"));
    assert!(String::from_utf8(output.stderr)
        .unwrap()
        .contains("refused 1: "));
    assert_eq!(
        run_on(&["judge", &files[0], &files[0]], b"").status.code(),
        Some(GOOD)
    );
    assert_eq!(
        run_on(&["judge", &files[0], &files[1]], b"").status.code(),
        Some(BAD)
    );
}

/// What is written passes the check; two plans of one name do not share a file.
#[test]
fn evidence_in_a_folder() {
    let folder = folder("evidence");
    let inner = folder.join("inner").to_str().unwrap().to_string();
    let files = [plan("poll.txt"), plan("poll-mended.txt")];
    let told = printed(&["judge", &files[0], &files[1], "--evidence", &inner], BAD);
    for (name, kind) in [("poll", "trail"), ("poll-mended", "sheet")] {
        let written = format!("{inner}/{name}.{kind}");
        let bytes = std::fs::read(&written).unwrap().len();
        let words = format!("{name}: evidence: {written}, a {kind} of {bytes} bytes, passes");
        assert!(told.contains(&words), "{told}");
        printed(&["check", &plan(&format!("{name}.txt")), &written], GOOD);
    }
    let twice = complaint(
        &[
            "judge",
            &files[0],
            &plan("../plans/poll.txt"),
            "--evidence",
            &inner,
        ],
        FAILED,
    );
    assert!(twice.contains("two plans are called 'poll'"));
    let shut = complaint(&["judge", &files[0], "--evidence", &files[0]], FAILED);
    assert!(shut.contains("File exists"), "{shut}");
}

/// The quicker judge takes plans with a joint reset, and the command says so.
/// Evidence of both kinds passes, and of another plan nothing is said.
#[test]
fn joint_resets() {
    let words = "judge           the quicker one: each loop that can be gone has an edge that \
                 resets every clock";
    let unwrapped = |told: String| told.split_whitespace().collect::<Vec<_>>().join(" ");
    for (name, status, kind) in [("poll-mended", GOOD, "sheet"), ("hasty", BAD, "trail")] {
        let folder = folder("joint").to_str().unwrap().to_string();
        let file = plan(&format!("{name}.txt"));
        let told = printed(&["judge", &file, "--evidence", &folder], status);
        assert!(
            unwrapped(told).contains(&unwrapped(words.to_string())),
            "{name}"
        );
        printed(&["check", &file, &format!("{folder}/{name}.{kind}")], GOOD);
        let json = printed(&["judge", &file, "--json"], status);
        assert!(json.ends_with(",\"joint\":true}\n"), "{json}");
    }
    let told = judged("hasty.txt", &[], BAD);
    let trail = "trail 11 steps into 'ring-open', the fewest without touch";
    assert!(unwrapped(told).contains(trail));
    let told = judged("poll.txt", &[], BAD);
    assert!(!told.contains("quicker") && !told.contains("without touch"));
}

#[test]
fn json() {
    let told = printed(
        &["judge", &plan("poll.txt"), "--json", "--crystal=50ppm"],
        BAD,
    );
    for part in [
        "{\"plan\":\"poll\",\"verdict\":\"unsafe\",\"states\":268,\"steps\":9,\"location\":\"blank\"",
        "\"perfect_clocks\":{\"clean\":true,\"proved\":true,\"soonest\":null}",
        "\"window\":{\"least_jumps\":6666,",
        "\"passes_proved_check\":true",
        ",\"mark\":1,\"joint\":false}\n",
    ] {
        assert!(told.contains(part), "{told}");
    }
    let blank = printed(
        &[
            "judge",
            &plan("poll-blank.txt"),
            "--json",
            "--crystal=50ppm",
        ],
        BAD,
    );
    assert!(blank.ends_with(",\"mark\":2,\"joint\":false}\n"), "{blank}");
    let renamed = blank.replace("poll-blank", "poll");
    assert_eq!(renamed.replace("\"mark\":2", "\"mark\":1"), told);
    let told = printed(
        &[
            "judge",
            &plan("tiny.txt"),
            &plan("poll-mended.txt"),
            "--json",
        ],
        GOOD,
    );
    assert!(told.starts_with(
        "[{\"plan\":\"tiny\",\"verdict\":\"safe\",\"states\":3,\"marked\":3,\"margin\":2,"
    ));
    let refused = file("json.model", [3]);
    let output = run_on(&["judge", &refused, "--json"], b"");
    assert_eq!(output.status.code(), Some(REFUSED));
    let told = String::from_utf8(output.stdout).unwrap();
    assert!(
        told.starts_with("{\"plan\":\"json\",\"verdict\":null,\"message\":\""),
        "{told}"
    );
}
