//! `soonest`: least times with perfect clocks, by name, by number and of all.

mod common;

use common::*;

const SOONEST: &str = "soonest";

/// What is told of a location, with its lines joined.
fn told(file: &str, location: &str, options: &[&str]) -> String {
    let arguments = [&[SOONEST, file, location], options].concat();
    joined(&printed(&arguments, GOOD))
}

#[test]
fn by_name_and_by_number() {
    let file = plan("loop.txt");
    let by_name = printed(&[SOONEST, &file, "one", "--unit", "20ms"], GOOD);
    assert_eq!(
        by_name,
        "\
loop: soonest into 'one'
  time            1 unit, 20 ms
  meaning         with perfect clocks some run enters 'one' after 1 unit, and
                  none enters it sooner
  proved          all of it, in units and for runs on whatever times
"
    );
    let by_number = printed(&[SOONEST, &file, "1", "--unit=20 ms"], GOOD);
    assert_eq!(by_number, by_name);
    assert!(told(&file, "two", &[]).contains(" time 1 unit meaning "));
}

#[test]
fn the_start() {
    let start = told(&plan("loop.txt"), "entry", &["--unit=20ms"]);
    let words = "loop: soonest into 'entry' time 0 units meaning the ring starts in 'entry': it \
                 is entered at once proved all of it";
    assert!(start.starts_with(words), "{start}");
}

/// By drift only, and not by slight drift either, as the marks have it.
#[test]
fn never() {
    let blank = told(&plan("loop.txt"), "blank", &["--unit=20ms"]);
    let words = "loop: soonest into 'blank', which is forbidden time never meaning no run with \
                 perfect clocks enters 'blank'; only drift leads there, however slight it is \
                 proved all of it: perfect clocks by the call for the least time, drift by the \
                 marks";
    assert_eq!(blank, words);
    let mended = told(&plan("poll-mended.txt"), "blank", &[]);
    let words = "no run with perfect clocks enters 'blank'; slight drift does not lead there \
                 either";
    assert!(mended.contains(words), "{mended}");
}

/// Jumps in no time, a way through a forbidden location, one that no edge
/// leads to.
const WAYS: &str = "clocks x\nceiling 2\nunit 5 ms\nlocation a start stay x<=1\nlocation b\n\
                    location c forbidden\nlocation d\nlocation e\n\
                    edge a -> b\nedge a -> c when x=1\nedge c -> d when x=2\n";

#[test]
fn all_locations() {
    let ways = file("ways.txt", WAYS);
    assert_eq!(
        printed(&[SOONEST, &ways], GOOD),
        "\
ways: soonest into each location
  location  time            remark
  a         0 units         start
  b         0 units
  c         1 unit, 5 ms    forbidden
  d         2 units, 10 ms
  e         never           not by slight drift either

With perfect clocks some run takes just so long, and none takes less; never
means that none gets there. All of it is proved, in units.
"
    );
    let at_once = told(&ways, "b", &[]);
    assert!(
        at_once.contains("time 0 units meaning with perfect clocks some run enters 'b' at once")
    );
    let loops = printed(&[SOONEST, &plan("loop.txt")], GOOD);
    assert!(
        loops.contains("\n  two       1 unit\n  blank     never    forbidden; by drift only\n"),
        "{loops}"
    );
    // More states than the programs of document 01 have scratch for.
    let largest = printed(&[SOONEST, &plan("largest.txt")], GOOD);
    assert!(largest.contains("\n  repeater-7  5 units\n"), "{largest}");
}

/// A line of the plan says how long a unit is, and an option has the last word.
#[test]
fn real_units() {
    let ways = file("ways-units.txt", WAYS);
    assert!(told(&ways, "d", &[]).contains("time 2 units, 10 ms"));
    assert!(told(&ways, "d", &["--unit=90s"]).contains("time 2 units, 3 minutes"));
    let wrong = complaint(&[SOONEST, &ways, "--unit=90"], FAILED);
    assert!(wrong.contains("--unit: the measure is missing"), "{wrong}");
    let lone = file("lone-rate.txt", WAYS.replace("unit 5 ms", "bit rate 9600"));
    let refused = complaint(&[SOONEST, &lone], REFUSED);
    assert!(refused.contains("a bit rate says nothing without the length of a unit"));
}

#[test]
fn json() {
    let file = file("ways-json.txt", WAYS);
    assert_eq!(
        printed(&[SOONEST, &file, "d", "--json"], GOOD),
        "{\"plan\":\"ways-json\",\"location\":\"d\",\"number\":3,\"start\":false,\
         \"forbidden\":false,\"units\":2,\"ns\":10000000,\"entered_by_drift\":true}\n"
    );
    let all = printed(&[SOONEST, &file, "--json"], GOOD);
    assert!(all.starts_with(
        "{\"plan\":\"ways-json\",\"locations\":[{\"location\":\"a\",\"number\":0,\"start\":true,\
         \"forbidden\":false,\"units\":0,\"ns\":0,\"entered_by_drift\":true},{\"location\":\"b\""
    ));
    assert!(all.ends_with(
        "{\"location\":\"e\",\"number\":4,\"start\":false,\"forbidden\":false,\"units\":null,\
         \"ns\":null,\"entered_by_drift\":false}]}\n"
    ));
    let blank = printed(&[SOONEST, &plan("loop.txt"), "blank", "--json"], GOOD);
    assert!(
        blank.ends_with(
            "\"forbidden\":true,\"units\":null,\"ns\":null,\"entered_by_drift\":true}\n"
        ),
        "{blank}"
    );
    let one = printed(&[SOONEST, &plan("loop.txt"), "one", "--json"], GOOD);
    assert!(one.contains("\"units\":1,\"ns\":null,"), "{one}");
}

#[test]
fn names_that_are_none() {
    let file = plan("loop.txt");
    let shown = complaint(&[SOONEST, &file, "blnk"], FAILED);
    assert_eq!(
        shown,
        format!(
            "zervuldo soonest: there is no location 'blnk' in {file}; did you mean 'blank'?\n\
             its locations, from 0 on: entry, one, two, blank\n"
        )
    );
    let shown = complaint(&[SOONEST, &file, "Entry", "--json"], FAILED);
    assert!(shown.contains("'Entry' in ") && shown.contains("; did you mean 'entry'?"));
    for word in ["4", "01", "+1", "1.0", "", "-", "blank one", "256"] {
        let shown = complaint(&[SOONEST, &file, word], FAILED);
        let words = format!("there is no location '{word}' in {file}\n");
        assert!(shown.contains(&words), "{shown}");
    }
    let shown = complaint(&[SOONEST, "--", &file, "-1"], FAILED);
    assert!(shown.contains("there is no location '-1'"), "{shown}");
}

/// Names are taken letter by letter, and a name like one of decoded bytes goes
/// by what the plan calls so.
#[test]
fn odd_names() {
    let text = "clocks x\nceiling 2\nlocation L1 start\nlocation L0\nlocation été-1_b\n\
                location l0\nedge L1 -> L0 when x=1\nedge L0 -> été-1_b when x=2\n";
    let odd = file("odd.txt", text);
    for (word, said) in [
        ("L1", "into 'L1' time 0 units "),
        ("L0", "into 'L0' time 1 unit "),
        ("l0", "into 'l0' time never "),
        ("été-1_b", "into 'été-1_b' time 2 units "),
        ("0", "into 'L1' time 0 units "),
        ("1", "into 'L0' time 1 unit "),
    ] {
        let told = told(&odd, word, &[]);
        assert!(told.starts_with(&format!("odd: soonest {said}")), "{told}");
    }
    let shown = complaint(&[SOONEST, &odd, "ete-1_b"], FAILED);
    assert!(shown.contains("; did you mean 'été-1_b'?"), "{shown}");
    let all = printed(&[SOONEST, &odd], GOOD);
    assert!(all.contains("\n  été-1_b   2 units\n"), "{all}");
}

/// Bytes and lists of numbers have the names that decode gives them.
#[test]
fn every_form_by_content() {
    let model = bytes(&["encode", &plan("loop.txt")]);
    let listed = std::fs::read(plan("loop.plan")).unwrap();
    for content in [model, listed] {
        for word in ["L2", "2"] {
            let output = run_on(&[SOONEST, "-", word], &content);
            assert_eq!(output.status.code(), Some(GOOD));
            let told = joined(&String::from_utf8(output.stdout).unwrap());
            let words = "standard-input: soonest into 'L2' time 1 unit ";
            assert!(told.starts_with(words), "{told}");
        }
        let output = run_on(&[SOONEST, "-", "two"], &content);
        assert_eq!(output.status.code(), Some(FAILED));
        let shown = String::from_utf8(output.stderr).unwrap();
        assert!(
            shown.ends_with("its locations, from 0 on: L0, L1, L2, L3\n"),
            "{shown}"
        );
    }
    let text = std::fs::read(plan("loop.txt")).unwrap();
    let output = run_on(&[SOONEST, "-", "--unit=2s"], &text);
    let told = String::from_utf8(output.stdout).unwrap();
    assert!(told.contains("\n  one       1 unit, 2 s\n"), "{told}");
}

/// With mark 2 the late entry is shut.
#[test]
fn by_the_mark() {
    let told = |mark: u8| {
        let model = file("late-soonest.model", [&[mark], &LATE[1..]].concat());
        told(&model, "L1", &[])
    };
    let (old, new) = (told(1), told(2));
    assert!(old.contains("time 2 units meaning with perfect"), "{old}");
    assert!(new.contains("time never meaning no run"), "{new}");
    assert!(
        new.contains("; slight drift does not lead there either"),
        "{new}"
    );
}

#[test]
fn plans_without_an_answer() {
    let refused = file("soonest.model", [1, 1, 9]);
    for arguments in [
        &[SOONEST, &refused][..],
        &[SOONEST, &refused, "L0"],
        &[SOONEST, &refused, "--json"],
    ] {
        let shown = complaint(arguments, REFUSED);
        assert!(shown.contains("refused 3: a number of the header is out of range\n"));
    }
    let unreset = file("unreset.model", [1, 1, 1, 1, 1, 0, 0, 0, 0, 0, 0, 0, 1]);
    let shown = complaint(&[SOONEST, &unreset, "L0"], REFUSED);
    assert!(shown.contains("refused 7: "), "{shown}");
    let missing = complaint(&[SOONEST, "none.txt", "a"], FAILED);
    assert!(missing.starts_with("none.txt: No such file"), "{missing}");
}

#[test]
fn output_to_a_file() {
    let out = file("soonest.out", "");
    let arguments = [SOONEST, &plan("loop.txt"), "one"];
    let told = printed(&arguments, GOOD);
    assert_eq!(printed(&[&arguments[..], &["-o", &out]].concat(), GOOD), "");
    assert_eq!(std::fs::read_to_string(&out).unwrap(), told);
    onto_a_full_disk(&arguments);
    into_a_closed_pipe(&[SOONEST, "-"]);
}

/// Perfect clocks are clean in the judge's words exactly where no forbidden
/// location has a time.
#[test]
fn as_the_judge_says() {
    for (name, status, clean) in [
        ("loop", BAD, true),
        ("poll", BAD, true),
        ("poll-blank", BAD, true),
        ("hasty", BAD, false),
        ("poll-mended", GOOD, true),
        ("two-repeaters", GOOD, true),
    ] {
        let file = plan(&format!("{name}.txt"));
        let all = printed(&[SOONEST, &file, "--json"], GOOD);
        let forbidden: Vec<&str> = all.split("\"forbidden\":true,").skip(1).collect();
        assert_eq!(forbidden.len(), 1, "{name}");
        assert_eq!(forbidden[0].starts_with("\"units\":null"), clean, "{name}");
        let judged = printed(&["judge", &file, "--json"], status);
        let words = format!("\"perfect_clocks\":{{\"clean\":{clean},\"proved\":true,");
        assert_eq!(judged.contains(&words), status == BAD, "{judged}");
    }
}
