//! Plans with edges that can never open: they are judged, and users are told.

mod common;

use common::*;

const WARNING: &str = "edge 3 'test' (home -> away) can never open: it needs panel>=3, but 'home' \
                       may be stayed in while panel<=2 (not proved)";

/// A loop that would leave the clock unreset, if a blank limit did not keep one
/// of its edges shut: with mark 2 it is accepted, with mark 1 refused.
const BY_MARK: [u8; 20] = [2, 1, 2, 2, 2, 0, 0, 0, 0, 0, 0, 1, 0, 2, 2, 1, 0, 0, 0, 1];

fn test_link() -> String {
    plan("test-link.txt")
}

#[test]
fn judged_and_warned_of() {
    let told = joined(&printed(&["judge", &test_link()], GOOD));
    assert!(
        told.starts_with("test-link: safe meaning drift below 1/"),
        "{told}"
    );
    assert!(
        told.contains("states 201, 8 of them reached by drift"),
        "{told}"
    );
    assert!(told.contains(&format!("warning {WARNING} ")), "{told}");
    assert_eq!(told.matches("warning").count(), 1, "{told}");
    let json = printed(&["judge", &test_link(), "--json"], GOOD);
    let warning = format!("\"warnings\":[{{\"words\":\"{WARNING}\",\"proved\":false}}]");
    assert!(json.contains(&warning), "{json}");
    let several = printed(&["judge", &test_link(), &plan("poll-mended.txt")], GOOD);
    assert!(
        several.contains(&format!("\ntest-link: warning: {WARNING}\n")),
        "{several}"
    );
}

/// The link walks if its low is within the limit, and then its loop counts.
#[test]
fn refused_if_it_opens() {
    let text = std::fs::read_to_string(test_link()).unwrap();
    let open = file("open-link.txt", text.replace("panel=3", "panel=2"));
    let shown = complaint(&["judge", &open], REFUSED);
    for clock in ["panel", "repeater"] {
        let words = format!(
            "never resets clock '{clock}', and each of its edges can open; one of them must reset"
        );
        assert!(shown.contains(&words), "{shown}");
    }
    assert!(
        shown.contains("the loop home -> away -> home (lines 19, 17)"),
        "{shown}"
    );
    assert!(shown.ends_with("2 mistakes\n"), "{shown}");
}

/// Evidence for a plan that was refused before, with it and without its names.
#[test]
fn evidence() {
    let folder = folder("shut-evidence");
    let inner = folder.to_str().unwrap();
    let model = file("shut-link.model", bytes(&["encode", &test_link()]));
    for (name, file) in [("test-link", test_link()), ("shut-link", model)] {
        printed(&["judge", &file, "--evidence", inner], GOOD);
        let sheet = format!("{inner}/{name}.sheet");
        let answer = printed(&["check", &file, &sheet], GOOD);
        assert!(answer.starts_with("passes: a sheet"), "{answer}");
    }
}

/// An edge into a forbidden location is meant not to open, but not by a limit
/// that leaves no way at all.
#[test]
fn into_a_forbidden_location() {
    let told = |limit: &str| {
        let text = format!(
            "clocks x\nceiling 2\nlocation a start stay x<={limit}\nlocation b forbidden\n\
             edge turn: a -> a when x<=1 reset x\nedge harm: a -> b when x=2\n"
        );
        run_on(&["judge", &file("fenced.txt", text)], b"")
    };
    let fenced = joined(&String::from_utf8(told("1").stdout).unwrap());
    assert!(fenced.starts_with("fenced: safe"), "{fenced}");
    let words = "warning edge 1 'harm' (a -> b) can never open: it needs x>=2, but 'a' may be \
                 stayed in while x<=1 (not proved)";
    assert!(fenced.contains(words), "{fenced}");
    assert_eq!(told("2").status.code(), Some(BAD));
    let mended = joined(&printed(&["judge", &plan("poll-mended.txt")], GOOD));
    assert!(!mended.contains("warning"), "{mended}");
}

#[test]
fn accepted_by_the_mark() {
    let told = |mark: u8, command: &[&str]| {
        let model = file("by-mark.model", [&[mark], &BY_MARK[1..]].concat());
        let output = run_on(&[command, &[&model]].concat(), b"");
        let [told, shown] =
            [output.stdout, output.stderr].map(|text| String::from_utf8(text).unwrap());
        (output.status.code(), joined(&told), shown)
    };
    let (status, new, shown) = told(2, &["judge"]);
    assert_eq!((status, shown.as_str()), (Some(GOOD), ""));
    for words in [
        "warning the plan is accepted by its mark: with mark 1, where a blank stay limit is the \
         ceiling, a loop of edges leaves a clock unreset, and it is refused",
        "warning edge 0 (L0 -> L1) can never open: it needs x>=2 and does not reset x, but 'L1' \
         may be stayed in while x<=1 (last edge) (not proved)",
        "warning edge 1 (L1 -> L0) never opens (not proved)",
    ] {
        assert!(new.contains(words), "{new}");
    }
    let (status, _, shown) = told(1, &["judge"]);
    assert_eq!(status, Some(REFUSED));
    assert!(
        shown.contains("refused 7: a loop of edges leaves a clock unreset\n"),
        "{shown}"
    );
    assert!(shown.ends_with(
        "here: clock 0 (x) is never reset on the loop of edge 0 (L0 -> L1), edge 1 (L1 -> L0), \
         each of which can open\n"
    ));
    let (_, explained, _) = told(1, &["explain", "7"]);
    for words in [
        "if each of these edges can open alone: each low is within the stay limit",
        "An edge that can never open does not count.",
        "so a loop counts even where its edges never open one after the other.",
    ] {
        assert!(explained.contains(words), "{explained}");
    }
}

#[test]
fn drawn_and_reported() {
    for arguments in [&["draw"][..], &["draw", "--plain"], &["report"]] {
        let page = printed(&[arguments, &[&test_link()]].concat(), GOOD);
        for part in [
            "<title>edge 3 &#39;test&#39; (home -&gt; away) can never open: it needs panel&gt;=3",
            ">never opens<",
            ">never opens: the edge needs a clock above a stay limit",
        ] {
            assert!(page.contains(part), "{arguments:?}: {part}");
        }
    }
    let words = printed(&["words", &test_link()], GOOD);
    assert!(
        words.starts_with("a sheet: of 201 states 8 are in, none of them forbidden"),
        "{words}"
    );
}
