//! The example plans do what their comments say.

mod common;

use common::*;
use plan::bytes::encode;
use plan::{CEILING_MARK, EDGES_MARK};
use second::generate::{classify, Class};
use second::program::{bytes_of_text, judge_lines, OUTPUT};
use second::widened::run_to_forbidden;

fn lines(name: &str) -> String {
    judge_lines(&encode(&example(name)), ENOUGH[0], OUTPUT)
}

#[test]
fn verdicts() {
    assert_eq!(lines("loop"), "verdict unsafe\nstates 132\nsteps 8\n");
    assert_eq!(lines("tiny"), "verdict safe\nstates 3\nin 3\n");
    assert_eq!(lines("poll"), "verdict unsafe\nstates 268\nsteps 9\n");
    assert_eq!(lines("poll-blank"), lines("poll"));
    assert_eq!(lines("poll-mended"), "verdict safe\nstates 268\nin 41\n");
    assert_eq!(lines("two-repeaters"), "verdict safe\nstates 3532\nin 37\n");
    assert_eq!(lines("hasty"), "verdict unsafe\nstates 1172\nsteps 9\n");
    assert_eq!(lines("test-link"), "verdict safe\nstates 201\nin 8\n");
    assert!(lines("largest").starts_with("verdict safe\nstates 15816\n"));
}

/// Class drift: time, jump and face steps alone reach nothing forbidden.
#[test]
fn what_perfect_clocks_reach() {
    let class = |name: &str| classify(&example(name).model());
    assert_eq!(class("loop"), Class::Drift);
    assert_eq!(class("poll"), Class::Drift);
    assert_eq!(class("poll-blank"), Class::Drift);
    assert_eq!(class("hasty"), Class::Plain);
    for name in ["tiny", "poll-mended", "two-repeaters", "test-link"] {
        assert_eq!(class(name), Class::Safe, "{name}");
    }
}

/// The same without regions: runs of up to 24 jumps, with perfect clocks and
/// with limits that give way by a tenth of a unit.
#[test]
fn runs_with_and_without_drift() {
    let run = |name: &str, e: i64| run_to_forbidden(&example(name).model(), 24, e, 10);
    for name in ["loop", "poll"] {
        assert_eq!(run(name, 0), None, "{name}");
        assert!(run(name, 1).is_some(), "{name}");
    }
    for name in ["poll-mended", "two-repeaters", "test-link"] {
        assert_eq!(run(name, 1), None, "{name}");
    }
    assert!(run("hasty", 0).is_some());
}

/// The ring of poll.txt with no stay limit written: mark 2 gives each the same,
/// and mark 1 would not.
#[test]
fn blank_limits_are_those_written_out() {
    let (written, blank) = (example("poll"), example("poll-blank"));
    assert_eq!((written.mark, blank.mark), (CEILING_MARK, EDGES_MARK));
    for (location, clock) in stay_fields(&blank) {
        assert_eq!(blank.locations[location].stay[clock], None);
        let [one, other] = [&written, &blank].map(|plan| plan.limit(location, clock));
        assert_eq!(one, other, "{location} {clock}");
    }
    assert_eq!(written.model(), blank.model());
    let [written, blank] = [written, blank].map(|plan| encode(&plan));
    assert_eq!(evidence(&written), evidence(&blank));
    assert_eq!(marks(&written), marks(&blank));
    let old = [&[CEILING_MARK], &blank[1..]].concat();
    assert_ne!(marks(&old), marks(&blank));
}

#[test]
fn texts_and_number_lists_are_the_same_plans() {
    for name in ["loop", "tiny", "largest"] {
        let numbers = std::fs::read_to_string(path(&format!("{name}.plan"))).unwrap();
        assert_eq!(
            encode(&example(name)),
            bytes_of_text(&numbers).unwrap(),
            "{name}"
        );
    }
}

#[test]
fn each_text_tells_its_story() {
    for name in EXAMPLES {
        assert!(text(name).starts_with("# "), "{name}");
        assert!(
            text(name).lines().all(|line| line.chars().count() <= 90),
            "{name}"
        );
    }
}
