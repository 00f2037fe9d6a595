//! Refusals in words, for models and for evidence.

mod common;

use common::*;
use plan::bytes::decode;
use plan::explain::{about, read_evidence, refusal_words};
use second::generate::generate;
use second::mutate::mutate;

#[test]
fn every_refusal_is_explained() {
    let mut seen = std::collections::BTreeSet::new();
    for number in 1..=17 {
        let words = refusal_words(number).unwrap();
        assert!(words.starts_with(&format!("refused {number}: ")));
        assert!(words.lines().count() == 2 && words.ends_with(".\n"));
        seen.insert(words);
    }
    assert_eq!(seen.len(), 17);
    assert_eq!((refusal_words(0), refusal_words(18)), (None, None));
}

#[test]
fn the_limits_are_named() {
    let limits = "clocks (1 to 3), ceiling (1 to 4), locations (1 to 8), edges (0 to 24)";
    assert!(refusal_words(3).unwrap().contains(limits));
}

/// What a blank stay field means, where the header or a location is wrong.
#[test]
fn both_marks_are_explained() {
    for (number, told) in [
        (3, "A plan begins with the mark, 1 or 2, then clocks"),
        (3, "a stay field of 0 means: with 1 the ceiling, with 2 the greatest high of the edges that leave"),
        (4, "or 0 if it is left blank. A blank one means the ceiling in a plan with mark 1."),
        (4, "With mark 2 it means the greatest high for that clock among the edges that leave"),
        (4, "or the ceiling where no edge leaves."),
    ] {
        let words = refusal_words(number).unwrap();
        assert!(words.contains(told), "{words}");
    }
}

fn words(bytes: &[u8]) -> String {
    let flaw = decode(bytes).expect_err("a refused model");
    format!("{}: {}", flaw.refusal, flaw.words)
}

#[test]
fn which_number_of_a_model() {
    assert_eq!(
        words(&[]),
        "1: number 1 (from byte 1), the mark: there are only 0 bytes"
    );
    assert_eq!(
        words(&[1, 1, 1, 1, 0, 0, 0]),
        "1: number 8 (from byte 8), the stay field of clock 0 in location 0: there are only 7 bytes"
    );
    assert_eq!(
        words(&[1, 133, 128, 128]),
        "2: number 2 (from byte 2), the number of clocks: its third byte says that a fourth follows"
    );
    assert_eq!(
        words(&[3]),
        "3: number 1 (byte 1), the mark: it is 3, but must be 1 or 2"
    );
    assert_eq!(
        words(&[130, 0]),
        "1: number 2 (from byte 3), the number of clocks: there are only 2 bytes"
    );
    assert_eq!(
        words(&[1, 1, 5]),
        "3: number 3 (byte 3), the ceiling: it is 5, but must be 1 to 4"
    );
    // A padded number before it: the count of numbers and that of bytes part.
    assert_eq!(
        words(&[129, 0, 1, 5]),
        "3: number 3 (byte 4), the ceiling: it is 5, but must be 1 to 4"
    );
    assert_eq!(
        words(&[1, 1, 1, 1, 0, 0, 0, 3]),
        "4: number 8 (byte 8), the stay field of clock 0 in location 0: it is 3, but must be 0 to 2"
    );
    assert_eq!(
        words(&[2, 1, 1, 1, 0, 0, 2, 0]),
        "4: number 7 (byte 7), the kind of location 0: it is 2, but must be 0 or 1"
    );
    assert_eq!(
        words(&[1, 1, 1, 1, 1, 0, 0, 0, 0, 0, 1, 1, 0]),
        "5: number 13 (byte 13), the high of clock 0 on edge 0, whose low is 1: it is 0, but must be 1"
    );
    assert_eq!(
        words(&[1, 1, 1, 1, 0, 0, 0, 0, 9]),
        "6: the model ends with byte 8, but 1 more follows"
    );
    assert_eq!(
        words(&[1, 1, 1, 1, 1, 0, 0, 0, 0, 0, 0, 0, 1]),
        "7: clock 0 (x) is never reset on the loop of edge 0 (L0 -> L0), which can open"
    );
}

#[test]
fn about_a_model() {
    for refusal in 1..=7 {
        for seed in 0..40 {
            let model = generate(seed, &format!("refused-{refusal}")).unwrap();
            let flaw = decode(&model).expect_err("a refused model");
            let here = about(refusal, Err(&flaw), None);
            assert!(
                here.starts_with("here: ") && !here.contains("no such flaw"),
                "{here}"
            );
            let other = about(refusal % 7 + 1, Err(&flaw), None);
            assert!(
                other.contains(&format!("refused by {refusal}: ")),
                "{other}"
            );
        }
    }
    let tiny = &example("tiny");
    assert_eq!(
        about(7, Ok(tiny), None),
        "here: this plan has no flaw 7, nor any other that reading shows\n"
    );
    assert!(about(13, Ok(tiny), None).contains("give the evidence too"));
    assert_eq!(
        about(8, Ok(&example("largest")), None),
        "here: this plan has 15816 states; the programs judge and evidence_bytes lend scratch for \
         4000, so they refuse it\n"
    );
    for evidence in [None, Some(&[1, 5, 3, 1][..])] {
        assert_eq!(
            about(16, Ok(tiny), evidence),
            "here: the plan is read without a flaw, and the number of each location is below 1; \
             zervuldo soonest tells which of them have a least time\n"
        );
    }
    assert_eq!(
        about(9, Ok(tiny), None),
        "here: the marks take 3 bytes; a sheet takes at most 4; the plan's shortest form takes 8\n"
    );
}

/// Evidence of all kinds, whole and changed, gets the second checker's answer.
#[test]
fn evidence_is_read_as_it_is_checked() {
    let mut seen = std::collections::BTreeSet::new();
    for seed in 0..2_500 {
        let kind = ["tiny", "small", "drift", "safe", "blank"][seed as usize % 5];
        let model = generate(seed, kind).unwrap();
        let ours = evidence(&model);
        let (change, changed) = mutate(seed, &model, &ours);
        for bytes in [ours, changed] {
            let answer = second::check_evidence(&model, &bytes, ENOUGH);
            let read = read_evidence(&decode(&model).unwrap(), &bytes);
            let read = read
                .map(|kind| if kind == "sheet" { 1 } else { 2 })
                .map_err(|flaw| flaw.refusal);
            assert_eq!(read, answer, "{kind} {seed} {change}");
            seen.insert(answer);
        }
    }
    for answer in [
        Ok(1),
        Ok(2),
        Err(1),
        Err(2),
        Err(6),
        Err(10),
        Err(11),
        Err(12),
        Err(13),
        Err(14),
        Err(15),
    ] {
        assert!(seen.contains(&answer), "{answer:?}");
    }
}

fn trail_words(bytes: &[u8]) -> String {
    let flaw = read_evidence(&example("loop"), bytes).expect_err("a trail that fails");
    format!("{}: {}", flaw.refusal, flaw.words)
}

#[test]
fn which_number_of_a_trail() {
    let changed = |at: usize, number: u8| {
        let mut bytes = LOOP_TRAIL;
        bytes[at] = number;
        trail_words(&bytes)
    };
    assert_eq!(
        trail_words(&LOOP_TRAIL[..33]),
        "1: number 34 (from byte 34), the edge of step 8: there are only 33 bytes"
    );
    assert_eq!(
        changed(0, 3),
        "10: number 1 (byte 1), the mark of the evidence: it is 3, but must be 1 or 2"
    );
    assert_eq!(
        changed(2, 4),
        "13: number 3 (byte 3), step 1: its kind is 4, but must be 0, 1, 2 or 3"
    );
    assert_eq!(
        changed(5, 7),
        "13: number 6 (byte 6), step 3: there is no edge 7; the plan has 4, counted from 0"
    );
    assert_eq!(
        changed(5, 1),
        "13: number 6 (byte 6), step 3: edge 1 (one -> two) does not leave 'entry', where the trail is"
    );
    assert_eq!(
        changed(33, 2),
        "14: the trail ends in 'one', which is not forbidden"
    );
    assert_eq!(
        trail_words(&[2, 1, 1, 0]),
        "13: number 4 (byte 4), step 1: edge 0 (entry -> one) opens when x=1, y=1, not at x=0, y=0"
    );
    assert_eq!(
        trail_words(&[2, 5, 0, 0, 0, 0, 0]),
        "13: number 7 (byte 7), step 5: no time can pass at x=2, y=2: a clock is at the ceiling"
    );
    // Padding comes before what the number would be refused for.
    assert_eq!(
        trail_words(&[2, 1, 132, 0]),
        "15: number 3 (byte 3), the kind of step 1: it is 4, spelt in 2 bytes where 1 is enough"
    );
    assert_eq!(
        trail_words(&[2, 128, 129, 0]),
        "15: number 2 (byte 2), the number of steps: it is 128, spelt in 3 bytes where 2 are enough"
    );
    assert_eq!(
        trail_words(&[2, 1, 3, 1, 0, 0, 0]),
        "13: number 7 (byte 7), step 1: the region x=1, y=0 shares no corner with the region x=0, y=0"
    );
}

#[test]
fn which_rule_of_a_sheet() {
    let plan = example("tiny");
    let words = |sheet: &[u8]| {
        read_evidence(&plan, sheet).map_err(|flaw| format!("{}: {}", flaw.refusal, flaw.words))
    };
    assert_eq!(words(&[1, 5, 3, 1]), Ok("sheet"));
    assert_eq!(
        words(&[1, 5, 131, 128, 0, 1]),
        Err("15: number 3 (byte 3), state 1, 'idle' at 0<x<1: it is 3, spelt in 3 bytes where 1 is enough".to_string())
    );
    assert_eq!(
        words(&[1, 5, 3, 6]),
        Err(
            "11: number 4 (byte 4), state 2, 'idle' at x=1: it is 6, but must be at most 5"
                .to_string()
        )
    );
    assert_eq!(
        words(&[1, 4, 3, 1]),
        Err("12: the start is not in: state 0 ('idle' at x=0)".to_string())
    );
    assert_eq!(
        words(&[1, 5, 3, 0]),
        Err("12: state 1 ('idle' at 0<x<1) is in, but not what a step leads to: state 2 ('idle' at x=1)".to_string())
    );
    assert_eq!(
        words(&[1, 3, 5, 1]),
        Err("12: state 0 ('idle' at x=0) is lower than what a step leads to: state 1 ('idle' at 0<x<1)".to_string())
    );
}

/// Which loop has no edge that resets every clock, or that each has one.
#[test]
fn which_loop_without_a_joint_reset() {
    let words = |name: &str| about(17, Ok(&example(name)), None);
    assert_eq!(
        words("loop"),
        "here: none of edge 1 (one -> two), edge 2 (two -> one) resets every clock, and each of \
         them can open\n"
    );
    let taken = "here: each loop of edges that can open has one that resets every clock, so the \
                 quicker calls take this plan\n";
    for name in ["tiny", "poll-mended"] {
        assert_eq!(words(name), taken);
    }
    let flaw = decode(&[1, 1, 1, 1, 1, 0, 0, 0, 0, 0, 0, 0, 1]).unwrap_err();
    assert!(about(17, Err(&flaw), None).contains("it is refused by 7"));
}
