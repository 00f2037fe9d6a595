//! Blank stay limits: what they mean by the plan's mark, and how they are told.

mod common;

use common::*;
use plan::bytes::{decode, encode};
use plan::draw::Heading;
use plan::explain::read_evidence;
use plan::print::write_text;
use plan::resolve::read_text;
use plan::{Plan, CEILING_MARK, EDGES_MARK};
use second::generate::generate;
use second::program::{judge_lines, OUTPUT};

/// Two clocks and a field for each question: loops, edges that never open, no
/// edge at all, a limit written as the ceiling, one that the mark would give too.
const DRAWN: &str = "\
clocks x y
ceiling 3
location ring start
location loops stay x<=3
location ends stay y<=2
location shut
edge ring -> loops when x<=1, y<=2
edge ring -> ends when 1<=x<=2, y=0
edge loops -> loops when x=0, y<=1 reset all
edge shut -> ends when x=1, y=3
";

fn drawn(mark: u8) -> Plan {
    read_text(&format!("{DRAWN}mark {mark}\n")).unwrap()
}

fn limits(plan: &Plan) -> Vec<u8> {
    let fields = stay_fields(plan);
    fields
        .map(|(location, clock)| plan.limit(location, clock))
        .collect()
}

/// How many limits the last edge sets.
fn by_last_edge(plan: &Plan) -> usize {
    let fields = stay_fields(plan);
    fields
        .filter(|&(location, clock)| plan.ends_with_last_edge(location, clock))
        .count()
}

#[test]
fn by_the_mark() {
    let [old, new] = [CEILING_MARK, EDGES_MARK].map(drawn);
    assert_eq!(limits(&old), [3, 3, 3, 3, 3, 2, 3, 3]);
    assert_eq!(limits(&new), [2, 2, 3, 1, 3, 2, 1, 3]);
    assert_eq!([&old, &new].map(by_last_edge), [0, 4]);
    assert_eq!([&old, &new].map(Plan::has_last_edge_limits), [false, true]);
    // The fields are the same, and so are the bytes behind the mark.
    assert_eq!(old.locations, new.locations);
    let [old, new] = [old, new].map(|plan| encode(&plan));
    assert_eq!((old[0], new[0]), (1, 2));
    assert_eq!(old[1..], new[1..]);
    // Without a line for it, a plan has the mark that there was before.
    assert_eq!(read_text(DRAWN), Ok(drawn(CEILING_MARK)));
}

#[test]
fn in_words() {
    let [old, new] = [CEILING_MARK, EDGES_MARK].map(drawn);
    let all = |words: &dyn Fn(usize) -> Vec<String>| (0..4).map(words).collect::<Vec<_>>();
    let written = [&[][..], &["x<=3"], &["y<=2"], &[]];
    assert_eq!(all(&|at| old.limit_words(at)), written);
    assert_eq!(all(&|at| new.stay_words(at)), written);
    let told = [
        &["x<=2 (last edge)", "y<=2 (last edge)"][..],
        &["x<=3", "y<=1 (last edge)"],
        &["y<=2"],
        &["x<=1 (last edge)"],
    ];
    assert_eq!(all(&|at| new.limit_words(at)), told);
}

/// A text says what is written and no more, whatever the mark.
#[test]
fn a_text_leaves_them_blank() {
    let [old, new] = [CEILING_MARK, EDGES_MARK].map(|mark| write_text(&drawn(mark)));
    assert_eq!(new, format!("mark 2\n{old}"));
    assert!(old.starts_with("clocks x y\nceiling 3\n\nlocation ring start\nlocation loops stay"));
}

fn picture(plan: &Plan) -> String {
    let heading = Heading::default();
    plan::draw::draw(plan, &heading, None)
}

const LEGEND: &str = ">(last edge): no limit is written, and with mark 2 that means until";

#[test]
fn in_pictures() {
    let [old, new] = [CEILING_MARK, EDGES_MARK].map(|mark| picture(&drawn(mark)));
    assert!(old.contains(">clocks x, y; ceiling 3<"), "{old}");
    assert!(new.contains(">clocks x, y; ceiling 3; mark 2<"), "{new}");
    let told = [
        ">stay x≤2, y≤2<",
        ">stay y≤1<",
        ">stay x≤1<",
        ">(last edge)<",
        LEGEND,
    ];
    for words in told {
        assert!(new.contains(words) && !old.contains(words), "{words}");
    }
    assert_eq!(new.matches(">(last edge)<").count(), 3);
    for picture in [&old, &new] {
        assert!(picture.contains(">stay x≤3<") && picture.contains(">stay y≤2<"));
    }
    assert!(!old.contains("mark") && !old.contains("last edge"));
}

/// Where no blank limit is below the ceiling, there is nothing to explain.
#[test]
fn pictures_without_such_limits() {
    let text = "mark 2\nclocks x\nceiling 1\nlocation a start\nedge a -> a reset x\n";
    let picture = picture(&read_text(text).unwrap());
    assert!(picture.contains("; mark 2<") && !picture.contains("last edge"));
}

/// With mark 1 nothing but what is written is told, with mark 2 at least that.
#[test]
fn generated_plans() {
    let mut below = 0;
    for kind in ["small", "drift", "clocks-3", "blank"] {
        for seed in 0..80 {
            let plan = decode(&generate(seed, kind).unwrap()).unwrap();
            below += by_last_edge(&plan);
            for location in 0..plan.locations.len() {
                let (written, told) = (plan.stay_words(location), plan.limit_words(location));
                assert!(written.iter().all(|words| told.contains(words)));
                assert!(plan.mark == EDGES_MARK || written == told, "{told:?}");
            }
        }
    }
    assert!(below > 200, "{below}");
}

/// A forbidden location that is entered late and closes early: with mark 1 it
/// is entered in 5 steps, with mark 2 no clock may stand so there.
const LATE: [u8; 20] = [1, 1, 2, 2, 2, 0, 0, 0, 1, 0, 0, 1, 0, 2, 2, 1, 0, 1, 0, 1];

fn late(mark: u8) -> Vec<u8> {
    [&[mark], &LATE[1..]].concat()
}

#[test]
fn a_verdict_by_the_mark() {
    let judged = |mark| judge_lines(&late(mark), ENOUGH[0], OUTPUT);
    assert_eq!(judged(1), "verdict unsafe\nstates 10\nsteps 5\n");
    assert_eq!(judged(2), "verdict safe\nstates 10\nin 5\n");
    // Whoever relied on the ceiling writes it.
    let moved = write_text(&decode(&late(2)).unwrap()).replace("forbidden", "forbidden stay x<=2");
    let moved = encode(&read_text(&moved).unwrap());
    let lines = judge_lines(&moved, ENOUGH[0], OUTPUT);
    assert_eq!(lines, judged(1));
    assert_eq!((moved[0], moved[9]), (2, 3));
}

/// The trail of mark 1 cannot be followed with mark 2, and the reader says by
/// which limit.
#[test]
fn a_flaw_by_the_mark() {
    let trail = evidence(&late(1));
    let read = |mark| read_evidence(&decode(&late(mark)).unwrap(), &trail);
    assert_eq!(read(1), Ok("trail"));
    let flaw = read(2).unwrap_err();
    assert_eq!(flaw.refusal, 13);
    assert!(
        flaw.words
            .ends_with("step 5: 'L1' may be stayed in while x<=1 (last edge), not at x=2"),
        "{}",
        flaw.words
    );
}
