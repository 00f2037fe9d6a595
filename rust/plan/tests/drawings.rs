//! Drawings: nothing overlaps, everything is there, and it can be read.

mod common;
mod contrast;

use common::*;
use contrast::{attribute, contrast, contrasts, LEAST};
use plan::bytes::{decode, encode};
use plan::curve::Frame;
use plan::draw::{layout_of, Heading};
use plan::layout::{layout, Layout, Sketch, SketchEdge};
use plan::trail::{read_trail, Step};
use plan::Plan;
use second::generate::generate;

/// A drawing without a verdict.
fn draw(plan: &Plan, title: &str, trail: Option<&[Step]>) -> String {
    let verdict = None;
    plan::draw::draw(plan, &Heading { title, verdict }, trail)
}

/// The trail that the second checker writes, if the plan is unsafe.
fn trail_of(plan: &Plan) -> Option<Vec<Step>> {
    let reading = read_trail(plan, &evidence(&encode(plan)));
    reading.flaw.is_none().then_some(reading.steps)
}

fn assert_clear(layout: &Layout, what: &str) {
    let frames: Vec<&Frame> = layout.locations.iter().chain(&layout.labels).collect();
    for (at, frame) in frames.iter().enumerate() {
        for other in &frames[..at] {
            assert!(!frame.overlaps(other), "{what}: {frame:?} {other:?}");
        }
    }
    assert!(
        layout.covered().is_some(),
        "{what}: an arrowhead or a location is covered"
    );
}

#[test]
fn labels_keep_apart() {
    let kinds = [
        "tiny", "small", "middle", "largest", "clocks-3", "drift", "blank",
    ];
    for kind in kinds {
        for seed in 0..60 {
            let plan = decode(&generate(seed, kind).unwrap()).unwrap();
            assert_clear(&layout_of(&plan, None), &format!("{kind} {seed}"));
        }
    }
}

#[test]
fn labels_keep_apart_under_trails() {
    for kind in ["tiny", "small", "drift", "blank"] {
        for seed in 0..40 {
            let plan = decode(&generate(seed, kind).unwrap()).unwrap();
            if let Some(steps) = trail_of(&plan) {
                assert_clear(&layout_of(&plan, Some(&steps)), &format!("{kind} {seed}"));
            }
        }
    }
}

/// The most crowded drawings: loops on one location, on two, three on each;
/// parallel edges; edges between all locations; with usual and with the
/// longest names.
#[test]
fn crowded_drawings() {
    let pairs: Vec<(usize, usize)> = (0..8)
        .flat_map(|from| (from + 1..8).map(move |to| (from, to)))
        .collect();
    let crowds = [
        (1, vec![(0, 0); 24]),
        (2, vec![(1, 1); 24]),
        (2, vec![(0, 1); 24]),
        (2, [(0, 0), (0, 1), (1, 0), (1, 1)].repeat(6)),
        (3, (0..24).map(|at| (at % 3, at / 3 % 3)).collect()),
        (8, (0..24).map(|at| (at / 3, at / 3)).collect()),
        (8, pairs[..24].to_vec()),
        (8, pairs[4..].to_vec()),
        (
            8,
            (0..24).map(|at| (at % 8, (at * 3 + at / 8) % 8)).collect(),
        ),
    ];
    for label in [(118.0, 70.0), (190.0, 95.0)] {
        for (locations, edges) in &crowds {
            let edge = |&(from, to)| SketchEdge { from, to, label };
            let sketch = Sketch {
                locations: vec![(200.0, 80.0); *locations],
                edges: edges.iter().map(edge).collect(),
            };
            assert_clear(&layout(&sketch), &format!("{label:?} {edges:?}"));
        }
    }
}

fn count(svg: &str, part: &str) -> usize {
    svg.matches(part).count()
}

#[test]
fn all_of_a_plan_is_drawn() {
    for name in EXAMPLES {
        let plan = example(name);
        let svg = draw(&plan, name, None);
        assert!(svg.starts_with("<svg ") && svg.ends_with("</svg>\n"));
        assert_eq!(count(&svg, "<g>"), count(&svg, "</g>"));
        assert_eq!(count(&svg, "<title>location "), plan.locations.len());
        assert_eq!(count(&svg, "<title>edge "), plan.edges.len());
        assert_eq!(count(&svg, "▶ start<"), 1);
        let forbidden = plan
            .locations
            .iter()
            .filter(|location| location.forbidden)
            .count();
        assert_eq!(count(&svg, ">forbidden<"), forbidden);
        let resets = plan.edges.iter().filter(|edge| edge.resets != 0).count();
        assert_eq!(count(&svg, ">reset "), resets);
    }
    let svg = draw(&example("poll"), "poll", None);
    for words in [
        ">stay repeater≤3<",
        ">panel=3<",
        ">reset repeater<",
        ">any time<",
        ">collide<",
    ] {
        assert!(svg.contains(words), "{words}");
    }
}

#[test]
fn a_trail_is_numbered() {
    let plan = example("loop");
    let reading = read_trail(&plan, &LOOP_TRAIL);
    assert_eq!(reading.flaw, None);
    let svg = draw(&plan, "loop", Some(&reading.steps));
    // By hand from the numbers of 01: two waits, a jump, a wait, a jump, a
    // touch with a loop of edges 2 and 1, a face, a jump.
    let trail = [
        ">wait 1, 2<",
        ">step 3<",
        ">wait 4<",
        ">step 5<",
        ">drift 6<",
        ">round loop A<",
        ">rim 7<",
        ">step 8<",
    ];
    for words in trail {
        assert_eq!(count(&svg, words), 1, "{words}");
    }
    assert_eq!(count(&svg, ">loop A<"), 2);
    assert!(!draw(&plan, "loop", None).contains("loop A"));
}

/// The texts of a drawing, one after the other.
fn texts(svg: &str) -> String {
    let tags = svg.split("<text ").skip(1);
    let texts = tags.map(|tag| &tag[tag.find('>').unwrap() + 1..tag.find('<').unwrap()]);
    texts.collect::<Vec<&str>>().join(" ")
}

#[test]
fn loops_are_told() {
    let plan = example("poll");
    let told = texts(&draw(&plan, "poll", trail_of(&plan).as_deref()));
    for words in [
        "loop A, steps 4-6: by refresh to &#39;shown&#39;, by poll to &#39;waiting&#39;; round \
         this loop, a hair later each time, until the clocks stand so: panel between 2 and 3, \
         repeater between 2 and 3, panel and repeater equal",
        "a loop: edges that lead round",
        "drift: no crystal keeps time exactly",
    ] {
        assert!(told.contains(words), "{words}: {told}");
    }
    let quiet = texts(&draw(&plan, "poll", None));
    assert!(!quiet.contains("loop") && !quiet.contains("drift"));
}

#[test]
fn the_verdict_is_on_the_drawing() {
    let heading = Heading {
        title: "poll",
        verdict: Some("UNSAFE by drift"),
    };
    let svg = plan::draw::draw(&example("poll"), &heading, None);
    assert!(
        svg.contains(" font-size=\"16.2\">UNSAFE by drift<"),
        "{svg}"
    );
}

#[test]
fn texts_stand_out() {
    assert!(contrast("#777777", "#ffffff") < LEAST && contrast("#767676", "#ffffff") > LEAST);
    for name in EXAMPLES {
        let plan = example(name);
        let found = contrasts(&draw(&plan, name, trail_of(&plan).as_deref()));
        assert!(!found.is_empty());
        for (text, contrast) in found {
            assert!(contrast >= LEAST, "{name}: {contrast} {text}");
        }
    }
}

/// Millimetres and points of print, in the units of a drawing.
const MILLIMETRE: f64 = 96.0 / 25.4;
const POINT: f64 = 96.0 / 72.0;

/// The size of the letters, in points, if a drawing is made to fit on a page
/// of A4 with margins of 15 and 20 millimetres, below a heading.
fn letters_on_a4(svg: &str) -> f64 {
    let number = |name| attribute(svg, name).unwrap().parse::<f64>().unwrap();
    let across = (210.0 - 2.0 * 15.0) * MILLIMETRE / number("width");
    let down = 240.0 * MILLIMETRE / number("height");
    number("font-size") * across.min(down).min(1.0) / POINT
}

#[test]
fn letters_can_be_read_on_a4() {
    for name in EXAMPLES {
        let plan = example(name);
        let size = letters_on_a4(&draw(&plan, name, trail_of(&plan).as_deref()));
        let least = if name == "largest" { 7.0 } else { 9.0 };
        assert!(size >= least, "{name}: {size}");
    }
    for kind in ["small", "middle", "largest", "clocks-3", "drift", "blank"] {
        for seed in 0..30 {
            let plan = decode(&generate(seed, kind).unwrap()).unwrap();
            let size = letters_on_a4(&draw(&plan, "", None));
            assert!(size >= 5.5, "{kind} {seed}: {size}");
        }
    }
}

/// Names with signs that SVG gives a meaning do not exist, but titles do.
#[test]
fn titles_are_escaped() {
    assert!(draw(&example("tiny"), "a<b&c", None).contains("a&lt;b&amp;c"));
}

#[test]
fn the_same_plan_gives_the_same_drawing() {
    let plan: Plan = example("largest");
    assert_eq!(draw(&plan, "", None), draw(&plan.clone(), "", None));
    assert_eq!(encode(&plan).len(), 6 + 8 * 4 + 24 * 9);
}
