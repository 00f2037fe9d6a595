//! Edges that can never open: which they are, that loops with them do not
//! count (refusal 7), and how they are told.

mod common;

use common::*;
use plan::bytes::{decode, encode};
use plan::draw::Heading;
use plan::opening::Bar;
use plan::print::write_text;
use plan::resolve::read_text;
use plan::{Edge, Plan, CEILING_MARK, EDGES_MARK};
use second::random::Random;

/// A ring of two locations with an edge each way, drawn without a reset of y;
/// x is reset on the way back. The limits, and the edge there, are the test's.
fn ring(mark: u8, stays: [&str; 2], there: &str) -> String {
    let [idle, ring] = stays;
    format!(
        "mark {mark}\nclocks x y\nceiling 3\nlocation idle start {idle}\nlocation ring {ring}\n\
         edge test: idle -> ring {there}\nedge back: ring -> idle when y<=1 reset x\n"
    )
}

/// What is said of the ring's loop, if it counts; the readers of texts and of
/// bytes are of one mind.
fn refused(text: &str) -> Option<String> {
    match read_text(text) {
        Ok(plan) => {
            assert!(decode(&encode(&plan)).is_ok(), "{text}");
            None
        }
        Err(mistakes) => {
            assert_eq!(mistakes.len(), 1, "{text}");
            Some(mistakes[0].words.clone())
        }
    }
}

const STAY: [&str; 2] = ["stay y<=1", ""];

#[test]
fn by_the_location_it_leaves() {
    assert_eq!(refused(&ring(CEILING_MARK, STAY, "when y>=2")), None);
    // Its clock may be reset, and the bar be that of another clock.
    let there = "when y>=2 reset y";
    let plan = read_text(&ring(CEILING_MARK, STAY, there)).unwrap();
    assert!(!plan.opens_alone(&plan.edges[0]));
    let other = ring(CEILING_MARK, ["stay x<=0", ""], "when x>=1 reset x");
    assert_eq!(refused(&other), None);
    // A low just at the limit is within it.
    for there in ["when y>=1", "when y=1", "when y<=1", ""] {
        let words = refused(&ring(CEILING_MARK, STAY, there)).unwrap();
        assert!(words.contains("never resets clock 'y'"), "{words}");
    }
}

#[test]
fn by_the_location_it_enters() {
    let stay = ["", "stay x<=1"];
    assert_eq!(refused(&ring(CEILING_MARK, stay, "when x>=2")), None);
    // With a reset the clock enters at 0, and at the limit it is within it.
    for there in ["when x>=2 reset x", "when x>=1", "when x=1"] {
        assert!(refused(&ring(CEILING_MARK, stay, there)).is_some());
    }
}

/// The way back closes at 1 for y, and with mark 2 so does the blank limit.
#[test]
fn by_a_blank_limit() {
    let blank = ["", ""];
    assert_eq!(refused(&ring(EDGES_MARK, blank, "when y>=2")), None);
    assert!(refused(&ring(CEILING_MARK, blank, "when y>=2")).is_some());
    assert!(refused(&ring(EDGES_MARK, blank, "when y>=1")).is_some());
    // An edge that can never open sets a blank limit as others do.
    let shut = "edge ring -> ring when 1<=x<=2, y<=2 reset all\n";
    let raised = ring(EDGES_MARK, ["", "stay x<=0"], "when y>=2") + shut;
    assert!(refused(&raised).is_some());
}

fn shut_edges(plan: &Plan) -> Vec<usize> {
    let edges = 0..plan.edges.len();
    edges
        .filter(|&at| !plan.opens_alone(&plan.edges[at]))
        .collect()
}

/// Model bytes on which readings of the request part.
#[test]
fn model_bytes() {
    let accepted: [&[u8]; 3] = [
        // An edge counts or not as a whole, though the bar is another clock's.
        &[
            1, 2, 2, 2, 2, 0, 0, 0, 0, 0, 2, 0, 0, 1, 0, 2, 2, 0, 2, 1, 0, 0, 0, 2, 0, 2,
        ],
        &[1, 1, 2, 1, 1, 0, 0, 2, 0, 0, 0, 2, 2],
        // By a blank limit with mark 2.
        &[2, 1, 2, 2, 2, 0, 0, 0, 0, 0, 0, 1, 0, 2, 2, 1, 0, 0, 0, 1],
    ];
    for bytes in accepted {
        let plan = decode(bytes).unwrap();
        assert_eq!(shut_edges(&plan), [0], "{bytes:?}");
        assert_eq!(encode(&plan), bytes);
        assert_eq!(read_text(&write_text(&plan)), Ok(plan));
    }
    let refused: [&[u8]; 4] = [
        // High ends play no part.
        &[1, 2, 1, 1, 1, 0, 0, 0, 0, 0, 0, 0, 1, 1, 0, 0],
        // The clock is reset on the way into the location that shuts it out.
        &[
            1, 2, 2, 2, 2, 0, 0, 0, 0, 0, 2, 0, 0, 1, 1, 2, 2, 0, 2, 1, 0, 1, 0, 2, 0, 2,
        ],
        &[1, 1, 2, 1, 1, 0, 0, 2, 0, 0, 0, 1, 2],
        &[1, 1, 2, 2, 2, 0, 0, 0, 0, 0, 0, 1, 0, 2, 2, 1, 0, 0, 0, 1],
    ];
    for bytes in refused {
        assert_eq!(decode(bytes).unwrap_err().refusal, 7, "{bytes:?}");
    }
}

/// The loop that is named counts, though a shorter one does not.
#[test]
fn the_loop_named_counts() {
    let text = "clocks x\nceiling 2\nlocation a start stay x<=1\nlocation b\n\
                edge a -> a when x=2\nedge a -> b\nedge b -> a when x>=1\n";
    assert_eq!(
        refused(text).unwrap(),
        "the loop a -> b -> a (lines 6, 7) never resets clock 'x', and each of its edges can \
         open; one of them must reset the clock, or drift could not be judged; edges that can \
         never open do not count"
    );
    let bytes = [
        1, 1, 2, 2, 3, 0, 0, 2, 0, 0, 0, 0, 0, 2, 2, 0, 1, 0, 0, 2, 1, 0, 0, 1, 2,
    ];
    assert_eq!(
        decode(&bytes).unwrap_err().words,
        "clock 0 (x) is never reset on the loop of edge 1 (L0 -> L1), edge 2 (L1 -> L0), each of \
         which can open; edges that can never open do not count"
    );
}

/// Refused before, and judged now; with a low within the limit it is refused.
#[test]
fn the_test_link() {
    let plan = example("test-link");
    let bar = Bar {
        clock: 0,
        location: 0,
    };
    assert_eq!(shut_edges(&plan), [3]);
    assert_eq!(plan.bar(&plan.edges[3]), Some(bar));
    let lower = text("test-link").replace("panel=3", "panel=2");
    let mistakes = read_text(&lower).unwrap_err();
    let named: Vec<&str> = mistakes
        .iter()
        .map(|mistake| mistake.words.split(',').next().unwrap())
        .collect();
    assert_eq!(named.len(), 2, "{named:?}");
    for words in named {
        assert!(
            words.starts_with("the loop home -> away -> home (line"),
            "{words}"
        );
    }
}

#[test]
fn in_words() {
    let told = |text: &str| drawing(text).shut_words(0);
    let words = |mark, stays, there| told(&ring(mark, stays, there)).unwrap();
    assert_eq!(
        words(CEILING_MARK, STAY, "when y>=2"),
        "edge 0 'test' (idle -> ring) can never open: it needs y>=2, but 'idle' may be stayed in \
         while y<=1"
    );
    assert_eq!(
        words(CEILING_MARK, ["", "stay x<=1"], "when x=2"),
        "edge 0 'test' (idle -> ring) can never open: it needs x>=2 and does not reset x, but \
         'ring' may be stayed in while x<=1"
    );
    assert_eq!(
        words(EDGES_MARK, ["", ""], "when y>=2"),
        "edge 0 'test' (idle -> ring) can never open: it needs y>=2 and does not reset y, but \
         'ring' may be stayed in while y<=1 (last edge)"
    );
    assert_eq!(
        told("clocks x\nceiling 1\nlocation a start\nedge a -> a reset x"),
        None
    );
}

fn drawing(text: &str) -> Plan {
    read_text(text).unwrap()
}

#[test]
fn in_pictures() {
    let picture = |plan: &Plan| plan::draw::draw(plan, &Heading::default(), None);
    let told = [
        "<title>edge 3 &#39;test&#39; (home -&gt; away) can never open: it needs panel&gt;=3",
        " stroke-dasharray=\"2 4\"",
        ">never opens<",
        ">never opens: the edge needs a clock above a stay limit",
    ];
    let (shut, open) = (picture(&example("test-link")), picture(&example("poll")));
    for words in told {
        assert!(
            shut.contains(words) && !open.contains(words),
            "{words}: {shut}"
        );
    }
    // The edge and its sample below the drawing.
    assert_eq!(shut.matches(told[1]).count(), 2);
    assert_eq!(shut.matches(told[2]).count(), 1);
}

/// A small plan with loops of all kinds.
fn random_plan(random: &mut Random) -> Plan {
    let (clocks, places, edges) = (random.range(1, 2), random.range(1, 3), random.range(1, 4));
    let mut numbers = vec![random.range(1, 2), clocks, 2, places, edges, 0];
    for _ in 0..places {
        numbers.push(0);
        numbers.extend((0..clocks).map(|_| random.below(4)));
    }
    for _ in 0..edges {
        // All clocks are reset, so that it is read; the masks are changed below.
        numbers.extend([
            random.below(places),
            random.below(places),
            (1 << clocks) - 1,
        ]);
        for _ in 0..clocks {
            let low = random.below(3);
            numbers.extend([low, random.range(low, 2)]);
        }
    }
    let bytes: Vec<u8> = numbers.iter().map(|&number| number as u8).collect();
    let mut plan = decode(&bytes).unwrap();
    for edge in &mut plan.edges {
        edge.resets = random.below(1 << clocks) as u8;
    }
    plan
}

/// The request word by word: whether some closed walk of edges that can open
/// alone leaves some clock unreset.
fn is_unreset(plan: &Plan) -> bool {
    let all = 0..plan.clocks.len();
    let resets = |edge: &Edge, clock: usize| edge.resets >> clock & 1 == 1;
    let opens = |edge: &Edge| {
        all.clone().all(|clock| {
            let low = edge.guard[clock].0;
            let enters = resets(edge, clock) || low <= plan.limit(edge.to, clock);
            low <= plan.limit(edge.from, clock) && enters
        })
    };
    all.clone().any(|clock| {
        let walked = |edge: &&Edge| opens(edge) && !resets(edge, clock);
        let walked: Vec<&Edge> = plan.edges.iter().filter(walked).collect();
        // From every location all steps at once, as often as there are locations.
        let mut ends: Vec<usize> = (0..plan.locations.len()).collect();
        for _ in 0..plan.locations.len() {
            let steps = walked.iter().filter(|edge| ends.contains(&edge.from));
            ends = steps.map(|edge| edge.to).collect();
        }
        !ends.is_empty()
    })
}

#[test]
fn texts_and_bytes_are_refused_alike() {
    let mut seen = [0; 3];
    for seed in 0..4_000 {
        let plan = random_plan(&mut Random::new(seed));
        let text = write_text(&plan);
        let refused = is_unreset(&plan);
        assert_eq!(read_text(&text).is_err(), refused, "{text}");
        let flaw = decode(&encode(&plan)).err();
        assert_eq!(
            flaw.map(|flaw| flaw.refusal),
            refused.then_some(7),
            "{text}"
        );
        let kind = usize::from(refused) + usize::from(!refused && plan.has_shut_edges()) * 2;
        seen[kind] += 1;
    }
    assert!(seen.iter().all(|&count| count > 300), "{seen:?}");
}
