//! Edges that never open, request (f) of 02: refusal 7 by hand and by both
//! routes, and all that is told of a model against the same one without them.

mod common;

use common::*;
use second::blanks::with_mark;
use second::brute::read::read_with_mark;
use second::dead_links::{has_dead_edge, is_refused_by_all_edges};
use second::generate::{generate, KINDS};
use second::graph::{Graph, JUMP};
use second::mutate::{roles, Role};
use second::numbers::{numbers_of, shortest};
use second::random::Random;
use second::shortest_plan::shortest_plan;
use second::{harm, judge, marks, read_model, read_plan, rounds, sheet_margin, soonest};
use second::{Edge, Model, Reading};
use std::collections::{BTreeMap, BTreeSet};
use std::ops::RangeInclusive;

/// Plans and answers that were laid down with the request.
#[test]
fn by_hand() {
    for (plan, answer) in [
        // Both clocks at once never, but each alone.
        (
            &[1, 2, 1, 1, 1, 0, 0, 0, 0, 0, 0, 0, 1, 1, 0, 0][..],
            Some(7),
        ),
        // There at 2 and back; the limit there is 1, and the clock is kept, or reset.
        (
            &[
                1, 2, 2, 2, 2, 0, 0, 0, 0, 0, 2, 0, 0, 1, 0, 2, 2, 0, 2, 1, 0, 0, 0, 2, 0, 2,
            ],
            None,
        ),
        (
            &[
                1, 2, 2, 2, 2, 0, 0, 0, 0, 0, 2, 0, 0, 1, 1, 2, 2, 0, 2, 1, 0, 1, 0, 2, 0, 2,
            ],
            Some(7),
        ),
        // A loop above the limit, and at it.
        (&[1, 1, 2, 1, 1, 0, 0, 2, 0, 0, 0, 2, 2], None),
        (&[1, 1, 2, 1, 1, 0, 0, 2, 0, 0, 0, 1, 2], Some(7)),
        // A loop where nothing leads.
        (&[1, 1, 1, 2, 1, 0, 0, 0, 0, 0, 1, 1, 0, 0, 1], Some(7)),
        // A blank limit of mark 2.
        (
            &[2, 1, 2, 2, 2, 0, 0, 0, 0, 0, 0, 1, 0, 2, 2, 1, 0, 0, 0, 1],
            None,
        ),
        (
            &[1, 1, 2, 2, 2, 0, 0, 0, 0, 0, 0, 1, 0, 2, 2, 1, 0, 0, 0, 1],
            Some(7),
        ),
    ] {
        assert_eq!(read_model(plan).err(), answer, "{plan:?}");
        assert_eq!(read_with_mark(plan).err(), answer, "{plan:?}");
    }
}

/// 7 stays after 6 and before 8; a walk that does not count leaves 8 and 9.
#[test]
fn order_of_refusals() {
    let plan = |low| [1, 1, 2, 1, 1, 0, 0, 2, 0, 0, 0, low, 2];
    let output = |low, length| marks(&plan(low), [5; 4], &mut vec![0; length]);
    for (low, refusal) in [(1, 7), (2, 8)] {
        let bytes = plan(low);
        assert_eq!(judge(&bytes, [4; 4]), Err(refusal));
        assert_eq!(judge(&bytes, [5, 5, 5, 4]), Err(refusal));
        assert_eq!(judge(&[&bytes[..], &[0]].concat(), [4; 4]), Err(6));
        assert_eq!(judge(&bytes[..12], [4; 4]), Err(1));
    }
    assert_eq!((output(1, 4), output(1, 5)), (Err(7), Err(7)));
    assert_eq!((output(2, 4), output(2, 5)), (Err(9), Ok(5)));
    assert_eq!(check(&plan(1), &[9]), Err(7));
    assert_eq!(check(&plan(2), &[9]), Err(10));
    assert_eq!(evidence(&plan(2)), [1, 5, 3, 1, 0, 0]);
    assert_eq!(check(&plan(2), &[1, 5, 3, 1, 0, 0]), Ok(1));
    // The shut edge is still one, and a trail cannot take it.
    assert_eq!(check(&plan(2), &[2, 3, 0, 0, 1, 0]), Err(13));
}

/// What both routes read, or refuse; which edges they say can open.
fn read_alike(bytes: &[u8]) -> Option<u8> {
    let (naive, plain) = (read_with_mark(bytes), read_plan(bytes));
    let refusal = plain.as_ref().err().copied();
    assert_eq!(naive.as_ref().err().copied(), refusal, "{bytes:?}");
    if let (Ok((_, naive)), Ok(plain)) = (&naive, &plain) {
        for (one, other) in naive.edges.iter().zip(&plain.model.edges) {
            let opens = plain.model.can_open(other);
            assert_eq!(naive.lets_a_point_pass(one), opens, "{bytes:?}");
        }
    }
    refusal
}

/// Generated models, with the other mark, and with stay fields, masks and lows
/// changed a little, so that edges open and shut.
#[test]
fn both_routes_on_generated_models() {
    let (mut read, mut refused) = (0, 0);
    for seed in 0..4_000 {
        let random = &mut Random::new(seed);
        let model = generate(seed, "dead-links").unwrap();
        let mut all = [1, 2].map(|mark| with_mark(&model, mark).unwrap()).to_vec();
        for _ in 0..6 {
            let mut other = all[random.below(all.len())].clone();
            let at = random.range(6, other.len() - 1);
            other[at] = random.below(4) as u8;
            all.push(other);
        }
        for bytes in all {
            match read_alike(&bytes) {
                None => read += 1,
                Some(7) => refused += 1,
                Some(refusal) => assert!((4..=5).contains(&refusal)),
            }
        }
    }
    println!("read {read}, refused by 7 {refused}");
    assert!(read >= 10_000 && refused >= 5_000);
}

/// The range of each number of the plans of a size: both marks, all ordinary.
fn ranges(clocks: u8, ceiling: u8, locations: u8, edges: u8) -> Vec<RangeInclusive<u8>> {
    let one = |number| number..=number;
    let mut ranges = vec![1..=2];
    ranges.extend([clocks, ceiling, locations, edges, 0].map(one));
    for _ in 0..locations {
        ranges.push(one(0));
        ranges.extend((0..clocks).map(|_| 0..=ceiling + 1));
    }
    for _ in 0..edges {
        ranges.extend([locations, locations, 1 << clocks].map(|count| 0..=count - 1));
        ranges.extend((0..2 * clocks).map(|_| 0..=ceiling));
    }
    ranges
}

/// All lists with a number from each range.
fn all_lists(ranges: &[RangeInclusive<u8>]) -> Vec<Vec<u8>> {
    ranges.iter().fold(vec![Vec::new()], |lists, range| {
        let longer = |list: &Vec<u8>| -> Vec<Vec<u8>> {
            let then = |number| [&list[..], &[number]].concat();
            range.clone().map(then).collect()
        };
        lists.iter().flat_map(longer).collect()
    })
}

/// All plans of one clock with two locations and two edges, of two clocks with
/// two loops at one location, of three with one loop.
#[test]
fn both_routes_on_all_small_plans() {
    for (clocks, ceiling, locations, edges) in [(1, 2, 2, 2), (2, 1, 1, 2), (3, 1, 1, 1)] {
        let all = all_lists(&ranges(clocks, ceiling, locations, edges));
        let mut seen = BTreeMap::new();
        for plan in &all {
            *seen.entry(read_alike(plan)).or_insert(0) += 1;
        }
        println!("{clocks} clocks: {seen:?}");
        let refusals: Vec<Option<u8>> = seen.keys().copied().collect();
        assert_eq!(refusals, [None, Some(5), Some(7)]);
        assert!(seen.values().all(|&times| times >= 1_000), "{seen:?}");
    }
}

/// The accepted models of some seeds of each kind, and of more with dead links.
fn for_accepted(seeds: u64, mut test: impl FnMut(&[u8], Reading)) {
    for kind in KINDS {
        let more = if kind == "dead-links" { 20 } else { 1 };
        for seed in 0..more * seeds {
            let plan = generate(seed, kind).expect("a known kind");
            if let Ok(reading) = read_plan(&plan) {
                test(&plan, reading);
            }
        }
    }
}

/// An edge can open alone exactly if a jump along it is a step between allowed
/// states, reached or not: no time, no other edge need lead there.
#[test]
fn edges_that_open_have_a_step() {
    let [mut open, mut dead] = [0; 2];
    for_accepted(40, |plan, reading| {
        let graph = Graph::new(reading.model);
        let steps = (0..graph.states()).flat_map(|state| graph.steps(state));
        let jumps = steps.filter(|step| step.kind == JUMP);
        let taken: BTreeSet<usize> = jumps.map(|step| step.edge.into()).collect();
        for (number, edge) in graph.model.edges.iter().enumerate() {
            let opens = graph.model.can_open(edge);
            assert_eq!(opens, taken.contains(&number), "{number} {plan:?}");
            *if opens { &mut open } else { &mut dead } += 1;
        }
    });
    println!("edges that open {open}, that do not {dead}");
    assert!(open >= 4_000 && dead >= 1_500);
}

/// Refused by 7 is what all edges refuse, as far as no edge is dead; a dead edge
/// only ever keeps 7 away.
#[test]
fn against_the_test_on_all_edges() {
    let mut seen: BTreeMap<(bool, bool), usize> = BTreeMap::new();
    for kind in KINDS {
        for seed in 0..if kind == "dead-links" { 2_000 } else { 60 } {
            let plan = generate(seed, kind).expect("a known kind");
            let numbers = numbers_of(&plan).unwrap_or_default();
            let mut rest = numbers.iter();
            let read = Model::from_fields(&mut |_, range| {
                let number = rest.next().filter(|number| range.contains(number));
                number.copied().ok_or(())
            });
            let (Ok(model), None) = (read, rest.next()) else {
                continue;
            };
            let by_all = is_refused_by_all_edges(&model);
            let refused = read_model(&plan) == Err(7);
            assert!(by_all == refused || by_all && has_dead_edge(&model));
            *seen.entry((by_all, refused)).or_default() += 1;
        }
    }
    println!("refused by all edges, refused: {seen:?}");
    assert!(seen.len() == 3 && seen.values().all(|&times| times >= 300));
}

/// The same limits spelt out with mark 1, and the edges that can open, each
/// with its number in the drawing.
fn without_dead_edges(model: &Model) -> (Vec<u8>, Vec<u32>) {
    let mut other = model.clone();
    let numbered = model.edges.iter().enumerate();
    let open = numbered.filter(|(_, edge)| model.can_open(edge));
    let (numbers, edges): (Vec<u32>, Vec<Edge>) =
        open.map(|(at, edge)| (at as u32, edge.clone())).unzip();
    other.edges = edges;
    let reading = Reading {
        mark: 1,
        model: other,
    };
    (shortest_plan(&reading), numbers)
}

/// Evidence for a plan, with other edge numbers.
fn renumbered(plan: &[u8], evidence: &[u8], edges: &[u32]) -> Vec<u8> {
    let graph = Graph::new(read_model(plan).unwrap());
    let mut numbers = numbers_of(evidence).unwrap();
    let roles = roles(&graph, &numbers).unwrap();
    for (number, role) in numbers.iter_mut().zip(roles) {
        if matches!(role, Role::Edge | Role::WalkEdge) {
            *number = edges[*number as usize];
        }
    }
    shortest(&numbers)
}

/// Verdict, marks, evidence, rounds, times and what is told of drift are those of
/// the drawing without its dead edges; edges keep their numbers.
#[test]
fn judged_as_without_dead_edges() {
    let (mut sheets, mut trails, mut renamed) = (0, 0, 0);
    for_accepted(30, |plan, reading| {
        if !has_dead_edge(&reading.model) {
            return;
        }
        let (other, edges) = without_dead_edges(&reading.model);
        assert_eq!(judge(plan, ENOUGH), judge(&other, ENOUGH), "{plan:?}");
        assert_eq!(marks_of(plan), marks_of(&other));
        assert_eq!(rounds(plan), rounds(&other));
        assert_eq!(sheet_margin(plan, ENOUGH), sheet_margin(&other, ENOUGH));
        assert_eq!(harm(plan, ENOUGH), harm(&other, ENOUGH));
        for location in 0..=reading.model.locations.len() as u64 {
            let [one, two] = [plan, &other].map(|plan| soonest(plan, location, ENOUGH));
            assert_eq!(one, two);
        }
        let (ours, its) = (evidence(plan), evidence(&other));
        assert_eq!(ours, renumbered(&other, &its, &edges), "{plan:?}");
        assert_eq!(check(plan, &ours), Ok(ours[0].into()));
        *if ours[0] == 1 {
            &mut sheets
        } else {
            &mut trails
        } += 1;
        renamed += usize::from(ours != its);
    });
    println!("sheets {sheets}, trails {trails}, with other edge numbers {renamed}");
    assert!(sheets >= 100 && trails >= 250 && renamed >= 100);
}
