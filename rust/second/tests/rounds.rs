//! The rounds of the marking: by hand on small plans, their bounds, and other
//! ways to mark. `brute_agreement` holds both routes against each other on many
//! more models.

mod common;

use common::*;
use second::brute::states::States;
use second::brute::Brute;
use second::components::Components;
use second::generate::{generate, KINDS};
use second::graph::Graph;
use second::limits::MAX_CLOCKS;
use second::marking::{levels, with_touch};
use second::{judge, marks, read_model, rounds};

/// Rounds and marked states.
fn counted(model: &[u8]) -> (usize, usize) {
    let found = rounds(model).expect("an accepted model");
    (found.rounds, found.marked)
}

#[test]
fn rounds_by_hand() {
    // Only the start is allowed: the round over it marks nothing.
    assert_eq!(counted(&[1, 1, 1, 1, 0, 0, 0, 1]), (1, 1));
    // Time leads from each of three states to the next, whatever their kind.
    assert_eq!(counted(&ROW), (3, 3));
    assert_eq!(counted(&[1, 1, 1, 1, 0, 0, 1, 0]), (3, 3));
    // The same with a jump behind it.
    assert_eq!(counted(&TWO), (4, 4));
    // 0; the interval behind it; 1 and, by a touch, the next interval; 2.
    assert_eq!(counted(&[1, 1, 2, 1, 1, 0, 0, 0, 0, 0, 1, 0, 2]), (4, 5));
}

/// The numbers of the states that are marked.
fn marked_states(model: &[u8]) -> Vec<usize> {
    let mut out = vec![0; ENOUGH[0]];
    let states = marks(model, ENOUGH, &mut out).expect("an accepted model");
    (0..states).filter(|&state| out[state] == 1).collect()
}

/// From one round to as many as there are marked states, each of which is gone
/// over once in all. Refusals are those of the model.
#[test]
fn bounds_on_every_kind() {
    let (mut as_many, mut fewer) = (0, 0);
    for kind in KINDS {
        for seed in 0..30 {
            let model = generate(seed, kind).expect("a known kind");
            let graph = match read_model(&model) {
                Ok(model) => Graph::new(model),
                Err(refusal) => {
                    assert_eq!(rounds(&model), Err(refusal), "{kind} {seed}");
                    continue;
                }
            };
            let (rounds, marked) = counted(&model);
            assert!((1..=marked).contains(&rounds), "{kind} {seed}");
            let mut gone_over = levels(&graph, with_touch(&Components::new(&graph))).concat();
            gone_over.sort();
            assert_eq!(gone_over, marked_states(&model), "{kind} {seed}");
            assert_eq!(gone_over.len(), marked);
            if rounds == marked {
                as_many += 1;
            } else {
                fewer += 1;
            }
        }
    }
    println!("as many rounds as marked states: {as_many}, fewer: {fewer}");
    assert!(as_many >= 20 && fewer >= 100);
}

/// Generated models of every kind that are small enough for the brute-force
/// route; no model of some kinds is.
fn small_models() -> impl Iterator<Item = (Vec<u8>, Brute)> {
    let models = KINDS.into_iter().flat_map(|kind| {
        let all = (0..100).map(move |seed| generate(seed, kind).expect("a known kind"));
        all.filter(|model| judge(model, [160; 4]).is_ok())
    });
    models.map(|model| {
        let brute = Brute::new(&model).expect("an accepted model");
        (model, brute)
    })
}

#[test]
fn both_routes_on_every_kind() {
    let mut by_clocks = [0; MAX_CLOCKS + 1];
    for (model, brute) in small_models() {
        assert_eq!(counted(&model), brute.rounds(), "{model:?}");
        by_clocks[brute.plan.clocks] += 1;
    }
    println!("models by clocks: {by_clocks:?}");
    assert!(by_clocks[1..].iter().all(|&models| models >= 50));
}

/// One round exactly where no step leads from the start to another state.
#[test]
fn one_round() {
    let (mut one, mut more) = (0, 0);
    for (model, brute) in small_models() {
        let start = brute.states.start;
        let stays = brute.states.steps[start]
            .iter()
            .all(|step| step.to == start);
        assert_eq!(counted(&model).0 == 1, stays, "{model:?}");
        if stays {
            one += 1;
        } else {
            more += 1;
        }
    }
    println!("one round: {one}, more: {more}");
    assert!(one >= 15 && more >= 100);
}

/// The sweeps over all states in an order until one marks nothing, where a mark
/// acts at once.
fn sweeps(states: &States, order: &[usize]) -> usize {
    let mut marked = vec![false; states.list.len()];
    marked[states.start] = true;
    let mut sweeps = 0;
    loop {
        sweeps += 1;
        let before = marked.clone();
        for &state in order {
            for step in &states.steps[state] {
                marked[step.to] |= marked[state];
            }
        }
        if marked == before {
            return sweeps;
        }
    }
}

/// Marks that act at once never cost a round, whatever the order.
#[test]
fn sweeps_need_no_more_rounds() {
    let (mut as_many, mut fewer) = (0, 0);
    for (model, brute) in small_models() {
        let ascending: Vec<usize> = (0..brute.states.list.len()).collect();
        let descending: Vec<usize> = ascending.iter().rev().copied().collect();
        let (rounds, _) = counted(&model);
        for order in [ascending, descending] {
            let sweeps = sweeps(&brute.states, &order);
            assert!(sweeps <= rounds, "{model:?}");
            if sweeps == rounds {
                as_many += 1;
            } else {
                fewer += 1;
            }
        }
    }
    println!("as many sweeps as rounds: {as_many}, fewer: {fewer}");
    assert!(as_many >= 100 && fewer >= 100);
}

/// Rounds and marked states, with all touches of a state looked at one by one.
fn by_pairs(graph: &Graph) -> (usize, usize) {
    let components = Components::new(graph);
    let mut marked = vec![false; graph.states()];
    let mut rounds = 0;
    let mut newest = vec![graph.start];
    marked[graph.start] = true;
    while !newest.is_empty() {
        rounds += 1;
        let mut found = Vec::new();
        for &state in &newest {
            let (base, region) = (graph.base_of(state), graph.region_of(state));
            let near = graph
                .regions
                .near(region)
                .into_iter()
                .map(|near| base + near);
            found.extend(near.filter(|&near| components.on_cycle[near]));
            found.extend(graph.regions.faces[region].iter().map(|face| base + face));
            found.extend(graph.steps(state).iter().map(|step| step.to as usize));
        }
        found.retain(|&state| {
            let is_new = graph.allowed[state] && !marked[state];
            marked[state] |= is_new;
            is_new
        });
        newest = found;
    }
    (rounds, marked.iter().filter(|&&mark| mark).count())
}

/// On models that are too large for the brute-force route.
#[test]
fn touches_one_by_one() {
    let mut larger = 0;
    for (kind, seeds) in [("middle", 60), ("clocks-3", 60), ("largest", 5)] {
        for seed in 0..seeds {
            let model = generate(seed, kind).expect("a known kind");
            let graph = Graph::new(read_model(&model).expect("an accepted model"));
            assert_eq!(counted(&model), by_pairs(&graph), "{kind} {seed}");
            larger += usize::from(graph.states() > 700);
        }
    }
    assert!(larger >= 40);
}

/// No scratch is lent, so that no plan has too many states.
#[test]
fn more_states_than_scratch() {
    let three_locations = [1, 3, 4, 3, 0, 0, 0, 0, 0, 0, 0, 0, 0, 0, 0, 0, 0, 0];
    assert_eq!(judge(&three_locations, [4_000; 4]), Err(8));
    assert_eq!(counted(&three_locations), (9, 9));
}
