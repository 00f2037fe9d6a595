//! Runs given as examples are runs, and times are neither too long nor too
//! short.

mod common;

use drift::{Harm, Verdict};
use plan::bytes::{decode, encode};
use plan::trail::{read_trail, Kind};
use plan::units::Quantity;
use plan::Plan;
use second::generate::generate;
use second::graph::Graph;
use second::soonest::least_time;
use second::widened::{fewest_jumps, Fewest};
use zervuldo::example::example;
use zervuldo::facts::{Example, Perfect};
use zervuldo::library::Library;
use zervuldo::pace::least_units;
use zervuldo::perfect::perfect;
use zervuldo::source::Accepted;

/// Follows a run jump by jump, by document 01's words for a widened run.
fn follow(plan: &Plan, example: &Example) {
    let model = plan.model();
    let (e, d) = (example.e, example.d);
    let at_most = |limit: u8| u64::from(limit) * d + e;
    let mut reset = vec![0; model.clocks];
    let (mut location, mut now) = (model.start, 0);
    for jump in &example.jumps {
        let edge = &model.edges[jump.edge];
        assert_eq!(edge.from, location);
        assert!(jump.moment >= now && !model.locations[location].forbidden);
        now = jump.moment;
        let within = |location: usize, clock: usize, reset: u64| {
            now - reset <= at_most(model.locations[location].limit[clock])
        };
        for (clock, reset) in reset.iter_mut().enumerate() {
            assert!(within(edge.from, clock, *reset));
            assert!(now - *reset <= at_most(edge.high[clock]));
            assert!(now - *reset + e >= u64::from(edge.low[clock]) * d);
            if edge.resets >> clock & 1 == 1 {
                *reset = now;
            }
            assert!(within(edge.to, clock, *reset));
        }
        location = edge.to;
    }
    assert!(model.locations[location].forbidden);
}

/// The example of a plan that drift alone makes unsafe, and what the proved
/// library says of the jumps before harm.
fn example_of(library: &mut Library, plan: Plan) -> Option<(Plan, Example, Harm)> {
    let model = encode(&plan);
    let judgement = library.judge(&model).unwrap().judgement;
    let accepted = Accepted { plan, model };
    let perfect = perfect(library, &accepted).unwrap();
    if judgement.verdict == Verdict::Safe || perfect != Perfect::Clean {
        return None;
    }
    let Accepted { plan, model } = accepted;
    let trail = read_trail(&plan, &library.evidence(&model).unwrap()).steps;
    assert!(trail.iter().any(|step| matches!(step.kind, Kind::Touch(_))));
    let found = example(&plan, &trail).expect("an example");
    Some((plan, found, library.harm(&model).unwrap()))
}

/// At 1/40 of a unit and more: each is a run, has no fewer jumps than the second
/// checker's zones allow and no more than the proved bound.
#[test]
fn examples_are_runs() {
    let mut library = Library::default();
    let mut tried = 0;
    for seed in 0..250 {
        let mut plan = decode(&generate(seed, "drift").unwrap()).unwrap();
        // An error of p makes a drift of about ceiling * p.
        let error = 1_000_000_000 / (u64::from(plan.ceiling) * (10 + seed % 31));
        plan.units.set(Quantity::Crystal, error);
        let Some((plan, found, harm)) = example_of(&mut library, plan) else {
            continue;
        };
        follow(&plan, &found);
        let (jumps, q) = (found.jumps.len(), found.d);
        let fewest = fewest_jumps(&plan.model(), 1, q as i64, 20_000);
        if let Fewest::Jumps(fewest) = fewest {
            assert!(fewest <= jumps, "{seed}");
        }
        let Harm::Within { base, rate, .. } = harm else {
            panic!("harm of an unsafe plan")
        };
        assert!(
            jumps as u64 >= q - 1 && jumps as u64 <= base + rate * q,
            "{seed}"
        );
        // Drift takes at most a q-th off each unit of the least time.
        let least = least_units(&plan, jumps as u128).unwrap_or(0) as u64;
        assert!(least * (q - 1) <= found.jumps[jumps - 1].moment, "{seed}");
        tried += 1;
    }
    assert!(tried > 200, "{tried}");
}

/// The forbidden location that is entered soonest, by the second checker's
/// search: its least time, and of several the lowest number.
fn soonest_by_search(plan: &Plan) -> Option<(u64, usize)> {
    let graph = Graph::new(plan.model());
    let locations = 0..plan.locations.len();
    let forbidden = locations.filter(|&at| plan.locations[at].forbidden);
    let times = forbidden.filter_map(|at| Some((least_time(&graph, at)?, at)));
    times.min()
}

#[test]
fn perfect_clocks_by_search() {
    let mut library = Library::default();
    let mut seen = [0; 2];
    for (seed, kind) in (0..400).zip(["plain", "drift", "small", "blank"].into_iter().cycle()) {
        let model = generate(seed, kind).unwrap();
        let plan = decode(&model).unwrap();
        let accepted = Accepted { plan, model };
        let found = match perfect(&mut library, &accepted).unwrap() {
            Perfect::Clean => None,
            Perfect::FailsToo { soonest, .. } => Some((soonest.units, soonest.location)),
        };
        assert_eq!(found, soonest_by_search(&accepted.plan), "{kind} {seed}");
        seen[usize::from(found.is_some())] += 1;
    }
    assert!(seen.iter().all(|&count| count > 100), "{seen:?}");
}

/// Two jumps of the poll plan take 3 units by its own limits; cut into shorter
/// runs they may seem a little less.
#[test]
fn the_least_time() {
    let text = std::fs::read(common::plan("poll.txt")).unwrap();
    let poll = plan::input::plan_in("poll", &text).unwrap();
    let least = least_units(&poll, 2_000).unwrap();
    assert!((2_950..=3_000).contains(&least), "{least}");
    // A loop that can be walked in no time has no least time.
    let text = "clocks x\nceiling 1\nlocation a start\nedge a -> a reset x\n";
    let idle = plan::resolve::read_text(text).unwrap();
    assert_eq!(least_units(&idle, 1_000_000), None);
}
