//! The generator and the changes of evidence do what their kinds say.

mod common;

use common::*;
use second::blanks::{by_both_marks, is_safe_by_its_mark};
use second::brute::read::{read, PlanEdge};
use second::calls::states_of;
use second::components::Components;
use second::dead_links::{has_dead_edge, is_refused_by_all_edges};
use second::generate::{classify, generate, respelled, shares};
use second::generate::{Class, KINDS, MIDDLE, SMALL, TINY};
use second::graph::{Graph, JUMP, TIME};
use second::joint_resets::{has_another_trail, lacks_by_all_edges};
use second::limits::{MAX_CLOCKS, MAX_STATES};
use second::marking::{reached, Closure};
use second::mutate::{self, mutate, mutate_as};
use second::numbers::numbers_of;
use second::random::Random;
use second::refusal::LAST;
use second::{judge, judge_joint, read_model, read_plan, soonest, Edge, Model, Reading};
use std::collections::{BTreeMap, BTreeSet};

fn model(seed: u64, kind: &str) -> Model {
    read_model(&generate(seed, kind).unwrap()).unwrap()
}

#[test]
fn a_seed_gives_the_same_bytes() {
    for kind in KINDS {
        assert_eq!(generate(7, kind), generate(7, kind));
        let different: BTreeSet<Vec<u8>> =
            (0..20).filter_map(|seed| generate(seed, kind)).collect();
        assert!(different.len() >= 12, "{kind}");
    }
    assert_eq!(generate(7, "no such kind"), None);
}

#[test]
fn refused_kinds() {
    for refusal in 1..=8 {
        for seed in 0..400 {
            let model = generate(seed, &format!("refused-{refusal}")).unwrap();
            assert_eq!(judge(&model, [MIDDLE; 4]), Err(refusal), "{seed}");
        }
    }
}

#[test]
fn classes() {
    for seed in 0..300 {
        assert_eq!(classify(&model(seed, "safe")), Class::Safe);
        assert_eq!(classify(&model(seed, "drift")), Class::Drift);
        assert_eq!(classify(&model(seed, "plain")), Class::Plain);
    }
}

#[test]
fn sizes_and_clocks() {
    for seed in 0..60 {
        assert!(states_of(&model(seed, "tiny")) <= TINY);
        assert!((TINY + 1..=SMALL).contains(&states_of(&model(seed, "small"))));
        assert!((SMALL + 1..=MIDDLE).contains(&states_of(&model(seed, "middle"))));
        assert_eq!(states_of(&model(seed, "largest")), MAX_STATES);
        for clocks in 1..=MAX_CLOCKS {
            assert_eq!(model(seed, &format!("clocks-{clocks}")).clocks, clocks);
        }
    }
}

/// Each kind of accepted models has both marks in each of its classes, about as
/// often; models of mark 2 have limits of their own often enough.
#[test]
fn marks() {
    for kind in KINDS.into_iter().filter(|kind| *kind != "blank") {
        let mut seen: BTreeMap<(Class, u32), usize> = BTreeMap::new();
        let mut blank = 0;
        for seed in 0..300 {
            let bytes = generate(seed, kind).unwrap();
            let Ok(reading) = read_plan(&bytes) else {
                continue;
            };
            let class = classify(&reading.model);
            *seen.entry((class, reading.mark)).or_default() += 1;
            let both = by_both_marks(&bytes);
            blank += usize::from(reading.mark == 2 && both.is_ok_and(|[one, two]| one != two));
        }
        if seen.values().sum::<usize>() < 300 {
            continue; // refused, or noise
        }
        for &(class, mark) in seen.keys() {
            let (these, others) = (seen[&(class, mark)], seen[&(class, 3 - mark)]);
            assert!(3 * these >= others, "{kind} {seen:?}");
        }
        assert!(blank >= 15, "{kind} {blank}");
    }
}

/// Of mark 2, with limits below those of mark 1, and small. More than half
/// are safe by their mark; the others are of all classes.
#[test]
fn blank_models() {
    let mut by_mark = 0;
    let mut classes: BTreeMap<Class, usize> = BTreeMap::new();
    let mut forms = BTreeSet::new();
    for seed in 0..400 {
        let bytes = generate(seed, "blank").unwrap();
        let reading = read_plan(&bytes).unwrap();
        let [one, two] = by_both_marks(&bytes).unwrap();
        assert_eq!((reading.mark, &reading.model), (2, &two));
        assert!(one != two && states_of(&two) <= SMALL);
        forms.extend(forms_of_stays(&bytes));
        if is_safe_by_its_mark(&bytes) {
            by_mark += 1;
        } else {
            *classes.entry(classify(&two)).or_default() += 1;
        }
    }
    println!("safe by its mark {by_mark}, else {classes:?}");
    assert!(by_mark >= 200 && classes.values().all(|&times| times >= 10));
    assert_eq!(classes.len(), 3);
    // 0, M+1 and others, where no edge leaves and where the default is at the
    // ceiling or below it; others also spell out a default below it.
    assert_eq!(forms.len(), 3 + 3 + 4);
}

/// Of each stay field: whether it is 0, M+1 or another; whether edges leave and
/// the default is the ceiling; whether the limit is the default.
fn forms_of_stays(bytes: &[u8]) -> BTreeSet<(u32, bool, bool, bool)> {
    let (numbers, model) = (numbers_of(bytes).unwrap(), read_model(bytes).unwrap());
    let most = u32::from(model.ceiling) + 1;
    let mut forms = BTreeSet::new();
    for (at, location) in model.locations.iter().enumerate() {
        let leaves = model.edges.iter().any(|edge| edge.from == at);
        for clock in 0..model.clocks {
            let field = numbers[6 + at * (1 + model.clocks) + 1 + clock];
            let form = if field == most { 2 } else { field.min(1) };
            let default = model.blank_limit(2, at, clock);
            let is_default = location.limit[clock] == default;
            forms.insert((form, leaves, default == model.ceiling, is_default));
        }
    }
    forms
}

/// Most have a location that takes longer than the ceiling, many one that takes
/// three times as long, many one that the fewest jumps do not get to soonest; in
/// some a location has no time.
#[test]
fn slow_models() {
    let [mut late, mut later, mut never, mut by_more_jumps] = [0; 4];
    for seed in 0..400 {
        let bytes = generate(seed, "slow").unwrap();
        let model = read_model(&bytes).unwrap();
        assert!(states_of(&model) <= MIDDLE);
        let time = |location| soonest(&bytes, location, ENOUGH).ok();
        let times: Vec<Option<u64>> = (0..model.locations.len() as u64).map(time).collect();
        let last = times.iter().flatten().max().unwrap();
        late += usize::from(*last > model.ceiling.into());
        later += usize::from(*last >= 3 * u64::from(model.ceiling));
        never += usize::from(times.contains(&None));
        let graph = Graph::new(model);
        let by_fewest = times_by_fewest_jumps(&graph, &times);
        by_more_jumps += usize::from(by_fewest != times);
    }
    println!("late {late}, later {later}, never {never}, by more jumps {by_more_jumps}");
    assert!(late >= 200 && later >= 80 && never >= 30 && by_more_jumps >= 100);
}

/// The least time to each location that has one, of the runs on whole times that
/// make no more jumps than they must.
fn times_by_fewest_jumps(graph: &Graph, times: &[Option<u64>]) -> Vec<Option<u64>> {
    let mut found = vec![None; times.len()];
    // The states entered by so many jumps, each with the least time.
    let mut entered = BTreeMap::from([(graph.start, 0)]);
    while found.iter().flatten().count() < times.iter().flatten().count() {
        let mut first: BTreeMap<usize, u64> = BTreeMap::new();
        let mut next: BTreeMap<usize, u64> = BTreeMap::new();
        for (state, time) in entered {
            keep_least(&mut first, graph.location_of(state), time);
            let mut waited = Some(state);
            for now in time.. {
                let Some(state) = waited else { break };
                let jumps = graph.steps(state).iter().filter(|step| step.kind == JUMP);
                jumps.for_each(|step| keep_least(&mut next, step.to as usize, now));
                waited = after_time(graph, state).and_then(|state| after_time(graph, state));
            }
        }
        for (at, time) in first {
            found[at] = found[at].or(Some(time));
        }
        entered = next;
    }
    found
}

fn keep_least(times: &mut BTreeMap<usize, u64>, at: usize, time: u64) {
    let least = times.entry(at).or_insert(time);
    *least = time.min(*least);
}

fn after_time(graph: &Graph, state: usize) -> Option<usize> {
    let mut steps = graph.steps(state).iter();
    let step = steps.find(|step| step.kind == TIME)?;
    Some(step.to as usize)
}

/// Some are refused by 7. The others have a dead edge and are of every class and
/// mark; most have a closed walk that a dead edge alone keeps from counting. Dead
/// edges come up in every form, and so do edges that are nearly dead.
#[test]
fn models_with_dead_links() {
    let [mut refused, mut by_dead] = [0; 2];
    let mut classes: BTreeMap<(Class, u32), usize> = BTreeMap::new();
    let mut forms: BTreeMap<&str, usize> = BTreeMap::new();
    for seed in 0..1_000 {
        let bytes = generate(seed, "dead-links").unwrap();
        let Ok(reading) = read_plan(&bytes) else {
            assert_eq!(read_plan(&bytes), Err(7));
            refused += 1;
            continue;
        };
        let model = &reading.model;
        assert!(states_of(model) <= MIDDLE && has_dead_edge(model));
        *classes.entry((classify(model), reading.mark)).or_default() += 1;
        by_dead += usize::from(is_refused_by_all_edges(model));
        let edges = model.edges.iter();
        let found: BTreeSet<&str> = edges.flat_map(|edge| forms_of(&bytes, edge)).collect();
        for form in found {
            *forms.entry(form).or_default() += 1;
        }
    }
    println!("refused {refused}, accepted by a dead edge {by_dead}");
    println!("{classes:?} {forms:?}");
    assert!(refused >= 100 && by_dead >= 500);
    assert!(classes.len() == 6 && classes.values().all(|&times| times >= 60));
    assert!(forms.len() == 7 && forms.values().all(|&times| times >= 60));
}

/// What is seen of the lows of an edge.
fn forms_of(bytes: &[u8], edge: &Edge) -> Vec<&'static str> {
    let (numbers, model) = (numbers_of(bytes).unwrap(), read_model(bytes).unwrap());
    let opens = model.can_open(edge);
    let mut forms = Vec::new();
    let mut shut = 0;
    for clock in 0..model.clocks {
        let (low, kept) = (edge.low[clock], edge.keeps(clock));
        let [from, to] = [edge.from, edge.to].map(|at| model.locations[at].limit[clock]);
        let is_blank = numbers[7 + edge.to * (1 + model.clocks) + clock] == 0;
        let is_between = (1..model.ceiling).contains(&low);
        let seen = [
            ("above from", low > from),
            ("reset too late", low > from && !kept),
            ("above to", low <= from && low > to && kept),
            ("above a default", low > to && kept && is_blank),
            ("reset in time", opens && low > to),
            ("at the limit", opens && low == from.min(to) && is_between),
        ];
        let seen = seen.into_iter().filter(|(_, is_seen)| *is_seen);
        forms.extend(seen.map(|(form, _)| form));
        shut += usize::from(low > from || kept && low > to);
    }
    if (model.clocks, shut) == (3, 1) {
        forms.push("one of three");
    }
    forms
}

/// How often each thing is seen.
type Seen = BTreeMap<&'static str, usize>;

fn note(seen: &mut Seen, found: &[(&'static str, bool)]) {
    for (what, is_found) in found {
        *seen.entry(what).or_default() += usize::from(*is_found);
    }
}

/// The sizes of models that are mostly small.
fn sizes(model: &Model) -> [(&'static str, bool); 3] {
    let states = states_of(model);
    [
        ("small", states <= SMALL),
        ("middle", (SMALL + 1..=MIDDLE).contains(&states)),
        ("largest", states == MAX_STATES),
    ]
}

/// Each is taken, with either mark and verdict and every number of clocks. Some have
/// no closed walk, some one that only dead edges keep from counting; in many the full
/// trail touches, and is mostly shorter.
#[test]
fn joint_models() {
    let mut kinds: BTreeMap<(Class, u32), usize> = BTreeMap::new();
    let mut seen = Seen::new();
    for seed in 0..1_000 {
        let bytes = generate(seed, "joint").unwrap();
        let Reading { mark, model } = read_plan(&bytes).unwrap();
        *kinds.entry((classify(&model), mark)).or_default() += 1;
        let (full, joint) = (judge(&bytes, ENOUGH), judge_joint(&bytes, ENOUGH));
        note(&mut seen, &sizes(&model));
        note(
            &mut seen,
            &[
                ("one clock", model.clocks == 1),
                ("two clocks", model.clocks == 2),
                ("three clocks", model.clocks == 3),
                ("no walk", !model.has_closed_walk(|_| true)),
                ("by dead edges", lacks_by_all_edges(&model)),
                ("another trail", has_another_trail(&model)),
                ("a longer one", full.unwrap().count < joint.unwrap().count),
            ],
        );
    }
    println!("{kinds:?} {seen:?}");
    assert!(kinds.len() == 4 && kinds.values().all(|&times| times >= 120));
    assert!(seen["small"] >= 750 && seen["middle"] >= 100 && seen["largest"] >= 8);
    let clocks = ["one clock", "two clocks", "three clocks"];
    assert!(clocks.iter().all(|clocks| seen[clocks] >= 200));
    assert!(seen["no walk"] >= 80 && seen["by dead edges"] >= 100);
    assert!(seen["another trail"] >= 300 && seen["a longer one"] >= 250);
}

/// Each is accepted and gives 17, with either mark and of every class. Most would have
/// a joint reset by one edge, and many have other closed walks with a joint reset.
#[test]
fn disjoint_models() {
    let mut kinds: BTreeMap<(Class, u32), usize> = BTreeMap::new();
    let mut seen = Seen::new();
    for seed in 0..1_000 {
        let bytes = generate(seed, "disjoint").unwrap();
        let Reading { mark, model } = read_plan(&bytes).unwrap();
        assert_eq!(judge_joint(&bytes, ENOUGH), Err(17));
        *kinds.entry((classify(&model), mark)).or_default() += 1;
        let with_all = |edge: usize| {
            let mut other = model.clone();
            other.edges[edge].resets = (1 << model.clocks) - 1;
            !other.lacks_a_joint_reset()
        };
        let plan = read(&bytes).unwrap();
        let is_joint = |edge: &&PlanEdge| edge.resets.iter().all(|&reset| reset);
        let walks = plan.closed_walks();
        note(&mut seen, &sizes(&model));
        note(
            &mut seen,
            &[
                ("two clocks", model.clocks == 2),
                ("three clocks", model.clocks == 3),
                ("one reset short", (0..model.edges.len()).any(with_all)),
                (
                    "other walks",
                    walks.iter().any(|walk| walk.iter().any(is_joint)),
                ),
            ],
        );
    }
    println!("{kinds:?} {seen:?}");
    assert!(kinds.len() == 6 && kinds.values().all(|&times| times >= 100));
    assert!(seen["small"] >= 750 && seen["middle"] >= 100 && seen["largest"] >= 8);
    assert!(seen["two clocks"] >= 250 && seen["three clocks"] >= 250);
    assert!(seen["one reset short"] >= 900 && seen["other walks"] >= 500);
}

/// Every size comes up once in 96 seeds, also if they are some way apart; with either
/// mark, safe or not, padded or not, about as often.
#[test]
fn models_of_every_size() {
    let size = |seed| {
        let model = model(seed, "sizes");
        (model.clocks, model.ceiling, model.locations.len())
    };
    let sizes: BTreeSet<_> = (96..192).map(size).collect();
    assert_eq!(sizes.len(), 96);
    let apart = |by: u64| (0..1_000).map(|at| size(by * at)).collect::<BTreeSet<_>>();
    assert!([2, 27, 96].into_iter().all(|by| apart(by) == sizes));
    let mut seen = Seen::new();
    let mut states = BTreeSet::new();
    for seed in 0..960 {
        let bytes = generate(seed, "sizes").unwrap();
        let Reading { mark, model } = read_plan(&bytes).unwrap();
        states.insert(states_of(&model));
        note(
            &mut seen,
            &[
                ("mark 2", mark == 2),
                ("safe", classify(&model) == Class::Safe),
                ("drift", classify(&model) == Class::Drift),
                ("plain", classify(&model) == Class::Plain),
                ("padded", is_padded(&bytes)),
            ],
        );
    }
    println!("{seen:?}");
    assert_eq!(states.len(), 89);
    assert!((400..=560).contains(&seen["mark 2"]) && (400..=560).contains(&seen["padded"]));
    assert!(seen["safe"] >= 250 && seen["drift"] >= 100 && seen["plain"] >= 250);
}

/// All header numbers come up, and marks above 2 as well as 0.
#[test]
fn refused_marks() {
    let marks: BTreeSet<u32> = (0..600)
        .map(|seed| mark_of(&generate(seed, "refused-3").unwrap()))
        .collect();
    assert!([0, 1, 2, 3].iter().all(|mark| marks.contains(mark)));
    assert!(marks.len() >= 10, "{marks:?}");
}

fn mark_of(bytes: &[u8]) -> u32 {
    second::number_at(bytes, 0).unwrap().0
}

/// Every number of a model is below 128, so that one of more bytes is padded.
fn is_padded(bytes: &[u8]) -> bool {
    bytes.len() > numbers_of(bytes).unwrap().len()
}

#[test]
fn padded_models_are_longer() {
    for kind in ["padded", "respelled"] {
        for seed in 0..60 {
            let bytes = generate(seed, kind).unwrap();
            let model = read_model(&bytes).unwrap();
            assert!(bytes.len() > count_of_numbers(&model) && is_padded(&bytes));
        }
    }
}

#[test]
fn respelled_models_stay_the_same() {
    let mut with_stay = 0;
    for seed in 0..60 {
        let random = &mut Random::new(seed);
        let bytes = generate(seed, "small").unwrap();
        let other = respelled(random, &bytes).unwrap();
        assert!(is_padded(&other) && !is_padded(&bytes));
        assert_eq!(read_plan(&other), read_plan(&bytes));
        with_stay += usize::from(has_stay_above_ceiling(&other));
        assert_eq!(respelled(random, &bytes[1..]), None);
    }
    assert!(with_stay >= 50);
}

/// A tenth is padded, and a half has a stay field of M+1.
#[test]
fn many_accepted_models_are_not_in_shortest_form() {
    let all = KINDS
        .iter()
        .flat_map(|kind| (0..40).map(|seed| generate(seed, kind).unwrap()));
    let accepted: Vec<Vec<u8>> = all.filter(|bytes| read_model(bytes).is_ok()).collect();
    let padded = accepted.iter().filter(|bytes| is_padded(bytes)).count();
    let stays = accepted
        .iter()
        .filter(|bytes| has_stay_above_ceiling(bytes))
        .count();
    println!(
        "accepted {}: padded {padded}, with a stay field of M+1 {stays}",
        accepted.len()
    );
    assert!(10 * padded >= accepted.len() && 2 * stays >= accepted.len());
}

#[test]
fn a_fifth_of_the_accepted_models_needs_a_touch() {
    let lines = shares(1_000);
    let number = |start: &str| -> f64 {
        let line = lines
            .lines()
            .find(|line| line.starts_with(start))
            .expect(start);
        line[start.len()..]
            .split_whitespace()
            .next()
            .unwrap()
            .parse()
            .unwrap()
    };
    assert!(number("accepted unsafe only by drift ") >= 0.2 * number("accepted "));
    assert!(number("accepted safe ") >= 0.2 * number("accepted "));
    assert!(number("accepted unsafe with perfect clocks ") >= 0.2 * number("accepted "));
    assert!(number("accepted mark 1 ") >= 0.4 * number("accepted "));
    assert!(number("accepted mark 2 ") >= 0.4 * number("accepted "));
    assert!(number("accepted mark 2, safe where mark 1 is unsafe ") > 0.0);
    for refusal in 1..=8 {
        assert!(number(&format!("refused {refusal} ").replace("8 ", "8 at scratch 4000 ")) > 0.0);
    }
}

/// Guards and invariants are not strict, so what is reached is closed: faces
/// add no state, with or without touches (they do shorten trails). With one
/// clock touches lead to no new location either.
#[test]
fn faces_reach_nothing_new() {
    for kind in ["tiny", "small", "middle", "clocks-1", "noise"] {
        for seed in 0..400 {
            let Ok(model) = read_model(&generate(seed, kind).unwrap()) else {
                continue;
            };
            let one_clock = model.clocks == 1;
            let graph = Graph::new(model);
            let components = Components::new(&graph);
            let by = |face, touch: bool| {
                let touch = touch.then_some(&components);
                reached(&graph, Closure { face, touch })
            };
            assert_eq!(by(false, false), by(true, false));
            assert_eq!(by(false, true), by(true, true));
            if one_clock {
                let locations = |marked: Vec<bool>| -> BTreeSet<usize> {
                    let states = (0..marked.len()).filter(|&state| marked[state]);
                    states.map(|state| graph.location_of(state)).collect()
                };
                assert_eq!(locations(by(true, false)), locations(by(true, true)));
            }
        }
    }
}

#[test]
fn every_change_applies_and_every_refusal_comes_up() {
    let mut kinds = BTreeSet::new();
    let mut answers = BTreeSet::new();
    for seed in 0..1_500 {
        let kind = ["tiny", "small", "drift"][seed as usize % 3];
        let bytes = generate(seed, kind).unwrap();
        let ours = evidence(&bytes);
        let (kind, other) = mutate(seed, &bytes, &ours);
        assert_eq!(mutate(seed, &bytes, &ours), (kind, other.clone()));
        kinds.insert(kind);
        answers.insert(check(&bytes, &other));
        match kind {
            "twice" => assert_eq!(check(&bytes, &other), check(&bytes, &ours)),
            "pad" | "pad-many" => assert_eq!(check(&bytes, &other), Err(15)),
            "pad-order" | "cut" => assert!(check(&bytes, &other).is_err()),
            _ => {}
        }
    }
    assert_eq!(kinds.len(), mutate::KINDS.len());
    for refusal in [1, 2, 6, 10, 11, 12, 13, 14, 15] {
        assert!(answers.contains(&Err(refusal)), "{refusal}");
    }
    assert!(answers.contains(&Ok(1)) && answers.contains(&Ok(2)));
}

/// No bytes at all stop the calls or the changes.
#[test]
fn any_bytes() {
    for seed in 0..4_000 {
        let mut random = Random::new(seed);
        let mut some = |most: usize| -> Vec<u8> {
            let length = random.below(most);
            (0..length).map(|_| if random.one_in(2) { random.below(4) } else { random.below(256) } as u8).collect()
        };
        let models = [some(40), ROW.to_vec(), LOOP.to_vec()];
        let evidence = [&[seed as u8 % 4][..], &some(60)].concat();
        for model in models {
            let answer = check(&model, &evidence);
            assert!((1..=LAST).contains(&answer.map_or_else(|refusal| refusal, |kind| kind as u8)));
            mutate(seed, &model, &evidence);
            for (kind, _) in mutate::KINDS {
                mutate_as(seed, kind, &model, &evidence);
            }
        }
    }
}
