//! Plans with a joint reset, request (g) of 02: which plans are taken, by hand and by
//! both routes; what is told of them against the brute-force route, the full calls
//! and all trails.

mod common;

use common::*;
use second::blanks::with_mark;
use second::brute::read::read_with_mark;
use second::brute::trails::{least_of_all, least_touchless_trail};
use second::brute::Brute;
use second::calls::states_of;
use second::generate::{classify, generate, respelled, Class, KINDS, SMALL};
use second::graph::{Graph, FACE, TOUCH};
use second::limits::MAX_STATES;
use second::marking::{distance_to_forbidden, levels, Closure, WITHOUT_TOUCH};
use second::mutate::{roles, Role};
use second::numbers::numbers_of;
use second::program::OUTPUT;
use second::random::Random;
use second::{judge, judge_joint, marks_joint, read_model, read_plan, write_joint, Model};
use std::collections::{BTreeMap, BTreeSet};

/// Two clocks, ceiling 1: there and back with these masks. 22 states.
fn there_and_back(there: u8, back: u8) -> [u8; 26] {
    [
        1, 2, 1, 2, 2, 0, 0, 0, 0, 0, 0, 0, //
        0, 1, there, 0, 1, 0, 1, //
        1, 0, back, 0, 1, 0, 1,
    ]
}

/// One clock, ceiling 2: a loop with a reset, and a forbidden location that one waits
/// for until 2. 10 states.
const WAIT: [u8; 20] = [
    1, 1, 2, 2, 2, 0, 0, 0, 1, 0, //
    0, 0, 1, 0, 2, //
    0, 1, 0, 2, 2,
];

fn joint_evidence(model: &[u8]) -> Result<Vec<u8>, u8> {
    let mut out = vec![9; OUTPUT];
    let (_, written) = write_joint(model, ENOUGH, &mut out)?;
    assert!(out[written..].iter().all(|&byte| byte == 9));
    out.truncate(written);
    Ok(out)
}

fn joint_marks(model: &[u8]) -> Vec<u8> {
    let mut out = vec![9; MAX_STATES + 1];
    let states = marks_joint(model, ENOUGH, &mut out).expect("a joint plan");
    assert!(out[states..].iter().all(|&byte| byte == 9));
    out.truncate(states);
    out
}

/// The kinds of the steps of a trail, its walks left out.
fn kinds_of(model: &[u8], trail: &[u8]) -> Vec<u8> {
    let graph = Graph::new(read_model(model).unwrap());
    let numbers = numbers_of(trail).unwrap();
    let roles = roles(&graph, &numbers).unwrap();
    let kinds = numbers.iter().zip(roles);
    let kinds = kinds.filter(|(_, role)| *role == Role::Kind);
    kinds.map(|(number, _)| *number as u8).collect()
}

#[test]
fn masks_by_hand() {
    for (there, back, answer) in [
        (3, 0, None),
        (0, 3, None),
        (3, 3, None),
        (2, 3, None),
        (1, 2, Some(17)),
        (2, 1, Some(17)),
        // A clock is left.
        (1, 1, Some(7)),
        (0, 0, Some(7)),
    ] {
        let plan = there_and_back(there, back);
        assert_eq!(judge_joint(&plan, ENOUGH).err(), answer, "{there} {back}");
        assert_eq!(marks_joint(&plan, ENOUGH, &mut [0; 22]).err(), answer);
        assert_eq!(write_joint(&plan, ENOUGH, &mut [0; 23]).err(), answer);
        let full = answer.filter(|&refusal| refusal != 17);
        assert_eq!(judge(&plan, ENOUGH).err(), full);
    }
}

/// A trail without a touch has one step more, and fewer bytes since it has no walk.
#[test]
fn a_wait_by_hand() {
    let full = judge(&WAIT, ENOUGH).unwrap();
    let joint = judge_joint(&WAIT, ENOUGH).unwrap();
    assert_eq!((full.is_unsafe, full.states, full.count), (true, 10, 4));
    assert_eq!((joint.is_unsafe, joint.states, joint.count), (true, 10, 5));
    let trail = [2, 5, 0, 0, 0, 0, 1, 1];
    assert_eq!(joint_evidence(&WAIT).unwrap(), trail);
    assert_eq!(check(&WAIT, &trail), Ok(2));
    assert_eq!(joint_marks(&WAIT), [1, 1, 1, 1, 1, 0, 0, 0, 0, 1]);
    // The touched region is that between 1 and 2, which the loop leads round to.
    let touching = [2, 4, 0, 3, 1, 1, 4, 1, 0, 0, 0, 0, 0, 1, 1];
    assert_eq!(evidence(&WAIT), touching);
    assert_eq!(check(&WAIT, &touching), Ok(2));
}

/// 01's loop plan shares its resets; 01's tiny models have no walk.
#[test]
fn plans_of_the_bench() {
    assert_eq!(judge_joint(&LOOP, ENOUGH), Err(17));
    assert_eq!(joint_evidence(&ROW).unwrap(), [1, 5, 3, 1]);
    assert_eq!(joint_evidence(&[1, 1, 1, 1, 0, 0, 1, 0]).unwrap(), [2, 0]);
}

/// 1 to 7, then 8, then 17, then 9; nothing is written by any of them.
#[test]
fn order_of_refusals() {
    let shared = there_and_back(1, 2);
    let with_rest = |rest: &[u8]| [&shared[..], rest].concat();
    let marks = |plan: &[u8], scratch, length| {
        let mut out = vec![9; length];
        let found = marks_joint(plan, scratch, &mut out);
        assert!(found.is_ok() || out.iter().all(|&byte| byte == 9));
        found.err()
    };
    let written = |plan: &[u8], scratch, length| {
        let mut out = vec![9; length];
        let found = write_joint(plan, scratch, &mut out);
        assert!(found.is_ok() || out.iter().all(|&byte| byte == 9));
        found.err()
    };
    for length in [0, 7, 22, 30] {
        assert_eq!(marks(&with_rest(&[0]), [0; 4], length), Some(6));
        assert_eq!(marks(&shared[..25], [22; 4], length), Some(1));
        assert_eq!(written(&there_and_back(1, 1), [0; 4], length), Some(7));
        for short in 0..4 {
            let mut scratch = [22; 4];
            scratch[short] = 21;
            assert_eq!(judge_joint(&shared, scratch), Err(8));
            assert_eq!(marks(&shared, scratch, length), Some(8));
            assert_eq!(written(&shared, scratch, length), Some(8));
        }
        assert_eq!(marks(&shared, [22; 4], length), Some(17));
        assert_eq!(written(&shared, [22; 4], length), Some(17));
    }
    let joint = there_and_back(3, 2);
    for (length, refusal) in [(0, Some(9)), (21, Some(9)), (22, None), (23, None)] {
        assert_eq!(marks(&joint, [22; 4], length), refusal);
        // A sheet has a number more, here of a byte each.
        assert_eq!(written(&joint, [22; 4], length + 1), refusal);
    }
    for (length, refusal) in [(0, Some(9)), (7, Some(9)), (8, None), (15, None)] {
        assert_eq!(written(&WAIT, [10; 4], length), refusal);
        assert_eq!(written(&WAIT, [10, 10, 9, 10], length), Some(8));
    }
}

/// The calls of 1 to 7 and of 8 refuse alike, on every kind; these alone give 17.
#[test]
fn refusals_on_every_kind() {
    let mut seen = BTreeSet::new();
    for kind in KINDS {
        for seed in 0..40 {
            let model = generate(seed, kind).unwrap();
            let full = judge(&model, [4_000; 4]);
            let found = judge_joint(&model, [4_000; 4]);
            let marks = marks_joint(&model, [4_000; 4], &mut []);
            let written = write_joint(&model, [4_000; 4], &mut []);
            let refusal = match (full, found) {
                (Err(one), Err(other)) => {
                    assert_eq!(one, other);
                    one
                }
                (Ok(_), Err(other)) => {
                    assert_eq!(other, 17);
                    17
                }
                (full, found) => {
                    assert_eq!(full.is_ok(), found.is_ok());
                    9
                }
            };
            assert_eq!((marks, written), (Err(refusal), Err(refusal)));
            seen.insert(refusal);
        }
    }
    assert_eq!(seen, [1, 2, 3, 4, 5, 6, 7, 8, 9, 17].into());
}

/// Holds the three calls against the brute-force route; the refusal, or none.
fn compare(model: &[u8]) -> Option<u8> {
    let brute = match Brute::new(model) {
        Ok(brute) => brute,
        Err(refusal) => {
            assert_eq!(judge_joint(model, ENOUGH), Err(refusal), "{model:?}");
            return Some(refusal);
        }
    };
    let states = brute.states.list.len();
    let found = judge_joint(model, [states; 4]);
    let naive = match brute.joint() {
        Ok(naive) => naive,
        Err(refusal) => {
            assert_eq!(found, Err(refusal), "{model:?}");
            assert_eq!(joint_evidence(model), Err(refusal));
            return Some(refusal);
        }
    };
    let found = found.expect("taken by both");
    assert_eq!(found.states, states);
    assert_eq!(found.is_unsafe, naive.is_unsafe, "{model:?}");
    assert_eq!(found.count, naive.count, "{model:?}");
    let marks: Vec<u8> = naive.marked.iter().map(|&mark| mark.into()).collect();
    assert_eq!(joint_marks(model), marks, "{model:?}");
    let ours = joint_evidence(model).expect("taken by both");
    assert_eq!(ours, naive.evidence, "{model:?}");
    let passes = if found.is_unsafe { 2 } else { 1 };
    assert_eq!(brute.check(&ours), Ok(passes), "{model:?}");
    // What the request says of the full set, by its definition.
    assert_eq!(naive.marked, brute.states.marked(), "{model:?}");
    None
}

/// Compares the models of a kind that have few states, or are refused.
fn compare_kind(kind: &str, seeds: u64) -> BTreeMap<Option<u8>, usize> {
    let mut seen = BTreeMap::new();
    for seed in 0..seeds {
        let model = generate(seed, kind).unwrap();
        if judge(&model, [SMALL; 4]) != Err(8) {
            *seen.entry(compare(&model)).or_default() += 1;
        }
    }
    println!("{kind}: {seen:?}");
    seen
}

#[test]
fn both_routes_on_joint_models() {
    let seen = compare_kind("joint", 3_000);
    assert!(seen.len() == 1 && seen[&None] >= 2_400);
}

#[test]
fn both_routes_on_disjoint_models() {
    let seen = compare_kind("disjoint", 1_000);
    assert!(seen.len() == 1 && seen[&Some(17)] >= 750);
}

#[test]
fn both_routes_on_other_models() {
    for (kind, seeds) in [
        ("tiny", 700),
        ("small", 700),
        ("blank", 700),
        ("dead-links", 700),
    ] {
        let seen = compare_kind(kind, seeds);
        assert!(seen[&None] >= 250 && seen[&Some(17)] >= 100, "{kind}");
    }
}

#[test]
fn both_routes_on_some_middle_models() {
    let mut compared = 0;
    for seed in 0..400 {
        let model = generate(seed, "joint").unwrap();
        let states = judge(&model, ENOUGH).unwrap().states;
        if (SMALL + 1..=500).contains(&states) {
            assert_eq!(compare(&model), None);
            compared += 1;
        }
    }
    println!("compared {compared}");
    assert!(compared >= 20);
}

/// Whether each closed walk has a joint reset, by both routes; none if refused.
fn is_joint(bytes: &[u8]) -> Option<bool> {
    let (naive, plain) = (read_with_mark(bytes), read_plan(bytes));
    assert_eq!(naive.as_ref().err(), plain.as_ref().err(), "{bytes:?}");
    let (Ok((_, naive)), Ok(plain)) = (naive, plain) else {
        return None;
    };
    let joint = naive.has_joint_resets();
    assert_eq!(!plain.model.lacks_a_joint_reset(), joint, "{bytes:?}");
    Some(joint)
}

/// Generated models with a few numbers changed, so that resets come and go, and edges
/// open and shut; with either mark.
#[test]
fn walks_of_changed_models() {
    let mut seen: BTreeMap<Option<bool>, usize> = BTreeMap::new();
    for seed in 0..1_500 {
        let random = &mut Random::new(seed);
        let kind = *random.pick(&["joint", "disjoint", "dead-links"]);
        let mut all = vec![generate(seed, kind).unwrap()];
        for _ in 0..8 {
            let mut other = random.pick(&all).clone();
            let at = random.range(6, other.len() - 1);
            other[at] = random.below(4) as u8;
            other[0] = random.range(1, 2) as u8;
            *seen.entry(is_joint(&other)).or_default() += 1;
            all.push(other);
        }
    }
    println!("joint: {seen:?}");
    assert!(seen[&Some(true)] >= 2_000 && seen[&Some(false)] >= 1_500);
}

/// All plans of four edges between two locations, there or back, with any masks of
/// two clocks, each edge dead or not.
#[test]
fn all_plans_of_four_edges() {
    let edge = |number: usize| {
        let digit = |at: u32| (number >> at & 1) as u8;
        let mask = digit(1) + 2 * digit(2);
        [digit(0), 1 - digit(0), mask, digit(3), 1, 0, 1]
    };
    let mut seen: BTreeMap<Option<bool>, usize> = BTreeMap::new();
    for number in 0..16usize.pow(4) {
        // A limit of 0 of the first clock, below a low of 1.
        let header = [1, 2, 1, 2, 4, 0, 0, 1, 0, 0, 1, 0];
        let edges = [0, 4, 8, 12].map(|shift| edge(number >> shift & 15));
        let plan = [&header[..], &edges.concat()].concat();
        let joint = is_joint(&plan);
        *seen.entry(joint).or_default() += 1;
        if joint.is_some() {
            let refusal = (joint == Some(false)).then_some(17);
            assert_eq!(judge_joint(&plan, [22; 4]).err(), refusal, "{plan:?}");
        }
    }
    println!("joint: {seen:?}");
    assert!(seen.len() == 3 && seen.values().all(|&times| times >= 1_000));
}

/// The joint plans among some models of every kind, of any size.
fn for_joint(seeds: u64, more: u64, mut test: impl FnMut(&[u8], Model)) {
    for kind in KINDS {
        let seeds = if kind == "joint" { more } else { seeds };
        for seed in 0..seeds {
            let plan = generate(seed, kind).unwrap();
            match read_model(&plan) {
                Ok(model) if !model.lacks_a_joint_reset() => test(&plan, model),
                _ => {}
            }
        }
    }
}

/// Marks, verdict and sheet are the full ones. A trail passes, has no touch and the
/// count that the judge tells, no less than the full one's; if that has no touch, it
/// is the same. Faces stand in some.
#[test]
fn as_the_full_calls() {
    let [mut sheets, mut trails, mut touching, mut longer, mut faces, mut large] = [0; 6];
    for_joint(30, 2_000, |plan, model| {
        let (full, joint) = (judge(plan, ENOUGH), judge_joint(plan, ENOUGH));
        let (full, joint) = (full.unwrap(), joint.unwrap());
        assert_eq!(
            (full.is_unsafe, full.states),
            (joint.is_unsafe, joint.states)
        );
        assert_eq!(marks_of(plan), joint_marks(plan), "{plan:?}");
        let (theirs, ours) = (evidence(plan), joint_evidence(plan).unwrap());
        assert_eq!(check(plan, &ours), Ok(1 + u32::from(joint.is_unsafe)));
        large += usize::from(states_of(&model) > 4_000);
        if !joint.is_unsafe {
            assert_eq!((full.count, &theirs), (joint.count, &ours), "{plan:?}");
            sheets += 1;
            return;
        }
        let kinds = kinds_of(plan, &ours);
        assert_eq!(kinds.len(), joint.count, "{plan:?}");
        assert!(!kinds.contains(&TOUCH) && full.count <= joint.count);
        let touches = kinds_of(plan, &theirs).contains(&TOUCH);
        assert_eq!(touches, theirs != ours, "{plan:?}");
        trails += 1;
        touching += usize::from(touches);
        longer += usize::from(full.count < joint.count);
        faces += usize::from(kinds.contains(&FACE));
    });
    println!("sheets {sheets}, trails {trails}: full ones with a touch {touching}");
    println!("longer {longer}, with a face {faces}, of more than 4,000 states {large}");
    assert!(sheets >= 700 && trails >= 1_300 && touching >= 700);
    assert!(longer >= 600 && faces >= 30 && large >= 30);
}

/// The steps that a search from the start needs are those of the trail; it makes no
/// difference if faces are left out.
#[test]
fn searches_from_the_start() {
    let mut found = 0;
    for_joint(20, 1_000, |plan, model| {
        let graph = Graph::new(model);
        let closure = Closure {
            face: false,
            touch: None,
        };
        let reversed = graph.reversed();
        let [with, without] = [WITHOUT_TOUCH, closure]
            .map(|closure| distance_to_forbidden(&graph, closure, &reversed)[graph.start]);
        assert_eq!(with, without, "{plan:?}");
        let joint = judge_joint(plan, ENOUGH).unwrap();
        let is_end = |level: &Vec<usize>| level.iter().any(|&state| graph.is_forbidden(state));
        let steps = levels(&graph, WITHOUT_TOUCH).iter().position(is_end);
        assert_eq!(steps.is_some(), joint.is_unsafe, "{plan:?}");
        if let Some(steps) = steps {
            assert_eq!((steps, with as usize), (joint.count, joint.count));
            found += 1;
        }
    });
    assert!(found >= 700);
}

/// On models of up to 60 states all trails without a touch are looked at.
#[test]
fn all_trails_of_tiny_models() {
    const MOST: usize = 200_000;
    let [mut trails, mut longer, mut faces] = [0; 3];
    let tiny = |model: &Vec<u8>| judge_joint(model, [60; 4]).is_ok_and(|found| found.is_unsafe);
    let all = (0..3_000).map(|seed| generate(seed, "joint").unwrap());
    for model in all.filter(tiny) {
        let brute = Brute::new(&model).unwrap();
        let states = &brute.states;
        let is_end = |state| states.forbidden[state];
        let Some(trail) = least_of_all(states, states.start, 0, 0..3, &is_end, MOST) else {
            continue;
        };
        assert_eq!(trail, least_touchless_trail(states), "{model:?}");
        let ours = joint_evidence(&model).unwrap();
        assert_eq!(brute.joint().unwrap().evidence, ours);
        trails += 1;
        longer += usize::from(judge(&model, ENOUGH).unwrap().count < trail.len());
        faces += usize::from(trail.iter().any(|label| label.kind == u32::from(FACE)));
    }
    println!(
        "all trails of {trails} models, {longer} longer than with touches, {faces} with a face"
    );
    assert!(trails >= 400 && longer >= 150 && faces >= 5);
}

/// In a joint plan each closed walk of steps passes a state whose clocks are all 0:
/// if those are left out, none closes. Perfect clocks do all the harm that drift does.
#[test]
fn closed_walks_of_steps_begin_anew() {
    let mut with_walks = 0;
    for_joint(20, 600, |plan, model| {
        assert!(classify(&model) != Class::Drift, "{plan:?}");
        let graph = Graph::new(model);
        let all_zero = |state: usize| graph.region_of(state) == 0;
        assert!(!closes(&graph, |state| !all_zero(state)), "{plan:?}");
        with_walks += usize::from(closes(&graph, |_| true));
    });
    println!("with closed walks {with_walks}");
    assert!(with_walks >= 500);
}

/// Whether some walk of time and jump steps between these states closes: states
/// without a step to a kept one are taken away until none is left, or some stay.
fn closes(graph: &Graph, is_kept: impl Fn(usize) -> bool) -> bool {
    let kept = |state: usize| graph.allowed[state] && is_kept(state);
    let reversed = graph.reversed();
    let steps = |state: usize| graph.steps(state).iter().map(|step| step.to as usize);
    let mut left: Vec<usize> = (0..graph.states())
        .map(|state| steps(state).filter(|&to| kept(to)).count())
        .collect();
    let states: Vec<usize> = (0..graph.states()).filter(|&state| kept(state)).collect();
    let mut ends: Vec<usize> = states.iter().copied().filter(|&at| left[at] == 0).collect();
    let mut taken = 0;
    while let Some(end) = ends.pop() {
        taken += 1;
        for from in reversed.sources(end).iter().map(|&from| from as usize) {
            left[from] -= 1;
            if kept(from) && left[from] == 0 {
                ends.push(from);
            }
        }
    }
    taken < states.len()
}

/// 17 with mark 2 is 17 or 7 with mark 1; a plan that is joint with mark 1 is joint
/// with mark 2. Another spelling changes nothing.
#[test]
fn marks_and_spellings() {
    let mut seen: BTreeMap<[Option<u8>; 2], usize> = BTreeMap::new();
    for kind in ["joint", "disjoint", "dead-links", "blank"] {
        for seed in 0..600 {
            let plan = generate(seed, kind).unwrap();
            let by = |mark| judge_joint(&with_mark(&plan, mark).unwrap(), ENOUGH).err();
            let [one, two] = [1, 2].map(by);
            assert!(two != Some(17) || [Some(7), Some(17)].contains(&one));
            assert!(one.is_some() || two.is_none(), "{plan:?}");
            *seen.entry([one, two]).or_default() += 1;
            if let (true, Some(other)) = (seed < 100, respelled(&mut Random::new(seed), &plan)) {
                assert_eq!(joint_evidence(&other), joint_evidence(&plan));
            }
        }
    }
    println!("refusals by mark: {seen:?}");
    for (one, two) in [
        (None, None),
        (Some(17), None),
        (Some(17), Some(17)),
        (Some(7), None),
    ] {
        assert!(seen[&[one, two]] >= 10, "{one:?} {two:?}");
    }
}
