//! Room known beforehand, request (h) of 02: by hand; by both routes on every size and
//! kind; and against what the calls take and write when they are lent just so much, what
//! other sheets pass, and how long our trails are.

mod common;

use common::*;
use second::blanks::with_mark;
use second::brute;
use second::calls::{evidence_of, joint_evidence_of};
use second::components::Components;
use second::draft::{all_shapes, Shape};
use second::generate::{generate, respelled, KINDS, MIDDLE};
use second::graph::Graph;
use second::limits::MAX_STATES;
use second::marking::marked_set;
use second::mutate::{self, mutate_as, roles, Role};
use second::numbers::{numbers_of, push_padded, shortest};
use second::other::{other_sheet, other_trail};
use second::program::OUTPUT;
use second::random::Random;
use second::sheet::greatest_number;
use second::{harm, judge, marks, sheet_margin, soonest, write_evidence};
use second::{judge_joint, marks_joint, write_joint};
use second::{read_model, read_plan, room, Room};
use std::collections::{BTreeMap, BTreeSet};

/// States, scratch, sheet and steps.
fn told(plan: &[u8]) -> Result<[usize; 4], u8> {
    let Room {
        states,
        scratch,
        sheet,
        steps,
    } = room(plan)?;
    Ok([states, scratch, sheet, steps])
}

/// Ordinary locations with blank stay fields and no edges, the last one of several
/// forbidden.
fn blank(size: &Shape) -> Vec<u8> {
    let mut plan = vec![1, size.clocks as u8, size.ceiling as u8];
    plan.extend([size.locations as u8, 0, 0]);
    plan.extend([0].repeat((size.locations - 1) * (1 + size.clocks)));
    plan.push(u8::from(size.locations > 1));
    plan.extend([0].repeat(size.clocks));
    plan
}

fn shape(clocks: usize, ceiling: u32, locations: usize) -> Shape {
    Shape {
        clocks,
        ceiling,
        locations,
    }
}

/// Each number in three bytes.
fn padded(plan: &[u8]) -> Vec<u8> {
    let mut longest = Vec::new();
    for number in numbers_of(plan).unwrap() {
        push_padded(&mut longest, number, 3);
    }
    longest
}

#[test]
fn by_hand() {
    assert_eq!(told(&ROW), Ok([3, 3, 4, 2]));
    assert_eq!(told(&LOOP), Ok([132, 132, 265, 131]));
    for (clocks, ceiling, locations, values) in [
        // The last sizes with one byte for a number of a sheet, and with two.
        (1, 4, 7, [63, 63, 64, 62]),
        (2, 1, 6, [66, 66, 133, 65]),
        (2, 2, 2, [66, 66, 133, 65]),
        (2, 3, 1, [67, 67, 135, 66]),
        (3, 1, 1, [51, 51, 52, 50]),
        (3, 1, 2, [102, 102, 205, 101]),
        (3, 4, 2, [3_954, 3_954, 7_909, 3_953]),
        (3, 3, 8, [7_064, 7_064, 14_129, 7_063]),
        (3, 4, 4, [7_908, 7_908, 15_817, 7_907]),
        (3, 4, 5, [9_885, 9_885, 29_656, 9_884]),
        (3, 4, 8, [15_816, 15_816, 47_449, 15_815]),
    ] {
        let plan = blank(&shape(clocks, ceiling, locations));
        assert_eq!(told(&plan), Ok(values), "{plan:?}");
    }
}

/// With either mark, padded or not. No number of states is next to one at which a
/// spelling gets longer.
#[test]
fn every_size_by_both_routes() {
    let mut states = BTreeSet::new();
    for size in all_shapes() {
        let plan = blank(&size);
        let values = told(&plan);
        assert_eq!(values, brute::room::room(&plan), "{size:?}");
        assert_eq!(values.unwrap()[0], size.states());
        let other = with_mark(&plan, 2).unwrap();
        for other in [padded(&plan), padded(&other), other] {
            assert_eq!(told(&other), values);
            assert_eq!(brute::room::room(&other), values);
        }
        states.insert(size.states());
    }
    assert_eq!((states.len(), states.first()), (89, Some(&3)));
    assert_eq!(states.last(), Some(&MAX_STATES));
    let around = |most: usize| {
        [
            states.range(..=most).last(),
            states.range(most + 1..).next(),
        ]
    };
    assert_eq!(around(64), [Some(&63), Some(&66)]);
    assert_eq!(around(8_192), [Some(&7_908), Some(&9_885)]);
}

/// Refusals are those of the model and no others, whatever its size.
#[test]
fn every_kind_by_both_routes() {
    let mut seen: BTreeMap<Option<u8>, usize> = BTreeMap::new();
    for kind in KINDS {
        for seed in 0..60 {
            let plan = generate(seed, kind).unwrap();
            let values = told(&plan);
            assert_eq!(values, brute::room::room(&plan), "{kind} {seed}");
            assert_eq!(values.err(), read_model(&plan).err(), "{kind} {seed}");
            *seen.entry(values.err()).or_default() += 1;
        }
    }
    println!("refusals: {seen:?}");
    let refusals = (1..=7).map(Some);
    assert!(seen.keys().copied().eq([None].into_iter().chain(refusals)));
    assert!(seen.values().all(|&times| times >= 60));
}

#[test]
fn refused_models() {
    for refusal in 1..=7 {
        for seed in 0..200 {
            let plan = generate(seed, &format!("refused-{refusal}")).unwrap();
            assert_eq!(room(&plan), Err(refusal), "{seed}");
        }
    }
    for seed in 0..20 {
        // Too many states are no refusal, and neither are walks without a joint reset.
        let plan = generate(seed, "refused-8").unwrap();
        assert!(room(&plan).is_ok_and(|room| room.states > MIDDLE));
        assert!(room(&generate(seed, "disjoint").unwrap()).is_ok());
    }
    // The header tells the room, but each byte behind it is read.
    for plan in [&LOOP[..], &TWO, &blank(&shape(3, 4, 8))] {
        assert!((0..plan.len()).all(|length| room(&plan[..length]) == Err(1)));
        assert_eq!(room(&[plan, &[0]].concat()), Err(6));
        assert_eq!(room(&[plan, &[128, 128, 128]].concat()), Err(6));
    }
}

/// Another kind, limit, edge or start, another mark or spelling changes nothing, as far
/// as the plan is accepted.
#[test]
fn the_header_decides() {
    let [mut changed, mut refused] = [0; 2];
    for kind in KINDS {
        for seed in 0..40 {
            let random = &mut Random::new(seed);
            let plan = generate(seed, kind).unwrap();
            let Ok(values) = told(&plan) else {
                continue;
            };
            let numbers = numbers_of(&plan).unwrap();
            for _ in 0..8 {
                let mut other = numbers.clone();
                let at = random.range(5, other.len() - 1);
                other[at] = random.below(8) as u32;
                other[0] = random.range(1, 2) as u32;
                let other = shortest(&other);
                match told(&other) {
                    Ok(others) => assert_eq!(others, values, "{other:?}"),
                    Err(refusal) => assert_eq!(Some(refusal), read_plan(&other).err()),
                }
                changed += usize::from(told(&other).is_ok());
                refused += usize::from(told(&other).is_err());
            }
            let other = respelled(random, &plan).unwrap();
            assert_eq!(told(&other), Ok(values), "{other:?}");
        }
    }
    println!("changed {changed}, refused {refused}");
    assert!(changed >= 2_000 && refused >= 1_000);
}

/// The refusal of each call that is lent scratch, with output to spare.
fn refusals(plan: &[u8], ours: &[u8], scratch: [usize; 4]) -> Vec<Option<u8>> {
    let out = &mut vec![0; OUTPUT];
    let start = read_model(plan).unwrap().start as u64;
    vec![
        judge(plan, scratch).err(),
        marks(plan, scratch, out).err(),
        write_evidence(plan, scratch, out).err(),
        judge_joint(plan, scratch).err(),
        marks_joint(plan, scratch, out).err(),
        write_joint(plan, scratch, out).err(),
        second::check_evidence(plan, ours, scratch).err(),
        sheet_margin(plan, scratch).err(),
        harm(plan, scratch).err(),
        soonest(plan, start, scratch).err(),
    ]
}

/// Some accepted models of each kind, and one of each size.
fn accepted() -> Vec<Vec<u8>> {
    let kinds = KINDS.into_iter().flat_map(|kind| {
        let seeds = match kind {
            "sizes" => 96,
            "largest" | "refused-8" => 4,
            _ => 30,
        };
        (0..seeds).map(move |seed| generate(seed, kind).unwrap())
    });
    kinds.filter(|plan| read_model(plan).is_ok()).collect()
}

/// Just so much scratch is enough for each call; one less in any slice is not.
#[test]
fn scratch_as_told() {
    let [mut taken, mut not_joint] = [0; 2];
    for plan in accepted() {
        let Room { scratch, .. } = room(&plan).unwrap();
        let ours = evidence(&plan);
        let found = refusals(&plan, &ours, [scratch; 4]);
        let joint = found[3];
        assert!([None, Some(17)].contains(&joint), "{plan:?}");
        assert_eq!(found[3..6], [joint; 3]);
        assert_eq!([&found[..3], &found[6..]].concat(), [None; 7]);
        taken += usize::from(joint.is_none());
        not_joint += usize::from(joint.is_some());
        for short in 0..4 {
            let mut lengths = [scratch; 4];
            lengths[short] -= 1;
            assert_eq!(refusals(&plan, &ours, lengths), [Some(8); 10], "{plan:?}");
        }
    }
    println!("taken {taken}, without a joint reset {not_joint}");
    assert!(taken >= 100 && not_joint >= 50);
}

/// The refusals of the writers, full and for a joint reset, with output of this length.
fn writers(plan: &[u8], scratch: usize, output: usize) -> [Option<u8>; 2] {
    let out = &mut vec![0; output];
    let full = write_evidence(plan, [scratch; 4], out).err();
    [full, write_joint(plan, [scratch; 4], out).err()]
}

/// A byte for each state is enough for marks, and one less is not.
#[test]
fn output_for_marks() {
    for plan in accepted() {
        let Room { states, .. } = room(&plan).unwrap();
        let joint = judge_joint(&plan, [states; 4]).err();
        for (output, refusal) in [(states, None), (states - 1, Some(9))] {
            let out = &mut vec![0; output];
            assert_eq!(marks(&plan, [states; 4], out).err(), refusal);
            let found = marks_joint(&plan, [states; 4], out).err();
            assert_eq!(found, joint.or(refusal), "{plan:?}");
        }
    }
}

/// With the output told a sheet never gets 9. Up to 64 states it gets 9 with one byte
/// less; above, it is always shorter. A trail may get 9.
#[test]
fn output_as_told() {
    let [mut at_limit, mut below, mut trails, mut longer] = [0; 4];
    for plan in accepted() {
        let Room { scratch, sheet, .. } = room(&plan).unwrap();
        let joint = judge_joint(&plan, [scratch; 4]).err();
        let found = writers(&plan, scratch, sheet);
        if judge(&plan, [scratch; 4]).unwrap().is_unsafe {
            let too_long = evidence(&plan).len() > sheet;
            assert_eq!(found[0], too_long.then_some(9), "{plan:?}");
            trails += 1;
            longer += usize::from(too_long);
            continue;
        }
        assert_eq!(found, [None, joint], "{plan:?}");
        let less = writers(&plan, scratch, sheet - 1);
        if scratch <= 64 {
            assert_eq!(less, [Some(9), joint.or(Some(9))], "{plan:?}");
            at_limit += 1;
        } else {
            assert_eq!(less, [None, joint], "{plan:?}");
            below += 1;
        }
    }
    println!("sheets at the limit {at_limit}, below {below}; trails {trails}, longer {longer}");
    assert!(at_limit >= 60 && below >= 60 && trails >= 200 && longer >= 1);
}

/// On every size the sheet with the greatest numbers passes and has just so many bytes;
/// one with a byte more does not pass.
#[test]
fn the_longest_sheet_of_every_size() {
    for size in all_shapes() {
        let plan = blank(&size);
        let told = room(&plan).unwrap();
        let most = greatest_number(told.states);
        let regions = told.states / size.locations;
        let ordinary = regions * (size.locations - 1).max(1);
        let mut numbers = vec![most; ordinary];
        numbers.resize(told.states, most - 1);
        let sheet = [&[1], &shortest(&numbers)[..]].concat();
        assert_eq!(sheet.len(), told.sheet, "{size:?}");
        assert_eq!(check(&plan, &sheet), Ok(1), "{size:?}");
        assert_eq!(check(&plan, &[&sheet[..], &[0]].concat()), Err(6));
        let mut padded = sheet.clone();
        *padded.last_mut().unwrap() |= 128;
        padded.push(0);
        let refusal = if sheet.len() > 3 * told.states { 2 } else { 15 };
        assert_eq!(check(&plan, &padded), Err(refusal), "{size:?}");
        let above = [&shortest(&[1, most + 1])[..], &sheet[2..]].concat();
        assert_eq!(check(&plan, &above), Err(11), "{size:?}");
    }
}

/// Our sheet with each height raised as far as the highest one can be.
fn raised_to_the_top(graph: &Graph, components: &Components) -> Vec<u8> {
    let marked = marked_set(graph, components);
    let highest = components.height.iter().max().unwrap();
    let by = graph.states() as u32 - 1 - highest;
    let number = |state: usize| match graph.allowed[state] {
        true => 2 * (components.height[state] + by) + u32::from(marked[state]),
        false => 0,
    };
    let numbers: Vec<u32> = (0..graph.states()).map(number).collect();
    [&[1], &shortest(&numbers)[..]].concat()
}

/// Ours, changed ones that still pass, ones with other heights and more states in, and
/// ones raised to the top.
#[test]
fn no_passing_sheet_is_longer() {
    let [mut passing, mut at_limit, mut two_bytes] = [0; 3];
    for plan in accepted() {
        let told = room(&plan).unwrap();
        let graph = Graph::new(read_model(&plan).unwrap());
        let (judgement, ours) = evidence_of(&graph);
        if judgement.is_unsafe {
            continue;
        }
        let components = Components::new(&graph);
        let random = &mut Random::new(told.states as u64);
        let mut sheets = vec![raised_to_the_top(&graph, &components)];
        sheets.extend((0..3).flat_map(|_| other_sheet(random, &graph, &components)));
        let kinds = mutate::KINDS.into_iter().filter(|_| told.states <= MIDDLE);
        sheets.extend(kinds.flat_map(|(kind, _)| mutate_as(random.bits(), kind, &plan, &ours)));
        sheets.push(ours);
        sheets.retain(|sheet| second::check::check(&graph, sheet) == Ok(1));
        assert!(sheets.len() >= 5, "{plan:?}");
        for sheet in sheets {
            assert!(sheet.len() <= told.sheet, "{plan:?} {sheet:?}");
            passing += 1;
            let is_longest = sheet.len() == told.sheet;
            at_limit += usize::from(is_longest);
            two_bytes += usize::from(is_longest && told.states > 64);
        }
    }
    println!("passing {passing}, as long as can be {at_limit}, of two bytes {two_bytes}");
    assert!(passing >= 500 && at_limit >= 100 && two_bytes >= 10);
}

/// One clock: a location after the other is left at the ceiling, with the clock at 0
/// again, and the last one is forbidden.
fn chain(ceiling: u8, locations: u8) -> Vec<u8> {
    let mut plan = vec![1, 1, ceiling, locations, locations - 1, 0];
    plan.extend([0, 0].repeat(usize::from(locations) - 1));
    plan.extend([1, 0]);
    for from in 0..locations - 1 {
        plan.extend([from, from + 1, 1, ceiling, ceiling]);
    }
    plan
}

/// Our trail can be in each state but those of a forbidden location, of which it enters
/// one. Its bytes may be more than those of a sheet.
#[test]
fn the_longest_trails() {
    let mut longer = 0;
    for ceiling in 1..=4 {
        for locations in 2..=8 {
            let plan = chain(ceiling, locations);
            let told = room(&plan).unwrap();
            let regions = told.states / usize::from(locations);
            for found in [judge(&plan, ENOUGH), judge_joint(&plan, ENOUGH)] {
                let count = found.unwrap().count;
                assert_eq!(count, told.states - regions, "{plan:?}");
                assert!(count <= told.steps);
            }
            let too_long = evidence(&plan).len() > told.sheet;
            let refusals = [too_long.then_some(9); 2];
            assert_eq!(writers(&plan, told.scratch, told.sheet), refusals);
            longer += usize::from(too_long);
        }
    }
    assert!(longer >= 5, "{longer}");
}

/// The numbers of a role in a trail, added up.
fn sum_of(graph: &Graph, trail: &[u8], wanted: Role) -> usize {
    let numbers = numbers_of(trail).unwrap();
    let roles = roles(graph, &numbers).unwrap();
    let wanted = numbers
        .iter()
        .zip(roles)
        .filter(|(_, role)| *role == wanted);
    wanted.map(|(number, _)| *number as usize).sum()
}

/// Of every kind: ours, with touches and without, has no more steps than told, and none in
/// a second state of a forbidden location.
#[test]
fn no_trail_of_ours_is_longer() {
    let [mut trails, mut joint] = [0; 2];
    for plan in accepted() {
        let model = read_model(&plan).unwrap();
        let Room { states, steps, .. } = room(&plan).unwrap();
        let most = states - states / model.locations.len();
        let is_joint = !model.lacks_a_joint_reset();
        let graph = Graph::new(model);
        let (judgement, trail) = evidence_of(&graph);
        if !judgement.is_unsafe {
            continue;
        }
        let count = sum_of(&graph, &trail, Role::Count);
        assert!(count <= steps && count <= most, "{plan:?}");
        trails += 1;
        if is_joint {
            let trail = joint_evidence_of(&graph).1;
            let count = sum_of(&graph, &trail, Role::Count);
            assert!(count <= steps && count <= most, "{plan:?}");
            joint += 1;
        }
    }
    println!("trails {trails}, without a touch {joint}");
    assert!(trails >= 300 && joint >= 150);
}

/// One clock, ceiling 2: what is touched lies on a walk of seven steps through the
/// forbidden location. Ten states.
const WALK: [u8; 25] = [
    1, 1, 2, 2, 3, 0, 0, 0, 1, 0, //
    0, 1, 0, 2, 2, //
    1, 1, 1, 2, 2, //
    1, 0, 1, 0, 1,
];

/// A trail of ours may have more steps than told with those of its walks, and another one
/// without them.
#[test]
fn steps_beyond_the_limit() {
    let graph = Graph::new(read_model(&WALK).unwrap());
    let trail = evidence(&WALK);
    let sums = [Role::Count, Role::WalkCount].map(|role| sum_of(&graph, &trail, role));
    assert_eq!((told(&WALK), sums), (Ok([10, 10, 11, 9]), [4, 7]));
    let forbidden = [1, 1, 1, 1, 0, 0, 1, 0];
    assert_eq!(told(&forbidden), Ok([3, 3, 4, 2]));
    assert_eq!(check(&forbidden, &[2, 3, 0, 2, 0, 0, 0]), Ok(2));
    let mut longer = 0;
    for seed in 0..1_000 {
        let plan = generate(seed, "tiny").unwrap();
        let graph = Graph::new(read_model(&plan).unwrap());
        let components = Components::new(&graph);
        let Some(other) = other_trail(&mut Random::new(seed), &graph, &components) else {
            continue;
        };
        let count = sum_of(&graph, &other, Role::Count);
        longer += usize::from(count > room(&plan).unwrap().steps);
    }
    assert!(longer >= 10, "{longer}");
}
