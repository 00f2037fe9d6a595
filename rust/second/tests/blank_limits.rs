//! Blank stay fields of mark 2, request (c) of 02: the limits by hand, and all
//! that is told of a plan against the same limits spelt out with mark 1.

mod common;

use common::*;
use second::blanks::{by_both_marks, is_safe_by_its_mark, with_mark};
use second::brute::read::read;
use second::generate::{classify, generate, Class, KINDS};
use second::graph::Graph;
use second::mutate::mutate;
use second::numbers::{numbers_of, shortest};
use second::{harm, judge, read_model, read_plan, sheet_margin};
use std::collections::BTreeMap;

/// The accepted models of all kinds.
fn for_accepted(seeds: u64, mut test: impl FnMut(u64, &[u8])) {
    for kind in KINDS {
        for seed in 0..seeds {
            let plan = generate(seed, kind).expect("a known kind");
            if read_model(&plan).is_ok() {
                test(seed, &plan);
            }
        }
    }
}

/// The places of the stay fields, location by location.
fn places_of_stays(numbers: &[u32]) -> Vec<usize> {
    let (clocks, locations) = (numbers[1] as usize, numbers[3] as usize);
    let places = 6..6 + locations * (1 + clocks);
    places.filter(|at| (at - 6) % (1 + clocks) != 0).collect()
}

/// With mark 1 and limit + 1 in each stay field, as the brute-force route reads
/// the limits.
fn spelt_out(plan: &[u8]) -> Vec<u8> {
    let limits = read(plan).expect("an accepted plan").limits.concat();
    let mut numbers = numbers_of(plan).expect("numbers");
    for (place, limit) in places_of_stays(&numbers).into_iter().zip(limits) {
        numbers[place] = limit + 1;
    }
    numbers[0] = 1;
    shortest(&numbers)
}

/// One clock, ceiling 3: the limits of the locations with mark 2, all fields
/// being blank. With mark 1 all are 3.
#[test]
fn by_hand() {
    for (locations, edges, limits) in [
        (2, &[][..], &[3, 3][..]),
        (2, &[[0, 1, 1, 0, 1]], &[1, 3]),
        (2, &[[0, 1, 0, 0, 1]], &[1, 3]),
        (2, &[[0, 1, 1, 3, 3]], &[3, 3]),
        // The greatest, in any order; of edges that leave.
        (2, &[[0, 1, 1, 0, 0], [0, 1, 1, 1, 2]], &[2, 3]),
        (2, &[[0, 1, 1, 1, 2], [0, 1, 1, 0, 0]], &[2, 3]),
        (2, &[[0, 1, 1, 0, 2], [1, 0, 1, 0, 0]], &[2, 0]),
        // Loops.
        (1, &[[0, 0, 1, 0, 1]], &[1]),
        (2, &[[0, 1, 1, 0, 1], [0, 0, 1, 2, 2]], &[2, 3]),
        (2, &[[0, 1, 1, 0, 1], [1, 1, 1, 0, 0]], &[1, 0]),
        // From a location that no edge enters.
        (3, &[[0, 1, 1, 0, 1], [2, 0, 1, 2, 2]], &[1, 3, 2]),
    ] {
        let header = [2, 1, 3, locations, edges.len() as u8, 0];
        let blanks = vec![0; 2 * usize::from(locations)];
        let plan = [&header, &blanks[..], &edges.concat()].concat();
        let read = by_both_marks(&plan).unwrap().map(|model| -> Vec<u8> {
            let all = model.locations.iter();
            all.map(|location| location.limit[0]).collect()
        });
        assert_eq!(read, [vec![3; limits.len()], limits.to_vec()], "{plan:?}");
    }
}

/// A forbidden location that is entered at 1, with one way out and this stay
/// field, at ceiling 1; the limit is held on entry.
#[test]
fn entry_by_hand() {
    let plan = |mark, stay, to, high| {
        let header = [mark, 1, 1, 2, 2, 0, 0, 0, 1, stay];
        [&header[..], &[0, 1, 0, 1, 1, 1, to, 1, 0, high]].concat()
    };
    let is_unsafe = |plan: &[u8]| judge(plan, ENOUGH).unwrap().is_unsafe;
    for to in [0, 1] {
        assert!(is_unsafe(&plan(1, 0, to, 0)));
        assert!(!is_unsafe(&plan(2, 0, to, 0)));
        assert!(is_unsafe(&plan(2, 0, to, 1)));
        assert!(is_unsafe(&plan(2, 2, to, 0)));
        for mark in [1, 2] {
            assert!(!is_unsafe(&plan(mark, 1, to, 1)));
        }
        // The trail that passes with mark 1 enters it; the sheet knows it shut.
        let trail = evidence(&plan(1, 0, to, 0));
        assert_eq!(trail, [2, 3, 0, 0, 1, 0]);
        assert_eq!(check(&plan(1, 0, to, 0), &trail), Ok(2));
        assert_eq!(check(&plan(2, 0, to, 0), &trail), Err(13));
        let sheet = evidence(&plan(2, 0, to, 0));
        assert_eq!(check(&plan(2, 0, to, 0), &sheet), Ok(1));
        assert_eq!(check(&plan(1, 0, to, 0), &sheet), Err(12));
    }
}

/// Sets, verdicts and evidence are those of the limits so read.
#[test]
fn as_with_the_limits_spelt_out() {
    let mut blank = 0;
    let mut compare = |seed: u64, plan: &[u8]| {
        let same = spelt_out(plan);
        assert_eq!(read_model(plan), read_model(&same), "{plan:?}");
        assert_eq!(judge(plan, ENOUGH), judge(&same, ENOUGH));
        assert_eq!(marks_of(plan), marks_of(&same));
        assert_eq!(sheet_margin(plan, ENOUGH), sheet_margin(&same, ENOUGH));
        assert_eq!(harm(plan, ENOUGH), harm(&same, ENOUGH));
        let ours = evidence(plan);
        assert_eq!(ours, evidence(&same));
        assert!(check(plan, &ours).is_ok());
        for change in 0..3 {
            let other = mutate(3 * seed + change, plan, &ours).1;
            assert_eq!(check(plan, &other), check(&same, &other), "{plan:?}");
        }
        let differs = by_both_marks(plan).is_ok_and(|[one, two]| one != two);
        blank += usize::from(plan[0] % 128 == 2 && differs);
    };
    for_accepted(40, &mut compare);
    (0..1_000).for_each(|seed| compare(seed, &generate(seed, "blank").unwrap()));
    println!("{blank} with a limit that is not that of mark 1");
    assert!(blank >= 1_000);
}

/// "Whoever relied on the ceiling and moves to mark 2 writes M+1."
#[test]
fn moving_to_mark_2() {
    for_accepted(60, |_, plan| {
        let old = with_mark(plan, 1).unwrap();
        let mut numbers = numbers_of(&old).unwrap();
        for place in places_of_stays(&numbers) {
            if numbers[place] == 0 {
                numbers[place] = numbers[2] + 1;
            }
        }
        numbers[0] = 2;
        let moved = read_plan(&shortest(&numbers));
        assert!(moved.as_ref().is_ok_and(|moved| moved.mark == 2) || moved == Err(7));
        assert_eq!(moved.map(|moved| moved.model), read_model(&old));
    });
}

/// A blank limit shuts no edge that leaves, and is never above the ceiling.
#[test]
fn blank_limits_shut_no_edge() {
    for_accepted(60, |_, plan| {
        let model = read_model(plan).unwrap();
        for edge in &model.edges {
            for (clock, &high) in edge.high[..model.clocks].iter().enumerate() {
                let limit = model.blank_limit(2, edge.from, clock);
                assert!(high <= limit && limit <= model.ceiling);
            }
        }
    });
}

/// A fact, and not a promise: with mark 2 just those states are marked that are
/// with mark 1 and are allowed. What is cut off could not be left by an edge. So
/// a verdict changes from unsafe to safe, and only where forbidden locations
/// cannot be entered.
#[test]
fn marked_with_both_marks() {
    let mut seen: BTreeMap<(Class, Class), usize> = BTreeMap::new();
    let mut compare = |plan: &[u8]| {
        let Ok([one, two]) = by_both_marks(plan) else {
            return;
        };
        if one == two {
            return;
        }
        let classes = (classify(&one), classify(&two));
        *seen.entry(classes).or_default() += 1;
        assert_eq!(
            is_safe_by_its_mark(plan),
            classes.0 != Class::Safe && classes.1 == Class::Safe
        );
        let [with_1, with_2] = [1, 2].map(|mark| marks_of(&with_mark(plan, mark).unwrap()));
        let allowed = Graph::new(two).allowed;
        for (state, mark) in with_2.into_iter().enumerate() {
            assert_eq!(mark, with_1[state] & u8::from(allowed[state]), "{plan:?}");
        }
    };
    for_accepted(40, |_, plan| compare(plan));
    (0..1_000).for_each(|seed| compare(&generate(seed, "blank").unwrap()));
    println!("{seen:?}");
    for (from, to) in [
        (Class::Plain, Class::Safe),
        (Class::Drift, Class::Safe),
        (Class::Plain, Class::Plain),
        (Class::Drift, Class::Drift),
        (Class::Safe, Class::Safe),
    ] {
        assert!(seen[&(from, to)] >= 20, "{from:?} {to:?}");
    }
    assert!(seen
        .keys()
        .all(|(from, to)| *from != Class::Safe || *to == Class::Safe));
}
