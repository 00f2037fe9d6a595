//! The shortest form of a plan: what 02 promises of it, on generated models of
//! both marks and by the brute-force route.

mod common;

use common::*;
use second::brute::read::{read_with_mark, Plan};
use second::brute::spellings;
use second::generate::{generate, respelled, KINDS};
use second::limits::{MAX_CEILING, MAX_CLOCKS, MAX_EDGES, MAX_LOCATIONS};
use second::program::{bytes_of_text, SCRATCH};
use second::random::Random;
use second::shortest_plan::shortest_plan;
use second::{judge, marks, read_plan, write_evidence, write_plan, Reading};
use std::collections::{BTreeMap, BTreeSet};

/// What the output holds before a call.
const PATTERN: u8 = 170;

/// No number of a model is above this, so that no other need be tried.
const GREATEST: u32 = MAX_EDGES as u32;

fn shortest(model: &[u8]) -> Vec<u8> {
    let mut out = vec![PATTERN; 1_000];
    let written = write_plan(model, &mut out).expect("an accepted model");
    out.truncate(written);
    out
}

/// Models of every kind.
fn for_models(seeds: u64, mut test: impl FnMut(u64, &[u8])) {
    for kind in KINDS {
        for seed in 0..seeds {
            test(seed, &generate(seed, kind).expect("a known kind"));
        }
    }
}

/// The accepted ones of them.
fn for_accepted(seeds: u64, mut test: impl FnMut(u64, &[u8], Reading)) {
    for_models(seeds, |seed, bytes| {
        if let Ok(reading) = read_plan(bytes) {
            test(seed, bytes, reading);
        }
    });
}

#[test]
fn by_hand() {
    assert_eq!(shortest(&ROW), ROW);
    assert_eq!(shortest(&LOOP), LOOP);
    // 5 in one, two and three bytes.
    let five = [1, 1, 1, 5, 0, 0, 0, 0, 0, 0, 0, 0, 0, 0, 0, 0];
    for padded in [&[5][..], &[133, 0], &[133, 128, 0]] {
        assert_eq!(shortest(&[&five[..3], padded, &five[4..]].concat()), five);
    }
    // Ceiling 2 and the limits 2, 0, 1, 2.
    let stays = [1, 1, 2, 4, 0, 0, 0, 0, 1, 1, 0, 2, 0, 3];
    let short = [1, 1, 2, 4, 0, 0, 0, 0, 1, 1, 0, 2, 0, 0];
    assert_eq!(shortest(&stays), short);
    // Ceiling 2; an edge that closes at 1 leaves each location but the last.
    let stays = |mark, fields: [u8; 4]| {
        let [a, b, c, d] = fields;
        let edges = [0, 3, 0, 0, 1, 1, 3, 0, 0, 1, 2, 3, 0, 1, 1];
        [&[mark, 1, 2, 4, 3, 0, 0, a, 1, b, 0, c, 0, d], &edges[..]].concat()
    };
    assert_eq!(shortest(&stays(2, [2, 3, 1, 3])), stays(2, [0, 3, 1, 0]));
    assert_eq!(shortest(&stays(2, [0, 2, 0, 2])), stays(2, [0, 0, 0, 2]));
    assert_eq!(shortest(&stays(1, [2, 3, 1, 3])), stays(1, [2, 0, 1, 0]));
    // Edges that nothing can take, or that are there twice, stay.
    let shut = [1, 1, 2, 2, 2, 0, 0, 1, 0, 0, 0, 1, 0, 2, 2, 0, 1, 0, 2, 2];
    assert_eq!(shortest(&shut), shut);
}

#[test]
fn the_longest() {
    let largest = bytes_of_text(include_str!("../../../plans/largest.plan")).unwrap();
    let most = 6 + MAX_LOCATIONS * (1 + MAX_CLOCKS) + MAX_EDGES * (3 + 2 * MAX_CLOCKS);
    assert_eq!(shortest(&largest).len(), most);
    assert_eq!(most, 254);
}

#[test]
fn reading_it_gives_the_model_of_the_input() {
    let mut marks = BTreeMap::new();
    for_accepted(40, |_, bytes, reading| {
        let short = shortest(bytes);
        // Every number is below 128: one byte each.
        assert_eq!(short.len(), count_of_numbers(&reading.model), "{bytes:?}");
        assert!(short.len() <= bytes.len());
        assert_eq!(u32::from(short[0]), reading.mark);
        assert_eq!(read_with_mark(&short), read_with_mark(bytes));
        assert_eq!(shortest(&short), short);
        assert_stay_fields(&short);
        *marks.entry(reading.mark).or_insert(0) += 1;
        assert_eq!(read_plan(&short), Ok(reading));
    });
    assert!(marks[&1] >= 200 && marks[&2] >= 200, "{marks:?}");
}

/// Of a plan in shortest form: a stay field is 0 exactly where the default is
/// the limit, which is read and looked up by the brute-force route.
fn assert_stay_fields(short: &[u8]) {
    let (mark, plan) = read_with_mark(short).expect("an accepted plan");
    let locations = short[6..].chunks(1 + plan.clocks);
    for (at, (fields, limits)) in locations.zip(&plan.limits).enumerate() {
        for (clock, (&field, &limit)) in fields[1..].iter().zip(limits).enumerate() {
            let is_default = limit == plan.default_limit(mark, at, clock);
            let expected = if is_default { 0 } else { limit + 1 };
            assert_eq!(u32::from(field), expected, "{short:?}");
        }
    }
    assert!(mark == 2 || !has_stay_above_ceiling(short));
}

/// Equal content gives equal bytes, other content, another mark too, other
/// bytes.
#[test]
fn one_form_for_one_model() {
    let mut models: BTreeMap<Vec<u8>, Reading> = BTreeMap::new();
    for_accepted(40, |seed, bytes, reading| {
        let short = shortest(bytes);
        let mut random = Random::new(seed);
        for _ in 0..4 {
            let other = respelled(&mut random, bytes).expect("an accepted model");
            assert_eq!(read_plan(&other).as_ref(), Ok(&reading));
            assert_eq!(shortest(&other), short, "{other:?}");
        }
        let known = models.entry(short).or_insert_with(|| reading.clone());
        assert_eq!(*known, reading);
    });
    let different: BTreeSet<String> = models.values().map(|model| format!("{model:?}")).collect();
    assert_eq!(different.len(), models.len());
}

/// Each number one higher or lower, or a stay field with every limit: what is
/// still accepted is another plan and has other bytes, but where a blank means
/// the same limit.
#[test]
fn a_number_changed() {
    let (mut same, mut other) = (BTreeMap::from([(1, 0), (2, 0)]), 0);
    for_accepted(8, |_, bytes, reading| {
        let short = shortest(bytes);
        let stays = 1..=reading.model.ceiling + 1;
        for at in 0..short.len() {
            for number in [short[at] + 1, short[at].wrapping_sub(1) & 127]
                .into_iter()
                .chain(stays.clone())
                .filter(|&number| number != short[at])
            {
                let mut changed = short.clone();
                changed[at] = number;
                let Ok(read) = read_plan(&changed) else {
                    continue;
                };
                assert_eq!(shortest(&changed) == short, read == reading);
                let same = same.get_mut(&reading.mark).expect("a mark");
                *if read == reading { same } else { &mut other } += 1;
            }
        }
    });
    let often = same.values().all(|&times| times >= 400);
    assert!(often && other >= 5_000, "{same:?} {other}");
}

/// Plans with one content and two marks: nothing is promised but that each
/// keeps its own, and where edges close early a limit has two forms.
#[test]
fn plans_of_two_marks() {
    let both = |stay| [1, 2].map(|mark| shortest(&[mark, 1, 2, 1, 1, 0, 0, stay, 0, 0, 1, 0, 1]));
    let stays = |stay| both(stay).map(|short| (short[0], short[7]));
    assert_eq!(stays(0), [(1, 0), (2, 0)]);
    assert_eq!(stays(1), [(1, 1), (2, 1)]);
    assert_eq!(stays(2), [(1, 2), (2, 0)]);
    assert_eq!(stays(3), [(1, 0), (2, 3)]);
    let mut forms = BTreeSet::new();
    for_accepted(20, |_, bytes, reading| {
        for mark in [1, 2] {
            let model = reading.model.clone();
            let short = shortest_plan(&Reading { mark, model });
            assert_eq!(u32::from(short[0]), mark);
            assert_eq!(
                read_plan(&short).map(|read| read.model),
                Ok(reading.model.clone())
            );
            assert_eq!(short.len(), shortest(bytes).len());
            forms.insert(short[1..] == shortest(bytes)[1..]);
        }
    });
    assert_eq!(forms.len(), 2);
}

/// Verdict, marks and evidence of the shortest form are those of the plan.
#[test]
fn judged_alike() {
    for_accepted(6, |seed, bytes, _| {
        let other = respelled(&mut Random::new(seed), bytes).expect("an accepted model");
        let short = shortest(&other);
        let judgement = judge(bytes, ENOUGH).expect("an accepted model");
        assert_eq!(judge(&short, ENOUGH), Ok(judgement));
        let marked = |model: &[u8]| {
            let mut out = vec![PATTERN; judgement.states];
            marks(model, ENOUGH, &mut out).map(|states| (states, out))
        };
        assert_eq!(marked(&short), marked(bytes));
        assert_eq!(evidence(&short), evidence(bytes));
    });
}

/// Output of no byte, one too few, just enough, and some to spare.
#[test]
fn outputs() {
    for_accepted(30, |_, bytes, reading| {
        let (short, needed) = (shortest(bytes), count_of_numbers(&reading.model));
        for length in [0, 1, needed / 2, needed - 1, needed, needed + 1, needed + 5] {
            let mut out = vec![PATTERN; length];
            let answer = write_plan(bytes, &mut out);
            if length < needed {
                assert_eq!(answer, Err(9));
                assert_eq!(out, vec![PATTERN; length]);
            } else {
                assert_eq!(answer, Ok(needed));
                assert_eq!(out[..needed], short);
                assert_eq!(out[needed..], vec![PATTERN; length - needed]);
            }
        }
    });
}

/// A refused model has its own number, whatever the output; none has 8.
#[test]
fn refusals() {
    let mut seen = BTreeSet::new();
    for_models(40, |_, bytes| {
        let own = read_plan(bytes).err();
        for length in [0, 1, 300] {
            let mut out = vec![PATTERN; length];
            let refusal = write_plan(bytes, &mut out).err();
            let too_short = (length < 300).then_some(9);
            assert_eq!(refusal, own.or(too_short), "{bytes:?}");
            if refusal.is_some() {
                assert_eq!(out, vec![PATTERN; length]);
            }
            seen.extend(refusal);
        }
    });
    assert_eq!(seen, BTreeSet::from([1, 2, 3, 4, 5, 6, 7, 9]));
}

#[test]
fn more_states_than_scratch() {
    for seed in 0..20 {
        let model = generate(seed, "refused-8").unwrap();
        let scratch = [SCRATCH; 4];
        assert_eq!(write_evidence(&model, scratch, &mut [0; 300]), Err(8));
        assert!(write_plan(&model, &mut [0; 300]).is_ok());
        assert_eq!(write_plan(&model, &mut []), Err(9));
    }
}

/// At each place of a plan every number is tried in every length.
#[test]
fn the_brute_force_route_redraws_alike() {
    for (kind, seeds) in [
        ("tiny", 60),
        ("small", 60),
        ("padded", 60),
        ("respelled", 60),
        ("blank", 300),
    ] {
        for seed in 0..seeds {
            let model = generate(seed, kind).unwrap();
            let least = spellings::least(&model, GREATEST);
            assert_eq!(Ok(shortest(&model)), least, "{model:?}");
        }
    }
    let refused = [1, 2, 3, 4, 5, 6, 7].map(|refusal| format!("refused-{refusal}"));
    for kind in refused.iter().map(String::as_str).chain(["noise"]) {
        for seed in 0..60 {
            let model = generate(seed, kind).unwrap();
            let mut out = [PATTERN; 300];
            let answer = write_plan(&model, &mut out).map(|written| out[..written].to_vec());
            assert_eq!(answer, spellings::least(&model, GREATEST), "{model:?}");
        }
    }
}

/// Numbers of two groups have no place in a plan.
#[test]
fn larger_numbers_tried_too() {
    for model in [&ROW[..], &[1, 1, 1, 1, 1, 0, 0, 2, 0, 0, 1, 0, 1]] {
        let few = spellings::at_each_place(model, GREATEST);
        assert_eq!(spellings::at_each_place(model, 16_400), few);
        assert_eq!(spellings::least(model, GREATEST), Ok(shortest(model)));
    }
}

/// The plans of one location and no edges, for each clock each stay field.
fn small_plans(clocks: usize) -> Vec<Vec<u8>> {
    let mut plans = Vec::new();
    let ceilings = 1..=MAX_CEILING;
    for (mark, ceiling) in ceilings.flat_map(|ceiling| [(1, ceiling), (2, ceiling)]) {
        let header = vec![mark, clocks as u8, ceiling, 1, 0, 0, 0];
        let mut begun = vec![header];
        for _ in 0..clocks {
            let longer = |plan: &Vec<u8>| {
                let fields = 0..=ceiling + 1;
                let with = |stay| [&plan[..], &[stay]].concat();
                fields.map(with).collect::<Vec<_>>()
            };
            begun = begun.iter().flat_map(longer).collect();
        }
        plans.extend(begun);
    }
    plans
}

/// All spellings of a plan: none is shorter, and as many are as short as there
/// are choices between a blank and the same spelt out. Ours is the least of
/// these byte by byte.
fn compare_all_spellings(model: &[u8]) {
    let read = read_with_mark(model).unwrap();
    let short = shortest(model);
    let all = spellings::all(model, GREATEST).unwrap();
    for other in &all {
        assert_eq!(read_with_mark(other).as_ref(), Ok(&read));
        assert_eq!(shortest(other), short, "{other:?}");
        assert!(other.len() >= short.len());
    }
    let as_short = all.iter().filter(|other| other.len() == short.len());
    assert_eq!(as_short.clone().count(), 1 << defaults(read.0, &read.1));
    assert_eq!(as_short.min(), Some(&short));
}

/// How many limits are the default.
fn defaults(mark: u32, plan: &Plan) -> usize {
    let places = (0..plan.limits.len()).flat_map(|at| (0..plan.clocks).map(move |k| (at, k)));
    places
        .filter(|&(at, clock)| plan.limits[at][clock] == plan.default_limit(mark, at, clock))
        .count()
}

#[test]
fn all_spellings_of_small_plans() {
    small_plans(1)
        .iter()
        .for_each(|model| compare_all_spellings(model));
    let some = small_plans(2).into_iter().step_by(7);
    some.for_each(|model| compare_all_spellings(&model));
}

/// Which bytes, and how many of them, make up the plans that are all looked at.
fn alphabets() -> [(Vec<u8>, usize); 5] {
    let with_padding = |most: u8| (0..=most).chain(128..=128 + most).collect::<Vec<u8>>();
    [
        ((0..=MAX_CEILING + 1).collect(), 10),
        ((0..=2).collect(), 16),
        (with_padding(3), 10),
        (with_padding(2), 12),
        (with_padding(1), 15),
    ]
}

/// All accepted plans of some bytes, put together by mark and content: the
/// shortest of each and the least of these is ours, for every one of them.
#[test]
fn all_plans_of_some_bytes() {
    for (bytes, longest) in alphabets() {
        let mut groups: BTreeMap<(u32, Plan), Vec<Vec<u8>>> = BTreeMap::new();
        for model in spellings::accepted(&bytes, longest) {
            let read = read_with_mark(&model).unwrap();
            groups.entry(read).or_default().push(model);
        }
        let mut forms = BTreeSet::new();
        for group in groups.values() {
            let least = group
                .iter()
                .min_by_key(|model| (model.len(), model.to_vec()))
                .unwrap();
            group
                .iter()
                .for_each(|model| assert_eq!(shortest(model), *least));
            forms.insert(least);
        }
        assert_eq!(forms.len(), groups.len());
        let models: usize = groups.values().map(Vec::len).sum();
        println!(
            "bytes {bytes:?}, at most {longest}: {models} spellings of {} plans",
            groups.len()
        );
        assert!(groups.len() >= 16 && models > groups.len());
    }
}
