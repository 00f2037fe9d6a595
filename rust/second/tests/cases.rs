//! The cases of operations and of evidence, and the stored files of the proved
//! programs.

mod common;

use common::{LOOP, LOOP_TRAIL};
use second::blanks::with_mark;
use second::brute::read::read;
use second::brute::room::room as brute_room;
use second::brute::{spellings, Brute};
use second::calls::{evidence_of, joint_evidence_of, states_of};
use second::cases::rules::{broken_rules, Rule, RULES};
use second::cases::{answers, cases};
use second::components::Components;
use second::dead_links::is_refused_by_all_edges;
use second::graph::{Graph, FACE};
use second::limits::{MAX_CLOCKS, MAX_EDGES};
use second::marking::{levels, with_touch, Closure};
use second::mutate::{roles, Role};
use second::numbers::{numbers_of, shortest, Reader};
use second::padding::{first_padded, pad_at};
use second::program::{bytes_of_text, SCRATCH};
use second::refusal::LAST;
use second::{read_model, read_plan, room, Room};
use std::collections::{BTreeMap, BTreeSet};

/// A plan, the line of a case of it, and the answer.
type Case = (Vec<u8>, String, String);

fn all_answered() -> Vec<Case> {
    let text = cases();
    let printed = answers(&text, SCRATCH).unwrap();
    let mut printed = printed.lines();
    let mut model = Vec::new();
    let mut all = Vec::new();
    let mut lines = text.lines();
    while let Some(line) = lines.next() {
        let printed = printed.next().unwrap();
        if line.starts_with('-') {
            model = bytes_of_text(lines.next().unwrap()).unwrap();
        } else if !line.starts_with('#') {
            let answer = printed.strip_prefix(line).unwrap();
            let answer = answer.strip_prefix(": ").unwrap().to_string();
            all.push((model.clone(), line.to_string(), answer));
        }
    }
    all
}

fn is_operation(line: &str) -> bool {
    line.starts_with(char::is_alphabetic)
}

/// A piece of evidence with its answer.
type Piece = (Vec<u8>, String);

/// The plans, each with its evidence.
fn answered() -> Vec<(Vec<u8>, Vec<Piece>)> {
    let mut plans: Vec<(Vec<u8>, Vec<Piece>)> = Vec::new();
    for (model, line, answer) in all_answered() {
        if is_operation(&line) {
            continue;
        }
        if plans.last().map(|(last, _)| last) != Some(&model) {
            plans.push((model, Vec::new()));
        }
        let evidence = bytes_of_text(&line).unwrap();
        plans.last_mut().unwrap().1.push((evidence, answer));
    }
    plans
}

#[test]
fn every_answer_comes_up() {
    let plans = answered();
    let pieces: Vec<_> = plans.iter().flat_map(|(_, pieces)| pieces).collect();
    assert!(pieces.len() >= 60);
    let seen: BTreeSet<&str> = pieces.iter().map(|(_, answer)| answer.as_str()).collect();
    let wanted = (1..=LAST).filter(|refusal| ![9, 16, 17].contains(refusal));
    let mut wanted: BTreeSet<String> = wanted.map(|refusal| refusal.to_string()).collect();
    wanted.extend(["0 1".into(), "0 2".into()]);
    assert_eq!(seen, wanted.iter().map(String::as_str).collect());
}

/// Each operation gives each answer that it has: both verdicts, refusals up
/// to 7, 8 if it is lent scratch, 9 if it is lent output, 16 if it is asked for
/// a location, 17 if it asks for a joint reset, and no other.
#[test]
fn every_answer_of_an_operation_comes_up() {
    let all = all_answered();
    let gives = |word: &str, start: &str| {
        let first = |line: &str| line.split(' ').next() == Some(word);
        let mut cases = all.iter().filter(|(_, line, _)| first(line));
        cases.any(|(_, _, answer)| {
            let rest = answer.strip_prefix(start);
            rest.is_some_and(|rest| !rest.starts_with(|c: char| c.is_ascii_digit()))
        })
    };
    for (word, beyond_7) in [
        ("judge", &[8][..]),
        ("sheet_margin", &[8]),
        ("harm", &[8]),
        ("marks", &[8, 9]),
        ("write", &[8, 9]),
        ("plan", &[9]),
        ("margin", &[]),
        ("rounds", &[]),
        ("room", &[]),
        ("soonest", &[8, 16]),
        ("judge_joint", &[8, 17]),
        ("marks_joint", &[8, 9, 17]),
        ("write_joint", &[8, 9, 17]),
    ] {
        for number in 0..=LAST {
            let expected = number <= 7 || beyond_7.contains(&number);
            assert_eq!(
                gives(word, &number.to_string()),
                expected,
                "{word} {number}"
            );
        }
    }
    for word in [
        "judge",
        "write",
        "sheet_margin",
        "harm",
        "judge_joint",
        "write_joint",
    ] {
        assert!(gives(word, "0 0") && gives(word, "0 1"));
    }
}

#[test]
fn the_cases_of_document_01() {
    let mut pieces = answered().into_iter().flat_map(|(model, pieces)| {
        pieces
            .into_iter()
            .map(move |(evidence, answer)| (model.clone(), evidence, answer))
    });
    let mut has = |model: &[u8], evidence: &[u8], answer: &str| {
        pieces.any(|piece| piece == (model.to_vec(), evidence.to_vec(), answer.to_string()))
    };
    // In this order in the text.
    assert!(has(&[1, 1, 1, 1, 0, 0, 0, 0], &[1, 5, 3, 1], "0 1"));
    assert!(has(&[1, 1, 1, 1, 0, 0, 1, 0], &[2, 0], "0 2"));
    assert!(has(&LOOP, &LOOP_TRAIL, "0 2"));
    assert!(has(&LOOP, &LOOP_TRAIL[..33], "1"));
    let mut other_end = LOOP_TRAIL;
    other_end[33] = 2;
    assert!(has(&LOOP, &other_end, "14"));
}

/// For each number of clocks, each rule is broken alone by some sheet.
#[test]
fn every_rule_is_broken_alone() {
    let mut alone: BTreeSet<(usize, Rule)> = BTreeSet::new();
    for (model, pieces) in answered() {
        let Ok(model) = read_model(&model) else {
            continue;
        };
        let clocks = model.clocks;
        let graph = Graph::new(model);
        for (evidence, _) in pieces.iter().filter(|(_, answer)| answer == "12") {
            let broken = broken_rules(&graph, &numbers_of(evidence).unwrap()[1..]);
            assert!(!broken.is_empty());
            if let [rule] = broken[..] {
                alone.insert((clocks, rule));
            }
        }
    }
    let all = (1..=MAX_CLOCKS).flat_map(|clocks| RULES.map(|rule| (clocks, rule)));
    assert_eq!(alone, all.collect());
}

/// A passing sheet breaks no rule.
#[test]
fn no_rule_is_broken_by_what_passes() {
    for (model, pieces) in answered() {
        for (evidence, _) in pieces.iter().filter(|(_, answer)| answer == "0 1") {
            let graph = Graph::new(read_model(&model).unwrap());
            assert_eq!(
                broken_rules(&graph, &numbers_of(evidence).unwrap()[1..]),
                []
            );
        }
    }
}

/// A number of each role is padded alone, by one empty group and by two, in
/// evidence that passes without that.
#[test]
fn every_place_is_padded_alone() {
    let mut alone: BTreeSet<(Role, usize)> = BTreeSet::new();
    for (model, pieces) in answered() {
        for (evidence, _) in pieces.iter().filter(|(_, answer)| answer == "15") {
            let graph = Graph::new(read_model(&model).unwrap());
            // What follows the padded number may spell none.
            let numbers = numbers_of(evidence).unwrap_or_default();
            let short = shortest(&numbers);
            if second::check::check(&graph, &short).is_err() {
                continue;
            }
            let place = first_padded(evidence).unwrap();
            let groups = evidence.len() - short.len();
            if pad_at(&short, place, groups).as_ref() == Some(evidence) {
                alone.insert((roles(&graph, &numbers).unwrap()[place], groups));
            }
        }
    }
    assert_eq!(alone.len(), 9 * 2, "{alone:?}");
}

/// The brute-force route answers alike, but for scratch, which it knows not.
#[test]
fn the_brute_force_route_answers_alike() {
    for (model, pieces) in answered() {
        for (evidence, answer) in pieces.iter().filter(|(_, answer)| answer != "8") {
            let brute = Brute::new(&model).and_then(|brute| brute.check(evidence));
            let words = match brute {
                Ok(kind) => format!("0 {kind}"),
                Err(refusal) => refusal.to_string(),
            };
            assert_eq!(&words, answer, "{model:?} {evidence:?}");
        }
    }
}

/// The plans that are put in shortest form: what is written is what the
/// brute-force route finds, and dirt stays behind it.
#[test]
fn the_brute_force_route_redraws_alike() {
    let mut redrawn = 0;
    for (model, line, answer) in all_answered() {
        let Some(length) = line.strip_prefix("plan ") else {
            continue;
        };
        let mut out = vec!["7".to_string(); length.parse().unwrap()];
        let number = match spellings::least(&model, MAX_EDGES as u32) {
            Ok(least) if least.len() <= out.len() => {
                let words = least.iter().map(u8::to_string);
                out.iter_mut()
                    .zip(words)
                    .for_each(|(out, word)| *out = word);
                format!("0 {}", least.len())
            }
            Ok(_) => "9".to_string(),
            Err(refusal) => refusal.to_string(),
        };
        let words = format!("{number}, out {}", out.join(","));
        assert_eq!(answer, words.trim_end(), "{model:?}");
        redrawn += 1;
    }
    assert!(redrawn >= 80);
}

/// The verdict, the marks and the evidence of all but the large plans, by the
/// brute-force route.
#[test]
fn the_brute_force_route_judges_alike() {
    let mut by_mark = [0; 3];
    for (model, line, answer) in all_answered() {
        let told = answer.split(", ").collect::<Vec<_>>();
        let few = read_model(&model).is_ok_and(|model| states_of(&model) <= 160);
        if !few || !told[0].starts_with("0 ") {
            continue;
        }
        let brute = Brute::new(&model).unwrap();
        let marked = brute.states.marked();
        let listed = |bytes: &[u8]| bytes.iter().map(u8::to_string).collect::<Vec<_>>();
        let (start, out) = match line.split(' ').next().unwrap() {
            "judge" => (
                format!("0 {} {}", u8::from(brute.is_unsafe()), marked.len()),
                None,
            ),
            "marks" => {
                let marks: Vec<u8> = marked.iter().map(|&mark| mark.into()).collect();
                (format!("0 {}", marked.len()), Some(listed(&marks).concat()))
            }
            "write" => {
                let bytes = brute.evidence();
                let start = format!("0 {} {}", u8::from(brute.is_unsafe()), bytes.len());
                (start, Some(listed(&bytes).join(",")))
            }
            _ => continue,
        };
        assert!(told[0].starts_with(&start), "{model:?} {line}: {answer}");
        let begins = |out: String| told[2].starts_with(&format!("out {out}"));
        assert!(out.is_none_or(begins), "{model:?} {line}: {answer}");
        by_mark[usize::from(model[0] % 128)] += 1;
    }
    assert!(by_mark[1] >= 150 && by_mark[2] >= 75, "{by_mark:?}");
}

/// What a line for joint resets must tell of a model: the number, what it leaves
/// zero, and the output, which holds 7 at first.
fn joint_answer(brute: &Result<Brute, u8>, word: &str, lengths: &[usize]) -> String {
    let (output, scratch) = match word {
        "judge_joint" => (None, lengths),
        _ => (Some(lengths[0]), &lengths[1..]),
    };
    let states = brute.as_ref().map_or(0, |brute| brute.states.list.len());
    let least = scratch.iter().copied().min().unwrap_or(SCRATCH);
    let found = brute.as_ref().map_err(|&refusal| refusal);
    let found = found.and_then(|brute| if least < states { Err(8) } else { Ok(brute) });
    let found = found.and_then(|brute| brute.joint());
    let bytes = found.as_ref().map_or(Vec::new(), |joint| match word {
        "marks_joint" => joint.marked.iter().map(|&mark| mark.into()).collect(),
        _ => joint.evidence.clone(),
    });
    let too_short = output.is_some_and(|output| output < bytes.len());
    let (number, out) = match found {
        Err(refusal) => (refusal.to_string(), Vec::new()),
        Ok(_) if too_short => ("9".to_string(), Vec::new()),
        Ok(joint) => {
            let verdict = u8::from(joint.is_unsafe);
            let number = match word {
                "judge_joint" => format!("0 {verdict} {states} {}", joint.count),
                "marks_joint" => format!("0 {states}"),
                _ => format!("0 {verdict} {}", bytes.len()),
            };
            (number, bytes)
        }
    };
    let past_8 = number.starts_with('0') || ["9", "17"].contains(&number.as_str());
    let zero = format!(" {}", if past_8 { states } else { 0 }).repeat(4);
    let dirt = std::iter::repeat_n(7, output.unwrap_or(0).saturating_sub(out.len()));
    let words: Vec<String> = out
        .into_iter()
        .chain(dirt)
        .map(|byte| byte.to_string())
        .collect();
    let out = match word {
        "judge_joint" => String::new(),
        "marks_joint" => format!(", out {}", words.concat()),
        _ => format!(", out {}", words.join(",")),
    };
    format!("{number}, zero{zero}{}", out.trim_end())
}

/// The whole answers to the lines for joint resets, of all but the large plans, by
/// the brute-force route.
#[test]
fn the_brute_force_route_takes_alike() {
    let mut answered: BTreeMap<(String, u32), usize> = BTreeMap::new();
    let mut last = (Vec::new(), Err(1));
    for (model, line, answer) in all_answered() {
        let (word, rest) = line.split_once(' ').unwrap_or((&line, ""));
        let many = read_model(&model).is_ok_and(|model| states_of(&model) > 300);
        if !word.ends_with("_joint") || many {
            continue;
        }
        if last.0 != model {
            last = (model.clone(), Brute::new(&model));
        }
        let lengths: Vec<usize> = rest.split(',').flat_map(str::parse).collect();
        assert_eq!(answer, joint_answer(&last.1, word, &lengths), "{model:?}");
        let mark = u32::from(model[0] % 128);
        *answered.entry((word.to_string(), mark)).or_default() += 1;
    }
    println!("{answered:?}");
    assert_eq!(answered.len(), 3 * 2);
    assert!(answered.values().all(|&times| times >= 10));
}

/// With each number of clocks some plan has a full trail that touches and has fewer
/// steps than ours without a touch, and some one that has as many; with two or three
/// clocks ours has a face in some. Each of ours is a piece of evidence too.
#[test]
fn trails_without_a_touch() {
    let all = all_answered();
    let mut seen = BTreeSet::new();
    for (model, line, answer) in &all {
        if !line.starts_with("write_joint") || !answer.starts_with("0 1 ") {
            continue;
        }
        let model = read_model(model).unwrap();
        let clocks = model.clocks;
        let graph = Graph::new(model);
        let (full, theirs) = evidence_of(&graph);
        let (joint, ours) = joint_evidence_of(&graph);
        let words: Vec<String> = ours.iter().map(u8::to_string).collect();
        let checked = (words.join(","), "0 2".to_string());
        assert!(all
            .iter()
            .any(|(_, line, answer)| (line, answer) == (&checked.0, &checked.1)));
        let numbers = numbers_of(&ours).unwrap();
        let kinds = roles(&graph, &numbers).unwrap().into_iter().zip(numbers);
        let has_face = kinds.clone().any(|kind| kind == (Role::Kind, FACE.into()));
        seen.insert((clocks, full.count < joint.count, theirs != ours, has_face));
    }
    println!("{seen:?}");
    for clocks in 1..=MAX_CLOCKS {
        assert!(seen.contains(&(clocks, true, true, false)));
        assert!(seen.contains(&(clocks, false, true, false)));
        assert!(clocks == 1 || seen.contains(&(clocks, true, true, true)));
    }
}

/// The rounds and marked states of all but the large plans, by the brute-force
/// route.
#[test]
fn the_brute_force_route_counts_alike() {
    let mut counted = 0;
    for (model, line, answer) in all_answered() {
        let many = read_model(&model).is_ok_and(|model| states_of(&model) > 400);
        if line != "rounds" || many {
            continue;
        }
        let words = match Brute::new(&model).map(|brute| brute.rounds()) {
            Ok((rounds, marked)) => format!("0 {rounds} {marked}"),
            Err(refusal) => refusal.to_string(),
        };
        assert_eq!(answer, words, "{model:?}");
        counted += 1;
    }
    assert!(counted >= 50);
}

/// A plan, the location that is asked for, its scratch, and the answer.
type Asked = (Vec<u8>, u64, String, String);

fn asked() -> Vec<Asked> {
    let all = all_answered()
        .into_iter()
        .filter_map(|(model, line, answer)| {
            let rest = line.strip_prefix("soonest ")?;
            let (location, scratch) = rest.split_once(' ').unwrap_or((rest, ""));
            Some((
                model,
                location.parse().unwrap(),
                scratch.to_string(),
                answer,
            ))
        });
    all.collect()
}

/// The least times by runs on whole units and on halves; 16 where there are
/// none. Scratch is zero as far as the states go.
#[test]
fn the_brute_force_route_is_as_soon() {
    let (mut soon, mut never) = (0, 0);
    for (model, location, _, answer) in asked() {
        let (number, zero) = answer.split_once(", zero ").unwrap();
        let states = match read_model(&model) {
            Ok(model) if number != "8" => states_of(&model),
            _ => 0,
        };
        assert_eq!(zero, [states; 4].map(|count| count.to_string()).join(" "));
        if states == 0 {
            continue;
        }
        let plan = read(&model).unwrap();
        let at = |times: Vec<Option<u32>>| times.get(usize::try_from(location).ok()?).copied()?;
        let (whole, halves) = (at(plan.least_times(1)), at(plan.least_times(2)));
        assert_eq!(whole.map(|time| 2 * time), halves, "{model:?}");
        let words = whole.map_or("16".to_string(), |time| format!("0 {time}"));
        assert_eq!(number, words, "{location} {model:?}");
        soon += usize::from(whole.is_some());
        never += usize::from(whole.is_none());
    }
    assert!(soon >= 300 && never >= 60, "{soon} {never}");
}

/// Numbers beyond L that a shorter number would take for a location; scratch
/// that is too short in each slice, with and without such a number.
#[test]
fn locations_and_scratch() {
    let all = asked();
    for bits in [8, 16, 32, 63] {
        let cut = |location: u64| location % (1 << bits);
        let is_cut = |(model, location, _, answer): &&Asked| {
            let locations = read_model(model).map_or(0, |model| model.locations.len());
            answer.starts_with("16,")
                && cut(*location) < locations as u64
                && cut(*location) != *location
        };
        let cut: BTreeSet<u64> = all
            .iter()
            .filter(is_cut)
            .map(|asked| cut(asked.1))
            .collect();
        assert!(cut.contains(&0) && cut.contains(&1), "{bits}");
    }
    for slice in 0..4 {
        for beyond in [false, true] {
            assert!(all.iter().any(|(model, location, scratch, answer)| {
                let states = read_model(model).map_or(0, |model| states_of(&model));
                let lengths: Vec<usize> = scratch.split(',').flat_map(str::parse).collect();
                let short = (0..lengths.len()).filter(|&at| lengths[at] < states);
                short.eq([slice]) && (*location > 7) == beyond && answer.starts_with("8,")
            }));
        }
    }
}

/// The brute-force route tells the same room of each plan, which is asked for it once,
/// first of all. Plans of every size are.
#[test]
fn the_brute_force_route_has_the_same_room() {
    let text = cases();
    let lines: Vec<&str> = text.lines().collect();
    let announced = (0..lines.len()).filter(|&at| lines[at].starts_with('-'));
    assert!(announced.clone().all(|at| lines[at + 2] == "room"));
    let mut sizes = BTreeSet::new();
    let mut asked = 0;
    for (model, line, answer) in all_answered() {
        if line != "room" {
            continue;
        }
        let words = match brute_room(&model) {
            Ok(values) => format!("0{}", values.map(|value| format!(" {value}")).concat()),
            Err(refusal) => refusal.to_string(),
        };
        assert_eq!(answer, words, "{model:?}");
        asked += 1;
        if let Ok(model) = read_model(&model) {
            sizes.insert((model.clocks, model.ceiling, model.locations.len()));
        }
    }
    assert_eq!((asked, sizes.len()), (announced.count(), 96));
}

/// What a line lends: output, if there is some, and scratch.
fn lent(line: &str) -> (Option<usize>, Vec<usize>) {
    let (word, rest) = line.split_once(' ').unwrap_or((line, ""));
    let rest = rest.split(' ').next_back().unwrap_or("");
    let mut lengths: Vec<usize> = rest.split(',').flat_map(str::parse).collect();
    let writes = word.starts_with("marks") || word.starts_with("write");
    let output = writes.then(|| lengths.remove(0));
    (output, lengths)
}

/// What is seen of a line that lends scratch as told or a number less in one slice, and of
/// the output then. 8 comes with the latter alone.
fn seen_of(told: &Room, line: &str, number: &str) -> Vec<String> {
    let (output, scratch) = lent(line);
    let less: Option<Vec<usize>> = scratch
        .iter()
        .map(|&length| told.scratch.checked_sub(length))
        .collect();
    let word = line.split(' ').next().unwrap();
    match less.as_deref() {
        Some([0, 0, 0, 0]) => assert_ne!(number, "8", "{line}"),
        Some(less @ [_, _, _, _]) if less.iter().sum::<usize>() == 1 => {
            assert_eq!(number, "8", "{line}");
            let at = less.iter().position(|&less| less == 1).unwrap();
            return vec![format!("{word}, a slice"), format!("{word}, slice {at}")];
        }
        _ => return Vec::new(),
    }
    let needed = match word {
        "marks" | "marks_joint" => told.states,
        _ => told.sheet,
    };
    let missing = output.and_then(|output| needed.checked_sub(output));
    let of_output = missing.map(|missing| format!("{word}, {missing} less: {number}"));
    let mut seen = vec![format!("{word}, as told")];
    seen.extend(of_output);
    seen
}

/// Each operation is lent just the scratch that is told, and a number less in one slice
/// alone, the judge in each of them; those that write just the output, and a byte less.
/// All this with the plans that are there for it, of which the first has 63 states.
#[test]
fn room_is_lent_as_told() {
    let mut seen: BTreeSet<String> = BTreeSet::new();
    let is_first = |(model, _, _): &Case| room(model).is_ok_and(|told| told.states == 63);
    let all = all_answered()
        .into_iter()
        .skip_while(|case| !is_first(case));
    for (model, line, answer) in all.filter(|(_, line, _)| is_operation(line)) {
        if let Ok(told) = room(&model) {
            let number = answer.split([' ', ',']).next().unwrap();
            seen.extend(seen_of(&told, &line, number));
        }
    }
    let has = |word: &str, what: &str| seen.contains(&format!("{word}, {what}"));
    for word in ["judge", "sheet_margin", "harm", "soonest", "judge_joint"] {
        assert!(has(word, "as told") && has(word, "a slice"), "{word}");
    }
    assert!((0..4).all(|at| has("judge", &format!("slice {at}"))));
    for word in ["marks", "write", "marks_joint", "write_joint"] {
        assert!(has(word, "as told") && has(word, "a slice"), "{word}");
        assert!(has(word, "0 less: 0") && has(word, "1 less: 9"), "{word}");
    }
    // A sheet may have fewer bytes, and a trail more.
    assert!(has("write", "1 less: 0") && has("write", "0 less: 9"));
}

/// With each number of clocks a sheet passes that is as long as can be, with two or three
/// of numbers of two bytes; no sheet that passes is longer.
#[test]
fn sheets_as_long_as_can_be() {
    let mut longest = BTreeSet::new();
    for (model, pieces) in answered() {
        for (evidence, _) in pieces.iter().filter(|(_, answer)| answer == "0 1") {
            let told = room(&model).unwrap();
            assert!(evidence.len() <= told.sheet);
            if evidence.len() == told.sheet {
                longest.insert((read_model(&model).unwrap().clocks, told.states > 64));
            }
        }
    }
    for case in [(1, false), (2, false), (3, false), (2, true), (3, true)] {
        assert!(longest.contains(&case), "{case:?}");
    }
}

/// The accepted plans whose rounds are counted.
fn counted_graphs() -> Vec<Graph> {
    let mut all = all_answered();
    all.retain(|(_, line, answer)| line == "rounds" && answer.starts_with("0 "));
    all.iter()
        .map(|(model, _, _)| Graph::new(read_model(model).unwrap()))
        .collect()
}

/// For each number of clocks some plan has a state that is marked in the last
/// round but one, and then by a touch alone.
#[test]
fn touches_mark_last() {
    let mut clocks = BTreeSet::new();
    for graph in counted_graphs() {
        let levels = levels(&graph, with_touch(&Components::new(&graph)));
        let [.., before, last] = &levels[..] else {
            continue;
        };
        let otherwise = |to: usize| before.iter().any(|&from| leads(&graph, from, to));
        if !last.iter().all(|&state| otherwise(state)) {
            clocks.insert(graph.model.clocks);
        }
    }
    assert_eq!(clocks, (1..=MAX_CLOCKS).collect());
}

/// Whether a step that is no touch leads from one state to another.
fn leads(graph: &Graph, from: usize, to: usize) -> bool {
    let faces = &graph.regions.faces[graph.region_of(from)];
    let mut faces = faces.iter().map(|face| graph.base_of(from) + face);
    let mut steps = graph.steps(from).iter();
    steps.any(|step| step.to as usize == to) || faces.any(|face| face == to)
}

/// Some plans take more rounds without faces, others without touches.
#[test]
fn faces_and_touches_save_rounds() {
    let mut saved = [0; 2];
    for graph in counted_graphs() {
        let components = Components::new(&graph);
        let touch = Some(&components);
        let rounds = |face, touch| levels(&graph, Closure { face, touch }).len();
        saved[0] += usize::from(rounds(false, touch) > rounds(true, touch));
        saved[1] += usize::from(rounds(true, None) > rounds(true, touch));
    }
    assert!(saved[0] >= 2 && saved[1] >= 10, "{saved:?}");
}

/// Each accepted plan of mark 2 is also there with mark 1. The mark changes
/// verdicts, marks, evidence that passes and shortest forms.
#[test]
fn plans_of_both_marks() {
    let all = all_answered();
    let mut differs: BTreeSet<&str> = BTreeSet::new();
    for (model, line, answer) in &all {
        if model.first() != Some(&2) || !answer.starts_with("0 ") {
            continue;
        }
        let twin = with_mark(model, 1).unwrap();
        let mut of_twin = all.iter().filter(|(model, _, _)| *model == twin);
        assert!(of_twin.clone().next().is_some(), "{model:?}");
        let Some((_, _, other)) = of_twin.find(|(_, same, _)| same == line) else {
            continue;
        };
        let word = line.split([' ', ',']).next().unwrap();
        // The shortest forms differ in the mark at least.
        let other = match word {
            "plan" => other.replacen("out 1,", "out 2,", 1),
            _ => other.clone(),
        };
        if other != *answer {
            differs.insert(word);
        }
    }
    let words = BTreeSet::from(["judge", "marks", "margin", "plan", "soonest", "1"]);
    assert!(words.is_subset(&differs), "{differs:?}");
}

/// With each number of clocks, with both marks and both verdicts, plans are judged
/// that the test on all edges refuses.
#[test]
fn walks_that_do_not_count() {
    let (mut judged, mut kinds) = (0, BTreeSet::new());
    for (model, line, answer) in all_answered() {
        let Ok(reading) = read_plan(&model) else {
            continue;
        };
        if line == "judge" && is_refused_by_all_edges(&reading.model) {
            let start: String = answer.chars().take(3).collect();
            kinds.insert((reading.mark, reading.model.clocks, start));
            judged += 1;
        }
    }
    println!("{judged} {kinds:?}");
    let has = |mark, clocks, start: &str| kinds.contains(&(mark, clocks, start.to_string()));
    assert!(judged >= 25 && (1..=MAX_CLOCKS).all(|clocks| has(1, clocks, "0 0")));
    assert!(has(2, 1, "0 0") && has(2, 2, "0 0") && has(1, 1, "0 1") && has(1, 2, "0 1"));
}

/// The stored input of the proved program is these cases, its stored output
/// this checker's answers.
#[test]
fn cases_are_those_stored() {
    let stored = include_str!("../../../crates/cases/stdin");
    assert_eq!(stored, cases());
    let printed = include_str!("../../../crates/cases/stdout");
    assert_eq!(printed, answers(stored, SCRATCH).unwrap());
    // The program reads no more, and no more of a line.
    assert!(stored.len() <= 131_072);
    assert!(stored.lines().all(|line| line.split(',').count() <= 1_024));
}

/// What a reader over a piece of evidence gives, line by line: each number,
/// told if it is padded, or the refusal, with the place where it then stands;
/// and the refusal once more.
fn reader_lines(bytes: &[u8]) -> String {
    let mut lines = String::from("bytes");
    for byte in bytes {
        lines += &format!(" {byte}");
    }
    lines.push('\n');
    let mut reader = Reader::new(bytes);
    let refusal = loop {
        match reader.spelled() {
            Ok(number) => {
                let padded = if number.padded { " padded" } else { "" };
                lines += &format!("{}{padded} at {}\n", number.value, reader.place());
            }
            Err(refusal) => break refusal,
        }
    };
    lines += &format!("refused {refusal} at {}\n", reader.place());
    assert_eq!(reader.spelled(), Err(refusal));
    lines + &format!("refused {refusal} at {}\n", reader.place())
}

/// In the stored input each piece stands after its length; the trail of the
/// loop plan is one of them.
#[test]
fn reader_cases_are_answered_as_stored() {
    let mut input = &include_bytes!("../../../crates/reader_cases/stdin")[..];
    let mut pieces = Vec::new();
    while let [length, rest @ ..] = input {
        let (piece, after) = rest.split_at(usize::from(*length));
        pieces.push(piece);
        input = after;
    }
    assert!(pieces.contains(&&LOOP_TRAIL[..]));
    let printed: String = pieces.into_iter().map(reader_lines).collect();
    assert_eq!(include_str!("../../../crates/reader_cases/stdout"), printed);
}
