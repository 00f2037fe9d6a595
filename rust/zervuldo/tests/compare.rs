//! `compare`: whether two plans are the same, and where they differ.

mod common;

use common::*;
use second::blanks::with_mark;
use second::generate::generate;
use second::random::Random;
use second::read_plan;

#[test]
fn the_same_bytes() {
    for name in ["tiny", "loop", "largest"] {
        let (text, list) = (plan(&format!("{name}.txt")), plan(&format!("{name}.plan")));
        let model = file(&format!("{name}.bytes"), bytes(&["encode", &text]));
        for pair in [
            [&text, &list],
            [&list, &model],
            [&model, &text],
            [&text, &text],
        ] {
            let told = printed(&["compare", pair[0], pair[1]], GOOD);
            assert_eq!(told, "the same plan, and the same bytes\n");
        }
    }
}

#[test]
fn the_same_in_other_spelling() {
    let short = file("spelt.short", bytes(&["shorten", &plan("poll.txt")]));
    let padded = file(
        "spelt.padded",
        [&[129, 0], &std::fs::read(&short).unwrap()[1..]].concat(),
    );
    let text = plan("poll.txt");
    assert_eq!(
        printed(&["compare", &text, &short], GOOD),
        format!(
            "the same plan; they differ in spelling only\n  {text}: not in its shortest form: the \
             ceiling is spelt 4 in 2 stay fields, where 0 means the same\n  {short}: in its \
             shortest form\n"
        )
    );
    let told = printed(&["compare", &padded, &text], GOOD);
    assert!(
        told.contains("spelt.padded: not in its shortest form: 1 byte too long\n"),
        "{told}"
    );
    let output = run_on(&["compare", &text, "-"], &std::fs::read(&padded).unwrap());
    assert_eq!(output.status.code(), Some(GOOD));
    assert_eq!(output.stderr, b"");
}

const PLAN: &str = "\
clocks own far
ceiling 3
location idle start stay own<=2
location rings
location lost forbidden
edge call: idle -> rings when own=1 reset far
edge rings -> lost when far>=2
";

/// A change of the plan above, and the lines that tell it.
const CHANGES: [(&str, &str, &[&str]); 17] = [
    (
        "clocks own far",
        "mark 2\nclocks own far",
        &["mark: 1 in the first, 2 in the second (all limits are the same as read, and so are \
           verdict and evidence)"],
    ),
    (
        "location idle start stay own<=2",
        "mark 2\nlocation idle start stay far<=3",
        &[
            "mark: 1 in the first, 2 in the second (a blank stay limit is the ceiling with mark 1, \
             with mark 2 that of the last edge to close, if one leaves)",
            "'idle', stay limit of own: 2 in the first, 1 (last edge) in the second",
        ],
    ),
    (
        "ceiling 3",
        "ceiling 3\nmark 1",
        &[],
    ),
    (
        "ceiling 3",
        "ceiling 4",
        &["ceiling: 3 in the first, 4 in the second (a limit at the ceiling in both is not listed)"],
    ),
    (
        "location idle start stay own<=2\nlocation rings",
        "location idle stay own<=2\nlocation rings start",
        &["start: 'idle' in the first, 'rings' in the second"],
    ),
    (
        "lost forbidden",
        "lost",
        &["'lost', kind: forbidden in the first, ordinary in the second"],
    ),
    (
        "stay own<=2",
        "stay far<=0",
        &[
            "'idle', stay limit of own: 2 in the first, 3 in the second",
            "'idle', stay limit of far: 3 in the first, 0 in the second",
        ],
    ),
    (
        "edge rings ->",
        "edge idle ->",
        &["edge 1 (rings -> lost), from: 'rings' in the first, 'idle' in the second"],
    ),
    (
        "idle -> rings",
        "idle -> lost",
        &["edge 0 'call' (idle -> rings), to: 'rings' in the first, 'lost' in the second"],
    ),
    (
        "reset far",
        "",
        &["edge 0 'call' (idle -> rings), resets: far in the first, none in the second"],
    ),
    (
        "reset far",
        "reset all",
        &["edge 0 'call' (idle -> rings), resets: far in the first, own and far in the second"],
    ),
    (
        "far>=2",
        "far>=1",
        &["edge 1 (rings -> lost), low of far: 2 in the first, 1 in the second"],
    ),
    (
        "own=1",
        "own<=2",
        &[
            "edge 0 'call' (idle -> rings), low of own: 1 in the first, 0 in the second",
            "edge 0 'call' (idle -> rings), high of own: 1 in the first, 2 in the second",
        ],
    ),
    (
        "own far\n",
        "own far back\n",
        &[
            "clocks: 2 in the first, 3 in the second",
            "only the second has clock 2 (back)",
        ],
    ),
    (
        "lost forbidden\n",
        "lost forbidden\nlocation found\nedge idle -> found\n",
        &[
            "locations: 3 in the first, 4 in the second",
            "edges: 2 in the first, 3 in the second",
            "only the second has location 3 (found)",
            "edge 0 'call' (idle -> rings), to: 'rings' in the first, 'location 3' in the second",
            "edge 0 'call' (idle -> rings), resets: far in the first, none in the second",
            "edge 0 'call' (idle -> rings), low of own: 1 in the first, 0 in the second",
            "edge 0 'call' (idle -> rings), high of own: 1 in the first, 3 in the second",
            "edge 1 (rings -> lost), from: 'rings' in the first, 'idle' in the second",
            "edge 1 (rings -> lost), to: 'lost' in the first, 'rings' in the second",
            "edge 1 (rings -> lost), resets: none in the first, far in the second",
            "edge 1 (rings -> lost), low of own: 0 in the first, 1 in the second",
            "edge 1 (rings -> lost), high of own: 3 in the first, 1 in the second",
            "edge 1 (rings -> lost), low of far: 2 in the first, 0 in the second",
            "only the second has edge 2 (rings -> lost)",
        ],
    ),
    (
        "edge rings -> lost when far>=2\n",
        "",
        &[
            "edges: 2 in the first, 1 in the second",
            "only the first has edge 1 (rings -> lost)",
        ],
    ),
    // Names, units and comments are not compared, nor how a limit is spelt.
    (
        "ceiling 3\nlocation idle start stay own<=2",
        "ceiling 3\nunit 20 ms # ours\nlocation idle start stay far<=3, own<=2",
        &[],
    ),
];

#[test]
fn each_difference() {
    let first = file("first.txt", PLAN);
    for (from, to, lines) in CHANGES {
        assert_eq!(PLAN.matches(from).count(), 1, "{from}");
        let second = file("second.txt", PLAN.replace(from, to));
        if lines.is_empty() {
            printed(&["compare", &first, &second], GOOD);
            continue;
        }
        let told = printed(&["compare", &first, &second], BAD);
        let count = match lines.len() {
            1 => "1 difference".to_string(),
            count => format!("{count} differences"),
        };
        let heading = format!("different plans\n{count}, found by code that is not proved:\n");
        assert_eq!(told, format!("{heading}  {}\n", lines.join("\n  ")));
    }
    let other = PLAN.replace("own", "mine").replace("lost", "gone");
    let other = file("names.txt", other.replace("call:", ""));
    printed(&["compare", &first, &other], GOOD);
}

/// A clock that only one plan has is told once, not with each reset of it.
#[test]
fn one_clock_more() {
    let [one, two] = ["x", "x y"].map(|clocks| {
        let text = format!("clocks {clocks}\nceiling 1\nlocation a start\nedge a -> a reset all\n");
        file(&format!("clocks {clocks}.txt"), text)
    });
    let told = printed(&["compare", &one, &two], BAD);
    assert!(
        told.ends_with("second\n  only the second has clock 1 (y)\n"),
        "{told}"
    );
    let told = printed(&["compare", &two, &one], BAD);
    assert!(
        told.ends_with("second\n  only the first has clock 1 (y)\n"),
        "{told}"
    );
    assert!(told.contains("\n2 differences, "), "{told}");
}

#[test]
fn the_same_numbers_with_the_other_mark() {
    let [old, new] = [1, 2].map(|mark| {
        let name = format!("late-{mark}.model");
        file(&name, with_mark(&LATE, mark).unwrap())
    });
    let heading = "different plans\n2 differences, found by code that is not proved:\n";
    assert_eq!(
        printed(&["compare", &old, &new], BAD),
        format!(
            "{heading}  mark: 1 in the first, 2 in the second (a blank stay limit is the ceiling \
             with mark 1, with mark 2 that of the last edge to close, if one leaves)\n  'L1', \
             stay limit of x: 2 in the first, 1 (last edge) in the second\n"
        )
    );
    let told = printed(&["compare", &new, &old], BAD);
    let line = "\n  'L1', stay limit of x: 1 (last edge) in the first, 2 in the second\n";
    assert!(told.starts_with(heading) && told.ends_with(line), "{told}");
    let told = printed(&["compare", &old, &new, "--json"], BAD);
    for part in [
        "\"differences\":[{\"what\":\"mark\",\"plan\":1,\"other\":2,\"words\":\"mark: 1 in",
        "{\"what\":\"stay limit\",\"location\":1,\"clock\":0,\"plan\":2,\"other\":1,",
    ] {
        assert!(told.contains(part), "{told}");
    }
}

/// The example with all limits left blank has those of the one that names them.
#[test]
fn the_same_limits_by_the_other_mark() {
    let told = printed(
        &["compare", &plan("poll.txt"), &plan("poll-blank.txt")],
        BAD,
    );
    let line = "\n  mark: 1 in the first, 2 in the second (all limits are the same as read, ";
    assert!(
        told.contains("\n1 difference, ") && told.contains(line),
        "{told}"
    );
    let [old, new] = ["poll", "poll-blank"].map(|name| {
        let folder = folder(&format!("same-{name}"));
        let evidence = folder.to_str().unwrap();
        printed(
            &[
                "judge",
                &plan(&format!("{name}.txt")),
                "--evidence",
                evidence,
            ],
            BAD,
        );
        std::fs::read(folder.join(format!("{name}.trail"))).unwrap()
    });
    assert_eq!(old, new);
}

/// Each limit that moves with the mark is told, and no other; a plan with as
/// many as there can be shows them all.
#[test]
fn each_limit_that_the_mark_moves() {
    let names = ["moved.old", "moved.new"].map(|name| file(name, ""));
    let changed = |plan: &[u8]| {
        let [old, new] = [1, 2].map(|mark| with_mark(plan, mark).unwrap());
        for (name, content) in names.iter().zip([&old, &new]) {
            std::fs::write(name, content).unwrap();
        }
        let told = String::from_utf8(outcome(&["compare", &names[0], &names[1]]).output).unwrap();
        let [old, new] = [old, new].map(|plan| read_plan(&plan).unwrap().model);
        let limits = old.locations.iter().zip(&new.locations);
        let moved = limits.flat_map(|(old, new)| old.limit.iter().zip(&new.limit));
        let moved = moved.filter(|(old, new)| old != new).count();
        assert_eq!(
            told.matches(" (last edge) in the second\n").count(),
            moved,
            "{told}"
        );
        assert_eq!(
            told.matches("the same as read").count(),
            usize::from(moved == 0)
        );
        assert_eq!(told.lines().count(), 2 + 1 + moved, "{told}");
        moved
    };
    let mut seen = [0; 2];
    for seed in 0..300 {
        let kind = ["small", "middle", "clocks-3", "blank"][seed as usize % 4];
        let moved = changed(&generate(seed, kind).unwrap());
        seen[usize::from(moved > 0)] += 1;
    }
    assert!(seen.iter().all(|&count| count > 30), "{seen:?}");
    let locations = (0..8)
        .map(|at| format!("location l{at}\nedge l{at} -> l{at} when x=0, y=0, z=0 reset all\n"));
    let all: String = locations.collect();
    let all = format!(
        "clocks x y z\nceiling 1\n{}",
        all.replacen("l0\n", "l0 start\n", 1)
    );
    let all = bytes(&["encode", &file("all-move.txt", all)]);
    assert_eq!(changed(&all), 24);
}

/// The first plan's names, or those of decoded bytes; and both ways round.
#[test]
fn names_come_from_the_first() {
    let text = file("named.txt", PLAN);
    let changed = PLAN.replace("stay own<=2", "").replace("far>=2", "far=2");
    let changed = file("changed.txt", changed);
    let model = file("changed.model", bytes(&["encode", &changed]));
    let told = printed(&["compare", &text, &model], BAD);
    assert!(told.contains("'idle', stay limit of own: 2 in the first, 3 in the second\n"));
    assert!(
        told.contains("edge 1 (rings -> lost), high of far: 3 in the first, 2 in"),
        "{told}"
    );
    let told = printed(&["compare", &model, &text], BAD);
    assert!(
        told.contains("'L0', stay limit of x: 3 in the first, 2 in the second\n"),
        "{told}"
    );
    assert!(
        told.contains("edge 1 (L1 -> L2), high of y: 2 in the first, 3 in"),
        "{told}"
    );
}

#[test]
fn only_the_first_differences_are_shown() {
    let (tiny, largest) = (plan("tiny.txt"), plan("largest.txt"));
    let told = printed(&["compare", &tiny, &largest], BAD);
    assert_eq!(told.lines().count(), 2 + 25 + 1, "{told}");
    assert!(
        told.starts_with("different plans\n37 differences, "),
        "{told}"
    );
    assert!(told.ends_with("\n  and 12 more\n"), "{told}");
    let json = printed(&["compare", "--json", &tiny, &largest], BAD);
    assert_eq!(json.matches("\"what\":").count(), 37);
}

#[test]
fn json() {
    let first = file("json-first.txt", PLAN);
    let changed = PLAN.replace("lost forbidden", "lost\nlocation found");
    let second = file("json-second.txt", changed.replace("reset far", "reset all"));
    let told = printed(&["compare", &first, &second, "--json"], BAD);
    let start = format!(
        "{{\"plan\":\"{first}\",\"other\":\"{second}\",\"same\":false,\"same_bytes\":false,\"differences\":["
    );
    assert!(told.starts_with(&start), "{told}");
    for part in [
        "{\"what\":\"locations\",\"plan\":3,\"other\":4,\"words\":\"locations: 3 in",
        "{\"what\":\"kind\",\"location\":2,\"plan\":\"forbidden\",\"other\":\"ordinary\",",
        "{\"what\":\"location\",\"location\":3,\"plan\":false,\"other\":true,",
        "{\"what\":\"resets\",\"edge\":0,\"plan\":[1],\"other\":[0,1],",
        "\"proved\":false}]}\n",
    ] {
        assert!(told.contains(part), "{told}");
    }
    let stay = file("json-stay.txt", PLAN.replace("own<=2", "own<=1"));
    let told = printed(&["compare", &first, &stay, "--json"], BAD);
    let part = "[{\"what\":\"stay limit\",\"location\":0,\"clock\":0,\"plan\":2,\"other\":1,";
    assert!(told.contains(part), "{told}");
    let spelt = file("json-spelt.txt", PLAN.replace("own<=2", "own<=2, far<=3"));
    for (other, same_bytes) in [(&first, true), (&spelt, false)] {
        let told = printed(&["compare", &first, other, "--json"], GOOD);
        let end = format!("\"same\":true,\"same_bytes\":{same_bytes},\"differences\":[]}}\n");
        assert!(told.ends_with(&end), "{told}");
    }
}

/// Of two refused plans the first one's words are said.
#[test]
fn refused_plans() {
    let good = plan("tiny.plan");
    let cut = file("compare-cut.model", [1, 1]);
    let high = file("compare-high.model", [1, 1, 9]);
    let wrong = file("compare-wrong.txt", "clocks x\nceiling 5\n");
    for [first, second, said] in [
        [&cut, &high, "compare-cut.model: refused 1: "],
        [&high, &cut, "compare-high.model: refused 3: "],
        [&good, &high, "compare-high.model: refused 3: "],
        [&wrong, &cut, "compare-wrong.txt, line 2, column 9"],
        [&good, &wrong, "compare-wrong.txt, line 2, column 9"],
        [&cut, "none", "compare-cut.model: refused 1: "],
    ] {
        let shown = complaint(&["compare", first, second], REFUSED);
        assert!(shown.contains(said), "{shown}");
        assert_eq!(
            complaint(&["compare", "--json", first, second], REFUSED),
            shown
        );
    }
    let judged = complaint(&["judge", &high], REFUSED);
    assert_eq!(complaint(&["compare", &good, &high], REFUSED), judged);
}

#[test]
fn files_that_fail() {
    let tiny = plan("tiny.plan");
    let shown = complaint(&["compare", &tiny, "none"], FAILED);
    assert!(shown.starts_with("none: No such file"), "{shown}");
    let shown = complaint(&["compare", &plan(""), &tiny], FAILED);
    assert!(shown.contains("Is a directory"), "{shown}");
    onto_a_full_disk(&["compare", &tiny, &tiny]);
    into_a_closed_pipe(&["compare", "-", &plan("largest.plan")]);
    let out = file("compare.out", "");
    printed(&["compare", &tiny, &tiny, "-o", &out], GOOD);
    let written = std::fs::read_to_string(out).unwrap();
    assert_eq!(written, "the same plan, and the same bytes\n");
}

/// Plans with a number or two changed, beside the second checker's reader: the
/// two ways of comparing never disagree.
#[test]
fn many_pairs() {
    let (mut random, mut seen) = (Random::new(5), [0; 3]);
    let names = ["pair.one", "pair.other"].map(|name| file(name, ""));
    for seed in 0..3_000 {
        let kind = ["tiny", "small", "middle", "clocks-3", "padded"][seed as usize % 5];
        let model = generate(seed, kind).unwrap();
        let mut other = model.clone();
        for _ in 0..random.range(1, 2) {
            let at = random.below(other.len());
            other[at] = random.below(5) as u8;
        }
        for (name, content) in names.iter().zip([&model, &other]) {
            std::fs::write(name, content).unwrap();
        }
        let found = outcome(&["compare", &names[0], &names[1]]);
        let expected = match (read_plan(&model), read_plan(&other)) {
            (Ok(one), Ok(other)) if one == other => GOOD,
            (Ok(_), Ok(_)) => BAD,
            _ => REFUSED,
        };
        assert_eq!(
            found.status as i32, expected,
            "{kind} {seed} {}",
            found.messages
        );
        seen[expected as usize] += 1;
    }
    assert!(seen.iter().all(|&count| count > 100), "{seen:?}");
}
