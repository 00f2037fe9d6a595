//! `shorten`: plans in their shortest form, in every form of input; `--check`.

mod common;

use common::*;
use second::generate::generate;
use second::read_plan;
use second::shortest_plan::shortest_plan;

/// The smallest plan, and the same with padding and a stay field of M+1.
const TINY: [u8; 8] = [1, 1, 1, 1, 0, 0, 0, 0];
const PADDED: [u8; 12] = [129, 128, 0, 1, 1, 129, 0, 0, 0, 128, 0, 2];

#[test]
fn bytes_come_out_as_bytes() {
    for (name, content) in [("padded.model", &PADDED[..]), ("short.model", &TINY)] {
        assert_eq!(bytes(&["shorten", &file(name, content)]), TINY);
    }
    let output = run_on(&["shorten", "-"], &PADDED);
    assert_eq!(
        (output.status.code(), output.stdout),
        (Some(GOOD), TINY.to_vec())
    );
    assert_eq!(output.stderr, b"");
}

#[test]
fn a_list_comes_out_as_a_list() {
    let listed = file(
        "padded.plan",
        "# why\n129,128 0; 1\n1,129,0,0 # so\n0,128,0,2",
    );
    let told = printed(&["shorten", &listed], GOOD);
    assert_eq!(told, "1,1,1,1,0,0,0,0\n");
    let again = run_on(&["shorten", "-"], told.as_bytes());
    assert_eq!(again.stdout, told.as_bytes());
}

/// A text comes out as the bytes of its encoding, shortened. Units are no part
/// of them, so none is missed.
#[test]
fn a_text_comes_out_as_bytes() {
    for name in [
        "hasty",
        "largest",
        "loop",
        "poll-blank",
        "poll-mended",
        "poll",
        "tiny",
        "two-repeaters",
    ] {
        let text = plan(&format!("{name}.txt"));
        let encoded = file(&format!("{name}.encoded"), bytes(&["encode", &text]));
        let short = bytes(&["shorten", &text]);
        assert_eq!(bytes(&["shorten", &encoded]), short);
        assert_eq!(short, shortest_plan(&read_plan(&short).unwrap()));
    }
    let text = std::fs::read_to_string(plan("tiny.txt")).unwrap();
    let lone = file("lone.txt", format!("bit rate 300\n{text}"));
    assert_eq!(bytes(&["shorten", &lone]), TINY);
}

/// Padded plans and others of both marks, beside the second checker's writer.
#[test]
fn many_plans() {
    const KINDS: [&str; 6] = ["padded", "small", "middle", "drift", "respelled", "blank"];
    let name = file("many.model", "");
    for seed in 0..900 {
        let kind = KINDS[seed as usize % KINDS.len()];
        let model = generate(seed, kind).unwrap();
        std::fs::write(&name, &model).unwrap();
        let short = outcome(&["shorten", &name]).output;
        assert_eq!(
            short,
            shortest_plan(&read_plan(&model).unwrap()),
            "{kind} {seed}"
        );
        let status = outcome(&["shorten", "--check", &name]).status as i32;
        assert_eq!(
            status,
            if short == model { GOOD } else { BAD },
            "{kind} {seed}"
        );
    }
}

/// The verdict, all that is told with it and the evidence stay the same.
#[test]
fn the_verdict_stays() {
    let [before, after] = ["before", "after"].map(folder);
    let poll = std::fs::read_to_string(plan("poll.txt")).unwrap();
    let marked = file("poll-marked.txt", format!("mark 2\n{poll}"));
    for text in [plan("poll.txt"), plan("poll-mended.txt"), marked] {
        let judged = |folder: &std::path::Path, content: Vec<u8>| {
            let [model, evidence] = ["plan", "evidence"].map(|name| folder.join(name));
            std::fs::write(&model, content).unwrap();
            let [model, evidence] = [model, evidence].map(|path| path.display().to_string());
            let output = run_on(&["judge", &model, "--evidence", &evidence], b"");
            let told = String::from_utf8(output.stdout).unwrap();
            let written = std::fs::read_dir(evidence).unwrap();
            let mut evidence: Vec<Vec<u8>> = written
                .map(|entry| std::fs::read(entry.unwrap().path()).unwrap())
                .collect();
            evidence.sort();
            // The lines break by the length of the folder's name.
            let told = joined(&told).replace(folder.to_str().unwrap(), "");
            (told, evidence)
        };
        let (long, short) = (bytes(&["encode", &text]), bytes(&["shorten", &text]));
        assert_ne!(long, short);
        assert_eq!(judged(&before, long), judged(&after, short));
    }
}

/// The file that was read may be written, but no text is lost to its bytes,
/// and no plan to a message.
#[test]
fn onto_the_same_file() {
    let in_place = |name: &str, content: &[u8], status: i32| {
        let name = file(name, content);
        let output = run_on(&["shorten", &name, "-o", &name], b"");
        assert_eq!(output.status.code(), Some(status));
        assert_eq!(output.stdout, b"");
        (
            std::fs::read(name).unwrap(),
            String::from_utf8(output.stderr).unwrap(),
        )
    };
    let (written, said) = in_place("place.model", &PADDED, GOOD);
    assert_eq!((&written[..], &said[..]), (&TINY[..], ""));
    let (written, said) = in_place("place.plan", b"1,1,1,1,0,0,0,2", GOOD);
    assert_eq!((&written[..], &said[..]), (&b"1,1,1,1,0,0,0,0\n"[..], ""));
    let refused = [1, 1, 9];
    assert_eq!(in_place("place.refused", &refused, REFUSED).0, refused);
    let text = std::fs::read(plan("tiny.txt")).unwrap();
    let (written, said) = in_place("place.txt", &text, FAILED);
    assert_eq!(written, text);
    assert!(
        said.ends_with("place.txt is a text, which its bytes would replace; name another file\n")
    );
    // By another name of it.
    let folder = folder("inner");
    let (own, other) = (folder.join("t"), folder.join("../inner/t"));
    std::fs::write(&own, &text).unwrap();
    let names = [&own, &other].map(|path| path.to_str().unwrap());
    complaint(&["shorten", names[0], "-o", names[1]], FAILED);
    assert_eq!(std::fs::read(own).unwrap(), text);
}

/// Plans, and what `--check` says of them.
const CHECKED: [(&str, &[u8], i32, &str); 10] = [
    ("tiny.model", &TINY, GOOD, "in its shortest form"),
    ("tiny.list", b"1,1,1,1 # header\n0,0,0,0", GOOD, "in its shortest form"),
    (
        "pad.model",
        &[129, 0, 1, 1, 1, 0, 0, 0, 1],
        BAD,
        "not in its shortest form: 1 byte too long",
    ),
    (
        "stay.list",
        b"1,1,3,1,0,0,0,4",
        BAD,
        "not in its shortest form: the ceiling is spelt 4 in 1 stay field, where 0 means the same",
    ),
    (
        "both.model",
        &PADDED,
        BAD,
        "not in its shortest form: 4 bytes too long; the ceiling is spelt 2 in 1 stay field, where \
         0 means the same",
    ),
    (
        "named.txt",
        b"clocks x y\nceiling 2\nlocation a start stay x<=2, y<=2",
        BAD,
        "not in its shortest form: the ceiling is spelt 3 in 2 stay fields, where 0 means the same",
    ),
    // With mark 2 it goes by the edges: a loop that closes at 1 of 3.
    (
        "edge.list",
        b"2,1,3,1,1,0,0,2,0,0,1,0,1",
        BAD,
        "not in its shortest form: the default limit is spelt 2 in 1 stay field, where 0 means the \
         same",
    ),
    ("ceiling.list", b"2,1,3,1,1,0,0,4,0,0,1,0,1", GOOD, "in its shortest form"),
    ("old.list", b"1,1,3,1,1,0,0,2,0,0,1,0,1", GOOD, "in its shortest form"),
    (
        "edges.txt",
        b"mark 2\nclocks x y\nceiling 2\nlocation a start stay x<=1, y<=2\nlocation b stay x<=2\n\
          edge a -> b when x=1\nedge a -> a when x=0 reset all\n",
        BAD,
        "not in its shortest form: the default limit is spelt 2 or 3 in 3 stay fields, where 0 \
         means the same",
    ),
];

#[test]
fn check() {
    for (name, content, status, words) in CHECKED {
        let name = file(name, content);
        let told = printed(&["shorten", "--check", &name], status);
        assert_eq!(told, format!("{name}: {words}\n"));
        assert_eq!(std::fs::read(&name).unwrap(), content);
    }
    let output = run_on(&["shorten", "-", "--check"], &TINY);
    assert_eq!(output.stdout, b"-: in its shortest form\n");
    // The words are no plan, and must not take the place of one.
    let name = file("kept.model", PADDED);
    let shown = complaint(&["shorten", &name, "--check", "-o", &name], FAILED);
    assert!(shown.contains("--check writes no plan"), "{shown}");
    assert_eq!(std::fs::read(name).unwrap(), PADDED);
}

/// The mark stays, and with it what a blank field means: the same numbers with
/// the other mark come out otherwise.
#[test]
fn each_mark_has_its_own_form() {
    let short = |numbers: &[u8]| bytes(&["shorten", &file("marked.model", numbers)]);
    // A loop that closes at 1 of 3, and its stay field.
    let plan = |mark, stay| [mark, 1, 3, 1, 1, 0, 0, stay, 0, 0, 1, 0, 1];
    for (mark, blank, kept) in [(1, 4, [1, 2, 3]), (2, 2, [1, 3, 4])] {
        for stay in [0, blank] {
            assert_eq!(short(&plan(mark, stay)), plan(mark, 0), "{mark} {stay}");
        }
        for stay in kept {
            assert_eq!(short(&plan(mark, stay)), plan(mark, stay), "{mark} {stay}");
        }
    }
    let padded = [&[130, 128, 0], &plan(2, 2)[1..]].concat();
    assert_eq!(short(&padded), plan(2, 0));
}

/// One plan for each refusal of a model, and the place that is shown.
const REFUSED_PLANS: [(&[u8], &str); 7] = [
    (
        &[1, 1],
        "here: number 3 (from byte 3), the ceiling: there are only 2 bytes",
    ),
    (
        &[1, 128, 128, 128],
        "its third byte says that a fourth follows",
    ),
    (&[1, 1, 9], "the ceiling: it is 9, but must be 1 to 4"),
    (
        &[1, 1, 1, 1, 0, 0, 0, 3],
        "the stay field of clock 0 in location 0: it is 3",
    ),
    (
        &[1, 1, 1, 1, 1, 0, 0, 0, 0, 0, 0, 1, 0],
        "whose low is 1: it is 0",
    ),
    (
        &[1, 1, 1, 1, 0, 0, 0, 0, 0],
        "the model ends with byte 8, but 1 more follows",
    ),
    (
        &[1, 1, 1, 1, 1, 0, 0, 0, 0, 0, 0, 0, 1],
        "clock 0 (x) is never reset on the loop",
    ),
];

#[test]
fn refused_as_the_judge_refuses() {
    for (number, (content, place)) in (1..).zip(REFUSED_PLANS) {
        let name = file(&format!("refused-{number}"), content);
        let shown = complaint(&["shorten", &name], REFUSED);
        assert!(
            shown.starts_with(&format!("{name}: refused {number}: ")),
            "{shown}"
        );
        assert!(shown.lines().last().unwrap().contains(place), "{shown}");
        for command in [&["judge"][..], &["shorten", "--check"]] {
            assert_eq!(complaint(&[command, &[&name]].concat(), REFUSED), shown);
        }
    }
    let text = file("mistaken.txt", "clocks x\nceiling 5\nlocation a\n");
    let shown = complaint(&["shorten", &text], REFUSED);
    assert_eq!(complaint(&["encode", &text], REFUSED), shown);
    let listed = file("mistaken.plan", "1,300");
    assert!(complaint(&["shorten", &listed], REFUSED).contains("'300' is no number"));
}

#[test]
fn files_that_fail() {
    let tiny = plan("tiny.plan");
    onto_a_full_disk(&["shorten", &tiny]);
    onto_a_full_disk(&["shorten", "--check", &tiny]);
    into_a_closed_pipe(&["shorten", "-"]);
    let shown = complaint(&["shorten", &tiny, "-o", "/dev/full"], FAILED);
    assert!(
        shown.starts_with("/dev/full: No space left on device"),
        "{shown}"
    );
    let shown = complaint(&["shorten", &plan("")], FAILED);
    assert!(shown.contains("Is a directory"), "{shown}");
    let shown = complaint(&["shorten", "none"], FAILED);
    assert!(shown.starts_with("none: No such file"), "{shown}");
}
