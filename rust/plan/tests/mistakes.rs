//! Every mistake of a text is named with its line and column.

use plan::mistake::all_shown;
use plan::resolve::read_text;

/// The mistakes as "line:column words".
fn mistakes(text: &str) -> Vec<String> {
    let found = read_text(text).expect_err("a text with mistakes");
    found
        .iter()
        .map(|mistake| format!("{}:{} {}", mistake.line, mistake.column, mistake.words))
        .collect()
}

/// The only mistake of a small plan with these lines added.
fn one(lines: &str) -> String {
    let text = format!("clocks x y\nceiling 2\nlocation idle start\nlocation ringing\n{lines}\n");
    let found = mistakes(&text);
    assert_eq!(found.len(), 1, "{lines}: {found:?}");
    found[0].clone()
}

#[test]
fn all_in_one_go() {
    let text = "\
clocks x y x
ceiling 7
locaton idle start
location ringing stay w<=1
location blank forbiden
edge ringin -> blank when x<1
edge ringing -> blank when 2<=x<=1, y=1.5 reset q
edge blank ringing
";
    let expected = [
        "1:12 there are two clocks 'x'",
        "2:9 the ceiling is 7, but it can only be 1 to 4",
        "3:1 a line begins with mark, clocks, ceiling, location, edge, unit, crystal or bit rate, not 'locaton'; did you mean 'location'?",
        "4:23 there is no clock 'w'; the clocks are x, y",
        "5:16 after the name of a location come start, forbidden or stay, not 'forbiden'; did you mean 'forbidden'?",
        "6:6 there is no location 'ringin'; did you mean 'ringing'?",
        "6:28 limits are never strict: write <= instead of <",
        "7:34 clock 'x' is to be at least 2 and at most 1, so the edge never opens",
        "7:39 '1.5' is not a whole number; a limit is counted in whole units",
        "7:49 there is no clock 'q'; the clocks are x, y",
        "8:12 an arrow -> is missing here, between the two locations of the edge",
    ];
    assert_eq!(mistakes(text), expected);
}

#[test]
fn what_is_missing_altogether() {
    let all = [
        "1:1 the plan has no line with its ceiling, such as: ceiling 2",
        "1:1 the plan has no line with its clocks, such as: clocks x y",
        "1:1 the plan has no location",
    ];
    assert_eq!(mistakes(""), all);
    assert_eq!(mistakes("# only a comment").len(), 3);
    assert_eq!(
        mistakes("clocks\nceiling\nlocation\n"),
        [
            "1:1 the names of the clocks are missing, one to three of them",
            "2:8 a whole number is missing here, for the ceiling",
            "3:1 no location of the plan is marked start; write start after the name of one",
            "3:9 the name of the location is missing here",
        ]
    );
}

#[test]
fn too_many() {
    assert_eq!(
        mistakes("clocks a b c d\nceiling 1\nlocation l start"),
        ["1:14 clock 'd' is one too many: a plan has at most 3 clocks"]
    );
    let locations: String = (1..=10).map(|at| format!("location l{at}\n")).collect();
    assert_eq!(
        mistakes(&format!(
            "clocks x\nceiling 1\nlocation a start\n{locations}"
        )),
        (9..=11)
            .map(|at| format!(
                "{}:1 this is location {at} of the plan: it can have at most 8",
                at + 2
            ))
            .collect::<Vec<String>>()
    );
    let edges = "edge a -> a reset x\n".repeat(25);
    assert_eq!(
        mistakes(&format!("clocks x\nceiling 1\nlocation a start\n{edges}")),
        ["28:1 this is edge 25 of the plan: it can have at most 24"]
    );
}

/// A plan need not say its mark; what it says must be one of the two.
#[test]
fn marks() {
    assert_eq!(
        one("mark 3"),
        "5:6 the mark is 3, but it can only be 1 or 2"
    );
    assert_eq!(
        one("mark 0"),
        "5:6 the mark is 0, but it can only be 1 or 2"
    );
    assert_eq!(
        one("mark 99999999999"),
        "5:6 the mark is 99999999999, but it can only be 1 or 2"
    );
    assert_eq!(
        one("mark"),
        "5:5 a whole number is missing here, for the mark"
    );
    assert_eq!(
        one("mark two"),
        "5:6 a whole number is missing here, for the mark"
    );
    assert_eq!(
        one("mark 1.5"),
        "5:6 '1.5' is not a whole number; the mark is 1 or 2"
    );
    assert_eq!(one("mark -1"), "5:6 the mark cannot be below 0");
    assert_eq!(
        one("mark 2 x"),
        "5:8 nothing may follow the number of the mark"
    );
    for again in ["mark 2", "mark 1", "mark 3"] {
        let found = one(&format!("mark 2\n{again}"));
        assert_eq!(found, "6:1 the mark is already given in line 5");
    }
    assert_eq!(
        one("marc 2"),
        "5:1 a line begins with mark, clocks, ceiling, location, edge, unit, crystal or bit rate, \
         not 'marc'; did you mean 'mark'?"
    );
    // It is no word of a line's inside: clocks and locations may be called so.
    let text = "clocks mark\nceiling 1\nmark 2\nlocation mark start stay mark<=1\n";
    assert_eq!(read_text(text).unwrap().mark, 2);
}

#[test]
fn said_twice() {
    assert_eq!(
        one("clocks z"),
        "5:1 the clocks are already named in line 1"
    );
    assert_eq!(
        one("ceiling 1"),
        "5:1 the ceiling is already given in line 2"
    );
    assert_eq!(
        one("location idle"),
        "5:10 there is a location 'idle' already, in line 3"
    );
    assert_eq!(
        one("location a start"),
        "5:12 a second start: the plan already starts in line 3"
    );
    assert_eq!(
        one("location a forbidden forbidden"),
        "5:22 'forbidden' is said twice"
    );
    assert_eq!(
        one("location a stay x<=1, x<=2"),
        "5:23 clock 'x' has a stay limit here already"
    );
    assert_eq!(
        one("edge idle -> ringing when x<=1, x=1"),
        "5:33 clock 'x' has two upper limits on this edge"
    );
    assert_eq!(
        one("edge idle -> ringing reset x reset y"),
        "5:30 'reset' is said twice; put all of it behind one"
    );
    assert_eq!(
        one("edge a: idle -> ringing\nedge a: idle -> ringing"),
        "6:6 there is an edge 'a' already, in line 5"
    );
}

#[test]
fn limits() {
    let edge = |when: &str| one(&format!("edge idle -> ringing when {when}"));
    assert_eq!(edge("x<=3"), "5:30 the limit 3 is above the ceiling 2");
    assert_eq!(
        edge("x<=99999999999"),
        "5:30 the limit 99999999999 is above the ceiling 2"
    );
    assert_eq!(edge("x>=-1"), "5:30 a limit cannot be below 0");
    assert_eq!(
        edge("x<2"),
        "5:28 limits are never strict: write <= instead of <"
    );
    assert_eq!(
        edge("1<=2"),
        "5:27 a limit needs a clock's name on one side"
    );
    assert_eq!(
        edge("x<=y"),
        "5:30 a limit needs a number on one side; clocks cannot be compared with each other"
    );
    assert_eq!(
        edge("x - y <= 1"),
        "5:29 a limit is on one clock; sums and differences of clocks cannot be limited"
    );
    assert_eq!(edge("x"), "5:28 <=, >= or = is missing here, after 'x'");
    assert_eq!(
        edge("x<=1 y<=1"),
        "5:32 a comma is missing here, between two limits"
    );
    assert_eq!(edge("x<=1,"), "5:32 a limit such as x<=1 is missing here");
    assert_eq!(
        edge(""),
        "5:22 a limit such as x<=1 is missing after 'when'"
    );
    assert_eq!(
        edge("x<="),
        "5:30 a whole number is missing here, for a limit"
    );
    assert_eq!(
        one("location a stay x>=1"),
        "5:17 a stay limit is an upper limit, such as x<=1"
    );
}

#[test]
fn names() {
    assert_eq!(
        one("location 2nd"),
        "5:10 '2nd' is no name: a name begins with a letter and has only letters, digits, - and _"
    );
    assert!(one("location abcdefghijklmnopqrstuvwxyz").ends_with("is too long: 24 letters at most"));
    assert_eq!(
        mistakes("clocks reset\nceiling 1\nlocation l start"),
        ["1:8 a clock cannot be called 'reset', which is a word of this language"]
    );
    assert_eq!(
        one("edge idle -> west"),
        "5:14 there is no location 'west'; the locations are idle, ringing"
    );
    assert_eq!(
        one("edge idle -> ringing reset"),
        "5:22 reset which clocks? Name them after 'reset', or leave the word out"
    );
    assert_eq!(one("edge idle -> ringing resett x"), "5:22 after the two locations of an edge come when or reset, not 'resett'; did you mean 'reset'?");
}

/// A misspelt word is read on as what it was meant to be, so that it does not
/// make mistakes of what depends on it.
#[test]
fn a_mistake_does_not_breed() {
    let text = "clock x\nceilling 2\nlocaton a strat\nlocation b forbiden stai x<=1\nedg a -> b wen x<=1 resett x\n";
    let places: Vec<String> = mistakes(text)
        .iter()
        .map(|mistake| mistake.split(' ').next().unwrap().to_string())
        .collect();
    assert_eq!(
        places,
        ["1:1", "2:1", "3:1", "3:11", "4:12", "4:21", "5:1", "5:12", "5:21"]
    );
}

#[test]
fn loops_without_a_reset() {
    assert_eq!(
        one("edge idle -> ringing reset x, y\nedge ringing -> ringing reset x"),
        "6:1 the loop ringing -> ringing (line 6) never resets clock 'y', and its edge can open; it must reset the clock, or drift could not be judged"
    );
    let two = "clocks x y\nceiling 1\nlocation a start\nlocation b\nedge a -> b reset y\nedge b -> a\nedge a -> a\n";
    let found = mistakes(two);
    assert_eq!(found.len(), 3, "{found:?}");
    assert!(found[0].starts_with("5:1 the loop a -> b -> a (lines 5, 6) never resets clock 'x'"));
    assert!(found[1].starts_with("7:1 the loop a -> a (line 7) never resets clock 'x'"));
    assert!(found[2].starts_with("7:1 the loop a -> a (line 7) never resets clock 'y'"));
}

/// A ring of two edges without a reset of x.
fn unreset(mark: &str, idle: &str, there: &str) -> String {
    format!(
        "{mark}\nclocks x y\nceiling 3\nlocation idle start {idle}\nlocation ring\n\
         edge idle -> ring when {there}\nedge ring -> idle when x<=1 reset y\n"
    )
}

const UNRESET: &str = "(lines 6, 7) never resets clock 'x'";

/// Beside other mistakes no loop is named that may not count once they are
/// mended: each of these leaves a limit in doubt.
#[test]
fn loops_in_doubt() {
    let found = |mark, idle, there| mistakes(&unreset(mark, idle, there)).join("\n");
    assert!(found("mark 1", "stay x<=2", "x>=2").contains(UNRESET));
    for (mark, idle, there) in [
        ("mark 1", "stay x<=9", "x>=2"),
        ("mark 1", "stay x<=1.5", "x>=2"),
        ("mark 1", "stay w<=1", "x>=2"),
        ("mark 1", "stay x>=1", "x>=2"),
        ("mark 1", "stay x<=2, x<=1", "x>=2"),
        ("mark 1", "stay x<=2\nlocation idle", "x>=2"),
        ("mark 1", "sta x<=2", "x>=2"),
        ("mark 1", "stay x<=2", "w>=2"),
        ("mark 1", "stay x<=2", "x>=9"),
        ("mark 1", "stay x<=2", "x>=2, x>=3"),
        ("mark 1", "stay x<=2", "2<=x<=1"),
        ("mark 3", "", "x>=2"),
        ("mark two", "", "x>=2"),
        ("mark 1\nmark 2", "", "x>=2"),
    ] {
        let found = found(mark, idle, there);
        assert!(!found.contains("the loop"), "{found}");
    }
}

/// The loop opens whatever is meant, so it is named beside the other mistake.
#[test]
fn loops_beyond_doubt() {
    for text in [
        unreset("mark 1", "stay x<=9", "x<=2"),
        unreset("mark 1", "", "x>=9"),
        unreset("mark 3", "stay x<=2", "x<=2"),
        unreset("mark 1", "stay x<=2", "x>=2").replace(" start", ""),
        // No low may be above a ceiling that is not known.
        unreset("mark 2", "", "x>=1").replace("ceiling 3", ""),
    ] {
        let found = mistakes(&text);
        assert_eq!(found.len(), 2, "{found:?}");
        assert!(
            found.iter().any(|words| words.contains(UNRESET)),
            "{found:?}"
        );
    }
}

/// Many ways to write the same.
#[test]
fn spellings() {
    let plan = |edge: &str| {
        let text = format!(
            "clocks x, y\nceiling 2\nlocation start start\nlocation l stay x<=1 and y≤2\n{edge}\n"
        );
        read_text(&text).unwrap()
    };
    let first = plan("edge start -> l when 1<=x<=2, y=0 reset x, y");
    for other in [
        "edge start->l when x>=1, y==0 reset x y",
        "edge start → l reset all when 2≥x≥1 and y=0",
        "\tedge  start ->  l  when  1 <= x , y<=0  reset y and x  # comment",
        "edge start -> l when x>=1, x<=2, 0=y reset all",
    ] {
        assert_eq!(plan(other), first, "{other}");
    }
    assert_eq!(first.edges[0].guard, [(1, 2), (0, 0)]);
    assert_eq!(first.locations[1].stay, [Some(1), Some(2)]);
}

#[test]
fn real_units() {
    assert_eq!(
        one("unit"),
        "5:5 a number is missing here, such as: unit 20 ms"
    );
    assert_eq!(
        one("unit ms"),
        "5:6 a number is missing here, such as: unit 20 ms"
    );
    assert_eq!(
        one("unit 20"),
        "5:8 the measure is missing: it is s, ms, us or ns"
    );
    assert_eq!(
        one("unit 20 parsec"),
        "5:9 the measure cannot be 'parsec': it is s, ms, us or ns"
    );
    assert_eq!(
        one("unit 20min"),
        "5:6 the measure cannot be 'min': it is s, ms, us or ns"
    );
    assert_eq!(
        one("unit 0 ms"),
        "5:6 a unit lasts 1 ns to 86400 s, in whole nanoseconds, not '0'"
    );
    assert_eq!(one("unit 20 ms each"), "5:12 nothing may follow the unit");
    assert_eq!(
        one("crystal 1.2345 ppm"),
        "5:9 crystals are good to 0.001 to 100000 ppm, in whole thousandths, not '1.2345'"
    );
    assert_eq!(
        one("bit 19200"),
        "5:5 'rate' is missing here, such as: bit rate 19200"
    );
    assert_eq!(
        one("bit rate 19200 baud"),
        "5:16 the measure cannot be 'baud': it is none, since it counts bits a second"
    );
    assert_eq!(
        one("crystal 50 ppm\ncrystal 20ppm"),
        "6:1 the crystal is already given in line 5"
    );
}

/// Only the first mistakes are shown, and of a long line the part that counts.
#[test]
fn a_long_list_is_cut() {
    let text = "edge\n".repeat(1_000);
    let found = read_text(&text).unwrap_err();
    let shown = all_shown(&found, "f", &text);
    assert_eq!(shown.matches("f, line").count(), 20);
    let (all, rest) = (found.len(), found.len() - 20);
    assert!(shown.ends_with(&format!("and {rest} more, {all} mistakes in all\n")));
    let long = format!("{}?{}", "# ".repeat(3), "x".repeat(5_000));
    let text = format!("clocks {}\n", long.replace("# ", "x "));
    let shown = all_shown(&read_text(&text).unwrap_err(), "f", &text);
    assert!(shown.lines().all(|line| line.chars().count() < 500));
    assert!(shown.contains("\n    clocks x x x ?xxx"));
}

/// A megabyte of lines that a plan has too many of is read in linear time: ten
/// times as much takes about ten times as long.
#[test]
fn time_is_linear() {
    let time = |lines: usize| {
        let names = (0..lines).map(|at| format!("location a{at}\nedge x{at}: b{at} -> c{at}\n"));
        let text = format!("clocks x\nceiling 1\n{}", names.collect::<String>());
        let began = std::time::Instant::now();
        let found = read_text(&text).unwrap_err();
        assert!(all_shown(&found, "f", &text).len() < 10_000);
        began.elapsed()
    };
    // The least of three, since others use the machine too.
    let least = |lines: usize| (0..3).map(|_| time(lines)).min().unwrap();
    let (short, long) = (least(3_000), least(30_000));
    assert!(long < short * 40, "{short:?} {long:?}");
}

#[test]
fn shown_with_a_mark() {
    let text = "clocks x\nceiling 2\nlocation a start stay w<=1\n";
    let shown = all_shown(&read_text(text).unwrap_err(), "ring.txt", text);
    assert_eq!(
        shown,
        "\
ring.txt, line 3, column 23: there is no clock 'w'; the clocks are x
    location a start stay w<=1
                          ^
1 mistake
"
    );
}
