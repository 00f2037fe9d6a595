//! The page that `report` makes: whole, escaped, readable, and true.

mod common;
#[path = "../../plan/tests/contrast/mod.rs"]
mod contrast;

use common::*;
use contrast::{attribute, contrast, contrasts, LEAST};

/// A safe plan, one that drift alone makes unsafe, one that is unsafe anyway,
/// and one with mark 2.
const KINDS: [&str; 4] = ["poll-mended.txt", "poll.txt", "hasty.txt", "poll-blank.txt"];

fn page(name: &str, options: &[&str]) -> String {
    let plan = plan(name);
    printed(&[&["report", &plan], options].concat(), GOOD)
}

/// The words of a page without its tags, as they are read.
fn words(page: &str) -> String {
    let body = &page[page.find("<body>").unwrap()..];
    let pieces = body.split('<').map(|piece| piece.split('>').nth(1));
    let text: String = pieces.flatten().collect::<Vec<&str>>().join(" ");
    let marks = [
        ("&#39;", "'"),
        ("&quot;", "\""),
        ("&lt;", "<"),
        ("&gt;", ">"),
        ("&amp;", "&"),
    ];
    let plain = |text: String, (mark, sign): (&str, &str)| text.replace(mark, sign);
    joined(&marks.into_iter().fold(text, plain))
}

fn assert_told(page: &str, told: &[&str]) {
    let words = words(page);
    for part in told {
        assert!(words.contains(part), "{part}: {words}");
    }
}

/// The names of the tags in order, those that close with their stroke.
fn tags(page: &str) -> Vec<&str> {
    let tags = page
        .split('<')
        .skip(1)
        .map(|piece| piece.split('>').next().unwrap());
    tags.filter(|tag| !tag.ends_with('/') && !tag.starts_with('!'))
        .map(|tag| tag.split(' ').next().unwrap())
        .collect()
}

#[test]
fn every_tag_is_closed() {
    for name in KINDS {
        let page = page(name, &[]);
        let mut open = Vec::new();
        for tag in tags(&page) {
            match tag.strip_prefix('/') {
                Some(closed) => assert_eq!(open.pop(), Some(closed), "{name}"),
                None if tag == "meta" => {}
                None => open.push(tag),
            }
        }
        assert_eq!(open, Vec::<&str>::new(), "{name}");
    }
}

#[test]
fn nothing_is_loaded_and_nothing_runs() {
    let foreign = [
        "<script",
        "<link",
        "<img",
        "<iframe",
        "<object",
        " src=",
        " href=",
        " onload=",
        " onclick=",
        "url(",
        "@import",
        "://",
    ];
    for name in KINDS {
        let page = page(name, &[]).replace("http://www.w3.org/2000/svg", "");
        for part in foreign {
            assert!(!page.contains(part), "{name}: {part}");
        }
    }
}

#[test]
fn headings_for_readers_that_listen() {
    for name in KINDS {
        let page = page(name, &[]);
        let title = name.strip_suffix(".txt").unwrap();
        assert!(page.starts_with("<!DOCTYPE html>\n<html lang=\"en\">"));
        assert!(page.contains(&format!("<title>{title}: ")));
        let levels = tags(&page)
            .into_iter()
            .filter_map(|tag| tag.strip_prefix('h')?.parse().ok());
        let levels: Vec<u8> = levels.collect();
        assert_eq!(levels[0], 1);
        assert_eq!(
            levels.iter().filter(|&&level| level == 1).count(),
            1,
            "{name}"
        );
        assert!(
            levels.windows(2).all(|pair| pair[1] <= pair[0] + 1),
            "{name}: {levels:?}"
        );
        for svg in page.split("<svg ").skip(1) {
            assert!(attribute(&format!(" {svg}"), "aria-label").is_some());
        }
    }
}

#[test]
fn a_safe_plan() {
    let options = ["--unit", "20 ms", "--crystal", "50 ppm"];
    let page = page("poll-mended.txt", &options);
    assert!(page.contains("class=\"verdict safe\">SAFE while drift is below 1/"));
    assert_told(
        &page,
        &[
            "However long the ring runs, it never enters 'blank', as long as each limit",
            "Margin",
            "crystal 50 ppm, ceiling 3: drift 0.00015 of a unit",
            "Why it is safe",
            "None of these is forbidden.",
            "zervuldo check poll-mended.plan poll-mended.sheet",
            "it passes a sheet only if the plan is safe",
        ],
    );
    assert!(!page.contains("How it happens") && !page.contains("class=\"warning\""));
}

#[test]
fn a_plan_that_drift_makes_unsafe() {
    let page = page("poll.txt", &["--unit", "20 ms", "--crystal", "50 ppm"]);
    assert!(page.contains("class=\"verdict unsafe\">UNSAFE by drift: "));
    assert_told(
        &page,
        &[
            "With perfect clocks the ring never enters 'blank'. With real ones it can,",
            "Perfect clocks clean: it takes drift to get there proved Harm at a drift of 1/q of a \
             unit no run of fewer than q - 1 jumps does harm, and some run of at most 19 + 34 q \
             jumps does proved Drift",
            "The ring starts in 'power-up' with all clocks at 0.",
            "After 1 unit (20 ms) enrol leads to 'waiting' and sets panel to 0. Now panel at 0, \
             repeater at 1. (steps 1-3)",
            "Then round this loop, a hair later each time (loop A; its last turn is told): \
             Within 1 unit (20 ms) refresh leads to 'shown' and sets repeater to 0.",
            "After 2 to 3 units (40 ms to 60 ms) the ring is still in 'waiting'.",
            "panel and repeater equal. (steps 4-6)",
            "At once collide leads to 'blank'. Now panel at 3, repeater at 0. (step 9)",
            "'blank' is forbidden: this is the failure.",
            "many turns of loop A",
            "Proved The verdict: with every drift above 0, however slight, some run enters a \
             forbidden location. The number of jumps within which that happens. That perfect \
             clocks never enter a forbidden location, and with it the fewest jumps before harm.",
            "Not proved That the plan describes the ring as it is built.",
        ],
    );
}

#[test]
fn a_plan_that_is_unsafe_anyway() {
    let page = page("hasty.txt", &[]);
    assert!(page.contains("class=\"verdict unsafe\">UNSAFE even with perfect clocks: "));
    assert_told(
        &page,
        &[
            "no drift is needed",
            "After 2 units send leads to 'at-east' and sets panel, east, west to 0.",
            "After 1 unit late-2 leads to 'ring-open'. Now panel at 2, east at 2, west at 1. \
             (steps 9-11)",
            "unit 20 ms and crystal 50 ppm among its lines",
            "some run does harm within 3 jumps, whatever the drift proved, by a trail without \
             drift that passed the check",
            "Perfect clocks fail too: 'ring-open' after 4 units at the soonest; a trail of time \
             and jump steps alone passes the proved check proved",
            "That perfect clocks do too: a trail without drift passed the check",
            "The units that perfect clocks take at the least: some run takes just so long, and \
             none less.",
        ],
    );
    let words = words(&page);
    assert!(
        !words.contains("many turns") && !words.contains("loop A"),
        "{words}"
    );
}

/// The page of a plan with mark 2 tells it with the figures, in the picture and
/// in the text; one with mark 1 has nothing of it.
#[test]
fn a_plan_with_blank_limits() {
    let [old, new] = ["poll.txt", "poll-blank.txt"].map(|name| page(name, &[]));
    assert_told(
        &new,
        &[
            "Mark 2: a blank stay limit is that of the last edge to close, or the ceiling where \
             no edge leaves given with the plan",
            "clocks panel, repeater; ceiling 3; mark 2",
            "stay panel≤1 (last edge)",
            "mark 2 clocks panel repeater ceiling 3 location power-up start location waiting",
            "The plan, 46 bytes 2, 2, 3, 4, 4, 0, 0, 0, 0,",
        ],
    );
    assert!(!words(&old).contains("mark 2") && !words(&old).contains("last edge"));
    // The story of the trail, and the clocks over time, are the same.
    let story = |page: &str| {
        let from = page.find("<h2>How it happens</h2>").unwrap();
        page[from..page.find("<h2>Check it again</h2>").unwrap()].to_string()
    };
    assert_eq!(story(&old), story(&new));
}

#[test]
fn warnings_come_with_the_verdict() {
    let page = page("largest.txt", &[]);
    let told = ["SAFE, but nothing is forbidden", "no location is forbidden"];
    assert_told(&page, &told);
    assert!(page.find("class=\"warning\"") < page.find("<svg "));
}

/// The lists of numbers on a page, for the plan and for its evidence.
fn lists(page: &str) -> Vec<&str> {
    let blocks = page.split("<pre>").skip(1);
    let blocks = blocks.map(|block| block.split("</pre>").next().unwrap());
    blocks
        .filter(|block| block.starts_with(|sign: char| sign.is_ascii_digit()))
        .collect()
}

/// Whoever has the page alone can check the evidence.
#[test]
fn the_numbers_on_the_page_pass_the_check() {
    for (name, kind) in KINDS.into_iter().zip(["sheet", "trail", "trail", "trail"]) {
        let page = page(name, &[]);
        let [plan, evidence] = lists(&page)[..] else {
            panic!("{name}: two lists")
        };
        let plan = file(&format!("page-{name}.plan"), plan);
        let evidence = file(&format!("page-{name}.{kind}"), evidence);
        let answer = printed(&["check", &plan, &evidence], GOOD);
        assert!(answer.starts_with(&format!("passes: a {kind}")), "{answer}");
    }
}

/// A sheet that would fill pages is written again instead.
#[test]
fn long_evidence_is_not_printed() {
    let page = page("two-repeaters.txt", &[]);
    assert_eq!(lists(&page).len(), 1);
    assert_told(
        &page,
        &["zervuldo judge two-repeaters.plan --evidence . writes the sheet"],
    );
}

#[test]
fn names_of_files_are_escaped() {
    let text = std::fs::read(plan("poll.txt")).unwrap();
    let page = printed(&["report", &file("a<b>&'\"c.txt", text)], GOOD);
    assert!(
        page.contains("<title>a&lt;b&gt;&amp;&#39;&quot;c: unsafe</title>"),
        "{page}"
    );
    assert!(!page.contains("<b>") && !page.contains("&'"));
}

/// The value of a property in a rule of the style.
fn property<'a>(rule: &'a str, name: &str) -> Option<&'a str> {
    let mut parts = rule.split(['{', ';']).map(str::trim);
    parts.find_map(|part| part.strip_prefix(name)?.strip_prefix(": "))
}

#[test]
fn texts_stand_out() {
    for name in KINDS {
        let page = page(name, &[]);
        let style = &page[page.find("<style>").unwrap()..page.find("</style>").unwrap()];
        let rules = style.split('}').filter_map(|rule| {
            let ground = property(rule, "background").unwrap_or("#ffffff");
            Some((rule.to_string(), contrast(property(rule, "color")?, ground)))
        });
        let found: Vec<(String, f64)> = rules.chain(contrasts(&page)).collect();
        assert!(found.len() > 20);
        for (what, contrast) in found {
            assert!(contrast >= LEAST, "{name}: {contrast} {what}");
        }
    }
}

/// A page of A4 is 180 millimetres wide within its margins.
#[test]
fn drawings_fit_on_a4() {
    for name in KINDS {
        let page = page(name, &[]);
        assert!(page.contains("@page { size: A4; margin: 20mm 15mm; }"));
        for svg in page.split("<svg").skip(1) {
            let width: f64 = attribute(svg, "width").unwrap().parse().unwrap();
            assert!(width <= 180.0 * 96.0 / 25.4, "{name}: {width}");
        }
    }
}
