//! A trail told in words, step by step; as people tell it, in `story`.

pub mod story;

use crate::trail::{start_of, Kind, Reading, State, Step};
use crate::Plan;
use second::regions::Region;

/// The clocks of a region: x=1, 0<y<1, and the order of their fractions
/// where two or more have one.
pub fn region_words(plan: &Plan, region: &Region) -> String {
    let clocks = plan.clocks.iter().enumerate();
    let each: Vec<String> = clocks
        .map(|(at, name)| match (region.whole[at], region.rank[at]) {
            (whole, 0) => format!("{name}={whole}"),
            (whole, _) => format!("{whole}<{name}<{}", whole + 1),
        })
        .collect();
    let order = fraction_words(plan, region);
    each.join(", ") + &order
}

/// How far the clocks between two whole numbers are, one against the other.
fn fraction_words(plan: &Plan, region: &Region) -> String {
    let between = by_fraction(plan, region);
    if between.len() < 2 {
        return String::new();
    }
    let mut words = plan.clocks[between[0]].clone();
    for pair in between.windows(2) {
        let sign = if region.rank[pair[0]] == region.rank[pair[1]] {
            "="
        } else {
            "<"
        };
        words += &format!(" {sign} {}", plan.clocks[pair[1]]);
    }
    format!(" (fractions: {words})")
}

/// The clocks of a region for people: how each stands, and by how much one is
/// ahead of the other where that is not seen from it.
pub fn clock_words(plan: &Plan, region: &Region) -> String {
    let clocks = plan.clocks.iter().enumerate();
    let each = clocks.map(|(at, name)| match (region.whole[at], region.rank[at]) {
        (whole, 0) => format!("{name} at {whole}"),
        (whole, _) => format!("{name} between {whole} and {}", whole + 1),
    });
    let between = by_fraction(plan, region);
    let ahead = between
        .windows(2)
        .map(|pair| ahead_words(plan, region, pair[0], pair[1]));
    each.chain(ahead).collect::<Vec<String>>().join(", ")
}

/// By how much the one of two clocks is ahead; the fraction of the first is
/// the smaller one, if they are not equal.
fn ahead_words(plan: &Plan, region: &Region, low: usize, high: usize) -> String {
    let (one, other) = (&plan.clocks[low], &plan.clocks[high]);
    let whole = |clock: usize| i32::from(region.whole[clock]);
    let more = whole(high) - whole(low);
    let equal = region.rank[low] == region.rank[high];
    match (more, equal) {
        (0, true) => format!("{one} and {other} equal"),
        (1.., true) => format!("{other} {more} ahead of {one}"),
        (_, true) => format!("{one} {} ahead of {other}", -more),
        (0.., false) => format!("{other} ahead of {one} by {}", span_words(more)),
        (_, false) => format!("{one} ahead of {other} by {}", span_words(-more - 1)),
    }
}

fn span_words(from: i32) -> String {
    match from {
        0 => "less than 1".to_string(),
        _ => format!("{from} to {}", from + 1),
    }
}

/// The clocks between two whole numbers, by their fractions.
fn by_fraction(plan: &Plan, region: &Region) -> Vec<usize> {
    let clocks = 0..plan.clocks.len();
    let mut between: Vec<usize> = clocks.filter(|&at| region.rank[at] > 0).collect();
    between.sort_by_key(|&at| region.rank[at]);
    between
}

/// The name of an edge, or its number.
pub fn edge_name(plan: &Plan, number: usize) -> String {
    let name = plan.edges[number].name.clone();
    name.unwrap_or_else(|| format!("edge {number}"))
}

/// The whole trail, one line per step; a flaw comes last.
pub fn trail_words(plan: &Plan, reading: &Reading) -> String {
    let start = start_of(plan);
    let mut text = format!(
        "start in {}: {}\n",
        plan.quoted(start.location),
        region_words(plan, &start.region)
    );
    for (at, step) in reading.steps.iter().enumerate() {
        text += &step_words(plan, &(at + 1).to_string(), step, "");
    }
    let last = reading.steps.last().map_or(start, |step| step.to);
    text + &match &reading.flaw {
        None => format!(
            "end in {}, which is forbidden\n",
            plan.quoted(last.location)
        ),
        Some(flaw) => format!("refused {}: {}\n", flaw.refusal, flaw.words),
    }
}

fn step_words(plan: &Plan, number: &str, step: &Step, indent: &str) -> String {
    let clocks = region_words(plan, &step.to.region);
    let what = match &step.kind {
        Kind::Time => format!("time passes in {}: {clocks}", plan.quoted(step.to.location)),
        Kind::Jump(edge) => jump_words(plan, *edge, step.to),
        Kind::Face => format!("look at the rim of this region: {clocks}"),
        Kind::Touch(walk) => touch_words(plan, number, step.to, walk, indent),
    };
    format!("{indent}{number} {what}\n")
}

fn jump_words(plan: &Plan, number: usize, to: State) -> String {
    let edge = &plan.edges[number];
    let mut words = format!("jump along {}", plan.edge_title(number));
    let guard = plan.guard_words(edge);
    if !guard.is_empty() {
        words += &format!(", open when {}", guard.join(", "));
    }
    let resets = plan.reset_names(edge);
    if !resets.is_empty() {
        words += &format!(", resetting {}", resets.join(", "));
    }
    format!(
        "{words}; now in {}: {}",
        plan.quoted(to.location),
        region_words(plan, &to.region)
    )
}

fn touch_words(plan: &Plan, number: &str, to: State, walk: &[Step], indent: &str) -> String {
    let mut words = format!(
        "drift in {} into the loop through {}, a hair each turn; the loop:",
        plan.quoted(to.location),
        region_words(plan, &to.region)
    );
    let deeper = format!("{indent}    ");
    for (at, step) in walk.iter().enumerate() {
        let line = step_words(plan, &format!("{number}.{}", at + 1), step, &deeper);
        words += &format!("\n{}", line.trim_end_matches('\n'));
    }
    format!(
        "{words}\n{deeper}and so on for ever; the trail goes on from {}",
        region_words(plan, &to.region)
    )
}

#[cfg(test)]
mod tests {
    use super::*;
    use crate::resolve::read_text;

    #[test]
    fn clocks_for_people() {
        let plan = read_text("clocks a b c\nceiling 4\nlocation home start\n").unwrap();
        let words = |whole, rank| clock_words(&plan, &Region { whole, rank });
        let at = "a at 0, b at 1, c between 2 and 3";
        assert_eq!(words([0, 1, 2], [0, 0, 1]), at);
        let between = "a between 0 and 1, b between 0 and 1, c between 2 and 3";
        for (rank, ahead) in [
            ([1, 1, 1], "a and b equal, c 2 ahead of b"),
            ([1, 2, 2], "b ahead of a by less than 1, c 2 ahead of b"),
            (
                [2, 1, 3],
                "a ahead of b by less than 1, c ahead of a by 2 to 3",
            ),
            (
                [2, 3, 1],
                "c ahead of a by 1 to 2, b ahead of a by less than 1",
            ),
        ] {
            assert_eq!(words([0, 0, 2], rank), format!("{between}, {ahead}"));
        }
        let words = words([1, 0, 0], [2, 1, 0]);
        assert!(words.ends_with("c at 0, a ahead of b by 1 to 2"), "{words}");
    }
}
