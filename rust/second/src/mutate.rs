//! Damaged evidence: from a model and its evidence to evidence that differs
//! by one kind of change. A few kinds give other evidence that still passes.

use crate::components::Components;
use crate::graph::{Graph, FACE, JUMP, TIME, TOUCH};
use crate::limits::MAX_EDGES;
use crate::marking::{reached, WITHOUT_TOUCH};
use crate::model::read_model;
use crate::numbers::{numbers_of, shortest, LARGEST};
use crate::padding::{count, pad_many, pad_one, pad_somehow, start_of};
use crate::random::Random;
use crate::sheet::{greatest_number, our_sheet, SHEET};
use crate::trail::TRAIL;

/// The kinds of change, each with what it does.
pub const KINDS: [(&str, &str); 21] = [
    ("change", "any number changed"),
    ("pad", "one number padded"),
    ("pad-many", "numbers padded, one at least"),
    (
        "pad-order",
        "a number padded, and other damage before, at or after it",
    ),
    ("too-long", "a number that goes on after its third byte"),
    ("cut", "bytes cut off"),
    ("extend", "bytes added"),
    ("first", "another first number"),
    ("step", "a step replaced by another"),
    ("kind", "the kind of a step changed"),
    ("edge", "the edge of a jump changed"),
    ("region", "a number of a region changed"),
    ("count", "a count of steps changed"),
    ("walk", "a walk that is one step short or long"),
    ("twice", "a walk gone twice (no damage)"),
    ("stop", "a trail that stops early"),
    ("lower", "heights lowered"),
    ("equal", "the height of a step, or of a loop, made equal"),
    ("flip", "a state put in or taken out"),
    ("above", "a sheet number out of range"),
    (
        "raise",
        "all heights raised alike (no damage while in range)",
    ),
];

/// Changes evidence in a way that the seed chooses; gives the kind too.
pub fn mutate(seed: u64, model: &[u8], evidence: &[u8]) -> (&'static str, Vec<u8>) {
    let mut random = Random::with_word(seed, "mutate");
    loop {
        // "extend" always applies, so this comes to an end.
        let (kind, _) = *random.pick(&KINDS);
        if let Some(bytes) = mutate_as(random.bits(), kind, model, evidence) {
            return (kind, bytes);
        }
    }
}

/// Changes evidence in the given way; none if it does not apply.
pub fn mutate_as(seed: u64, kind: &str, model: &[u8], evidence: &[u8]) -> Option<Vec<u8>> {
    let random = &mut Random::with_word(seed, kind);
    match kind {
        "change" | "too-long" | "cut" | "extend" | "first" => change_bytes(random, kind, evidence),
        "pad" => pad_one(random, evidence, roles_in(model, evidence).as_deref()),
        "pad-many" => pad_many(random, evidence),
        "pad-order" => pad_and_damage(random, model, evidence),
        _ => {
            let graph = Graph::new(read_model(model).ok()?);
            let numbers = some_numbers_of(evidence)?;
            match kind {
                "equal" if numbers[0] == TRAIL => Some(hidden_loop(&graph)),
                "lower" | "equal" | "flip" | "above" | "raise" => {
                    change_sheet(random, kind, &graph, numbers)
                }
                _ => change_trail(random, kind, &graph, numbers),
            }
        }
    }
}

/// The numbers of evidence, if its bytes spell some and nothing else.
fn some_numbers_of(evidence: &[u8]) -> Option<Vec<u32>> {
    let numbers = numbers_of(evidence).ok()?;
    (!numbers.is_empty()).then_some(numbers)
}

/// Changes that need no model.
fn change_bytes(random: &mut Random, kind: &str, evidence: &[u8]) -> Option<Vec<u8>> {
    let mut bytes = evidence.to_vec();
    match kind {
        "cut" if bytes.is_empty() => return None,
        "cut" => bytes.truncate(random.below(evidence.len())),
        "extend" => {
            for _ in 0..random.range(1, 4) {
                bytes.push(random.below(256) as u8);
            }
        }
        _ => {
            let mut numbers = some_numbers_of(evidence)?;
            let at = random.below(numbers.len());
            match kind {
                "change" => {
                    numbers[at] = other_number(random, numbers[at]);
                    bytes = shortest(&numbers);
                }
                "first" => {
                    numbers[0] = *random.pick(&[0, 3 - numbers[0].min(3), 3, 4, LARGEST]);
                    bytes = shortest(&numbers);
                }
                _ => {
                    bytes = shortest(&numbers[..at]);
                    bytes.extend([numbers[at] as u8 | 128, 128, 128 + random.below(128) as u8]);
                    bytes.extend(shortest(&numbers[at + 1..]));
                }
            }
        }
    }
    Some(bytes)
}

/// Other damage, then a padded number at its place, near it on either side or
/// anywhere, so that the order of refusals decides. At times the bytes end in
/// that number or just after it.
fn pad_and_damage(random: &mut Random, model: &[u8], evidence: &[u8]) -> Option<Vec<u8>> {
    let damaged = damage(random, model, evidence);
    let same = damaged
        .iter()
        .zip(evidence)
        .take_while(|(new, old)| new == old)
        .count();
    // The number that holds the first byte that differs, or the next to come.
    let there = count(&damaged[..same]);
    let last = count(&damaged).checked_sub(1)?;
    let place = if random.one_in(3) {
        random.range(0, last)
    } else {
        (there + random.below(5)).saturating_sub(2).min(last)
    };
    let mut bytes = pad_somehow(random, &damaged, place)?;
    if random.one_in(4) {
        bytes.truncate(start_of(&damaged, place)? + random.range(1, 4));
    }
    Some(bytes)
}

/// Damage of any kind but padding.
fn damage(random: &mut Random, model: &[u8], evidence: &[u8]) -> Vec<u8> {
    loop {
        // "extend" always applies, so this comes to an end.
        let (kind, _) = *random.pick(&KINDS);
        if kind.starts_with("pad") {
            continue;
        }
        if let Some(bytes) = mutate_as(random.bits(), kind, model, evidence) {
            return bytes;
        }
    }
}

/// A number that differs: often by one, sometimes by much.
fn other_number(random: &mut Random, number: u32) -> u32 {
    let other = match random.below(6) {
        0 | 1 => number.saturating_add(1).min(LARGEST),
        2 | 3 => number.saturating_sub(1),
        4 => random.below(6) as u32,
        _ => random.below(LARGEST as usize + 1) as u32,
    };
    if other == number {
        (number + 1) % (LARGEST + 1)
    } else {
        other
    }
}

fn change_sheet(
    random: &mut Random,
    kind: &str,
    graph: &Graph,
    mut numbers: Vec<u32>,
) -> Option<Vec<u8>> {
    let states = graph.states();
    if numbers[0] != SHEET || numbers.len() != states + 1 {
        return None;
    }
    let sheet = &mut numbers[1..];
    let allowed: Vec<usize> = (0..states).filter(|&state| graph.allowed[state]).collect();
    match kind {
        "lower" => {
            let high: Vec<usize> = allowed
                .into_iter()
                .filter(|&state| sheet[state] > 1)
                .collect();
            if high.is_empty() {
                return None;
            }
            for _ in 0..random.range(1, 3) {
                let state = *random.pick(&high);
                let height = sheet[state] >> 1;
                let lowered = if random.one_in(3) {
                    0
                } else {
                    height.saturating_sub(1)
                };
                sheet[state] = 2 * lowered + (sheet[state] & 1);
            }
        }
        "equal" => {
            // Prefer steps that leave an out-state, where equal may hide a loop.
            let falling = |state: &usize| {
                graph
                    .steps(*state)
                    .iter()
                    .any(|step| sheet[step.to as usize] >> 1 < sheet[*state] >> 1)
            };
            let from: Vec<usize> = allowed.into_iter().filter(falling).collect();
            let out: Vec<usize> = from
                .iter()
                .copied()
                .filter(|&state| sheet[state] & 1 == 0)
                .collect();
            let from = if out.is_empty() || random.one_in(4) {
                from
            } else {
                out
            };
            if from.is_empty() {
                return None;
            }
            let state = *random.pick(&from);
            let to = random.pick(graph.steps(state)).to as usize;
            sheet[state] = (sheet[to] & !1) + (sheet[state] & 1);
        }
        "flip" => {
            let state = *random.pick(&allowed);
            sheet[state] ^= 1;
        }
        "above" => {
            let state = random.below(states);
            let most = greatest_number(states);
            sheet[state] = match random.below(4) {
                0 => most,
                1 => most + 1,
                2 => random.range(most as usize + 1, LARGEST as usize) as u32,
                // Anything but 0 where a state is not allowed, if there is one.
                _ => {
                    let barred = (0..states).find(|&other| !graph.allowed[other] && other >= state);
                    sheet[barred?] = random.range(1, 3) as u32;
                    sheet[state]
                }
            };
        }
        _ => {
            let by = 2 * random.range(1, 3) as u32;
            for state in allowed {
                sheet[state] = (sheet[state] + by).min(LARGEST);
            }
        }
    }
    Some(shortest(&numbers))
}

/// For an unsafe model: the sheet that stops before the first touch and
/// keeps one height all along each loop, as if no loop could be touched.
fn hidden_loop(graph: &Graph) -> Vec<u8> {
    our_sheet(
        graph,
        &Components::new(graph),
        &reached(graph, WITHOUT_TOUCH),
    )
}

/// What a number of evidence stands for.
#[derive(Clone, Copy, Debug, PartialEq, Eq, PartialOrd, Ord)]
pub enum Role {
    /// Sheet or trail.
    First,
    /// A state's number in a sheet.
    State,
    // The others are those of a trail.
    Count,
    Kind,
    Edge,
    Region,
    WalkCount,
    WalkKind,
    WalkEdge,
}

/// The role of each number; none if they do not spell a whole sheet or trail.
pub fn roles(graph: &Graph, numbers: &[u32]) -> Option<Vec<Role>> {
    let rest = match *numbers.first()? {
        SHEET if numbers.len() == graph.states() + 1 => vec![Role::State; graph.states()],
        _ => parse(graph, numbers)?.roles,
    };
    Some([&[Role::First], &rest[..]].concat())
}

/// The same for bytes of evidence and of a model.
fn roles_in(model: &[u8], evidence: &[u8]) -> Option<Vec<Role>> {
    let graph = Graph::new(read_model(model).ok()?);
    roles(&graph, &numbers_of(evidence).ok()?)
}

/// A trail as its numbers with their roles, and where each step begins.
struct Parsed {
    roles: Vec<Role>,
    steps: Vec<usize>,
    /// Per touch, the places of its walk's count and of the walk's steps.
    walks: Vec<(usize, Vec<usize>)>,
}

/// Takes a trail apart; none if its numbers do not spell a whole trail. The
/// roles stand for all numbers but the first.
fn parse(graph: &Graph, numbers: &[u32]) -> Option<Parsed> {
    let clocks = graph.regions.clocks;
    let mut parsed = Parsed {
        roles: vec![Role::Count],
        steps: Vec::new(),
        walks: Vec::new(),
    };
    let number = |parsed: &Parsed| numbers.get(parsed.roles.len() + 1).copied();
    if numbers[0] != TRAIL {
        return None;
    }
    for _ in 0..*numbers.get(1)? {
        parsed.steps.push(parsed.roles.len() + 1);
        let kind = u8::try_from(number(&parsed)?).ok()?;
        parsed.roles.push(Role::Kind);
        match kind {
            TIME => {}
            JUMP => parsed.roles.push(Role::Edge),
            FACE => parsed.roles.extend(vec![Role::Region; 2 * clocks]),
            TOUCH => {
                parsed.roles.extend(vec![Role::Region; 2 * clocks]);
                let place = parsed.roles.len() + 1;
                let count = number(&parsed)?;
                parsed.roles.push(Role::WalkCount);
                let mut steps = Vec::new();
                for _ in 0..count {
                    steps.push(parsed.roles.len() + 1);
                    let kind = number(&parsed)?;
                    parsed.roles.push(Role::WalkKind);
                    if kind == u32::from(JUMP) {
                        parsed.roles.push(Role::WalkEdge);
                    }
                }
                parsed.walks.push((place, steps));
            }
            _ => return None,
        }
    }
    (parsed.roles.len() + 1 == numbers.len()).then_some(parsed)
}

fn change_trail(
    random: &mut Random,
    kind: &str,
    graph: &Graph,
    mut numbers: Vec<u32>,
) -> Option<Vec<u8>> {
    let parsed = parse(graph, &numbers)?;
    let places = |wanted: &[Role]| -> Option<Vec<usize>> {
        let places: Vec<usize> = (0..parsed.roles.len())
            .filter(|&at| wanted.contains(&parsed.roles[at]))
            .map(|at| at + 1)
            .collect();
        (!places.is_empty()).then_some(places)
    };
    match kind {
        "kind" => {
            let place = *random.pick(&places(&[Role::Kind, Role::WalkKind])?);
            numbers[place] = (numbers[place] + random.range(1, 4) as u32) % 5;
        }
        "edge" => {
            let place = *random.pick(&places(&[Role::Edge, Role::WalkEdge])?);
            // Another one, up to the first that no model has.
            let edges = MAX_EDGES as u32 + 1;
            numbers[place] = (numbers[place] + random.range(1, MAX_EDGES) as u32) % edges;
        }
        "region" => {
            let place = *random.pick(&places(&[Role::Region])?);
            numbers[place] = other_number(random, numbers[place]);
        }
        "count" => {
            let place = *random.pick(&places(&[Role::Count, Role::WalkCount])?);
            numbers[place] = if random.one_in(4) {
                0
            } else {
                other_number(random, numbers[place])
            };
        }
        "walk" => {
            let (place, steps) = random.pick(non_empty(&parsed.walks)?);
            let after = end_of_step(&parsed, &numbers, *place);
            if random.one_in(2) && steps.len() > 1 {
                // The last step taken away.
                numbers.drain(steps[steps.len() - 1]..after);
                numbers[*place] -= 1;
            } else {
                // A time step, or a jump, too much.
                let extra = if random.one_in(2) {
                    vec![0]
                } else {
                    vec![1, random_edge(random, graph)]
                };
                numbers.splice(after..after, extra);
                numbers[*place] += 1;
            }
        }
        "twice" => {
            let (place, _) = random.pick(non_empty(&parsed.walks)?);
            let after = end_of_step(&parsed, &numbers, *place);
            let walk = numbers[place + 1..after].to_vec();
            numbers.splice(after..after, walk);
            numbers[*place] *= 2;
        }
        "stop" => {
            let step = random.below(non_empty(&parsed.steps)?.len());
            numbers.truncate(parsed.steps[step]);
            numbers[1] = step as u32;
        }
        _ => {
            // "step": replaced by, or preceded by, another one.
            let step = random.below(non_empty(&parsed.steps)?.len());
            let from = parsed.steps[step];
            let after = parsed.steps.get(step + 1).copied().unwrap_or(numbers.len());
            let new = random_step(random, graph, &parsed, &numbers);
            if random.one_in(3) {
                numbers.splice(from..from, new);
                numbers[1] += 1;
            } else {
                numbers.splice(from..after, new);
            }
        }
    }
    Some(shortest(&numbers))
}

fn non_empty<T>(list: &[T]) -> Option<&[T]> {
    (!list.is_empty()).then_some(list)
}

/// The place after the step that contains the given place.
fn end_of_step(parsed: &Parsed, numbers: &[u32], place: usize) -> usize {
    parsed
        .steps
        .iter()
        .copied()
        .find(|&step| step > place)
        .unwrap_or(numbers.len())
}

fn random_edge(random: &mut Random, graph: &Graph) -> u32 {
    random.below(graph.model.edges.len() + 1) as u32
}

/// A step of any kind; a touch takes a walk from the trail if it has one.
fn random_step(random: &mut Random, graph: &Graph, parsed: &Parsed, numbers: &[u32]) -> Vec<u32> {
    let kind = random.below(4) as u8;
    let clocks = graph.regions.clocks;
    let mut step = vec![u32::from(kind)];
    if kind == JUMP {
        step.push(random_edge(random, graph));
    }
    if kind == FACE || kind == TOUCH {
        let region = random.pick(&graph.regions.list);
        step.extend(
            region.whole[..clocks]
                .iter()
                .map(|&number| u32::from(number)),
        );
        step.extend(
            region.rank[..clocks]
                .iter()
                .map(|&number| u32::from(number)),
        );
    }
    if kind == TOUCH {
        match parsed.walks.first() {
            Some(&(place, _)) => step.extend(&numbers[place..end_of_step(parsed, numbers, place)]),
            None => step.extend([1, 0]),
        }
    }
    step
}
