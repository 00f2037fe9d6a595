//! Generated models: deterministic in the seed and the kind.
//!
//! Accepted models come from three families: variations of a loop of two
//! locations that only drift can leave, random drawings, and drawings whose
//! edges close early. The mark is drawn for each. A model of a wanted class
//! (safe, unsafe only by drift, unsafe with perfect clocks), judged by the
//! limits that its mark gives, is found by drawing until the class fits, with a
//! sure drawing at the end. To some of these, links are added that nobody can
//! walk; in some, resets are changed until each closed walk has a joint one, or just
//! does not. Models in which time matters most are drawn in a way of their own,
//! whatever their class.

use crate::blanks::{blank_model, early_draft, is_safe_by_its_mark};
use crate::calls::states_of;
use crate::components::Components;
use crate::dead_links::{dead_links_model, has_dead_edge, is_refused_by_all_edges};
use crate::draft::{all_shapes, pick_shape, Draft, Shape};
use crate::draft::{loop_draft, padded, random_draft, random_mark};
use crate::graph::Graph;
use crate::joint_resets::{disjoint_model, has_another_trail, joint_model, lacks_by_all_edges};
use crate::limits::{MAX_CEILING, MAX_CLOCKS, MAX_EDGES, MAX_LOCATIONS, MAX_STATES};
use crate::marking::{is_unsafe, reached, Closure};
use crate::model::{read_model, read_plan, Field, Model, Reading, EDGES_MARK};
use crate::numbers::{numbers_of, shortest, LARGEST};
use crate::program::SCRATCH;
use crate::random::Random;
use crate::refusal::*;
use crate::slow;
use std::collections::BTreeMap;
use std::convert::Infallible;

/// The kinds that `generate` knows.
pub const KINDS: [&str; 27] = [
    "safe",
    "drift",
    "plain",
    "padded",
    "respelled",
    "blank",
    "tiny",
    "small",
    "middle",
    "largest",
    "clocks-1",
    "clocks-2",
    "clocks-3",
    "refused-1",
    "refused-2",
    "refused-3",
    "refused-4",
    "refused-5",
    "refused-6",
    "refused-7",
    "refused-8",
    "noise",
    "slow",
    "dead-links",
    "joint",
    "disjoint",
    "sizes",
];

/// What an accepted model is.
#[derive(Clone, Copy, Debug, PartialEq, Eq, PartialOrd, Ord)]
pub enum Class {
    Safe,
    /// A forbidden location needs a touch step: unsafe only by drift.
    Drift,
    /// Unsafe with perfect clocks: time and jump steps are enough.
    Plain,
    /// Needs a face step, but no touch. Closed guards leave no such model.
    Face,
}

pub fn classify(model: &Model) -> Class {
    let graph = Graph::new(model.clone());
    let components = Components::new(&graph);
    let unsafe_by = |face, touch| is_unsafe(&graph, &reached(&graph, Closure { face, touch }));
    if !unsafe_by(true, Some(&components)) {
        Class::Safe
    } else if unsafe_by(false, None) {
        Class::Plain
    } else if unsafe_by(true, None) {
        Class::Face
    } else {
        Class::Drift
    }
}

/// The bytes of a model of a kind; none for an unknown kind.
pub fn generate(seed: u64, kind: &str) -> Option<Vec<u8>> {
    let mut random = Random::with_word(seed, kind);
    let random = &mut random;
    Some(match kind {
        "safe" => accepted(random, Some(Class::Safe), usual).bytes(),
        "drift" => accepted(random, Some(Class::Drift), usual).bytes(),
        "plain" => accepted(random, Some(Class::Plain), usual).bytes(),
        "padded" => padded_model(random),
        "respelled" => respelled_model(random),
        "blank" => blank_model(random).bytes(),
        "tiny" => accepted(random, None, |shape| shape.states() <= TINY).bytes(),
        "small" => accepted(random, None, |shape| {
            (TINY + 1..=SMALL).contains(&shape.states())
        })
        .bytes(),
        "middle" => accepted(random, None, |shape| {
            (SMALL + 1..=MIDDLE).contains(&shape.states())
        })
        .bytes(),
        "largest" => accepted(random, None, |shape| shape.states() == MAX_STATES).bytes(),
        "clocks-1" => accepted(random, None, |shape| shape.clocks == 1).bytes(),
        "clocks-2" => accepted(random, None, |shape| shape.clocks == 2).bytes(),
        "clocks-3" => accepted(random, None, |shape| shape.clocks == 3 && usual(shape)).bytes(),
        "refused-1" => cut(random),
        "refused-2" => too_long(random),
        "refused-3" => out_of_range(random, BAD_HEADER),
        "refused-4" => out_of_range(random, BAD_LOCATION),
        "refused-5" => out_of_range(random, BAD_EDGE),
        "refused-6" => extended(random),
        "refused-7" => {
            let shape = pick_shape(random, |_| true)?;
            unreset(random, &shape).bytes()
        }
        "refused-8" => accepted(random, None, |shape| shape.states() > MIDDLE).bytes(),
        "noise" => noise(random),
        "slow" => slow_model(random)?.bytes(),
        "dead-links" => dead_links_model(random).bytes(),
        "joint" => joint_model(random).bytes(),
        "disjoint" => disjoint_model(random).bytes(),
        "sizes" => sized_model(seed, random),
        _ => return None,
    })
}

/// The bytes of an accepted model of exactly this size. A class that needs
/// more room (drift needs two clocks and three locations) becomes `Plain`.
pub fn generate_sized(
    seed: u64,
    clocks: usize,
    ceiling: u32,
    locations: usize,
    class: Class,
) -> Vec<u8> {
    let mut random = Random::with_word(seed, "sized");
    accepted(&mut random, Some(class), |shape| {
        (shape.clocks, shape.ceiling, shape.locations) == (clocks, ceiling, locations)
    })
    .bytes()
}

/// Sizes by number of states. The scratch of the programs reaches to MIDDLE.
pub const TINY: usize = 40;
pub const SMALL: usize = 160;
pub const MIDDLE: usize = SCRATCH;

/// So many drawings are tried for a class, at first with noise.
pub const TRIES: usize = 24;

/// Sizes of models whose kind does not name a size.
fn usual(shape: &Shape) -> bool {
    shape.states() <= MIDDLE
}

/// An accepted model of a shape and a class; of a random class if none is
/// named.
fn accepted(random: &mut Random, class: Option<Class>, wanted: impl Fn(&Shape) -> bool) -> Draft {
    let mut class =
        class.unwrap_or_else(|| *random.pick(&[Class::Safe, Class::Drift, Class::Plain]));
    let room = |shape: &Shape| wanted(shape) && shape.has_room_for_drift();
    let mut shape = pick_shape(random, &wanted).expect("a size that there is");
    if class == Class::Drift {
        match pick_shape(random, room) {
            Some(roomy) => shape = roomy,
            None => class = Class::Plain, // one clock does not drift away
        }
    }
    for attempt in 0..TRIES {
        let draft = drawing(random, &shape, class, attempt < TRIES / 2);
        let model = read_model(&draft.bytes()).expect("drafts are accepted");
        if classify(&model) == class {
            return draft;
        }
    }
    match class {
        Class::Drift => loop_draft(random, &shape, class, false),
        _ => {
            let mut draft = Draft::new(&shape);
            draft.mark = random_mark(random);
            draft.kinds[0] = u32::from(class == Class::Plain);
            draft
        }
    }
}

/// A drawing of one of the three families, which may be of the class.
pub fn drawing(random: &mut Random, shape: &Shape, class: Class, noise: bool) -> Draft {
    if random.one_in(4) {
        let mark = random_mark(random);
        early_draft(random, shape, mark)
    } else if shape.has_room_for_drift() && (class == Class::Drift || random.one_in(2)) {
        loop_draft(random, shape, class, noise)
    } else {
        random_draft(random, shape)
    }
}

/// Of any class.
fn slow_model(random: &mut Random) -> Option<Draft> {
    let shape = pick_shape(random, |shape| usual(shape) && slow::has_room(shape))?;
    Some(slow::slow_draft(random, &shape))
}

fn padded_model(random: &mut Random) -> Vec<u8> {
    let numbers = accepted(random, None, usual).numbers();
    padded(random, &numbers)
}

/// Of any size: what is done with spellings alone takes no states.
fn respelled_model(random: &mut Random) -> Vec<u8> {
    let model = accepted(random, None, |_| true).bytes();
    respelled(random, &model).expect("drafts are accepted")
}

/// Another spelling of an accepted model, with its mark: the lengths of its
/// numbers are drawn anew and, where a limit is what a blank stay field means,
/// whether the field is 0 or spells it out. None for a model that is refused.
pub fn respelled(random: &mut Random, model: &[u8]) -> Option<Vec<u8>> {
    let reading = read_plan(model).ok()?;
    let mut numbers = numbers_of(model).ok()?;
    for (at, (field, _)) in fields(&numbers).into_iter().enumerate() {
        if let Field::Stay { location, clock } = field {
            let limit = reading.model.locations[location].limit[clock];
            if limit == reading.model.blank_limit(reading.mark, location, clock) {
                numbers[at] = *random.pick(&[0, u32::from(limit) + 1]);
            }
        }
    }
    Some(padded(random, &numbers))
}

/// Of any class, padded or not. Seeds take turns, so that each size comes up once in as
/// many seeds as there are sizes; each turn begins one size later, so that seeds some way
/// apart meet them all too.
fn sized_model(seed: u64, random: &mut Random) -> Vec<u8> {
    let sizes = all_shapes();
    let count = sizes.len() as u64;
    let size = sizes[((seed / count % count + seed % count) % count) as usize];
    let draft = accepted(random, None, |shape| *shape == size);
    if random.one_in(2) {
        padded(random, &draft.numbers())
    } else {
        draft.bytes()
    }
}

/// A draft to damage: of any size, since refusals 1 to 7 come before 8.
fn any_draft(random: &mut Random) -> Draft {
    let shape = pick_shape(random, |shape| {
        shape.states() <= SMALL || shape.locations == MAX_LOCATIONS
    })
    .expect("a size that there is");
    if shape.has_room_for_drift() && random.one_in(2) {
        loop_draft(random, &shape, Class::Drift, true)
    } else {
        random_draft(random, &shape)
    }
}

/// Refusal 1: an accepted model, cut.
fn cut(random: &mut Random) -> Vec<u8> {
    let numbers = any_draft(random).numbers();
    let mut bytes = if random.one_in(2) {
        padded(random, &numbers)
    } else {
        shortest(&numbers)
    };
    bytes.truncate(random.below(bytes.len()));
    bytes
}

/// Refusal 2: one number goes on after its third byte.
fn too_long(random: &mut Random) -> Vec<u8> {
    let numbers = any_draft(random).numbers();
    let at = random.below(numbers.len());
    let mut bytes = shortest(&numbers[..at]);
    bytes.extend([
        numbers[at] as u8 | 128,
        128 + random.below(128) as u8,
        128 + random.below(128) as u8,
    ]);
    push_rest(random, &mut bytes, &numbers[at + 1..]);
    bytes
}

/// What each number of a model stands for, in order, and its greatest value.
fn fields(numbers: &[u32]) -> Vec<(Field, u32)> {
    let mut fields = Vec::new();
    let _: Result<Model, Infallible> = Model::from_fields(&mut |field, range| {
        fields.push((field, *range.end()));
        Ok(numbers[fields.len() - 1])
    });
    fields
}

/// Refusals 3, 4, 5: one number out of its range, or a low above its high.
fn out_of_range(random: &mut Random, refusal: Refusal) -> Vec<u8> {
    let mut draft = any_draft(random);
    if draft.edges.is_empty() {
        let edge = draft.open_edge(0, 0, draft.all_clocks());
        draft.edges.push(edge);
    }
    let mut numbers = draft.numbers();
    let fields = fields(&numbers);
    let places: Vec<usize> = (0..fields.len())
        .filter(|&at| fields[at].0.refusal() == refusal)
        .collect();
    let mut place = *random.pick(&places);
    let most = fields[place].1;
    if refusal == BAD_EDGE && random.one_in(4) {
        // A low above its high, both within range.
        let edge = random.below(draft.edges.len());
        let low = places[edge * (3 + 2 * draft.clocks) + 3 + 2 * random.below(draft.clocks)];
        numbers[low] = random.range(1, draft.ceiling as usize) as u32;
        place = low + 1;
        numbers[place] = random.below(numbers[low] as usize) as u32;
    } else if place < 4 && random.one_in(3) {
        numbers[place] = 0;
    } else if random.one_in(2) {
        numbers[place] = most + 1;
    } else {
        numbers[place] = random.range(most as usize + 1, LARGEST as usize) as u32;
    }
    let mut bytes = shortest(&numbers[..=place]);
    push_rest(random, &mut bytes, &numbers[place + 1..]);
    bytes
}

/// Appends what follows a damaged number: as it was, or damaged too, which
/// must make no difference.
fn push_rest(random: &mut Random, bytes: &mut Vec<u8>, rest: &[u32]) {
    let mut rest = shortest(rest);
    match random.below(4) {
        0 => rest.truncate(random.below(rest.len() + 1)),
        1 => rest
            .iter_mut()
            .for_each(|byte| *byte = random.below(256) as u8),
        2 => rest.extend([255; 3]),
        _ => {}
    }
    bytes.extend(rest);
}

/// Refusal 6: bytes after a model that might else be refused by 7.
fn extended(random: &mut Random) -> Vec<u8> {
    let mut draft = any_draft(random);
    if random.one_in(3) {
        let shape = Shape {
            clocks: draft.clocks,
            ceiling: draft.ceiling,
            locations: draft.kinds.len(),
        };
        draft = unreset(random, &shape);
    }
    let mut bytes = draft.bytes();
    for _ in 0..random.range(1, 4) {
        bytes.push(random.below(256) as u8);
    }
    bytes
}

/// Refusal 7: a closed walk of edges with a clock that none of them resets. They
/// have no lows, so that each can open.
fn unreset(random: &mut Random, shape: &Shape) -> Draft {
    let mut draft = random_draft(random, shape);
    let clock = random.below(shape.clocks);
    let length = random.range(1, 4.min(shape.locations));
    draft.edges.truncate(MAX_EDGES - length);
    let mut places: Vec<usize> = (0..shape.locations).collect();
    random.shuffle(&mut places);
    for at in 0..length {
        let mask = random.below(1 << shape.clocks) as u32 & !(1 << clock);
        let edge = draft.open_edge(places[at], places[(at + 1) % length], mask);
        draft.edges.push(edge);
    }
    random.shuffle(&mut draft.edges);
    draft
}

/// Bytes that only look a little like a model.
fn noise(random: &mut Random) -> Vec<u8> {
    let mut bytes = Vec::new();
    if random.one_in(4) {
        let length = random.below(40);
        bytes.extend((0..length).map(|_| random.below(256) as u8));
    } else {
        let header = [
            random_mark(random) as usize,
            random.range(1, MAX_CLOCKS),
            random.range(1, MAX_CEILING.into()),
            random.range(1, 3),
            random.range(0, 3),
            0,
        ];
        bytes.extend(header.map(|number| number as u8));
        let length = random.below(60);
        bytes.extend((0..length).map(|_| random.below(3) as u8));
    }
    bytes
}

/// What is counted of accepted models, in the order of the lines.
#[derive(Clone, Copy, PartialEq, Eq, PartialOrd, Ord)]
enum Trait {
    Class(Class),
    Mark(u32),
    SafeByItsMark,
    /// Some edge cannot open; such an edge alone keeps 7 away.
    DeadEdge,
    ByDeadEdges,
    /// Each closed walk that counts has a joint reset; there is such a walk; a dead
    /// edge alone keeps 17 away; our trail without a touch is not the full one.
    Joint,
    JointWalk,
    JointByDeadEdges,
    JointTrail,
    Clocks(usize),
    /// Up to so many states.
    States(usize),
}

impl Trait {
    fn all_of(plan: &[u8], reading: &Reading) -> Vec<Trait> {
        let states = states_of(&reading.model);
        let sizes = [TINY, SMALL, MIDDLE, MAX_STATES];
        let size = sizes.into_iter().find(|&size| states <= size);
        let mut all = vec![
            Trait::Class(classify(&reading.model)),
            Trait::Mark(reading.mark),
            Trait::Clocks(reading.model.clocks),
            Trait::States(size.expect("no more than the most")),
        ];
        if reading.mark == EDGES_MARK && is_safe_by_its_mark(plan) {
            all.push(Trait::SafeByItsMark);
        }
        if has_dead_edge(&reading.model) {
            all.push(Trait::DeadEdge);
        }
        if is_refused_by_all_edges(&reading.model) {
            all.push(Trait::ByDeadEdges);
        }
        if !reading.model.lacks_a_joint_reset() {
            all.extend(Trait::all_of_joint(&reading.model));
        }
        all
    }

    fn all_of_joint(model: &Model) -> Vec<Trait> {
        let all = [
            (Trait::Joint, true),
            (Trait::JointWalk, model.has_closed_walk(|_| true)),
            (Trait::JointByDeadEdges, lacks_by_all_edges(model)),
            (Trait::JointTrail, has_another_trail(model)),
        ];
        let found = all.into_iter().filter(|(_, is_found)| *is_found);
        found.map(|(found, _)| found).collect()
    }

    fn words(self) -> String {
        match self {
            Trait::Class(class) => class.word().to_string(),
            Trait::Mark(mark) => format!("mark {mark}"),
            Trait::SafeByItsMark => "mark 2, safe where mark 1 is unsafe".to_string(),
            Trait::DeadEdge => "with an edge that cannot open".to_string(),
            Trait::ByDeadEdges => "refused 7 if every edge could open".to_string(),
            Trait::Joint => "with a joint reset".to_string(),
            Trait::JointWalk => "with a joint reset and a closed walk".to_string(),
            Trait::JointByDeadEdges => {
                "with a joint reset, 17 if every edge could open".to_string()
            }
            Trait::JointTrail => "with a joint reset, another trail without a touch".to_string(),
            Trait::Clocks(clocks) => format!("clocks {clocks}"),
            Trait::States(size) => format!("states up to {size}"),
        }
    }
}

/// Shares of kinds, refusals, classes, marks and sizes among `count` models,
/// whose seeds are 0, 1, 2, ... and whose kinds take turns.
pub fn shares(count: usize) -> String {
    let mut kinds: BTreeMap<&str, usize> = BTreeMap::new();
    let mut refusals: BTreeMap<Refusal, usize> = BTreeMap::new();
    let mut traits: BTreeMap<Trait, usize> = BTreeMap::new();
    let mut accepted = 0;
    for seed in 0..count {
        let kind = KINDS[seed % KINDS.len()];
        *kinds.entry(kind).or_default() += 1;
        let plan = generate(seed as u64, kind).expect("a known kind");
        match read_plan(&plan) {
            Ok(reading) => {
                accepted += 1;
                for found in Trait::all_of(&plan, &reading) {
                    *traits.entry(found).or_default() += 1;
                }
            }
            Err(refusal) => *refusals.entry(refusal).or_default() += 1,
        }
    }
    let mut lines = format!("models {count}\n");
    for kind in KINDS {
        lines += &share_line(&format!("kind {kind}"), kinds.get(kind), count);
    }
    for (refusal, number) in &refusals {
        lines += &share_line(&format!("refused {refusal}"), Some(number), count);
    }
    let too_large = traits.get(&Trait::States(MAX_STATES));
    lines += &share_line(&format!("refused 8 at scratch {MIDDLE}"), too_large, count);
    let disjoint = accepted - traits.get(&Trait::Joint).unwrap_or(&0);
    let words = format!("refused {NO_JOINT_RESET} where a joint reset is asked for");
    lines += &share_line(&words, Some(&disjoint), count);
    lines += &share_line("accepted", Some(&accepted), count);
    for (found, number) in &traits {
        let words = format!("accepted {}", found.words());
        lines += &share_line(&words, Some(number), accepted);
    }
    lines
}

fn share_line(words: &str, part: Option<&usize>, whole: usize) -> String {
    let part = part.copied().unwrap_or(0);
    let percent = 100.0 * part as f64 / whole.max(1) as f64;
    format!("{words} {part} {percent:.1}%\n")
}

impl Class {
    pub fn word(self) -> &'static str {
        match self {
            Class::Safe => "safe",
            Class::Drift => "unsafe only by drift",
            Class::Plain => "unsafe with perfect clocks",
            Class::Face => "unsafe by a face step",
        }
    }
}
