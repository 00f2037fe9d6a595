//! Evidence of all kinds for a model: ours, other evidence that passes,
//! damaged evidence, evidence of other models, bytes that are no evidence.

use second::calls::evidence_of;
use second::components::Components;
use second::graph::Graph;
use second::marking::marked_set;
use second::mutate::{mutate, mutate_as};
use second::numbers::shortest;
use second::other::{other_sheet, other_trail, stray_trail};
use second::random::Random;

/// Evidence up to this length is cut at every length.
const SHORT: usize = 48;

/// The largest models cost the most and get a few pieces only.
const MANY_STATES: usize = 5_000;

/// So many pieces of evidence are kept for the models that follow.
const KEPT: usize = 32;

type Piece = (&'static str, Vec<u8>);

/// Evidence of the models before.
#[derive(Default)]
pub struct Others {
    kept: Vec<Vec<u8>>,
    next: usize,
}

impl Others {
    fn keep(&mut self, evidence: &[u8]) {
        if self.kept.len() < KEPT {
            self.kept.push(Vec::new());
        }
        self.kept[self.next] = evidence.to_vec();
        self.next = (self.next + 1) % KEPT;
    }

    fn pick(&self, random: &mut Random) -> Vec<u8> {
        if self.kept.is_empty() {
            return Vec::new();
        }
        random.pick(&self.kept).clone()
    }
}

/// The length of our evidence, and the pieces for a model; for one that is
/// refused 0 and only a few pieces, since its refusal comes first.
pub fn pieces(model: &[u8], random: &mut Random, others: &mut Others) -> (usize, Vec<Piece>) {
    let mut pieces = vec![
        ("another model's", others.pick(random)),
        ("noise", noise(random)),
        ("nearly noise", near_noise(random)),
    ];
    let Ok(read) = second::read_model(model) else {
        return (0, pieces);
    };
    let graph = Graph::new(read);
    let ours = evidence_of(&graph).1;
    let length = ours.len();
    others.keep(&ours);
    let passing = passing(random, &graph);
    push_damaged(
        &mut pieces,
        random,
        model,
        &ours,
        &passing,
        graph.states() > MANY_STATES,
    );
    push_cut(&mut pieces, random, &ours);
    pieces.push(("extended", [&ours[..], &[random.below(256) as u8]].concat()));
    pieces.push(("another model's", others.pick(random)));
    pieces.push(("ours", ours));
    pieces.extend(passing);
    (length, pieces)
}

/// Evidence that is not ours: it passes, or is a trail that at least replays.
fn passing(random: &mut Random, graph: &Graph) -> Vec<Piece> {
    let components = Components::new(graph);
    let mut pieces = vec![
        ("stray trail", stray_trail(random, graph, &components)),
        ("tall sheet", tall_sheet(graph, &components)),
    ];
    for _ in 0..2 {
        let sheet = other_sheet(random, graph, &components);
        pieces.extend(sheet.map(|bytes| ("other sheet", bytes)));
        let trail = other_trail(random, graph, &components);
        pieces.extend(trail.map(|bytes| ("other trail", bytes)));
    }
    pieces
}

/// The marked states in, each height raised as far as the highest can be: the
/// longest of such sheets. It passes where the plan is safe.
fn tall_sheet(graph: &Graph, components: &Components) -> Vec<u8> {
    let marked = marked_set(graph, components);
    let highest = components.height.iter().max().expect("there are states");
    let by = graph.states() as u32 - 1 - highest;
    let number = |state: usize| match graph.allowed[state] {
        true => 2 * (components.height[state] + by) + u32::from(marked[state]),
        false => 0,
    };
    let numbers = (0..graph.states()).map(number);
    shortest(&[1].into_iter().chain(numbers).collect::<Vec<u32>>())
}

/// Changes of ours, of what passes, and changes of changes.
fn push_damaged(
    pieces: &mut Vec<Piece>,
    random: &mut Random,
    model: &[u8],
    ours: &[u8],
    passing: &[Piece],
    few: bool,
) {
    let mut damage = |evidence: &[u8]| mutate(random.bits(), model, evidence).1;
    for _ in 0..if few { 1 } else { 5 } {
        let once = damage(ours);
        pieces.push(("damaged twice", damage(&once)));
        pieces.push(("damaged", once));
    }
    for (_, evidence) in passing {
        pieces.push(("other damaged", damage(evidence)));
    }
    // A level loop is what the sheet rules must find.
    for (label, kind) in [
        ("padded", "pad"),
        ("padded", "pad-many"),
        ("padded and damaged", "pad-order"),
        ("level", "equal"),
        ("raised", "raise"),
    ] {
        let changed = mutate_as(random.bits(), kind, model, ours);
        pieces.extend(changed.map(|bytes| (label, bytes)));
    }
}

/// Ours cut: at every length if it is short.
fn push_cut(pieces: &mut Vec<Piece>, random: &mut Random, ours: &[u8]) {
    let lengths = if ours.len() <= SHORT {
        (0..ours.len()).collect()
    } else {
        vec![random.below(ours.len()), ours.len() - 1]
    };
    pieces.extend(
        lengths
            .iter()
            .map(|&length| ("cut", ours[..length].to_vec())),
    );
}

fn noise(random: &mut Random) -> Vec<u8> {
    let length = random.below(40);
    (0..length).map(|_| random.bits() as u8).collect()
}

/// A sheet's or trail's first number, then small numbers.
fn near_noise(random: &mut Random) -> Vec<u8> {
    let length = random.below(60);
    let most = *random.pick(&[2, 4, 8]);
    let mut bytes = vec![random.range(1, 2) as u8];
    bytes.extend((0..length).map(|_| random.below(most) as u8));
    bytes
}
