//! Evidence that passes and is not ours: sheets with other heights or with
//! more states in, trails that wander. Also trails that replay and end
//! anywhere. All are in shortest form, without which nothing passes. Nothing
//! here takes part in an answer of the checker.

use crate::components::Components;
use crate::graph::{Graph, Step, FACE, JUMP, TIME, TOUCH};
use crate::marking::{distance_to_forbidden, is_unsafe, with_touch, CornerNotes, UNREACHED};
use crate::numbers::shortest;
use crate::random::Random;
use crate::sheet::SHEET;
use crate::trail::{spell_trail, TrailStep};

/// A wandering trail may take so many steps before it heads for its end.
const ASTRAY: usize = 12;

/// A sheet that passes; none for an unsafe model.
pub fn other_sheet(random: &mut Random, graph: &Graph, components: &Components) -> Option<Vec<u8>> {
    let marked = closed_from(graph, components, &[graph.start]);
    if is_unsafe(graph, &marked) {
        return None;
    }
    let is_in = if random.one_in(3) {
        marked
    } else {
        more_in(random, graph, components, marked)
    };
    let numbers = sheet_numbers(random, graph, components, &is_in);
    Some(shortest(&numbers))
}

/// The smallest set with these allowed states that is closed under all four
/// steps: it leaves no loop outside that it touches.
fn closed_from(graph: &Graph, components: &Components, begin: &[usize]) -> Vec<bool> {
    let mut is_in = vec![false; graph.states()];
    let mut noted = CornerNotes::new(graph);
    let mut waiting = begin.to_vec();
    while let Some(state) = waiting.pop() {
        if is_in[state] || !graph.allowed[state] {
            continue;
        }
        is_in[state] = true;
        let base = graph.base_of(state);
        let faces = graph.regions.faces[graph.region_of(state)].iter();
        waiting.extend(graph.steps(state).iter().map(|step| step.to as usize));
        waiting.extend(faces.map(|face| base + face));
        noted.for_new_corners(graph, state, |near| {
            if components.on_cycle[near] {
                waiting.push(near);
            }
        });
    }
    is_in
}

/// A larger closed set without forbidden states, if a few tries find one.
fn more_in(
    random: &mut Random,
    graph: &Graph,
    components: &Components,
    marked: Vec<bool>,
) -> Vec<bool> {
    let mut is_in = marked;
    let mut begin = vec![graph.start];
    for _ in 0..random.range(1, 4) {
        begin.push(random.below(graph.states()));
        let larger = closed_from(graph, components, &begin);
        if is_unsafe(graph, &larger) {
            begin.pop();
        } else {
            is_in = larger;
        }
    }
    is_in
}

/// Any rise of our heights that keeps their order does. The in-states may
/// also lie flat at 0: nothing leads out of them.
fn sheet_numbers(
    random: &mut Random,
    graph: &Graph,
    components: &Components,
    is_in: &[bool],
) -> Vec<u32> {
    let flat = random.one_in(4);
    let highest = components.height.iter().max().copied().unwrap_or(0);
    let risen = rise(random, highest as usize, graph.states() - 1);
    let mut numbers = vec![SHEET];
    numbers.extend((0..graph.states()).map(|state| {
        if !graph.allowed[state] || (flat && is_in[state]) {
            return u32::from(is_in[state]);
        }
        2 * risen[components.height[state] as usize] + u32::from(is_in[state])
    }));
    numbers
}

/// Ascending heights up to `most`, one for each height up to `highest`.
fn rise(random: &mut Random, highest: usize, most: usize) -> Vec<u32> {
    let spare = *random.pick(&[0, 1.min(most - highest), most - highest]);
    let mut more: Vec<usize> = (0..=highest).map(|_| random.range(0, spare)).collect();
    more.sort();
    if random.one_in(2) {
        more[highest] = spare;
    }
    more.iter()
        .enumerate()
        .map(|(height, more)| (height + more) as u32)
        .collect()
}

/// A trail that passes; none for a safe model.
pub fn other_trail(random: &mut Random, graph: &Graph, components: &Components) -> Option<Vec<u8>> {
    let distance = distance_to_forbidden(graph, with_touch(components), &graph.reversed());
    if distance[graph.start] == UNREACHED {
        return None;
    }
    Some(wander(random, graph, components, Some(&distance)))
}

/// A trail whose steps all replay, wherever it ends.
pub fn stray_trail(random: &mut Random, graph: &Graph, components: &Components) -> Vec<u8> {
    wander(random, graph, components, None)
}

/// Random steps from the start; with distances, on to a forbidden location.
fn wander(
    random: &mut Random,
    graph: &Graph,
    components: &Components,
    distance: Option<&[u32]>,
) -> Vec<u8> {
    let mut trail = Vec::new();
    let mut astray = random.below(ASTRAY + 1);
    let mut state = graph.start;
    loop {
        let left = distance.map_or(0, |distance| distance[state]);
        if astray == 0 && left == 0 {
            return spell_trail(graph, &trail);
        }
        let nearer = astray == 0 || random.one_in(2);
        astray = astray.saturating_sub(1);
        let mut steps = all_steps(graph, components, state);
        if let Some(distance) = distance {
            let farthest = if nearer {
                left.saturating_sub(1)
            } else {
                UNREACHED - 1
            };
            steps.retain(|step| distance[step.to as usize] <= farthest);
        }
        if steps.is_empty() {
            continue;
        }
        let step = *random.pick(&steps);
        state = step.to as usize;
        trail.push(trail_step(random, graph, &step));
    }
}

/// The steps of all four kinds from an allowed state.
fn all_steps(graph: &Graph, components: &Components, state: usize) -> Vec<Step> {
    let base = graph.base_of(state);
    let region = graph.region_of(state);
    let mut steps = graph.steps(state).to_vec();
    let mut push = |region: usize, kind: u8| {
        steps.push(Step {
            to: (base + region) as u32,
            kind,
            edge: 0,
        })
    };
    for &face in &graph.regions.faces[region] {
        push(face, FACE);
    }
    for near in graph.regions.near(region) {
        if components.on_cycle[base + near] {
            push(near, TOUCH);
        }
    }
    steps.retain(|step| graph.allowed[step.to as usize]);
    steps
}

/// A step as a trail has it: a touch goes its walk one to three times.
fn trail_step(random: &mut Random, graph: &Graph, step: &Step) -> TrailStep {
    let to = step.to as usize;
    let region = graph.region_of(to);
    match step.kind {
        TIME => TrailStep::Time,
        JUMP => TrailStep::Jump(step.edge.into()),
        FACE => TrailStep::Face(region),
        _ => {
            let walk = closed_walk(random, graph, to);
            TrailStep::Touch(region, vec![walk; random.range(1, 3)].concat())
        }
    }
}

/// A closed walk from a state that lies on one, as short as any. A breadth-
/// first search that looks at steps in random order finds different ones.
fn closed_walk(random: &mut Random, graph: &Graph, home: usize) -> Vec<TrailStep> {
    let mut came: Vec<Option<(usize, Step)>> = vec![None; graph.states()];
    let mut queue = vec![home];
    let mut at = 0;
    while came[home].is_none() {
        let state = queue[at];
        at += 1;
        let mut steps = graph.steps(state).to_vec();
        random.shuffle(&mut steps);
        for step in steps {
            let from = &mut came[step.to as usize];
            if from.is_none() {
                *from = Some((state, step));
                queue.push(step.to as usize);
            }
        }
    }
    let mut walk = Vec::new();
    let mut state = home;
    while walk.is_empty() || state != home {
        let (from, step) = came[state].expect("the search came this way");
        walk.push(trail_step(random, graph, &step));
        state = from;
    }
    walk.reverse();
    walk
}

#[cfg(test)]
mod tests {
    use super::*;
    use crate::check::check;
    use crate::generate::generate;
    use crate::model::read_model;

    /// Some small models of all classes, each with its components.
    fn for_models(mut test: impl FnMut(&mut Random, &Graph, &Components)) {
        for seed in 0..60 {
            let model = read_model(&generate(seed, "small").unwrap()).unwrap();
            let graph = Graph::new(model);
            let components = Components::new(&graph);
            test(&mut Random::new(seed), &graph, &components);
        }
    }

    #[test]
    fn other_evidence_passes() {
        let (mut sheets, mut trails) = (0, 0);
        for_models(|random, graph, components| {
            if let Some(sheet) = other_sheet(random, graph, components) {
                assert_eq!(check(graph, &sheet), Ok(1));
                sheets += 1;
            }
            if let Some(trail) = other_trail(random, graph, components) {
                assert_eq!(check(graph, &trail), Ok(2));
                trails += 1;
            }
        });
        assert!(sheets > 10 && trails > 10);
        assert_eq!(sheets + trails, 60);
    }

    #[test]
    fn stray_trails_replay() {
        for_models(|random, graph, components| {
            let trail = stray_trail(random, graph, components);
            assert!(matches!(check(graph, &trail), Ok(2) | Err(14)));
        });
    }
}
