//! Trails and closed walks as whole lists of labelled steps, ordered as
//! document 01 says: fewest steps, then states, then kinds, then edges.

use super::states::{Label, States};

/// The order among equally long lists.
pub fn key(labels: &[Label]) -> (Vec<usize>, Vec<u32>, Vec<usize>) {
    (
        labels.iter().map(|label| label.to).collect(),
        labels.iter().map(|label| label.kind).collect(),
        labels
            .iter()
            .filter(|label| label.kind == 1)
            .map(|label| label.edge)
            .collect(),
    )
}

/// The least list of steps from a state to an end, among those with the
/// fewest steps, at least `least_steps`. The best lists of each length, from
/// every state, come from those that are one shorter.
fn least_list(
    states: &States,
    from: usize,
    least_steps: usize,
    kinds: std::ops::Range<u32>,
    is_end: impl Fn(usize) -> bool,
) -> Vec<Label> {
    let count = states.list.len();
    let mut best: Vec<Option<Vec<Label>>> = (0..count)
        .map(|state| (states.allowed[state] && is_end(state)).then(Vec::new))
        .collect();
    let mut length = 0;
    while length < least_steps || best[from].is_none() {
        assert!(length <= count, "no list of steps leads there");
        let longer = |state: usize| -> Option<Vec<Label>> {
            states.steps[state]
                .iter()
                .filter(|label| kinds.contains(&label.kind))
                .filter_map(|label| Some([&[*label], best[label.to].as_ref()?.as_slice()].concat()))
                .min_by_key(|labels| key(labels))
        };
        best = (0..count).map(longer).collect();
        length += 1;
    }
    best[from].take().expect("found")
}

/// The least trail of an unsafe model.
pub fn least_trail(states: &States) -> Vec<Label> {
    least_list(states, states.start, 0, 0..4, |state| {
        states.forbidden[state]
    })
}

/// The least one of those without a touch.
pub fn least_touchless_trail(states: &States) -> Vec<Label> {
    least_list(states, states.start, 0, 0..3, |state| {
        states.forbidden[state]
    })
}

/// The least closed walk of time and jump steps from a state.
pub fn least_walk(states: &States, home: usize) -> Vec<Label> {
    least_list(states, home, 1, 0..2, |state| state == home)
}

/// Every list of exactly `length` steps from a state to an end. None if more
/// than `most` lists would have to be looked at.
pub fn all_lists(
    states: &States,
    from: usize,
    length: usize,
    kinds: std::ops::Range<u32>,
    is_end: &dyn Fn(usize) -> bool,
    most: &mut usize,
) -> Option<Vec<Vec<Label>>> {
    if *most == 0 {
        return None;
    }
    *most -= 1;
    if length == 0 {
        return Some(if is_end(from) {
            vec![Vec::new()]
        } else {
            Vec::new()
        });
    }
    let mut all = Vec::new();
    for label in states.steps[from]
        .iter()
        .filter(|label| kinds.contains(&label.kind))
    {
        for rest in all_lists(states, label.to, length - 1, kinds.clone(), is_end, most)? {
            all.push([&[*label], rest.as_slice()].concat());
        }
    }
    Some(all)
}

/// The least list found by looking at all lists, shorter ones first.
pub fn least_of_all(
    states: &States,
    from: usize,
    least_steps: usize,
    kinds: std::ops::Range<u32>,
    is_end: &dyn Fn(usize) -> bool,
    mut most: usize,
) -> Option<Vec<Label>> {
    let mut length = least_steps;
    loop {
        let all = all_lists(states, from, length, kinds.clone(), is_end, &mut most)?;
        if let Some(least) = all.into_iter().min_by_key(|labels| key(labels)) {
            return Some(least);
        }
        length += 1;
    }
}

/// The numbers of a trail whose touches carry the given walks.
pub fn spell(states: &States, trail: &[Label], walk: impl Fn(usize) -> Vec<Label>) -> Vec<u32> {
    let mut numbers = vec![2, trail.len() as u32];
    for label in trail {
        numbers.extend(spell_step(states, label));
        if label.kind == 3 {
            let walk = walk(label.to);
            numbers.push(walk.len() as u32);
            numbers.extend(walk.iter().flat_map(|label| spell_step(states, label)));
        }
    }
    numbers
}

fn spell_step(states: &States, label: &Label) -> Vec<u32> {
    let (whole, rank) = &states.regions.list[states.list[label.to].1];
    match label.kind {
        0 => vec![0],
        1 => vec![1, label.edge as u32],
        kind => [&[kind], whole.as_slice(), rank.as_slice()].concat(),
    }
}
