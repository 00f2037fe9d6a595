//! Models whose evidence has large numbers, which random drawings hardly
//! ever give: locations in a row, in each of which much time passes, so that
//! heights are large; and the row closed to a loop, whose walks are long.

use second::draft::{pick_shape, Draft, DraftEdge, Shape};
use second::random::Random;
use second::read_model;

/// A plan whose trail touches a loop of 183 steps: no drawing by chance has
/// given a trail with a number of two bytes.
const WINDING: [u8; 128] = [
    1, 2, 4, 8, 14, 0, //
    0, 0, 0, 0, 0, 0, 0, 0, 0, 0, 0, 0, 0, 0, 0, 0, 0, 0, 0, 0, 0, 1, 0, 0, //
    5, 2, 1, 4, 4, 0, 4, 2, 3, 2, 0, 4, 4, 4, 3, 5, 1, 4, 4, 0, 4, //
    6, 0, 2, 0, 4, 4, 4, 5, 6, 1, 0, 1, 1, 4, 1, 6, 3, 4, 4, 2, 4, //
    4, 1, 1, 3, 4, 0, 3, 0, 5, 0, 0, 4, 1, 1, 1, 4, 2, 0, 4, 4, 4, //
    4, 7, 3, 1, 4, 0, 4, 5, 1, 0, 0, 4, 0, 4, 0, 3, 3, 4, 4, 0, 4, //
    3, 4, 3, 0, 0, 0, 4, 2, 1, 3, 0, 4, 0, 4,
];

/// The place of the start location in its bytes.
const START: usize = 5;

/// A row, or the winding plan from any of its locations.
pub fn long(random: &mut Random) -> Vec<u8> {
    if !random.one_in(8) {
        return row(random);
    }
    let mut model = WINDING;
    model[START] = random.below(8) as u8;
    model.to_vec()
}

/// The bytes of a row.
fn row(random: &mut Random) -> Vec<u8> {
    let shape = pick_shape(random, is_long).expect("there are long shapes");
    let mut draft = Draft::new(&shape);
    let last = shape.locations - 1;
    let order = clock_order(random, &shape);
    for place in 0..last - 1 {
        let clock = order[place % order.len()];
        let edge = waiting_edge(random, &draft, (place, place + 1), clock);
        draft.edges.push(edge);
    }
    let clock = order[(last - 1) % order.len()];
    let leave = leaving_edge(random, &draft, (last - 1, last), clock);
    draft.edges.push(leave);
    if random.one_in(2) {
        close(random, &mut draft, last - 1, clock);
    }
    draft.kinds[last] = u32::from(random.one_in(2));
    draft.bytes()
}

fn is_long(shape: &Shape) -> bool {
    shape.clocks >= 2 && shape.ceiling >= 3 && shape.locations >= 5
}

/// The order in which the clocks are waited for and reset.
fn clock_order(random: &mut Random, shape: &Shape) -> Vec<usize> {
    let mut order: Vec<usize> = (0..shape.clocks).collect();
    random.shuffle(&mut order);
    order
}

/// An edge that waits for a clock to be late and resets it.
fn waiting_edge(
    random: &mut Random,
    draft: &Draft,
    (from, to): (usize, usize),
    clock: usize,
) -> DraftEdge {
    let mut edge = draft.open_edge(from, to, 1 << clock);
    let early = draft.ceiling as usize / 2;
    edge.guard[clock].0 = random.range(early, draft.ceiling as usize) as u32;
    edge
}

/// An edge out of the row: one clock late, another just reset.
fn leaving_edge(
    random: &mut Random,
    draft: &Draft,
    places: (usize, usize),
    clock: usize,
) -> DraftEdge {
    let mut edge = waiting_edge(random, draft, places, clock);
    let other = (clock + 1) % draft.clocks;
    edge.guard[other].1 = random.below(2) as u32;
    edge
}

/// Closes the row to a loop. Where that leaves a clock unreset, the edge
/// resets all.
fn close(random: &mut Random, draft: &mut Draft, last: usize, clock: usize) {
    let first = random.below(2);
    let back = waiting_edge(random, draft, (last, first), clock);
    draft.edges.push(back);
    if read_model(&draft.bytes()).is_err() {
        draft.edges.last_mut().expect("just added").mask = draft.all_clocks();
    }
}

#[cfg(test)]
mod tests {
    use super::*;
    use second::calls::evidence_of;
    use second::graph::Graph;

    fn evidence(model: &[u8]) -> Vec<u8> {
        let read = read_model(model).expect("an accepted model");
        evidence_of(&Graph::new(read)).1
    }

    fn is_wide(model: &[u8]) -> bool {
        evidence(model).iter().any(|&byte| byte >= 0x80)
    }

    #[test]
    fn rows_have_large_numbers() {
        let rows = (0..100).map(|seed| row(&mut Random::with_word(seed, "row")));
        assert!(rows.filter(|model| is_wide(model)).count() >= 5);
    }

    #[test]
    fn the_winding_plan_has_a_large_number() {
        assert_eq!(evidence(&WINDING)[0], 2);
        assert!(is_wide(&WINDING));
    }
}
