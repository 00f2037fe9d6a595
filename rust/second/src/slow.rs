//! Generated models in which some location takes long to get to, often by more
//! jumps than it might: loops that count turns by the distance of two clocks,
//! waits in a row, late ways beside sooner ones of more jumps, and ways in that
//! the mark decides about.

use crate::draft::{random_mark, Draft, Shape};
use crate::random::Random;

/// Room for a way of two jumps beside one of a single jump.
pub fn has_room(shape: &Shape) -> bool {
    shape.locations >= 3
}

/// Room for a loop that counts: two clocks, its three locations, and one to
/// leave for.
fn has_room_to_count(shape: &Shape) -> bool {
    shape.clocks >= 2 && shape.locations >= 4
}

/// A drawing from whose start the waits follow each other.
pub fn slow_draft(random: &mut Random, shape: &Shape) -> Draft {
    let mut draft = Draft::new(shape);
    draft.mark = random_mark(random);
    let mut places: Vec<usize> = (0..shape.locations).collect();
    random.shuffle(&mut places);
    draft.start = places[0];
    let mut row = &places[..];
    if has_room_to_count(shape) && !random.one_in(3) {
        draft.add_counter(random, row);
        row = &row[3..];
    }
    while let [here, next, rest @ ..] = row {
        match rest.first() {
            Some(&last) if random.one_in(2) => {
                draft.add_late_beside_sooner(random, [*here, *next, last]);
                row = rest;
            }
            None if random.one_in(2) => {
                draft.add_two_entries(random, *here, *next);
                row = rest;
            }
            _ => {
                draft.add_wait(random, *here, *next, 1);
                row = &row[1..];
            }
        }
    }
    draft.add_spare_parts(random);
    draft
}

impl Draft {
    /// A loop of three locations that puts two clocks a unit further apart with
    /// each turn, and is left for the fourth at some distance.
    fn add_counter(&mut self, random: &mut Random, places: &[usize]) {
        let mut clocks: Vec<usize> = (0..self.clocks).collect();
        random.shuffle(&mut clocks);
        let (one, other) = (clocks[0], clocks[1]);
        let third = clocks.get(2).map_or(0, |clock| 1u32 << clock);
        let [a, b, c, goal] = [0, 1, 2, 3].map(|at| places[at]);
        let turns = random.range(1, self.ceiling as usize) as u32;
        let full = self.ceiling;
        for (from, to, clock, value) in [(a, b, one, 1), (b, c, other, full), (c, a, one, full)] {
            let mut edge = self.open_edge(from, to, 1 << clock | third);
            edge.guard[clock] = (value, value);
            self.add_edge(edge);
        }
        let mut leave = self.open_edge(a, goal, self.all_clocks());
        leave.guard[one] = (0, 0);
        leave.guard[other] = (turns, turns);
        self.add_edge(leave);
    }

    /// A wait of so many units at least; most begin all clocks anew.
    fn add_wait(&mut self, random: &mut Random, from: usize, to: usize, least: u32) {
        let clock = random.below(self.clocks);
        let some = random.below(1 << self.clocks) as u32;
        let mask = *random.pick(&[self.all_clocks(), self.all_clocks(), some]);
        let mut edge = self.open_edge(from, to, mask);
        let low = random.range(least as usize, self.ceiling as usize) as u32;
        edge.guard[clock] = (low, *random.pick(&[low, self.ceiling]));
        self.add_edge(edge);
    }

    /// A late way past a location, and a way over it that is mostly sooner.
    fn add_late_beside_sooner(&mut self, random: &mut Random, [from, over, to]: [usize; 3]) {
        self.add_wait(random, from, to, self.ceiling);
        let mask = random.below(1 << self.clocks) as u32;
        let first = self.open_edge(from, over, mask);
        self.add_edge(first);
        let least = u32::from(random.one_in(2));
        self.add_wait(random, over, to, least);
    }

    /// Two ways into a location whose only way out closes before the sooner of
    /// them opens: with mark 2 a blank stay field leaves only the later one.
    fn add_two_entries(&mut self, random: &mut Random, from: usize, to: usize) {
        let clock = random.below(self.clocks);
        let sooner = random.range(1, 1.max(self.ceiling as usize - 1)) as u32;
        let mut enter = self.open_edge(from, to, self.all_clocks() & !(1 << clock));
        enter.guard[clock] = (sooner, sooner);
        self.add_edge(enter);
        self.add_wait(random, from, to, self.ceiling.min(sooner + 1));
        let mut leave = self.open_edge(to, from, self.all_clocks());
        leave.guard[clock].1 = sooner - 1;
        self.add_edge(leave);
    }

    /// Kinds, a few further edges, stay limits.
    fn add_spare_parts(&mut self, random: &mut Random) {
        for place in 0..self.kinds.len() {
            let rarely = if place == self.start { 16 } else { 4 };
            self.kinds[place] = u32::from(random.one_in(rarely));
        }
        let count = random.below(3);
        self.add_random_edges(random, count);
        let narrow = random.one_in(4);
        self.vary_stays(random, narrow);
        random.shuffle(&mut self.edges);
    }
}
