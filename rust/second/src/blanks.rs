//! Generated models whose edges close early, so that with mark 2 a blank stay
//! field means less than the ceiling.

use crate::draft::{loop_draft, pick_shape, Draft, Shape};
use crate::generate::{classify, Class, SMALL, TRIES};
use crate::limits::MAX_CLOCKS;
use crate::model::{read_model, Model, CEILING_MARK, EDGES_MARK};
use crate::numbers::{numbers_of, shortest};
use crate::random::Random;
use crate::refusal::{Refusal, ENDS_TOO_SOON};

/// A model of mark 2 with limits below those of mark 1, small enough for the
/// brute-force route. Every other time one is looked for that is safe, while
/// mark 1 would make it unsafe.
pub fn blank_model(random: &mut Random) -> Draft {
    let decides = random.one_in(2);
    for _ in 0..TRIES {
        let clocks = random.range(1, MAX_CLOCKS);
        let small = |shape: &Shape| shape.clocks == clocks && shape.states() <= SMALL;
        let shape = pick_shape(random, small).expect("a size that there is");
        let draft = early_draft(random, &shape, EDGES_MARK);
        let plan = draft.bytes();
        let [one, two] = by_both_marks(&plan).expect("drafts are accepted");
        if one != two && (!decides || is_safe_by_its_mark(&plan)) {
            return draft;
        }
    }
    sure_blank(random)
}

/// What a plan says with mark 1 and with mark 2, if neither is refused: an edge
/// that the limits of mark 2 keep shut may open with those of mark 1.
pub fn by_both_marks(plan: &[u8]) -> Result<[Model; 2], Refusal> {
    let read = |mark| read_model(&with_mark(plan, mark)?);
    Ok([read(CEILING_MARK)?, read(EDGES_MARK)?])
}

/// The shortest spelling of the numbers of a plan with another mark.
pub fn with_mark(plan: &[u8], mark: u32) -> Result<Vec<u8>, Refusal> {
    let mut numbers = numbers_of(plan)?;
    *numbers.first_mut().ok_or(ENDS_TOO_SOON)? = mark;
    Ok(shortest(&numbers))
}

/// Whether a plan is safe with mark 2 and unsafe with mark 1. With mark 2 no
/// limit is greater, so that it is never the other way round.
pub fn is_safe_by_its_mark(plan: &[u8]) -> bool {
    let is_safe = |model: Model| classify(&model) == Class::Safe;
    by_both_marks(plan).is_ok_and(|models| models.map(is_safe) == [false, true])
}

/// A forbidden location that is entered at the ceiling and left at 0.
fn sure_blank(random: &mut Random) -> Draft {
    let roomy = |shape: &Shape| shape.states() <= SMALL && shape.locations > 1;
    let shape = pick_shape(random, roomy).expect("a size that there is");
    let mut draft = Draft::new(&shape);
    (draft.mark, draft.kinds[1]) = (EDGES_MARK, 1);
    let mut enter = draft.open_edge(0, 1, 0);
    enter.guard[0].0 = draft.ceiling;
    let mut leave = draft.open_edge(1, 0, draft.all_clocks());
    leave.guard[0].1 = 0;
    draft.edges = vec![enter, leave];
    draft
}

/// A drawing in which most ways out close below the ceiling, out of forbidden
/// locations too, which are mostly entered late.
pub fn early_draft(random: &mut Random, shape: &Shape, mark: u32) -> Draft {
    let drifts = shape.has_room_for_drift() && random.one_in(2);
    let mut draft = if drifts {
        loop_draft(random, shape, Class::Drift, false)
    } else {
        late_draft(random, shape)
    };
    draft.mark = mark;
    for place in 0..shape.locations {
        // The loop that only drift can leave mostly stays as it is.
        if !drifts || draft.kinds[place] == 1 || random.one_in(6) {
            draft.add_early_ends(random, place);
        }
    }
    draft.draw_stays(random);
    random.shuffle(&mut draft.edges);
    draft
}

/// A forbidden location with late ways in, from the start and from elsewhere.
fn late_draft(random: &mut Random, shape: &Shape) -> Draft {
    let mut draft = Draft::new(shape);
    draft.start = random.below(shape.locations);
    let goal = random.below(shape.locations);
    draft.kinds[goal] = u32::from(goal != draft.start || random.one_in(8));
    for from in [draft.start, random.below(shape.locations)] {
        draft.add_late_way(random, from, goal);
    }
    draft
}

impl Draft {
    /// Adds up to two ways out of a location, loops among them, most of which
    /// close below the ceiling.
    fn add_early_ends(&mut self, random: &mut Random, from: usize) {
        let locations = self.kinds.len();
        for _ in 0..random.below(3) {
            let loops = random.one_in(3);
            let to = if loops { from } else { random.below(locations) };
            let mask = random.below(1 << self.clocks) as u32;
            let mut edge = self.open_edge(from, to, mask);
            for (low, high) in &mut edge.guard {
                if !random.one_in(6) {
                    *high = random.below(self.ceiling as usize) as u32;
                }
                if random.one_in(2) {
                    *low = random.range(0, *high as usize) as u32;
                }
            }
            self.add_edge(edge);
        }
    }

    /// Adds a way into a location that opens late and keeps the clock by which
    /// it does.
    fn add_late_way(&mut self, random: &mut Random, from: usize, to: usize) {
        let clock = random.below(self.clocks);
        let mask = random.below(1 << self.clocks) as u32 & !(1 << clock);
        let mut edge = self.open_edge(from, to, mask);
        edge.guard[clock].0 = random.range(1, self.ceiling as usize) as u32;
        self.add_edge(edge);
    }

    /// Stay fields of every form: blank, M+1, what a blank one means spelt out,
    /// any other.
    fn draw_stays(&mut self, random: &mut Random) {
        let blanks = self.spelt_out_blanks().concat();
        for (stay, blank) in self.stays.iter_mut().flatten().zip(blanks) {
            *stay = match random.below(8) {
                0 => self.ceiling + 1,
                1 => blank,
                2 => random.range(0, self.ceiling as usize + 1) as u32,
                _ => 0,
            };
        }
    }
}
