//! One run that follows a trail, with a value for each clock at each moment:
//! regions say only between which whole numbers a clock stands, so values in
//! the middle are taken.

use plan::tell::story::{loop_name, Event, Part, Story};
use plan::trail::start_of;
use plan::Plan;
use second::regions::Region;

/// A piece of the time line.
#[derive(Clone, Debug, PartialEq)]
pub enum Piece {
    Stay(Stay),
    /// What cannot be shown in time, in short words.
    Break(Vec<String>),
}

/// The time from one jump to the next, or to a break.
#[derive(Clone, Debug, PartialEq)]
pub struct Stay {
    pub location: usize,
    /// The clocks at its beginning.
    pub clocks: Vec<f64>,
    /// How long it takes in this run, and in words what others take.
    pub length: f64,
    pub words: String,
    /// The edge that ends it.
    pub jump: Option<usize>,
    /// Whether it belongs to a turn of a loop.
    pub in_turn: bool,
}

/// What a stay takes that no wait belongs to.
const NO_TIME: &str = "0";

/// The pieces of a story, the last one being the forbidden location.
pub fn pieces(plan: &Plan, story: &Story) -> Vec<Piece> {
    let start = start_of(plan);
    let mut run = Run {
        plan,
        pieces: Vec::new(),
        stay: Stay {
            location: start.location,
            clocks: vec![0.0; plan.clocks.len()],
            length: 0.0,
            words: NO_TIME.to_string(),
            jump: None,
            in_turn: false,
        },
    };
    run.follow(&story.parts);
    run.pieces.push(Piece::Stay(run.stay));
    run.pieces
}

struct Run<'a> {
    plan: &'a Plan,
    pieces: Vec<Piece>,
    /// The stay that lasts.
    stay: Stay,
}

impl Run<'_> {
    fn follow(&mut self, parts: &[Part]) {
        for part in parts {
            match &part.event {
                Event::Wait => self.wait(part),
                Event::Jump(edge) => self.jump(*edge),
                Event::Face => self.break_off(&["within", "a hair"], &part.to.region),
                Event::Drift { number, turn } => {
                    let name = loop_name(*number);
                    self.break_off(&["many", "turns of", &name], &part.to.region);
                    self.stay.location = part.to.location;
                    self.turn(turn);
                }
            }
        }
    }

    fn turn(&mut self, parts: &[Part]) {
        self.stay.in_turn = true;
        self.follow(parts);
        self.end_stay(None);
        self.stay.in_turn = false;
    }

    fn wait(&mut self, part: &Part) {
        self.stay.length = middle_wait(&self.stay.clocks, &part.to.region);
        let (least, most) = part.wait(self.plan.clocks.len());
        self.stay.words = match least == most {
            true => least.to_string(),
            false => format!("{least}-{most}"),
        };
    }

    fn jump(&mut self, number: usize) {
        self.end_stay(Some(number));
        let edge = &self.plan.edges[number];
        self.stay.location = edge.to;
        for (at, clock) in self.stay.clocks.iter_mut().enumerate() {
            if edge.resets >> at & 1 == 1 {
                *clock = 0.0;
            }
        }
    }

    /// Ends the stay here; another begins in the same moment. One that took no
    /// time and led nowhere is left out, but for the start.
    fn end_stay(&mut self, jump: Option<usize>) {
        let mut next = self.stay.clone();
        next.length = 0.0;
        next.words = NO_TIME.to_string();
        next.clocks
            .iter_mut()
            .for_each(|clock| *clock += self.stay.length);
        let mut ended = std::mem::replace(&mut self.stay, next);
        ended.jump = jump;
        if jump.is_some() || ended.length > 0.0 || self.pieces.is_empty() {
            self.pieces.push(Piece::Stay(ended));
        }
    }

    /// Goes on from some point of a region.
    fn break_off(&mut self, words: &[&str], region: &Region) {
        self.end_stay(None);
        let words = words.iter().map(|word| word.to_string());
        self.pieces.push(Piece::Break(words.collect()));
        self.stay.clocks = point_of(region, self.plan.clocks.len());
    }
}

/// A point of a region: its fractions are spread evenly.
fn point_of(region: &Region, clocks: usize) -> Vec<f64> {
    let parts = f64::from(region.top_rank()) + 1.0;
    let value = |at: usize| f64::from(region.whole[at]) + f64::from(region.rank[at]) / parts;
    (0..clocks).map(value).collect()
}

/// The wait from these values into a region, the middle one where there are
/// several.
fn middle_wait(clocks: &[f64], region: &Region) -> f64 {
    let ends = clocks.iter().enumerate().map(|(at, clock)| {
        let least = f64::from(region.whole[at]) - clock;
        let room = if region.rank[at] == 0 { 0.0 } else { 1.0 };
        (least, least + room)
    });
    let (least, most) = ends.fold((0.0, f64::MAX), |(least, most): (f64, f64), (low, high)| {
        (least.max(low), most.min(high))
    });
    (least + most) / 2.0
}

#[cfg(test)]
mod tests {
    use super::*;
    use plan::bytes::decode;
    use plan::trail::read_trail;
    use second::generate::generate;
    use second::limits::MAX_STATES;

    /// The plan with its story, if the second checker writes a trail for it.
    fn story(kind: &str, seed: u64) -> Option<(Plan, Story)> {
        let model = generate(seed, kind)?;
        let mut out = vec![0; 1 << 16];
        let (_, written) = second::write_evidence(&model, [MAX_STATES; 4], &mut out).ok()?;
        let plan = decode(&model).ok()?;
        let reading = read_trail(&plan, &out[..written]);
        let story = Story::of(&reading.steps);
        reading.flaw.is_none().then_some((plan, story))
    }

    /// Whether perfect clocks can stay so and leave as the stay says.
    fn is_possible(plan: &Plan, stay: &Stay) -> bool {
        const HAIR: f64 = 1e-9;
        let clocks = stay.clocks.iter().map(|clock| clock + stay.length);
        clocks.enumerate().all(|(at, clock)| {
            let limit = plan.limit(stay.location, at);
            let guard = stay.jump.map(|edge| plan.edges[edge].guard[at]);
            let (low, high) = guard.unwrap_or((0, plan.ceiling));
            let most = f64::from(limit.min(high)) + HAIR;
            (f64::from(low) - HAIR..=most).contains(&clock)
        })
    }

    #[test]
    fn stays_keep_the_limits() {
        let mut jumps = 0;
        for kind in ["tiny", "small", "drift", "clocks-3", "blank"] {
            for (plan, story) in (0..60).filter_map(|seed| story(kind, seed)) {
                for piece in pieces(&plan, &story) {
                    let Piece::Stay(stay) = piece else {
                        continue;
                    };
                    jumps += usize::from(stay.jump.is_some());
                    assert!(is_possible(&plan, &stay), "{kind} {stay:?} {plan:?}");
                }
            }
        }
        assert!(jumps > 500, "{jumps}");
    }

    #[test]
    fn stays_follow_each_other() {
        for (plan, story) in (0..60).filter_map(|seed| story("drift", seed)) {
            let pieces = pieces(&plan, &story);
            for pair in pieces.windows(2) {
                let [Piece::Stay(one), Piece::Stay(next)] = pair else {
                    continue;
                };
                let to = one.jump.map_or(one.location, |edge| plan.edges[edge].to);
                assert_eq!(to, next.location);
            }
            let Some(Piece::Stay(last)) = pieces.last() else {
                panic!("a time line ends with a stay")
            };
            assert!(plan.locations[last.location].forbidden);
        }
    }
}
