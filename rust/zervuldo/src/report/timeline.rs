//! The clocks of a trail over time, drawn: a lane for each clock with its
//! value and resets, and below them the locations as bands. Rows are broken
//! so that they fit on a page.

mod row;
mod run;

use super::html::{element, Html};
use crate::units::units_words;
use plan::svg::{Svg, LETTER};
use plan::tell::story::Story;
use plan::Plan;
use row::{Placed, Row};
use run::{pieces, Piece};

/// The width of the drawing, which a page of A4 shows at full size.
const WIDTH: f64 = 668.0;
/// The widths of a unit of time, of the shortest stay, and of a break.
const UNIT: f64 = 64.0;
const SHORTEST: f64 = 28.0;
const BREAK: f64 = 96.0;
/// The heights of a unit of a clock's value, and of all lanes at least.
const VALUE: f64 = 16.0;
const LEAST_LANES: f64 = 60.0;
/// The room between lanes, and around texts.
const GAP: f64 = 12.0;
const PAD: f64 = 5.0;

/// The drawing with what is to be known to read it.
pub fn figure(plan: &Plan, story: &Story) -> Html {
    let rows = draw(plan, &pieces(plan, story));
    let unit = units_words(plan, 1).map_or(String::new(), |real| format!(" of {real}"));
    let turns = match story.loops.is_empty() {
        true => "",
        false => " After many turns of a loop the last one is shown, with a dashed line below it.",
    };
    let caption = format!(
        "Time runs from left to right. Below each location stand the units{unit} that the stay \
         can take; the lines show one such time. An arrow sets a clock to 0; a dotted line takes \
         no time.{turns}"
    );
    element("figure", [rows, element("figcaption", caption)])
}

/// A drawing for each row, so that a page may end between them.
fn draw(plan: &Plan, pieces: &[Piece]) -> Html {
    let scale = Scale::of(plan);
    let rows = scale.rows(pieces);
    let count = rows.len();
    let drawings = (1..).zip(&rows).map(|(number, placed)| {
        let shows = format!("time line of the clocks, row {number} of {count}");
        let row = Row::new(&scale, placed);
        let mut svg = Svg::new();
        row.draw(&mut svg);
        Html::as_is(&svg.finished(WIDTH, row.end(), &shows))
    });
    drawings.collect()
}

/// The measures of a plan's time line.
struct Scale<'a> {
    plan: &'a Plan,
    /// Where the lanes begin.
    left: f64,
    /// The height of a unit of a clock's value.
    value: f64,
}

impl<'a> Scale<'a> {
    fn of(plan: &'a Plan) -> Scale<'a> {
        let names = plan.clocks.iter().map(|name| width(name));
        let values = plan.clocks.len() as f64 * f64::from(plan.ceiling);
        Scale {
            plan,
            left: names.fold(0.0, f64::max) + 4.0 * PAD + LETTER,
            value: (LEAST_LANES / values).max(VALUE),
        }
    }

    /// The pieces side by side, in as many rows as they need.
    fn rows<'p>(&self, pieces: &'p [Piece]) -> Vec<Vec<Placed<'p>>> {
        let mut rows: Vec<Vec<Placed>> = vec![Vec::new()];
        let mut left = self.left;
        for piece in pieces {
            let width = self.width_of(piece);
            if left + width > WIDTH - PAD && left > self.left {
                rows.push(Vec::new());
                left = self.left;
            }
            let right = left + width;
            let row = rows.last_mut().expect("there is a first row");
            row.push(Placed { left, right, piece });
            left = right;
        }
        rows
    }

    fn width_of(&self, piece: &Piece) -> f64 {
        let Piece::Stay(stay) = piece else {
            return BREAK;
        };
        let location = &self.plan.locations[stay.location];
        match location.forbidden {
            true => width(&location.name) + 4.0 * PAD,
            false => (stay.length * UNIT).max(SHORTEST),
        }
    }

    /// The height of all lanes.
    fn lanes(&self) -> f64 {
        self.lane(self.plan.clocks.len()) - GAP
    }

    /// The top of a lane, below the top of the first.
    fn lane(&self, clock: usize) -> f64 {
        clock as f64 * (self.value * f64::from(self.plan.ceiling) + GAP)
    }

    /// Where a clock has a value, below the top of the first lane.
    fn level(&self, clock: usize, value: f64) -> f64 {
        self.lane(clock) + self.value * (f64::from(self.plan.ceiling) - value)
    }
}

fn width(text: &str) -> f64 {
    text.chars().count() as f64 * LETTER
}
