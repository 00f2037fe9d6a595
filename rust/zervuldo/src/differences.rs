//! Where two plans differ, in the order of their bytes. This is found by code
//! that is not proved; whether they differ at all is for their shortest forms
//! to say.

use crate::json::Json;
use plan::{Plan, BY_LAST_EDGE};
use second::model::Field;
use std::ops::Range;

/// Something that two plans do not have in common.
#[derive(Clone, Copy, Debug, PartialEq, Eq)]
pub enum Difference {
    /// A number that is another in the other plan.
    Number(Field),
    /// A part that only one of them has.
    Part(Part),
}

/// A part of a plan by its number, counted from 0.
#[derive(Clone, Copy, Debug, PartialEq, Eq)]
pub enum Part {
    Clock(usize),
    Location(usize),
    Edge(usize),
}

/// Two plans side by side.
pub struct Pair<'a> {
    first: &'a Plan,
    second: &'a Plan,
    /// The second with the names of the first.
    renamed: Plan,
}

impl<'a> Pair<'a> {
    pub fn new(first: &'a Plan, second: &'a Plan) -> Pair<'a> {
        Pair {
            first,
            second,
            renamed: renamed(second, first),
        }
    }

    /// All differences. Of what only one plan has, nothing more is looked at.
    pub fn differences(&self) -> Vec<Difference> {
        let (clocks, more_clocks) = self.span(|plan| plan.clocks.len());
        let (locations, more_locations) = self.span(|plan| plan.locations.len());
        let (edges, more_edges) = self.span(|plan| plan.edges.len());
        let fields = |fields: Vec<Field>| {
            let differing = fields.into_iter().filter(|field| self.differ(*field));
            differing.map(Difference::Number).collect::<Vec<_>>()
        };
        let parts = |numbers: Range<usize>, part: fn(usize) -> Part| {
            let parts = numbers.map(part);
            parts.map(Difference::Part).collect::<Vec<_>>()
        };
        let of_location = |location| location_fields(location, clocks.clone());
        let of_edge = |edge| edge_fields(edge, clocks.clone());
        [
            fields(HEADER.to_vec()),
            parts(more_clocks, Part::Clock),
            fields(locations.flat_map(of_location).collect()),
            parts(more_locations, Part::Location),
            fields(edges.flat_map(of_edge).collect()),
            parts(more_edges, Part::Edge),
        ]
        .concat()
    }

    /// The numbers of parts that both have, and of those that only one has.
    fn span(&self, count: fn(&Plan) -> usize) -> (Range<usize>, Range<usize>) {
        let (one, other) = (count(self.first), count(self.second));
        let both = one.min(other);
        (0..both, both..one.max(other))
    }

    /// Whether a number that both have differs. Two ceilings are told once, and
    /// not again with each limit that is at them; so is a clock that only one
    /// has, and not again with each edge that resets it.
    fn differ(&self, field: Field) -> bool {
        let [one, other] = [self.first, self.second].map(|plan| number(plan, field));
        let at_ceilings = [one, other] == [self.first, self.second].map(|plan| plan.ceiling.into());
        match field {
            Field::Stay { .. } | Field::High { .. } if at_ceilings => false,
            Field::Resets { .. } => (one ^ other) & self.clocks_of_both() != 0,
            _ => one != other,
        }
    }

    /// A reset mask with the clocks that both plans have.
    fn clocks_of_both(&self) -> usize {
        let (clocks, _) = self.span(|plan| plan.clocks.len());
        (1 << clocks.end) - 1
    }

    pub fn words(&self, difference: Difference) -> String {
        match difference {
            Difference::Number(field) => self.number_words(field),
            Difference::Part(part) => {
                let which = if self.has(part)[0] { "first" } else { "second" };
                format!("only the {which} has {}", self.part_words(part))
            }
        }
    }

    fn number_words(&self, field: Field) -> String {
        let title = self.title(field);
        let [one, other] = [self.first, &self.renamed].map(|plan| value_words(plan, field));
        let more = match field {
            Field::Mark if self.differ_in_mark_alone() => {
                " (all limits are the same as read, and so are verdict and evidence)"
            }
            Field::Mark => {
                " (a blank stay limit is the ceiling with mark 1, with mark 2 that of the last \
                 edge to close, if one leaves)"
            }
            Field::Ceiling => " (a limit at the ceiling in both is not listed)",
            _ => "",
        };
        format!("{title}: {one} in the first, {other} in the second{more}")
    }

    /// Whether the plans mean the same, though by different marks.
    fn differ_in_mark_alone(&self) -> bool {
        self.differences() == [Difference::Number(Field::Mark)]
    }

    /// What a number is, by the names of the first plan.
    fn title(&self, field: Field) -> String {
        let (mut whose, mut of_clock) = (String::new(), String::new());
        for part in parts_of(field) {
            match part {
                Part::Clock(at) => of_clock = format!(" of {}", self.first.clocks[at]),
                Part::Location(at) => whose = self.first.quoted(at) + ", ",
                Part::Edge(at) => whose = self.first.edge_title(at) + ", ",
            }
        }
        format!("{whose}{}{of_clock}", name_of(field))
    }

    /// A part that only one plan has, by its number and its name there.
    fn part_words(&self, part: Part) -> String {
        let [is_first, _] = self.has(part);
        let (own, named) = match is_first {
            true => (self.first, self.first),
            false => (self.second, &self.renamed),
        };
        match part {
            Part::Clock(at) => format!("clock {at} ({})", own.clocks[at]),
            Part::Location(at) => format!("location {at} ({})", own.locations[at].name),
            Part::Edge(at) => named.edge_title(at),
        }
    }

    /// Whether the first and whether the second plan has a part.
    fn has(&self, part: Part) -> [bool; 2] {
        [self.first, self.second].map(|plan| match part {
            Part::Clock(at) => at < plan.clocks.len(),
            Part::Location(at) => at < plan.locations.len(),
            Part::Edge(at) => at < plan.edges.len(),
        })
    }

    pub fn json(&self, difference: Difference) -> Json {
        let (what, parts, [plan, other]) = match difference {
            Difference::Number(field) => {
                let values = [self.first, self.second].map(|plan| value_json(plan, field));
                (name_of(field), parts_of(field), values)
            }
            Difference::Part(part) => {
                let (name, _) = part.numbered();
                (name, vec![part], self.has(part).map(Json::Bool))
            }
        };
        let mut fields = vec![("what", Json::text(what))];
        let numbered = parts.iter().map(Part::numbered);
        fields.extend(numbered.map(|(name, at)| (name, Json::count(at))));
        fields.extend([
            ("plan", plan),
            ("other", other),
            ("words", Json::text(self.words(difference))),
            ("proved", Json::Bool(false)),
        ]);
        Json::Object(fields)
    }
}

/// A plan with the names of another; what that does not have goes by number.
fn renamed(plan: &Plan, names: &Plan) -> Plan {
    let mut plan = plan.clone();
    for (at, clock) in plan.clocks.iter_mut().enumerate() {
        let known = names.clocks.get(at).cloned();
        *clock = known.unwrap_or_else(|| format!("clock {at}"));
    }
    for (at, location) in plan.locations.iter_mut().enumerate() {
        let known = names.locations.get(at).map(|known| known.name.clone());
        location.name = known.unwrap_or_else(|| format!("location {at}"));
    }
    plan
}

impl Part {
    fn numbered(&self) -> (&'static str, usize) {
        match *self {
            Part::Clock(at) => ("clock", at),
            Part::Location(at) => ("location", at),
            Part::Edge(at) => ("edge", at),
        }
    }
}

const HEADER: [Field; 6] = [
    Field::Mark,
    Field::Clocks,
    Field::Ceiling,
    Field::Locations,
    Field::Edges,
    Field::Start,
];

fn location_fields(location: usize, clocks: Range<usize>) -> Vec<Field> {
    let stays = clocks.map(|clock| Field::Stay { location, clock });
    [Field::Kind { location }]
        .into_iter()
        .chain(stays)
        .collect()
}

fn edge_fields(edge: usize, clocks: Range<usize>) -> Vec<Field> {
    let ends = [
        Field::From { edge },
        Field::To { edge },
        Field::Resets { edge },
    ];
    let guard = clocks.flat_map(|clock| [Field::Low { edge, clock }, Field::High { edge, clock }]);
    ends.into_iter().chain(guard).collect()
}

/// What a number is called.
fn name_of(field: Field) -> &'static str {
    match field {
        Field::Mark => "mark",
        Field::Clocks => "clocks",
        Field::Ceiling => "ceiling",
        Field::Locations => "locations",
        Field::Edges => "edges",
        Field::Start => "start",
        Field::Kind { .. } => "kind",
        Field::Stay { .. } => "stay limit",
        Field::From { .. } => "from",
        Field::To { .. } => "to",
        Field::Resets { .. } => "resets",
        Field::Low { .. } => "low",
        Field::High { .. } => "high",
    }
}

/// The parts that a number belongs to.
fn parts_of(field: Field) -> Vec<Part> {
    use Field::*;
    match field {
        Mark | Clocks | Ceiling | Locations | Edges | Start => Vec::new(),
        Kind { location } => vec![Part::Location(location)],
        Stay { location, clock } => vec![Part::Location(location), Part::Clock(clock)],
        From { edge } | To { edge } | Resets { edge } => vec![Part::Edge(edge)],
        Low { edge, clock } | High { edge, clock } => vec![Part::Edge(edge), Part::Clock(clock)],
    }
}

/// A number of a plan; for a stay field the limit that it means.
fn number(plan: &Plan, field: Field) -> usize {
    match field {
        Field::Mark => plan.mark.into(),
        Field::Clocks => plan.clocks.len(),
        Field::Ceiling => plan.ceiling.into(),
        Field::Locations => plan.locations.len(),
        Field::Edges => plan.edges.len(),
        Field::Start => plan.start,
        Field::Kind { location } => plan.locations[location].forbidden.into(),
        Field::Stay { location, clock } => plan.limit(location, clock).into(),
        Field::From { edge } => plan.edges[edge].from,
        Field::To { edge } => plan.edges[edge].to,
        Field::Resets { edge } => plan.edges[edge].resets.into(),
        Field::Low { edge, clock } => plan.edges[edge].guard[clock].0.into(),
        Field::High { edge, clock } => plan.edges[edge].guard[clock].1.into(),
    }
}

fn kind_words(plan: &Plan, location: usize) -> &'static str {
    match plan.locations[location].forbidden {
        true => "forbidden",
        false => "ordinary",
    }
}

fn value_words(plan: &Plan, field: Field) -> String {
    let number = number(plan, field);
    match field {
        Field::Start | Field::From { .. } | Field::To { .. } => plan.quoted(number),
        Field::Kind { location } => kind_words(plan, location).to_string(),
        Field::Stay { location, clock } if plan.ends_with_last_edge(location, clock) => {
            format!("{number} {BY_LAST_EDGE}")
        }
        Field::Resets { edge } => match &plan.reset_names(&plan.edges[edge])[..] {
            [] => "none".to_string(),
            names => names.join(" and "),
        },
        _ => number.to_string(),
    }
}

/// Locations and clocks go by number.
fn value_json(plan: &Plan, field: Field) -> Json {
    let number = number(plan, field);
    match field {
        Field::Kind { location } => Json::text(kind_words(plan, location)),
        Field::Resets { .. } => {
            let clocks = (0..plan.clocks.len()).filter(|clock| number >> clock & 1 == 1);
            Json::List(clocks.map(Json::count).collect())
        }
        _ => Json::count(number),
    }
}
