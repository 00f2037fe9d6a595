//! From what the lines say to a plan: names and numbers are looked up, and
//! everything that cannot be is a mistake.

use crate::lex::Token;
use crate::loops::{uncounted_words, unreset_loops};
use crate::mistake::{guess, range_words, shortened, Mistake};
use crate::parse::{lines, Bound, EdgeLine, End, Lines, LocationLine, NumberLine, RESERVED};
use crate::{Edge, Location, Plan, Units, CEILING_MARK, EDGES_MARK};
use second::limits::{MAX_CEILING, MAX_CLOCKS, MAX_EDGES, MAX_LOCATIONS};
use std::collections::{HashMap, HashSet};
use std::ops::RangeInclusive;

/// Reads a text plan; or all its mistakes, by line and column.
pub fn read_text(text: &str) -> Result<Plan, Vec<Mistake>> {
    let lines = lines(text);
    let mut names = Names::new(&lines, end_of(text));
    let locations = names.locations(&lines);
    let edges = names.edges(&lines);
    names.loops(&names.understood(&lines, &locations, &edges));
    let units = names.units(&lines);
    let mut mistakes = lines.mistakes;
    mistakes.append(&mut names.mistakes);
    if !mistakes.is_empty() {
        mistakes.sort();
        mistakes.dedup();
        return Err(mistakes);
    }
    Ok(Plan {
        mark: names.mark,
        clocks: names.clocks,
        ceiling: names.ceiling.expect("a missing ceiling is a mistake"),
        start: names.start.expect("a missing start is a mistake"),
        locations,
        edges: edges.into_iter().flatten().map(|(edge, _)| edge).collect(),
        units,
    })
}

/// Where something that the whole text lacks is reported.
fn end_of(text: &str) -> (usize, usize) {
    let last = text.lines().last().unwrap_or("");
    (text.lines().count().max(1), last.chars().count() + 1)
}

/// What has been looked up so far.
struct Names {
    mark: u8,
    clocks: Vec<String>,
    ceiling: Option<u8>,
    start: Option<usize>,
    locations: Vec<String>,
    /// The first location of each name and its line. A text may have far more
    /// than a plan, and is still read in linear time.
    first_of: HashMap<String, (usize, usize)>,
    end: (usize, usize),
    mistakes: Vec<Mistake>,
    /// Lines with a mistake that leaves the mark or a limit in doubt.
    doubtful: HashSet<usize>,
}

/// The plan as far as it is understood, for a look at its loops, and the line
/// of each edge.
struct Understood {
    plan: Plan,
    lines: Vec<usize>,
}

impl Names {
    fn new(lines: &Lines, end: (usize, usize)) -> Names {
        let mut names = Names {
            mark: CEILING_MARK,
            clocks: Vec::new(),
            ceiling: None,
            start: None,
            locations: Vec::new(),
            first_of: HashMap::new(),
            end,
            mistakes: Vec::new(),
            doubtful: lines.mistakes.iter().map(|mistake| mistake.line).collect(),
        };
        names.mark_of(lines);
        names.clock_names(lines);
        names.ceiling_of(lines);
        names.location_names(lines);
        names
    }

    fn wrong(&mut self, token: &Token, words: impl Into<String>) {
        self.mistakes.push(Mistake {
            line: token.line,
            column: token.column,
            words: words.into(),
        });
    }

    /// The same of one that leaves the mark or a limit in doubt.
    fn doubtful(&mut self, token: &Token, words: impl Into<String>) {
        self.doubtful.insert(token.line);
        self.wrong(token, words);
    }

    fn missing(&mut self, words: &str) {
        let (line, column) = self.end;
        self.mistakes.push(Mistake {
            line,
            column,
            words: words.to_string(),
        });
    }

    fn clock_names(&mut self, lines: &Lines) {
        let Some((opening, first)) = lines.clocks.first() else {
            self.missing("the plan has no line with its clocks, such as: clocks x y");
            return;
        };
        for (again, _) in &lines.clocks[1..] {
            self.wrong(
                again,
                format!("the clocks are already named in line {}", opening.line),
            );
        }
        if first.is_empty() {
            self.wrong(
                opening,
                "the names of the clocks are missing, one to three of them",
            );
        }
        first.iter().for_each(|token| self.clock_name(token));
    }

    fn clock_name(&mut self, token: &Token) {
        let name = &token.text;
        if RESERVED.contains(&name.as_str()) {
            let words =
                format!("a clock cannot be called '{name}', which is a word of this language");
            self.wrong(token, words);
        }
        if self.clocks.contains(name) {
            self.wrong(token, format!("there are two clocks '{name}'"));
        } else if self.clocks.len() == MAX_CLOCKS {
            let words =
                format!("clock '{name}' is one too many: a plan has at most {MAX_CLOCKS} clocks");
            self.wrong(token, words);
        } else {
            self.clocks.push(name.clone());
        }
    }

    /// The mark; a plan that says none keeps the first there was.
    fn mark_of(&mut self, lines: &Lines) {
        let said = self.said_once("mark", &lines.marks, CEILING_MARK..=EDGES_MARK);
        self.mark = said.unwrap_or(CEILING_MARK);
    }

    fn ceiling_of(&mut self, lines: &Lines) {
        if lines.ceilings.is_empty() {
            self.missing("the plan has no line with its ceiling, such as: ceiling 2");
        }
        self.ceiling = self.said_once("ceiling", &lines.ceilings, 1..=MAX_CEILING);
    }

    /// The number of a line that may come once, if it is one of these.
    fn said_once(
        &mut self,
        what: &str,
        said: &[NumberLine],
        range: RangeInclusive<u8>,
    ) -> Option<u8> {
        let ((opening, first), more) = said.split_first()?;
        for (again, _) in more {
            let words = format!("the {what} is already given in line {}", opening.line);
            self.doubtful(again, words);
        }
        let token = first.as_ref()?;
        let number = token.text.parse().ok();
        let number = number.filter(|number| range.contains(number));
        if number.is_none() {
            let range = range_words((*range.start()).into(), (*range.end()).into());
            let words = format!("the {what} is {}, but it can only be {range}", token.text);
            self.doubtful(token, words);
        }
        number
    }

    fn location_names(&mut self, lines: &Lines) {
        let mut start: Option<&Token> = None;
        for (at, (opening, line)) in lines.locations.iter().enumerate() {
            if at >= MAX_LOCATIONS {
                self.wrong(
                    opening,
                    format!(
                        "this is location {} of the plan: it can have at most {MAX_LOCATIONS}",
                        at + 1
                    ),
                );
            }
            match (&line.start, start) {
                (Some(token), None) => (start, self.start) = (Some(token), Some(at)),
                (Some(token), Some(first)) => {
                    let words = format!(
                        "a second start: the plan already starts in line {}",
                        first.line
                    );
                    self.wrong(token, words);
                }
                (None, _) => {}
            }
            self.location_name(at, opening, line);
        }
        match (lines.locations.first(), start) {
            (None, _) => self.missing("the plan has no location"),
            (Some((opening, _)), None) => {
                self.wrong(
                    opening,
                    "no location of the plan is marked start; write start after the name of one",
                );
            }
            _ => {}
        }
    }

    fn location_name(&mut self, at: usize, opening: &Token, line: &LocationLine) {
        let name = line
            .name
            .as_ref()
            .map_or(String::new(), |name| name.text.clone());
        if let Some(token) = &line.name {
            match self.first_of.get(&name) {
                Some(&(_, first)) => {
                    let words = format!("there is a location '{name}' already, in line {first}");
                    self.doubtful.insert(first);
                    self.wrong(token, words);
                }
                None => {
                    self.first_of.insert(name.clone(), (at, opening.line));
                }
            }
        }
        self.locations.push(name);
    }

    /// Notes an unknown name, with the nearest of the known ones or all.
    fn unknown(&mut self, token: &Token, what: &str, known: &[String]) {
        let hint = guess(&token.text, known.iter().map(String::as_str));
        let list = if hint.is_empty() && !known.is_empty() {
            let short: Vec<String> = known.iter().map(|name| shortened(name)).collect();
            format!("; the {what}s are {}", short.join(", "))
        } else {
            hint
        };
        self.doubtful(token, format!("there is no {what} '{}'{list}", token.text));
    }

    /// A clock; without a usable list of clocks nothing can be said about it.
    fn clock(&mut self, token: &Token) -> Option<usize> {
        let found = self.clocks.iter().position(|name| *name == token.text);
        if found.is_none() && !self.clocks.is_empty() {
            let clocks = self.clocks.clone();
            self.unknown(token, "clock", &clocks);
        }
        found
    }

    fn location(&mut self, token: &Token) -> Option<usize> {
        let found = self.first_of.get(&token.text).map(|(at, _)| *at);
        if found.is_none() {
            let first = self.locations.iter().take(MAX_LOCATIONS);
            let first: Vec<String> = first.cloned().collect();
            self.unknown(token, "location", &first);
        }
        found
    }

    /// A limit within the ceiling.
    fn limit(&mut self, token: &Token) -> Option<u8> {
        let most = self.ceiling.unwrap_or(MAX_CEILING);
        match token.text.parse() {
            Ok(limit) if limit <= most => Some(limit),
            _ => {
                let what = if self.ceiling.is_some() {
                    "the ceiling"
                } else {
                    "the highest ceiling there is,"
                };
                self.doubtful(
                    token,
                    format!("the limit {} is above {what} {most}", token.text),
                );
                None
            }
        }
    }

    fn locations(&mut self, lines: &Lines) -> Vec<Location> {
        let all = lines.locations.iter();
        all.map(|(_, line)| Location {
            name: line
                .name
                .as_ref()
                .map_or(String::new(), |name| name.text.clone()),
            forbidden: line.forbidden,
            stay: self.stay(&line.stay),
        })
        .collect()
    }

    fn stay(&mut self, bounds: &[Bound]) -> Vec<Option<u8>> {
        let mut stay = vec![None; self.clocks.len()];
        for bound in bounds {
            if bound.end != End::High {
                self.doubtful(
                    &bound.clock,
                    format!(
                        "a stay limit is an upper limit, such as {}<=1",
                        bound.clock.text
                    ),
                );
            }
            let (clock, limit) = (self.clock(&bound.clock), self.limit(&bound.number));
            let (Some(clock), Some(limit)) = (clock, limit) else {
                continue;
            };
            if stay[clock].is_some() {
                self.doubtful(
                    &bound.clock,
                    format!("clock '{}' has a stay limit here already", bound.clock.text),
                );
            }
            stay[clock] = Some(limit);
        }
        stay
    }

    /// The edges with their lines; none where ends or resets are in doubt.
    fn edges(&mut self, lines: &Lines) -> Vec<Option<(Edge, usize)>> {
        let mut edges = Vec::new();
        let mut titles: HashMap<&str, usize> = HashMap::new();
        for (at, (opening, line)) in lines.edges.iter().enumerate() {
            if at >= MAX_EDGES {
                self.wrong(
                    opening,
                    format!(
                        "this is edge {} of the plan: it can have at most {MAX_EDGES}",
                        at + 1
                    ),
                );
            }
            if let Some(name) = &line.name {
                let first = *titles.entry(&name.text).or_insert(name.line);
                if first != name.line {
                    let words =
                        format!("there is an edge '{}' already, in line {first}", name.text);
                    self.wrong(name, words);
                }
            }
            edges.push(self.edge(line).map(|edge| (edge, opening.line)));
        }
        edges
    }

    fn edge(&mut self, line: &EdgeLine) -> Option<Edge> {
        let from = line.from.as_ref().and_then(|token| self.location(token));
        let to = line.to.as_ref().and_then(|token| self.location(token));
        let guard = self.guard(&line.when);
        let resets = self.resets(line);
        Some(Edge {
            name: line.name.as_ref().map(|name| name.text.clone()),
            from: from?,
            to: to?,
            resets: resets?,
            guard,
        })
    }

    fn resets(&mut self, line: &EdgeLine) -> Option<u8> {
        let mut mask = if line.resets_all {
            (1 << self.clocks.len()) - 1
        } else {
            0
        };
        let mut sure = !line.resets_unsure && !self.clocks.is_empty();
        for token in &line.resets {
            match self.clock(token) {
                Some(clock) => mask |= 1 << clock,
                None => sure = false,
            }
        }
        sure.then_some(mask)
    }

    fn guard(&mut self, bounds: &[Bound]) -> Vec<(u8, u8)> {
        let ceiling = self.ceiling.unwrap_or(MAX_CEILING);
        let mut guard = Vec::new();
        for (clock, [low, high]) in self.ends(bounds).into_iter().enumerate() {
            if let (Some((low, _)), Some((high, token))) = (low, high) {
                if low > high {
                    let name = self.clocks[clock].clone();
                    let words = format!(
                        "clock '{name}' is to be at least {low} and at most {high}, \
                         so the edge never opens"
                    );
                    self.doubtful(token, words);
                }
            }
            let number = |end: Option<(u8, &Token)>, or: u8| end.map_or(or, |(limit, _)| limit);
            guard.push((number(low, 0), number(high, ceiling)));
        }
        guard
    }

    /// The low and the high that are given for each clock.
    fn ends<'a>(&mut self, bounds: &'a [Bound]) -> Vec<[Option<(u8, &'a Token)>; 2]> {
        let mut ends = vec![[None; 2]; self.clocks.len()];
        for bound in bounds {
            let (clock, limit) = (self.clock(&bound.clock), self.limit(&bound.number));
            let (Some(clock), Some(limit)) = (clock, limit) else {
                continue;
            };
            let sides = [(0, End::Low, "lower"), (1, End::High, "upper")];
            for (side, end, word) in sides {
                let is_meant = [end, End::Both].contains(&bound.end);
                if is_meant && ends[clock][side].replace((limit, &bound.number)).is_some() {
                    self.two_limits(&bound.clock, word);
                }
            }
        }
        ends
    }

    fn two_limits(&mut self, clock: &Token, which: &str) {
        let words = format!("clock '{}' has two {which} limits on this edge", clock.text);
        self.doubtful(clock, words);
    }

    /// The real units, each said once.
    fn units(&mut self, lines: &Lines) -> Units {
        let mut units = Units::default();
        let mut first: HashMap<&str, usize> = HashMap::new();
        for (opening, quantity, value) in &lines.quantities {
            let line = *first.entry(quantity.name()).or_insert(opening.line);
            if line != opening.line {
                let words = format!("the {} is already given in line {line}", quantity.name());
                self.wrong(opening, words);
            }
            if let Some(value) = value {
                units.set(*quantity, *value);
            }
        }
        units
    }

    /// What is needed of the plan for its loops. What is in doubt is taken so
    /// that the fewest edges open: no loop is named that may not count once the
    /// mistakes are mended.
    fn understood(
        &self,
        lines: &Lines,
        locations: &[Location],
        edges: &[Option<(Edge, usize)>],
    ) -> Understood {
        let mut locations = locations[..locations.len().min(MAX_LOCATIONS)].to_vec();
        for (location, (opening, _)) in locations.iter_mut().zip(&lines.locations) {
            if self.doubtful.contains(&opening.line) {
                location.stay.fill(Some(0));
            }
        }
        let edges = self.understood_edges(edges);
        Understood {
            lines: edges.iter().map(|(_, line)| *line).collect(),
            plan: Plan {
                mark: self.least_mark(lines),
                clocks: self.clocks.clone(),
                ceiling: self.ceiling.unwrap_or(MAX_CEILING),
                start: 0,
                locations,
                edges: edges.into_iter().map(|(edge, _)| edge).collect(),
                units: Units::default(),
            },
        }
    }

    /// The edges that are understood and not too many, with their lines.
    fn understood_edges(&self, edges: &[Option<(Edge, usize)>]) -> Vec<(Edge, usize)> {
        let most = self.ceiling.unwrap_or(MAX_CEILING);
        let known = edges.iter().take(MAX_EDGES).flatten();
        let drawn = known.filter(|(edge, _)| edge.from.max(edge.to) < MAX_LOCATIONS);
        let mut drawn: Vec<(Edge, usize)> = drawn.cloned().collect();
        for (edge, line) in &mut drawn {
            if self.doubtful.contains(line) {
                edge.guard.fill((most, 0));
            }
        }
        drawn
    }

    /// The mark; if it is in doubt, the one with the lower limits.
    fn least_mark(&self, lines: &Lines) -> u8 {
        let mut said = lines.marks.iter();
        match said.any(|(opening, _)| self.doubtful.contains(&opening.line)) {
            true => EDGES_MARK,
            false => self.mark,
        }
    }

    /// Loops that leave a clock unreset.
    fn loops(&mut self, understood: &Understood) {
        for clock in 0..self.clocks.len() {
            for found in unreset_loops(&understood.plan, clock) {
                let lines = found.iter().map(|&at| understood.lines[at]);
                self.mistakes.push(Mistake {
                    line: lines.min().expect("a loop has an edge"),
                    column: 1,
                    words: understood.loop_words(clock, &found),
                });
            }
        }
    }
}

impl Understood {
    fn loop_words(&self, clock: usize, found: &[usize]) -> String {
        let Understood { plan, lines } = self;
        let name = |location: usize| plan.locations[location].name.as_str();
        let mut way = vec![name(plan.edges[found[0]].from)];
        way.extend(found.iter().map(|&at| name(plan.edges[at].to)));
        let lines: Vec<String> = found.iter().map(|&at| lines[at].to_string()).collect();
        let (plural, edges, one) = match lines.len() {
            1 => ("", "its edge", "it"),
            _ => ("s", "each of its edges", "one of them"),
        };
        format!(
            "the loop {} (line{plural} {}) never resets clock '{}', and {edges} can open; {one} \
             must reset the clock, or drift could not be judged{}",
            way.join(" -> "),
            lines.join(", "),
            plan.clocks[clock],
            uncounted_words(plan)
        )
    }
}
