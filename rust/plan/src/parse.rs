//! The lines of a text, read one by one into what they say, before names and
//! numbers are looked up. A line that goes wrong is noted and read on as far
//! as it makes sense, so that one pass finds all mistakes.

use crate::lex::{tokens, Kind, Token};
use crate::mistake::{guess, nearest, Mistake};
use crate::units::{halves, Quantity, Slip};

/// Words that a line can begin with.
const OPENINGS: [&str; 8] = [
    "mark", "clocks", "ceiling", "location", "edge", "unit", "crystal", "bit",
];

/// Words that open the further parts of a location's and of an edge's line.
const LOCATION_WORDS: [&str; 3] = ["start", "forbidden", "stay"];
const EDGE_WORDS: [&str; 2] = ["when", "reset"];

/// Words with a meaning inside a line; a clock cannot be called so.
pub const RESERVED: [&str; 7] = ["when", "reset", "stay", "start", "forbidden", "and", "all"];

/// Why a ceiling or a limit is whole.
const WHOLE_UNITS: &str = "is counted in whole units";

/// Which ends of a clock's range a condition sets.
#[derive(Clone, Copy, Debug, PartialEq, Eq)]
pub enum End {
    Low,
    High,
    Both,
}

/// One end of a condition: a clock against a number.
#[derive(Clone, Debug)]
pub struct Bound {
    pub clock: Token,
    pub end: End,
    pub number: Token,
}

#[derive(Clone, Debug, Default)]
pub struct LocationLine {
    pub name: Option<Token>,
    pub start: Option<Token>,
    pub forbidden: bool,
    pub stay: Vec<Bound>,
}

#[derive(Clone, Debug, Default)]
pub struct EdgeLine {
    pub name: Option<Token>,
    pub from: Option<Token>,
    pub to: Option<Token>,
    pub when: Vec<Bound>,
    pub resets: Vec<Token>,
    /// `reset all`
    pub resets_all: bool,
    /// The resets could not all be read.
    pub resets_unsure: bool,
}

/// A line of one number: its first token, and the number if there is one.
pub type NumberLine = (Token, Option<Token>);

/// What the lines say, with the first token of each.
#[derive(Debug, Default)]
pub struct Lines {
    pub marks: Vec<NumberLine>,
    pub clocks: Vec<(Token, Vec<Token>)>,
    pub ceilings: Vec<NumberLine>,
    pub locations: Vec<(Token, LocationLine)>,
    pub edges: Vec<(Token, EdgeLine)>,
    pub quantities: Vec<(Token, Quantity, Option<u64>)>,
    pub mistakes: Vec<Mistake>,
}

pub fn lines(text: &str) -> Lines {
    let mut lines = Lines::default();
    for (index, line) in text.lines().enumerate() {
        lines.add(tokens(line, index + 1));
    }
    lines
}

impl Lines {
    fn add(&mut self, tokens: Vec<Token>) {
        let mut line = Line::new(tokens, &mut self.mistakes);
        let Some(mut opening) = line.next() else {
            return;
        };
        let expected =
            "a line begins with mark, clocks, ceiling, location, edge, unit, crystal or bit rate";
        let Some(word) = line.meant(&opening, &OPENINGS, expected) else {
            return;
        };
        opening.text = word.to_string();
        match word {
            "mark" => {
                let number = line.only_number("the mark", "is 1 or 2");
                self.marks.push((opening, number));
            }
            "clocks" => self.clocks.push((opening, line.names())),
            "ceiling" => {
                let number = line.only_number("the ceiling", WHOLE_UNITS);
                self.ceilings.push((opening, number));
            }
            "location" => self.locations.push((opening, line.location())),
            "edge" => self.edges.push((opening, line.edge())),
            word => {
                let (quantity, value) = line.quantity(word);
                self.quantities.push((opening, quantity, value));
            }
        }
    }
}

/// The tokens of one line that are still to be read.
struct Line<'a> {
    tokens: std::iter::Peekable<std::vec::IntoIter<Token>>,
    /// Where something missing at the end of the line would stand.
    end: (usize, usize),
    mistakes: &'a mut Vec<Mistake>,
}

impl<'a> Line<'a> {
    fn new(tokens: Vec<Token>, mistakes: &'a mut Vec<Mistake>) -> Line<'a> {
        let end = tokens.last().map_or((1, 1), |last| {
            (last.line, last.column + last.text.chars().count())
        });
        Line {
            tokens: tokens.into_iter().peekable(),
            end,
            mistakes,
        }
    }

    fn next(&mut self) -> Option<Token> {
        self.tokens.next()
    }

    fn wrong(&mut self, token: &Token, words: impl Into<String>) {
        self.mistakes.push(Mistake {
            line: token.line,
            column: token.column,
            words: words.into(),
        });
    }

    /// Notes a mistake at the next token, or at the end of the line.
    fn wrong_here(&mut self, words: impl Into<String>) {
        let (line, column) = self
            .tokens
            .peek()
            .map_or(self.end, |token| (token.line, token.column));
        self.mistakes.push(Mistake {
            line,
            column,
            words: words.into(),
        });
    }

    /// The word that a token is, or is a misspelling of. A misspelling is
    /// noted and read on as what it was meant to be.
    fn meant(
        &mut self,
        token: &Token,
        known: &[&'static str],
        expected: &str,
    ) -> Option<&'static str> {
        if let Some(word) = known.iter().find(|word| token.is(word)) {
            return Some(word);
        }
        let hint = guess(&token.text, known.iter().copied());
        self.wrong(token, format!("{expected}, not '{}'{hint}", token.text));
        nearest(&token.text, known.iter().copied())
    }

    fn takes(&mut self, wanted: impl Fn(&Token) -> bool) -> Option<Token> {
        self.tokens.next_if(|token| wanted(token))
    }

    fn takes_sign(&mut self, sign: &str) -> bool {
        self.takes(|token| token.is_sign(sign)).is_some()
    }

    /// Passes over commas and `and` between two entries of a list.
    fn takes_separator(&mut self) -> bool {
        let comma = self.takes_sign(",");
        let and = self.takes(|token| token.is("and")).is_some();
        comma || and
    }

    fn skip_until(&mut self, stop: impl Fn(&Token) -> bool) {
        while self.takes(|token| !stop(token)).is_some() {}
    }

    /// A name: it begins with a letter, and is not too long to be drawn.
    fn name(&mut self, what: &str) -> Option<Token> {
        let Some(token) = self.takes(|token| matches!(token.kind, Kind::Word | Kind::Number))
        else {
            self.wrong_here(format!("the name of {what} is missing here"));
            return None;
        };
        self.check_name(&token);
        Some(token)
    }

    fn check_name(&mut self, token: &Token) {
        if !token.text.starts_with(char::is_alphabetic) || token.text.contains('.') {
            self.wrong(
                token,
                format!(
                    "'{}' is no name: a name begins with a letter and has only letters, \
                     digits, - and _",
                    token.text
                ),
            );
        } else if token.text.chars().count() > LONGEST_NAME {
            self.wrong(
                token,
                format!(
                    "the name '{}' is too long: {LONGEST_NAME} letters at most",
                    token.text
                ),
            );
        }
    }

    /// The names of clocks up to the end of the line.
    fn names(&mut self) -> Vec<Token> {
        let mut names = Vec::new();
        while self.tokens.peek().is_some() {
            if self.takes_separator() {
                continue;
            }
            match self.takes(|token| matches!(token.kind, Kind::Word | Kind::Number)) {
                Some(name) => {
                    self.check_name(&name);
                    names.push(name);
                }
                None => self.stray("a clock's name"),
            }
        }
        names
    }

    /// Takes a token that does not belong here.
    fn stray(&mut self, wanted: &str) {
        if let Some(token) = self.next() {
            let words = format!(
                "'{}' does not belong here; {wanted} is expected",
                token.text
            );
            self.wrong(&token, words);
        }
    }

    /// The number of a line that has nothing else.
    fn only_number(&mut self, what: &str, why: &str) -> Option<Token> {
        let number = self.number(what, why);
        if number.is_some() && self.tokens.peek().is_some() {
            self.wrong_here(format!("nothing may follow the number of {what}"));
        }
        number
    }

    /// A line of real units, from what stands behind its first word.
    fn quantity(&mut self, opening: &str) -> (Quantity, Option<u64>) {
        let quantity = match opening {
            "unit" => Quantity::Unit,
            "crystal" => Quantity::Crystal,
            _ => Quantity::BitRate,
        };
        if quantity == Quantity::BitRate && self.takes(|token| token.is("rate")).is_none() {
            self.wrong_here(format!(
                "'rate' is missing here, such as: {}",
                quantity.example()
            ));
            return (quantity, None);
        }
        let value = self.measured(quantity);
        if value.is_some() && self.tokens.peek().is_some() {
            self.wrong_here(format!("nothing may follow the {}", quantity.name()));
        }
        (quantity, value)
    }

    /// A number and its measure, as one word or as two.
    fn measured(&mut self, quantity: Quantity) -> Option<u64> {
        let starts = |token: &Token| {
            token
                .text
                .starts_with(|letter: char| letter.is_ascii_digit())
        };
        let Some(first) = self.takes(starts) else {
            self.wrong_here(format!(
                "a number is missing here, such as: {}",
                quantity.example()
            ));
            return None;
        };
        let (number, joined) = halves(&first.text);
        let apart = match joined {
            "" => self.takes(|token| token.kind == Kind::Word),
            _ => None,
        };
        let measure = apart.as_ref().map_or(joined, |token| &token.text);
        match quantity.value(number, measure) {
            Ok(value) => return Some(value),
            Err(Slip::Number(words)) => self.wrong(&first, words),
            Err(Slip::Measure(words)) if measure.is_empty() => self.wrong_here(words),
            Err(Slip::Measure(words)) => self.wrong(apart.as_ref().unwrap_or(&first), words),
        }
        None
    }

    /// A whole number; anything else that might be meant as one is noted, with
    /// why it must be whole.
    fn number(&mut self, what: &str, why: &str) -> Option<Token> {
        if let Some(number) = self.takes(|token| token.kind == Kind::Number) {
            return Some(number);
        }
        if let Some(minus) = self.takes(|token| token.text == "-") {
            self.wrong(&minus, format!("{what} cannot be below 0"));
            self.takes(|token| token.kind == Kind::Number);
            return None;
        }
        match self.takes(|token| {
            token
                .text
                .starts_with(|letter: char| letter.is_ascii_digit())
        }) {
            Some(token) => {
                let words = format!("'{}' is not a whole number; {what} {why}", token.text);
                self.wrong(&token, words);
            }
            None => self.wrong_here(format!("a whole number is missing here, for {what}")),
        }
        None
    }

    fn location(&mut self) -> LocationLine {
        let mut location = LocationLine {
            name: self.name("the location"),
            ..Default::default()
        };
        while let Some(token) = self.next() {
            let expected = "after the name of a location come start, forbidden or stay";
            let word = self.meant(&token, &LOCATION_WORDS, expected);
            match word {
                Some("start") if location.start.is_none() => location.start = Some(token),
                Some("forbidden") if !location.forbidden => location.forbidden = true,
                Some("stay") => self.conditions(&mut location.stay, &token),
                Some(word) => self.wrong(&token, format!("'{word}' is said twice")),
                None => self.skip_until(|token| LOCATION_WORDS.iter().any(|word| token.is(word))),
            }
        }
        location
    }

    fn edge(&mut self) -> EdgeLine {
        let mut edge = EdgeLine {
            from: self.name("the location that the edge leaves"),
            ..Default::default()
        };
        if self.takes_sign(":") {
            edge.name = edge.from.take();
            edge.from = self.name("the location that the edge leaves");
        }
        if self.takes_sign("->") {
            edge.to = self.name("the location that the edge enters");
        } else if edge.from.is_some() {
            self.wrong_here("an arrow -> is missing here, between the two locations of the edge");
            self.takes(|token| token.kind == Kind::Other);
            self.takes_sign(">");
            edge.to = self.takes(|token| token.kind == Kind::Word && !is_clause(token));
        }
        self.clauses(&mut edge);
        edge
    }

    fn clauses(&mut self, edge: &mut EdgeLine) {
        let mut said = Vec::new();
        while let Some(token) = self.next() {
            let expected = "after the two locations of an edge come when or reset";
            let word = self.meant(&token, &EDGE_WORDS, expected);
            match word {
                Some("when") => self.conditions(&mut edge.when, &token),
                Some(_) => self.resets(edge, &token),
                None => {
                    edge.resets_unsure = true;
                    self.skip_until(is_clause);
                }
            }
            if let Some(word) = word.filter(|word| said.contains(word)) {
                self.wrong(
                    &token,
                    format!("'{word}' is said twice; put all of it behind one"),
                );
            }
            said.extend(word);
        }
    }

    fn resets(&mut self, edge: &mut EdgeLine, opening: &Token) {
        let before = edge.resets.len();
        while self.tokens.peek().is_some_and(|token| !is_clause(token)) {
            if self.takes_separator() {
                continue;
            }
            if self.takes(|token| token.is("all")).is_some() {
                edge.resets_all = true;
            } else if let Some(clock) = self.takes(|token| token.kind == Kind::Word) {
                edge.resets.push(clock);
            } else {
                edge.resets_unsure = true;
                self.stray("a clock's name");
            }
        }
        if edge.resets.len() == before && !edge.resets_all && !edge.resets_unsure {
            edge.resets_unsure = true;
            self.wrong(
                opening,
                "reset which clocks? Name them after 'reset', or leave the word out",
            );
        }
    }

    /// Conditions up to the next word that opens another part of the line.
    fn conditions(&mut self, into: &mut Vec<Bound>, opening: &Token) {
        if self.at_clause_or_end() {
            self.wrong(
                opening,
                format!("a limit such as x<=1 is missing after '{}'", opening.text),
            );
            return;
        }
        loop {
            if !self.condition(into) {
                self.skip_until(|token| is_clause(token) || token.is_sign(",") || token.is("and"));
            }
            let separated = self.takes_separator();
            match (separated, self.at_clause_or_end()) {
                (false, true) => return,
                (true, true) => {
                    self.wrong_here("a limit such as x<=1 is missing here");
                    return;
                }
                (true, false) => {}
                // The caller knows more about a misspelt word.
                (false, false) if self.at_misspelt_clause() => return,
                (false, false) => self.wrong_here("a comma is missing here, between two limits"),
            }
        }
    }

    fn at_clause_or_end(&mut self) -> bool {
        self.tokens.peek().is_none_or(is_clause)
    }

    fn at_misspelt_clause(&mut self) -> bool {
        let words = || LOCATION_WORDS.iter().chain(&EDGE_WORDS).copied();
        let word = self.tokens.peek().filter(|token| token.kind == Kind::Word);
        word.is_some_and(|token| nearest(&token.text, words()).is_some())
    }

    /// One condition: x<=2, 2>=x, x=1, 1<=x<=2 and the like. False if the
    /// rest of it makes no sense.
    fn condition(&mut self, into: &mut Vec<Bound>) -> bool {
        let Some(first) = self.operand() else {
            return false;
        };
        let Some(sign) = self.comparison(&first) else {
            return false;
        };
        let Some(second) = self.operand() else {
            return false;
        };
        let done = self.bound(into, &first, &sign, &second);
        if !done || !self.tokens.peek().is_some_and(is_comparison) {
            return done;
        }
        let Some(sign) = self.comparison(&second) else {
            return false;
        };
        let Some(third) = self.operand() else {
            return false;
        };
        self.bound(into, &second, &sign, &third)
    }

    /// A clock's name or a number.
    fn operand(&mut self) -> Option<Token> {
        let word = |token: &Token| {
            token.kind == Kind::Word
                && !token
                    .text
                    .starts_with(|letter: char| letter.is_ascii_digit())
        };
        if let Some(token) = self.takes(|token| word(token) && !is_clause(token)) {
            return Some(token);
        }
        self.number("a limit", WHOLE_UNITS)
    }

    fn comparison(&mut self, before: &Token) -> Option<Token> {
        let Some(sign) = self.takes(is_comparison) else {
            if self
                .tokens
                .peek()
                .is_some_and(|token| token.text == "-" || token.text == "+")
            {
                self.wrong_here(
                    "a limit is on one clock; sums and differences of clocks cannot be limited",
                );
            } else {
                self.wrong_here(format!(
                    "<=, >= or = is missing here, after '{}'",
                    before.text
                ));
            }
            return None;
        };
        if sign.is_sign("<") || sign.is_sign(">") {
            let words = format!(
                "limits are never strict: write {0}= instead of {0}",
                sign.text
            );
            self.wrong(&sign, words);
        }
        Some(sign)
    }

    /// Adds what a sign says of the operands on its two sides.
    fn bound(&mut self, into: &mut Vec<Bound>, left: &Token, sign: &Token, right: &Token) -> bool {
        let is_number = |token: &Token| token.kind == Kind::Number;
        let (clock, number, at_most) = match (is_number(left), is_number(right)) {
            (false, true) => (left, right, sign.is_sign("<=") || sign.is_sign("<")),
            (true, false) => (right, left, sign.is_sign(">=") || sign.is_sign(">")),
            (true, true) => {
                self.wrong(left, "a limit needs a clock's name on one side");
                return false;
            }
            (false, false) => {
                self.wrong(
                    right,
                    "a limit needs a number on one side; clocks cannot be compared with each other",
                );
                return false;
            }
        };
        let end = match (sign.is_sign("="), at_most) {
            (true, _) => End::Both,
            (false, true) => End::High,
            (false, false) => End::Low,
        };
        into.push(Bound {
            clock: clock.clone(),
            end,
            number: number.clone(),
        });
        true
    }
}

/// Longer names make a drawing hard to read.
pub const LONGEST_NAME: usize = 24;

fn is_clause(token: &Token) -> bool {
    LOCATION_WORDS
        .iter()
        .chain(&EDGE_WORDS)
        .any(|word| token.is(word))
}

fn is_comparison(token: &Token) -> bool {
    ["<=", ">=", "=", "<", ">"]
        .iter()
        .any(|sign| token.is_sign(sign))
}
