//! Arguments, told apart by what a command takes.

use crate::outcome::Failure;
use plan::mistake::guess;
use std::ops::RangeInclusive;

/// An option, with the name of its value if it has one.
#[derive(Debug)]
pub struct Opt {
    pub name: &'static str,
    pub value: Option<&'static str>,
    pub about: &'static str,
}

/// What a command takes.
#[derive(Debug)]
pub struct Takes {
    /// The operands as the help shows them.
    pub operands: &'static str,
    /// How many of them.
    pub count: RangeInclusive<usize>,
    pub options: &'static [&'static Opt],
}

/// What a command was given.
#[derive(Debug, Default)]
pub struct Arguments {
    pub operands: Vec<String>,
    options: Vec<(&'static str, String)>,
}

impl Arguments {
    /// The words behind a command's name; an error says what is wrong with them.
    pub fn parse(takes: &Takes, words: &[String]) -> Result<Arguments, Failure> {
        let mut arguments = Arguments::default();
        let mut words = words.iter();
        while let Some(word) = words.next() {
            match word.as_str() {
                "--" => arguments.operands.extend(words.by_ref().cloned()),
                "-" => arguments.operands.push(word.clone()),
                option if option.starts_with('-') => {
                    arguments.option(takes, option, &mut words)?;
                }
                operand => arguments.operands.push(operand.to_string()),
            }
        }
        arguments.counted(takes)
    }

    /// Takes an option; its value is the next word or stands behind a `=`.
    fn option<'a>(
        &mut self,
        takes: &Takes,
        word: &str,
        words: &mut impl Iterator<Item = &'a String>,
    ) -> Result<(), Failure> {
        let (name, joined) = match word.split_once('=') {
            Some((name, value)) => (name, Some(value.to_string())),
            None => (word, None),
        };
        let Some(option) = takes.options.iter().find(|option| option.name == name) else {
            let hint = guess(name, takes.options.iter().map(|option| option.name));
            return Err(wrong(format!("there is no option '{name}' here{hint}")));
        };
        if self.has(option) {
            return Err(wrong(format!("the option {name} is given twice")));
        }
        let value = match (option.value, joined) {
            (None, None) => String::new(),
            (None, Some(_)) => return Err(wrong(format!("the option {name} takes no value"))),
            (Some(_), Some(value)) => value,
            (Some(what), None) => words
                .next()
                .cloned()
                .ok_or_else(|| wrong(format!("{what} is missing after {name}")))?,
        };
        self.options.push((option.name, value));
        Ok(())
    }

    fn counted(self, takes: &Takes) -> Result<Arguments, Failure> {
        let count = self.operands.len();
        if takes.count.contains(&count) {
            // Standard input can be read once only.
            let dashes = self.operands.iter().filter(|operand| *operand == "-");
            return match dashes.count() {
                0 | 1 => Ok(self),
                _ => Err(wrong("standard input, -, can stand for one file only")),
            };
        }
        let much = if count < *takes.count.start() {
            "too few"
        } else {
            "too many"
        };
        let taken = match takes.operands {
            "" => "none",
            operands => operands,
        };
        Err(wrong(format!("{much} arguments: it takes {taken}")))
    }

    pub fn has(&self, option: &Opt) -> bool {
        self.value(option).is_some()
    }

    pub fn value(&self, option: &Opt) -> Option<&str> {
        let found = self.options.iter().find(|(name, _)| *name == option.name);
        found.map(|(_, value)| value.as_str())
    }
}

fn wrong(words: impl Into<String>) -> Failure {
    Failure::failed(words.into())
}
