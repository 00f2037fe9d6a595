//! Files, told apart by their content: a plan may come as text, as numbers in
//! text (the `.plan` files) or as model bytes; evidence as numbers in text or
//! as bytes.

use crate::bytes::{decode, encode};
use crate::explain::{about, refusal_words};
use crate::mistake::{all_shown, Mistake};
use crate::resolve::read_text;
use crate::{Flaw, Plan};

/// How a plan is written in its file.
#[derive(Clone, Copy, Debug, PartialEq, Eq)]
pub enum Form {
    Text,
    /// Numbers in text, one for each byte of the model.
    List,
    Bytes,
}

/// What a file of a plan holds.
#[derive(Clone, Debug, PartialEq, Eq)]
pub struct Content {
    pub form: Form,
    /// The model bytes: those of the file, or of its text encoded.
    pub model: Vec<u8>,
    /// The plan of the text, or of the bytes if they have no flaw.
    pub plan: Result<Plan, Flaw>,
}

impl Content {
    fn of_model(form: Form, model: Vec<u8>) -> Content {
        let plan = decode(&model);
        Content { form, model, plan }
    }

    fn of_text(plan: Plan) -> Content {
        Content {
            form: Form::Text,
            model: encode(&plan),
            plan: Ok(plan),
        }
    }
}

/// The plan of a text or the bytes of a model, or all mistakes of a text.
pub fn content_of(file: &str, bytes: &[u8]) -> Result<Content, String> {
    let Some(text) = Text::of(bytes) else {
        return Ok(Content::of_model(Form::Bytes, bytes.to_vec()));
    };
    if text.lists_numbers() {
        let model = text.numbers(file)?;
        Ok(Content::of_model(Form::List, model))
    } else {
        text.plan(file).map(Content::of_text)
    }
}

/// The plan in a file of any form, or all that is wrong with it.
pub fn plan_in(file: &str, bytes: &[u8]) -> Result<Plan, String> {
    content_of(file, bytes)?.plan.map_err(|flaw| {
        let meaning = refusal_words(flaw.refusal).unwrap_or_default();
        let place = about(flaw.refusal, Err(&flaw), None);
        format!("{file}: {meaning}{place}")
    })
}

/// The bytes of evidence, from bytes or from a list of numbers.
pub fn evidence_in(file: &str, bytes: &[u8]) -> Result<Vec<u8>, String> {
    match Text::of(bytes).filter(Text::lists_numbers) {
        Some(text) => text.numbers(file),
        None => Ok(bytes.to_vec()),
    }
}

/// A text as it can be read, and what in it cannot.
struct Text {
    text: String,
    strays: Vec<Mistake>,
}

/// Models and evidence begin with 1 or 2, which takes three bytes at most, the
/// last of them below this; no text has such bytes in front.
const BELOW_TEXT: u8 = 3;

/// A text has so many letters at least for each stray byte.
const LETTERS_PER_STRAY: usize = 8;

const UTF_16_MARKS: [&[u8]; 2] = [b"\xff\xfe", b"\xfe\xff"];

impl Text {
    /// The text of a file, if it is one.
    fn of(bytes: &[u8]) -> Option<Text> {
        if bytes.iter().take(3).any(|&byte| byte < BELOW_TEXT) {
            return None;
        }
        if UTF_16_MARKS.iter().any(|mark| bytes.starts_with(mark)) {
            let words = "the text is saved as UTF-16; save it as UTF-8";
            return Some(Text {
                text: String::new(),
                strays: vec![mistake(1, 1, words.to_string())],
            });
        }
        let text = Text::cleared(bytes.strip_prefix(b"\xef\xbb\xbf").unwrap_or(bytes));
        let letters = text.text.chars().count();
        let enough = text.strays.len() <= 1 || letters / text.strays.len() >= LETTERS_PER_STRAY;
        enough.then_some(text)
    }

    /// A text with a stand-in for each byte that belongs to none.
    fn cleared(bytes: &[u8]) -> Text {
        let mut reading = Clearing::default();
        for chunk in bytes.utf8_chunks() {
            for letter in chunk.valid().chars() {
                if letter.is_control() && !letter.is_whitespace() {
                    reading.stray(letter as u32, "a control character");
                } else {
                    reading.push(letter);
                }
            }
            for &byte in chunk.invalid() {
                reading.stray(byte.into(), "no UTF-8");
            }
        }
        Text {
            text: reading.text,
            strays: reading.strays,
        }
    }

    /// Whether a text lists numbers: the first thing outside comments is a digit.
    fn lists_numbers(&self) -> bool {
        let outside = self.text.lines().map(outside_comment);
        let first = outside
            .flat_map(str::chars)
            .find(|letter| !letter.is_whitespace());
        first.is_some_and(|letter| letter.is_ascii_digit())
    }

    fn plan(self, file: &str) -> Result<Plan, String> {
        let (plan, mut mistakes) = match read_text(&self.text) {
            Ok(plan) => (Some(plan), Vec::new()),
            Err(mistakes) => (None, mistakes),
        };
        // What else is wrong in the line of a stray byte comes from that byte.
        mistakes.retain(|mistake| !self.has_stray_in(mistake.line));
        match plan.filter(|_| self.strays.is_empty()) {
            Some(plan) => Ok(plan),
            None => Err(self.shown(file, mistakes)),
        }
    }

    fn has_stray_in(&self, line: usize) -> bool {
        let found = self.strays.binary_search_by_key(&line, |stray| stray.line);
        found.is_ok()
    }

    /// The bytes that are listed, or all words that are none.
    fn numbers(self, file: &str) -> Result<Vec<u8>, String> {
        let (mut bytes, mut mistakes) = (Vec::new(), Vec::new());
        for (line, text) in (1..).zip(self.text.lines()) {
            let mut column = 1;
            for word in outside_comment(text).split(separates) {
                match word.parse() {
                    Ok(byte) => bytes.push(byte),
                    Err(_) if word.is_empty() => {}
                    Err(_) => mistakes.push(mistake(line, column, no_byte(word))),
                }
                column += word.chars().count() + 1;
            }
        }
        if mistakes.is_empty() && self.strays.is_empty() {
            return Ok(bytes);
        }
        mistakes.retain(|mistake| !self.has_stray_in(mistake.line));
        Err(self.shown(file, mistakes))
    }

    /// These mistakes and the strays.
    fn shown(mut self, file: &str, mut mistakes: Vec<Mistake>) -> String {
        mistakes.append(&mut self.strays);
        mistakes.sort();
        all_shown(&mistakes, file, &self.text)
    }
}

fn mistake(line: usize, column: usize, words: String) -> Mistake {
    Mistake {
        line,
        column,
        words,
    }
}

fn no_byte(word: &str) -> String {
    format!("'{word}' is no number from 0 to 255, as each byte of the list must be")
}

fn outside_comment(line: &str) -> &str {
    line.split('#').next().unwrap_or("")
}

/// Whether a letter sets apart the numbers of a list.
fn separates(letter: char) -> bool {
    letter == ',' || letter == ';' || letter.is_whitespace()
}

/// The text so far, the place after it and the strays.
#[derive(Default)]
struct Clearing {
    text: String,
    lines: usize,
    column: usize,
    strays: Vec<Mistake>,
}

impl Clearing {
    fn push(&mut self, letter: char) {
        self.text.push(letter);
        if letter == '\n' {
            self.lines += 1;
            self.column = 0;
        } else {
            self.column += 1;
        }
    }

    fn stray(&mut self, number: u32, why: &str) {
        let words = format!("the byte {number} is {why}; save the file as UTF-8 text");
        self.strays
            .push(mistake(self.lines + 1, self.column + 1, words));
        self.push(char::REPLACEMENT_CHARACTER);
    }
}

#[cfg(test)]
mod tests {
    use super::*;
    use crate::print::write_list;

    const PLAN: &str = "clocks x\nceiling 1\nlocation a start # of \u{e9}t\u{e9}\n";

    #[test]
    fn told_apart_by_content() {
        let named = read_text(PLAN).unwrap();
        let seen = |bytes: &[u8]| content_of("f", bytes).unwrap();
        let model = vec![1, 1, 1, 1, 0, 0, 0, 0];
        let text = Content {
            form: Form::Text,
            model: model.clone(),
            plan: Ok(named.clone()),
        };
        assert_eq!(seen(PLAN.as_bytes()), text);
        // Saved with a byte order mark and the line ends of another system.
        let saved = format!("\u{feff}{}", PLAN.replace('\n', "\r\n"));
        assert_eq!(seen(saved.as_bytes()), text);
        let listed = "# a list\n1,1,1;1, 0 0 0\n0 # all\n";
        for (bytes, form) in [
            (&model[..], Form::Bytes),
            (listed.as_bytes(), Form::List),
            (write_list(&model).as_bytes(), Form::List),
        ] {
            let plan = Ok(named.clone().with_plain_names());
            let model = model.clone();
            assert_eq!(seen(bytes), Content { form, model, plan });
        }
        // Padded numbers, and noise.
        for bytes in [&[129, 0, 1][..], &[129, 128, 0], b"\x89\xf1\xff\xfe\xfa"] {
            let content = seen(bytes);
            assert_eq!((content.form, &content.model[..]), (Form::Bytes, bytes));
            assert!(content.plan.is_err());
        }
    }

    fn mistakes(bytes: &[u8]) -> String {
        content_of("f", bytes).unwrap_err()
    }

    #[test]
    fn a_stray_byte_has_a_place() {
        let latin: Vec<u8> = PLAN.chars().map(|letter| letter as u8).collect();
        let shown = mistakes(&latin);
        let words = "the byte 233 is no UTF-8; save the file as UTF-8 text\n";
        assert!(shown.starts_with(&format!("f, line 3, column 23: {words}")));
        assert!(shown.contains(&format!("f, line 3, column 25: {words}")));
        assert!(shown.ends_with("2 mistakes\n"), "{shown}");
        // Inside a word it makes no second mistake of the word.
        let shown = mistakes(b"clocks x\nceil\xffing 1\nlocation a\x07 start\n");
        assert!(shown.contains("f, line 2, column 5: the byte 255 is no UTF-8"));
        assert!(shown.contains("f, line 3, column 11: the byte 7 is a control character"));
        assert_eq!(shown.matches("f, line").count(), 2, "{shown}");
        assert!(mistakes(b"\xff\xfec\0l\0").contains("saved as UTF-16"));
    }

    #[test]
    fn a_list_has_bytes_only() {
        let shown = mistakes(b"1, 300\n2 x, 4");
        assert!(shown.starts_with("f, line 1, column 4: '300' is no number from 0 to 255"));
        assert!(shown.contains("f, line 2, column 3: 'x' is no number"));
    }
}
