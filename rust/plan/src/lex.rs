//! A line of text cut into tokens with their columns.

#[derive(Clone, Debug, PartialEq, Eq)]
pub enum Kind {
    /// Letters, digits, `_` and inner `-`; also what is written like 2x or 1.5.
    Word,
    /// Digits only.
    Number,
    /// An arrow, a comparison, a comma or a colon.
    Sign(&'static str),
    /// Anything else.
    Other,
}

#[derive(Clone, Debug, PartialEq, Eq)]
pub struct Token {
    pub kind: Kind,
    pub text: String,
    pub line: usize,
    pub column: usize,
}

impl Token {
    pub fn is(&self, word: &str) -> bool {
        self.kind == Kind::Word && self.text == word
    }

    pub fn is_sign(&self, sign: &str) -> bool {
        self.kind == Kind::Sign(match_sign(sign))
    }
}

/// Signs, longer ones first; the second spelling is what they stand for.
const SIGNS: [(&str, &str); 12] = [
    ("->", "->"),
    ("→", "->"),
    ("<=", "<="),
    (">=", ">="),
    ("==", "="),
    ("≤", "<="),
    ("≥", ">="),
    ("<", "<"),
    (">", ">"),
    ("=", "="),
    (",", ","),
    (":", ":"),
];

fn match_sign(sign: &str) -> &'static str {
    SIGNS
        .iter()
        .find(|(spelling, _)| *spelling == sign)
        .map_or("", |(_, meaning)| meaning)
}

/// The tokens of a line before its comment.
pub fn tokens(line: &str, number: usize) -> Vec<Token> {
    let letters: Vec<char> = line.chars().take_while(|letter| *letter != '#').collect();
    let mut found = Vec::new();
    let mut at = 0;
    while at < letters.len() {
        if letters[at].is_whitespace() {
            at += 1;
            continue;
        }
        let (kind, length) = token_at(&letters[at..]);
        found.push(Token {
            kind,
            text: letters[at..at + length].iter().collect(),
            line: number,
            column: at + 1,
        });
        at += length;
    }
    found
}

/// The kind and length of the token that begins here.
fn token_at(rest: &[char]) -> (Kind, usize) {
    let length = word_length(rest);
    if length > 0 {
        let digits = rest[..length].iter().all(char::is_ascii_digit);
        return (if digits { Kind::Number } else { Kind::Word }, length);
    }
    for (spelling, meaning) in SIGNS {
        let length = spelling.chars().count();
        if rest.len() >= length && spelling.chars().eq(rest[..length].iter().copied()) {
            return (Kind::Sign(meaning), length);
        }
    }
    (Kind::Other, 1)
}

/// A word goes on with `-` or `.` only if a letter or digit follows, so that
/// `idle->ringing` is three tokens.
fn word_length(rest: &[char]) -> usize {
    let inner = |letter: char| letter.is_alphanumeric() || letter == '_';
    let mut length = 0;
    while length < rest.len() {
        let joins = length > 0 && matches!(rest[length], '-' | '.');
        let goes_on = joins && rest.get(length + 1).is_some_and(|next| inner(*next));
        if !inner(rest[length]) && !goes_on {
            break;
        }
        length += 1;
    }
    length
}

#[cfg(test)]
mod tests {
    use super::*;

    fn texts(line: &str) -> Vec<(String, usize)> {
        tokens(line, 1)
            .into_iter()
            .map(|token| (token.text, token.column))
            .collect()
    }

    #[test]
    fn words_and_signs() {
        let expected = [
            ("idle", 1),
            ("->", 5),
            ("main-panel", 7),
            ("1", 18),
            ("<=", 19),
            ("x", 21),
        ];
        assert_eq!(
            texts("idle->main-panel 1<=x # rest"),
            expected.map(|(text, column)| (text.to_string(), column))
        );
        assert!(tokens("a ≤ 2", 1)[1].is_sign("<="));
        assert!(tokens("a == 2", 1)[1].is_sign("="));
    }

    #[test]
    fn numbers_are_digits() {
        let kinds: Vec<Kind> = tokens("12 1.5 2x !", 1)
            .into_iter()
            .map(|token| token.kind)
            .collect();
        assert_eq!(kinds, [Kind::Number, Kind::Word, Kind::Word, Kind::Other]);
    }
}
