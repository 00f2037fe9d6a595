//! Mistakes in a text, each with its place.

/// A mistake: lines and columns count from 1, columns in characters.
#[derive(Clone, Debug, PartialEq, Eq, PartialOrd, Ord)]
pub struct Mistake {
    pub line: usize,
    pub column: usize,
    pub words: String,
}

/// So many mistakes are shown, and so many letters of a line and of what is
/// said of it; more would be read by nobody.
const MOST_SHOWN: usize = 20;
const WIDEST_LINE: usize = 160;
const MOST_WORDS: usize = 400;

/// So many letters of a name are repeated where names are listed.
const LONGEST_LISTED: usize = 24;

impl Mistake {
    /// The mistake with the line it is in and a mark under its place.
    pub fn shown(&self, file: &str, text: &str) -> String {
        let line = text.lines().nth(self.line - 1).unwrap_or("");
        let (excerpt, column) = excerpt(line, self.column);
        // Tabs stay tabs, so that the mark stands where the eye expects it.
        let blank = |letter: char| if letter == '\t' { '\t' } else { ' ' };
        let before: String = excerpt
            .chars()
            .map(blank)
            .chain(std::iter::repeat(' '))
            .take(column - 1)
            .collect();
        format!(
            "{file}, line {}, column {}: {}\n    {excerpt}\n    {before}^\n",
            self.line,
            self.column,
            cut(&self.words, MOST_WORDS)
        )
    }
}

/// A text, or the first letters of a long one.
fn cut(text: &str, most: usize) -> String {
    match text.char_indices().nth(most) {
        Some((end, _)) => format!("{}...", &text[..end]),
        None => text.to_string(),
    }
}

/// A line, or of a long one the part around a column, and the column there.
fn excerpt(line: &str, column: usize) -> (String, usize) {
    let letters = line.chars().count();
    if letters <= WIDEST_LINE {
        return (line.to_string(), column);
    }
    let from = (column - 1).saturating_sub(WIDEST_LINE / 2);
    let part: String = line.chars().skip(from).take(WIDEST_LINE).collect();
    (part, column - from)
}

/// The first mistakes of a text, in order, with a count of all at the end.
pub fn all_shown(mistakes: &[Mistake], file: &str, text: &str) -> String {
    let shown: String = mistakes
        .iter()
        .take(MOST_SHOWN)
        .map(|mistake| mistake.shown(file, text))
        .collect();
    let count = match mistakes.len() {
        1 => "1 mistake".to_string(),
        count if count > MOST_SHOWN => {
            let rest = count - MOST_SHOWN;
            format!("and {rest} more, {count} mistakes in all")
        }
        count => format!("{count} mistakes"),
    };
    format!("{shown}{count}\n")
}

/// The numbers from a low to a high, in words.
pub fn range_words(low: u32, high: u32) -> String {
    match high - low {
        0 => low.to_string(),
        1 => format!("{low} or {high}"),
        _ => format!("{low} to {high}"),
    }
}

/// A name for a list of names.
pub fn shortened(name: &str) -> String {
    cut(name, LONGEST_LISTED)
}

/// The known word nearest to a misspelt one, if any is near. Words of one
/// letter are all alike, so only its case may differ there; very long ones are
/// no slips of the pen.
pub fn nearest<'a>(word: &str, known: impl IntoIterator<Item = &'a str>) -> Option<&'a str> {
    let is_long = |word: &str| word.chars().nth(2 * LONGEST_LISTED).is_some();
    let allowed = match word.chars().count() {
        _ if is_long(word) => return None,
        ..=1 => 0,
        2..=4 => 1,
        _ => 2,
    };
    let near = known
        .into_iter()
        .filter(|other| !is_long(other))
        .map(|other| (distance(word, other), other))
        .filter(|(distance, _)| *distance <= allowed);
    near.min().map(|(_, other)| other)
}

/// The nearest known word as a question, or nothing.
pub fn guess<'a>(word: &str, known: impl IntoIterator<Item = &'a str>) -> String {
    nearest(word, known).map_or(String::new(), |other| format!("; did you mean '{other}'?"))
}

/// How many letters to add, drop or change to get from one word to the other.
fn distance(one: &str, other: &str) -> usize {
    let other: Vec<char> = other.to_lowercase().chars().collect();
    let mut row: Vec<usize> = (0..=other.len()).collect();
    for (i, letter) in one.to_lowercase().chars().enumerate() {
        let mut corner = row[0];
        row[0] = i + 1;
        for j in 0..other.len() {
            let change = corner + usize::from(letter != other[j]);
            corner = row[j + 1];
            row[j + 1] = change.min(corner + 1).min(row[j] + 1);
        }
    }
    row[other.len()]
}

#[cfg(test)]
mod tests {
    use super::*;

    #[test]
    fn guesses() {
        assert_eq!(
            guess("locaton", ["edge", "location"]),
            "; did you mean 'location'?"
        );
        assert_eq!(
            guess("ringin", ["idle", "ringing"]),
            "; did you mean 'ringing'?"
        );
        assert_eq!(guess("w", ["xy", "panel"]), "");
        assert_eq!(guess("w", ["x", "y"]), "");
        assert_eq!(guess("X", ["x", "y"]), "; did you mean 'x'?");
    }

    #[test]
    fn the_mark_stands_under_the_place() {
        let mistake = Mistake {
            line: 2,
            column: 3,
            words: "wrong".to_string(),
        };
        assert_eq!(
            mistake.shown("f", "a\n\tbcd"),
            "f, line 2, column 3: wrong\n    \tbcd\n    \t ^\n"
        );
    }
}
