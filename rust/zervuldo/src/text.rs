//! Words on lines that are not too long.

/// Letters on a line, for terminals of 80.
const WIDTH: usize = 78;

/// A first line that begins with a label, and further ones below its words;
/// the label is as wide as the indent.
pub fn wrapped(label: &str, indent: usize, words: &str) -> String {
    let mut lines = vec![format!("{label:<indent$}")];
    for word in words.split_whitespace() {
        let last = lines.last_mut().expect("there is a line");
        let length = last.chars().count();
        if length == indent {
            *last += word;
        } else if length + 1 + word.chars().count() <= WIDTH {
            *last += &format!(" {word}");
        } else {
            lines.push(format!("{:indent$}{word}", ""));
        }
    }
    lines.join("\n") + "\n"
}

/// So many of a thing.
pub fn counted(count: usize, thing: &str) -> String {
    match count {
        1 => format!("1 {thing}"),
        count => format!("{count} {thing}s"),
    }
}

/// Rows of two columns.
pub fn columns(rows: &[(String, &str)]) -> String {
    let widths = rows.iter().map(|(left, _)| left.chars().count());
    let indent = widths.max().unwrap_or(0) + 4;
    let row = |(left, right): &(String, &str)| wrapped(&format!("  {left}"), indent, right);
    rows.iter().map(row).collect()
}

/// Lines moved to the right, as those below a heading are.
pub fn indented(lines: &str) -> String {
    lines.lines().map(|line| format!("  {line}\n")).collect()
}

/// Rows under their heads, each column as wide as it must be; in one of them
/// stand numbers, which end below each other.
pub fn table<const COLUMNS: usize>(
    heads: [&str; COLUMNS],
    numbers: Option<usize>,
    rows: &[[String; COLUMNS]],
) -> String {
    let heads = heads.map(str::to_string);
    let all = || std::iter::once(&heads).chain(rows);
    let line = |row: &[String; COLUMNS]| {
        let cells = row.iter().enumerate().map(|(column, cell)| {
            let widths = all().map(|row| row[column].chars().count());
            let width = widths.max().unwrap_or(0);
            match numbers == Some(column) {
                true => format!("{cell:>width$}"),
                false => format!("{cell:<width$}"),
            }
        });
        let cells: Vec<String> = cells.collect();
        cells.join("  ").trim_end().to_string() + "\n"
    };
    all().map(line).collect()
}

#[cfg(test)]
mod tests {
    use super::*;

    #[test]
    fn no_line_is_too_long() {
        let words = "word ".repeat(50);
        for (label, indent) in [("", 0), ("label", 16)] {
            let lines = wrapped(label, indent, &words);
            assert!(lines.lines().all(|line| line.chars().count() <= WIDTH));
            assert_eq!(lines.matches("word").count(), 50);
            assert!(lines.starts_with(label) && lines.ends_with("word\n"));
        }
    }

    #[test]
    fn columns_stand_below_each_other() {
        let rows = [("a".to_string(), "one"), ("long".to_string(), "two")];
        assert_eq!(columns(&rows), "  a     one\n  long  two\n");
        let rows = [["a", "1", ""], ["long", "10", "end"]];
        let rows = rows.map(|row| row.map(str::to_string));
        assert_eq!(
            table(["x", "n", "last"], Some(1), &rows),
            "x      n  last\na      1\nlong  10  end\n"
        );
    }
}
