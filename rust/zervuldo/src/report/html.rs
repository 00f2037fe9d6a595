//! HTML that is escaped and closed by the way it is made.

use plan::svg::escaped;

/// A piece of a page. Words become one by being escaped.
#[derive(Clone, Debug, Default, PartialEq, Eq)]
pub struct Html(String);

impl From<&str> for Html {
    fn from(words: &str) -> Html {
        Html(escaped(words))
    }
}

impl From<String> for Html {
    fn from(words: String) -> Html {
        Html::from(words.as_str())
    }
}

impl<const COUNT: usize> From<[Html; COUNT]> for Html {
    fn from(parts: [Html; COUNT]) -> Html {
        parts.into_iter().collect()
    }
}

impl FromIterator<Html> for Html {
    fn from_iter<Parts: IntoIterator<Item = Html>>(parts: Parts) -> Html {
        Html(parts.into_iter().map(|part| part.0).collect())
    }
}

impl Html {
    /// A drawing, which has escaped its texts itself, or a style.
    pub fn as_is(text: &str) -> Html {
        Html(text.to_string())
    }

    pub fn into_page(self) -> String {
        format!("<!DOCTYPE html>\n{}", self.0)
    }
}

/// An element; behind its name may come attributes, which are not escaped.
pub fn element(tag: &str, inside: impl Into<Html>) -> Html {
    let name = tag.split(' ').next().unwrap_or(tag);
    Html(format!("<{tag}>{}</{name}>\n", inside.into().0))
}

/// An element that holds nothing.
pub fn empty(tag: &str) -> Html {
    Html(format!("<{tag}>\n"))
}

pub fn paragraph(inside: impl Into<Html>) -> Html {
    element("p", inside)
}

/// A part of the page under a heading.
pub fn section(heading: &str, parts: impl IntoIterator<Item = Html>) -> Html {
    let heading = element("h2", heading);
    let parts = std::iter::once(heading).chain(parts);
    element("section", parts.collect::<Html>())
}

/// A list with a sign, or with numbers, before each item.
pub fn list(tag: &str, items: impl IntoIterator<Item = Html>) -> Html {
    let items = items.into_iter().map(|item| element("li", item));
    element(tag, items.collect::<Html>())
}

/// Something to be typed or read letter by letter, inside a sentence.
pub fn code(words: &str) -> Html {
    Html(format!("<code>{}</code>", escaped(words)))
}

/// Whole lines of that kind.
pub fn lines(words: &str) -> Html {
    element("pre", words)
}

#[cfg(test)]
mod tests {
    use super::*;

    #[test]
    fn words_are_escaped_and_elements_closed() {
        let page = paragraph([Html::from("a<b & \"c\" "), code("'x'>1")]).into_page();
        let inside = "a&lt;b &amp; &quot;c&quot; <code>&#39;x&#39;&gt;1</code>";
        assert_eq!(page, format!("<!DOCTYPE html>\n<p>{inside}</p>\n"));
        let tagged = element("li class=\"x\"", "").into_page();
        assert!(tagged.ends_with("<li class=\"x\"></li>\n"));
    }
}
