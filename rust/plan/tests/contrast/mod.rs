//! The contrast of texts to what they stand on, as WCAG defines it.

/// The least contrast of texts at level AA.
pub const LEAST: f64 = 4.5;

/// The contrast of two colours, written #rrggbb.
pub fn contrast(one: &str, other: &str) -> f64 {
    let (one, other) = (luminance(one), luminance(other));
    (one.max(other) + 0.05) / (one.min(other) + 0.05)
}

fn luminance(colour: &str) -> f64 {
    let digits = colour.strip_prefix('#').expect(colour);
    let share = |at: usize| {
        let part = u8::from_str_radix(&digits[at..at + 2], 16).expect(colour);
        match f64::from(part) / 255.0 {
            share if share <= 0.03928 => share / 12.92,
            share => ((share + 0.055) / 1.055).powf(2.4),
        }
    };
    0.2126 * share(0) + 0.7152 * share(2) + 0.0722 * share(4)
}

/// The value of an attribute in a tag.
pub fn attribute<'a>(tag: &'a str, name: &str) -> Option<&'a str> {
    let (_, rest) = tag.split_once(&format!(" {name}=\""))?;
    rest.split('"').next()
}

/// A filled rectangle: left, top, right, bottom and colour.
struct Ground<'a>(f64, f64, f64, f64, &'a str);

impl Ground<'_> {
    fn of(tag: &str) -> Option<Ground<'_>> {
        let fill = attribute(tag, "fill").filter(|fill| fill.starts_with('#'))?;
        if attribute(tag, "width") == Some("100%") {
            return Some(Ground(0.0, 0.0, f64::MAX, f64::MAX, fill));
        }
        let number = |name| attribute(tag, name)?.parse::<f64>().ok();
        let (left, top) = (number("x")?, number("y")?);
        Some(Ground(
            left,
            top,
            left + number("width")?,
            top + number("height")?,
            fill,
        ))
    }

    fn is_under(&self, x: f64, y: f64) -> bool {
        (self.0..=self.2).contains(&x) && (self.1..=self.3).contains(&y)
    }
}

/// Each text of a drawing with its contrast to the last rectangle that was
/// filled where it stands.
pub fn contrasts(svg: &str) -> Vec<(String, f64)> {
    let mut grounds: Vec<Ground> = Vec::new();
    let mut found = Vec::new();
    for tag in svg.split('<') {
        if tag.starts_with("rect ") {
            grounds.extend(Ground::of(tag));
        } else if tag.starts_with("text ") {
            let number = |name| attribute(tag, name).unwrap().parse::<f64>().unwrap();
            let (x, y) = (number("x"), number("y"));
            let ground = grounds.iter().rev().find(|ground| ground.is_under(x, y));
            let colour = attribute(tag, "fill").expect(tag);
            let contrast = contrast(colour, ground.expect(tag).4);
            found.push((tag.to_string(), contrast));
        }
    }
    found
}
