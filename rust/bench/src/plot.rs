//! The times of a run as a picture: states to the right, microseconds upward,
//! both by powers of ten.

use crate::{Means, CALLS};
use std::fmt::Write;

const WIDTH: f64 = 640.0;
const HEIGHT: f64 = 420.0;
const MARGIN: f64 = 60.0;

/// From the least to the greatest that the axes show.
const STATES: [f64; 2] = [100.0, 20_000.0];
const MICROSECONDS: [f64; 2] = [3.0, 3_000.0];

const COLOURS: [&str; CALLS.len()] = [
    "#1f77b4", "#ff7f0e", "#8c564b", "#2ca02c", "#d62728", "#9467bd",
];

/// A size with the mean times of its class.
pub type Point = (usize, Means);

/// Where a value stands between the ends of an axis, from 0 to 1.
fn place(value: f64, [least, greatest]: [f64; 2]) -> f64 {
    (value / least).ln() / (greatest / least).ln()
}

fn across(states: f64) -> f64 {
    MARGIN + place(states, STATES) * (WIDTH - 2.0 * MARGIN)
}

fn down(microseconds: f64) -> f64 {
    HEIGHT - MARGIN - place(microseconds, MICROSECONDS) * (HEIGHT - 2.0 * MARGIN)
}

fn tick_lines(svg: &mut String) {
    let (middle, bottom) = (WIDTH / 2.0, HEIGHT - 16.0);
    let _ = writeln!(
        svg,
        r#"<text x="{middle}" y="{bottom}" text-anchor="middle">states</text>"#
    );
    for states in [100.0, 1_000.0, 10_000.0] {
        let (x, low, high) = (across(states), HEIGHT - MARGIN, MARGIN);
        let _ = writeln!(svg, r##"<path d="M{x:.1} {low} V{high}" stroke="#ddd"/>"##);
        let _ = writeln!(
            svg,
            r#"<text x="{x:.1}" y="{}" text-anchor="middle">{states}</text>"#,
            low + 18.0
        );
    }
    for time in [10.0, 100.0, 1_000.0] {
        let (y, left, right) = (down(time), MARGIN, WIDTH - MARGIN);
        let _ = writeln!(
            svg,
            r##"<path d="M{left} {y:.1} H{right}" stroke="#ddd"/>"##
        );
        let _ = writeln!(
            svg,
            r#"<text x="{}" y="{:.1}" text-anchor="end">{time} µs</text>"#,
            left - 6.0,
            y + 4.0
        );
    }
}

/// A line through the times of a call: ours whole, the second checker's dashed.
fn curve(svg: &mut String, points: &[Point], call: usize, whose: usize) {
    let mut points: Vec<_> = points.to_vec();
    points.sort_by_key(|(states, _)| *states);
    let places: String = points
        .iter()
        .map(|(states, means)| {
            format!(
                "{:.1},{:.1} ",
                across(*states as f64),
                down(means[call][whose])
            )
        })
        .collect();
    let dashes = if whose == 0 { "none" } else { "5 4" };
    let colour = COLOURS[call];
    let _ = writeln!(
        svg,
        r#"<polyline points="{places}" fill="none" stroke="{colour}" stroke-width="2" stroke-dasharray="{dashes}"/>"#
    );
}

fn legend(svg: &mut String) {
    for (call, (name, colour)) in CALLS.iter().zip(COLOURS).enumerate() {
        let y = MARGIN + 16.0 * call as f64;
        let _ = writeln!(
            svg,
            r#"<text x="{}" y="{y}" fill="{colour}">{name}</text>"#,
            MARGIN + 10.0
        );
    }
}

/// The picture of one class.
pub fn svg(title: &str, points: &[Point]) -> String {
    let mut svg = format!(
        r#"<svg xmlns="http://www.w3.org/2000/svg" width="{WIDTH}" height="{HEIGHT}" font-family="sans-serif" font-size="12">"#
    );
    svg.push('\n');
    svg.push_str(r##"<rect width="100%" height="100%" fill="#fff"/>"##);
    let _ = writeln!(
        svg,
        r#"<text x="{MARGIN}" y="24" font-size="14">{title}: proved library whole, second checker dashed</text>"#
    );
    tick_lines(&mut svg);
    for call in 0..CALLS.len() {
        curve(&mut svg, points, call, 0);
        curve(&mut svg, points, call, 1);
    }
    legend(&mut svg);
    svg.push_str("</svg>\n");
    svg
}
