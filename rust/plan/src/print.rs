//! A plan written as text, in the form that `read_text` reads, and bytes as a
//! list of numbers.

use crate::units::Quantity;
use crate::{Plan, EDGES_MARK};

/// The text of a plan; what is said by leaving it out is left out.
pub fn write_text(plan: &Plan) -> String {
    let mut text = format!(
        "{}clocks {}\nceiling {}\n{}\n",
        mark_line(plan),
        plan.clocks.join(" "),
        plan.ceiling,
        unit_lines(plan)
    );
    for at in 0..plan.locations.len() {
        text += &location_line(plan, at);
    }
    if !plan.edges.is_empty() {
        text.push('\n');
    }
    for at in 0..plan.edges.len() {
        text += &edge_line(plan, at);
    }
    text
}

/// Bytes as a list of numbers, on one line.
pub fn write_list(bytes: &[u8]) -> String {
    let numbers: Vec<String> = bytes.iter().map(u8::to_string).collect();
    numbers.join(",") + "\n"
}

fn mark_line(plan: &Plan) -> String {
    match plan.mark {
        EDGES_MARK => format!("mark {EDGES_MARK}\n"),
        _ => String::new(),
    }
}

fn unit_lines(plan: &Plan) -> String {
    let line = |quantity: Quantity| {
        let value = plan.units.get(quantity)?;
        Some(format!("{} {}\n", quantity.name(), quantity.written(value)))
    };
    Quantity::ALL.into_iter().filter_map(line).collect()
}

fn location_line(plan: &Plan, at: usize) -> String {
    let mut line = format!("location {}", plan.locations[at].name);
    if plan.start == at {
        line += " start";
    }
    if plan.locations[at].forbidden {
        line += " forbidden";
    }
    let stay = plan.stay_words(at);
    if !stay.is_empty() {
        line += &format!(" stay {}", stay.join(", "));
    }
    line + "\n"
}

fn edge_line(plan: &Plan, at: usize) -> String {
    let edge = &plan.edges[at];
    let mut line = "edge ".to_string();
    if let Some(name) = &edge.name {
        line += &format!("{name}: ");
    }
    line += &format!(
        "{} -> {}",
        plan.locations[edge.from].name, plan.locations[edge.to].name
    );
    let guard = plan.guard_words(edge);
    if !guard.is_empty() {
        line += &format!(" when {}", guard.join(", "));
    }
    let resets = plan.reset_names(edge);
    if !resets.is_empty() {
        line += &format!(" reset {}", resets.join(", "));
    }
    line + "\n"
}
