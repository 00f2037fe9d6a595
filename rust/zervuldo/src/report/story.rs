//! A trail told in words: waits folded into the jumps that end them, and a
//! loop told by one turn of it.

use super::html::{element, list, Html};
use crate::units::units_words;
use plan::tell::story::{loop_name, Event, Part, Story};
use plan::tell::{clock_words, edge_name};
use plan::Plan;

/// The story as a list, from the start to what is forbidden.
pub fn told(plan: &Plan, story: &Story) -> Html {
    let start = plan.quoted(plan.start);
    let start = Html::from(format!("The ring starts in {start} with all clocks at 0."));
    let last = story.parts.last().map(|part| part.to.location);
    let end = plan.quoted(last.unwrap_or(plan.start));
    let end = element(
        "strong",
        format!("{end} is forbidden: this is the failure."),
    );
    let mut teller = Teller {
        plan,
        has_numbers: true,
        items: vec![start],
    };
    teller.tell(&story.parts);
    list("ol", teller.items.into_iter().chain([end]))
}

struct Teller<'a> {
    plan: &'a Plan,
    /// Whether the steps are those of the evidence, which are numbered.
    has_numbers: bool,
    items: Vec<Html>,
}

impl Teller<'_> {
    fn tell(&mut self, parts: &[Part]) {
        let mut wait: Option<&Part> = None;
        for part in parts {
            match &part.event {
                Event::Wait => wait = Some(part),
                Event::Jump(edge) => {
                    let words = self.jump(wait, *edge);
                    let first = wait.take().map_or(part.first, |wait| wait.first);
                    self.add(first, part, words.into());
                }
                other => {
                    self.add_wait(wait.take());
                    self.add(part.first, part, self.strange(other));
                }
            }
        }
        self.add_wait(wait);
    }

    /// A wait that no jump ends.
    fn add_wait(&mut self, wait: Option<&Part>) {
        let Some(part) = wait else {
            return;
        };
        let place = self.plan.quoted(part.to.location);
        let words = format!("{} the ring is still in {place}.", self.after(Some(part)));
        self.add(part.first, part, words.into());
    }

    /// Adds an item, with how the clocks stand after it.
    fn add(&mut self, first: usize, part: &Part, words: Html) {
        let clocks = clock_words(self.plan, &part.to.region);
        let clocks = element("span class=\"clocks\"", format!(" Now {clocks}."));
        let steps = match self.has_numbers {
            true => {
                let told = Part {
                    first,
                    ..part.clone()
                };
                element("span class=\"steps\"", format!(" ({})", told.steps_words()))
            }
            false => Html::default(),
        };
        self.items.push(Html::from([words, clocks, steps]));
    }

    fn jump(&self, wait: Option<&Part>, number: usize) -> String {
        let edge = &self.plan.edges[number];
        let (name, to) = (edge_name(self.plan, number), self.plan.quoted(edge.to));
        let resets = match self.plan.reset_names(edge)[..] {
            [] => String::new(),
            ref names => format!(" and sets {} to 0", names.join(", ")),
        };
        format!("{} {name} leads to {to}{resets}.", self.after(wait))
    }

    /// How long a wait takes, as a sentence begins with it.
    fn after(&self, wait: Option<&Part>) -> String {
        let Some(part) = wait else {
            return "At once".to_string();
        };
        let (least, most) = part.wait(self.plan.clocks.len());
        let plural = if most == 1 { "" } else { "s" };
        let real = |units: u8| units_words(self.plan, units.into());
        let (units, real) = match least {
            0 => (format!("Within {most}"), real(most)),
            _ if least == most => (format!("After {most}"), real(most)),
            _ => {
                let span = real(least).zip(real(most));
                let span = span.map(|(least, most)| format!("{least} to {most}"));
                (format!("After {least} to {most}"), span)
            }
        };
        let real = real.map_or(String::new(), |real| format!(" ({real})"));
        format!("{units} unit{plural}{real}")
    }

    /// What perfect clocks do not do.
    fn strange(&self, event: &Event) -> Html {
        let Event::Drift { number, turn } = event else {
            let words = "The clocks are within a hair of this, and drift makes up for the hair.";
            return words.into();
        };
        let name = loop_name(*number);
        let words = format!(
            "Then round this loop, a hair later each time ({name}; its last turn is told):"
        );
        let mut teller = Teller {
            plan: self.plan,
            has_numbers: false,
            items: Vec::new(),
        };
        teller.tell(turn);
        let turn = list("ol class=\"turn\"", teller.items);
        Html::from([
            words.into(),
            turn,
            "After many turns the trail goes on.".into(),
        ])
    }
}
