//! A plan's bytes beside its shortest form. The proved writer gives that form,
//! and the proved reader of numbers tells them apart.

use crate::library::shortest;
use crate::outcome::Failure;
use crate::source::{Accepted, Source};
use crate::text::counted;
use drift::Numbers;
use plan::input::Form;
use plan::EDGES_MARK;
use std::iter::from_fn;

/// An accepted plan with its shortest form.
pub struct Spelling {
    pub accepted: Accepted,
    /// How its file is written.
    pub form: Form,
    pub shortest: Vec<u8>,
}

impl Source {
    pub fn spelling(&self) -> Result<Spelling, Failure> {
        let (accepted, form) = self.read()?;
        let shortest = self.proved(shortest(&accepted.model))?;
        Ok(Spelling {
            accepted,
            form,
            shortest,
        })
    }
}

impl Spelling {
    pub fn is_shortest(&self) -> bool {
        self.accepted.model == self.shortest
    }

    /// Whether the plan is in its shortest form, and if not, why.
    pub fn words(&self) -> String {
        let mut reasons = Vec::new();
        let padding = self.accepted.model.len() - self.shortest.len();
        if padding > 0 {
            reasons.push(format!("{} too long", counted(padding, "byte")));
        }
        reasons.extend(self.default_words());
        match reasons.is_empty() {
            true => "in its shortest form".to_string(),
            false => format!("not in its shortest form: {}", reasons.join("; ")),
        }
    }

    /// How often stay fields spell out what 0 means: with mark 1 the ceiling
    /// alone, with mark 2 a limit for each field.
    fn default_words(&self) -> Option<String> {
        let mut spelt = self.spelt_out();
        if spelt.is_empty() {
            return None;
        }
        let default = match self.accepted.plan.mark {
            EDGES_MARK => "the default limit",
            _ => "the ceiling",
        };
        let fields = counted(spelt.len(), "stay field");
        spelt.sort();
        spelt.dedup();
        let numbers: Vec<String> = spelt.iter().map(u32::to_string).collect();
        let numbers = numbers.join(" or ");
        Some(format!(
            "{default} is spelt {numbers} in {fields}, where 0 means the same"
        ))
    }

    /// The stay fields that spell out what 0 means. The shortest form has the
    /// same numbers but for these, which are 0 there.
    fn spelt_out(&self) -> Vec<u32> {
        let mut given = Numbers::new(&self.accepted.model);
        let mut short = Numbers::new(&self.shortest);
        from_fn(|| Some((given.number().ok()?, short.number().ok()?)))
            .filter(|(given, short)| given != short)
            .map(|(given, _)| given)
            .collect()
    }
}
