//! A plan's file: read, accepted and judged by the proved library, with all
//! that belongs to the verdict.

use crate::example::example;
use crate::facts::{Facts, Finding, Perfect, Safe, Unsafe, Warning};
use crate::library::Library;
use crate::outcome::Failure;
use crate::perfect::perfect;
use crate::warnings::warnings;
use drift::{Harm, Kind, Refusal, SheetMargin, Verdict};
use plan::bytes::encode;
use plan::explain::{about, refusal_words};
use plan::input::{content_of, Content, Form};
use plan::trail::{read_trail, start_of};
use plan::units::Quantity;
use plan::{Flaw, Plan, Units, CEILING_MARK};

/// A plan's file as it was read.
pub struct Source {
    /// What messages call it.
    pub file: String,
    /// Its name without folders and ending.
    pub title: String,
    pub content: Vec<u8>,
    /// What options say of real units, in place of the plan.
    pub units: Units,
}

/// A plan that the proved library accepts.
pub struct Accepted {
    pub plan: Plan,
    pub model: Vec<u8>,
}

impl Source {
    /// The plan and its bytes, or its mistakes, or why it is refused.
    pub fn accepted(&self) -> Result<Accepted, Failure> {
        let (Accepted { plan, model }, _) = self.read()?;
        let plan = self.with_units(plan)?;
        Ok(Accepted { plan, model })
    }

    /// The same for those to whom real units are no matter, and the form of the
    /// file.
    pub fn read(&self) -> Result<(Accepted, Form), Failure> {
        let Content { form, model, plan } =
            content_of(&self.file, &self.content).map_err(Failure::refused)?;
        // The call that needs no scratch: it reads the model as all of them do.
        drift::room(&model).map_err(|refusal| self.refused(refusal, plan.as_ref()))?;
        let plan = plan.map_err(|flaw| self.at_odds(&flaw.words))?;
        Ok((Accepted { plan, model }, form))
    }

    /// The refusal of the proved library in words; where it is comes from a
    /// reader that is not proved.
    fn refused(&self, refusal: Refusal, plan: Result<&Plan, &Flaw>) -> Failure {
        let number = refusal.number();
        let meaning = refusal_words(number).unwrap_or_default();
        let place = about(number, plan, None);
        Failure::refused(format!("{}: {meaning}{place}", self.file))
    }

    /// What cannot be unless there is a mistake in this program.
    pub fn at_odds(&self, words: &str) -> Failure {
        let file = &self.file;
        Failure::failed(format!(
            "{file}: the proved library and the code around it are at odds: {words}\n"
        ))
    }

    fn with_units(&self, mut plan: Plan) -> Result<Plan, Failure> {
        for quantity in Quantity::ALL {
            if let Some(value) = self.units.get(quantity) {
                plan.units.set(quantity, value);
            }
        }
        if plan.units.bit_rate.is_some() && plan.units.unit.is_none() {
            let (file, example) = (&self.file, Quantity::Unit.example());
            return Err(Failure::refused(format!(
                "{file}: a bit rate says nothing without the length of a unit, such as: {example}\n"
            )));
        }
        Ok(plan)
    }

    /// All that is known of the plan.
    pub fn facts(&self, library: &mut Library) -> Result<Facts, Failure> {
        let accepted = self.accepted()?;
        let judged = self.proved(library.judge(&accepted.model))?;
        let judgement = judged.judgement;
        let evidence = self.evidence(library, &accepted, judgement.verdict)?;
        let marks = self.proved(library.marks(&accepted.model))?;
        let finding = match judgement.verdict {
            Verdict::Safe => Finding::Safe(Safe {
                marked: judgement.count,
                margin: self.margin(library, &accepted)?,
            }),
            Verdict::Unsafe => Finding::Unsafe(Unsafe {
                steps: judgement.count,
                ..self.danger(library, &accepted, &evidence)?
            }),
        };
        let mut found = warnings(&accepted.plan, &marks);
        if judgement.verdict == Verdict::Safe {
            let by_mark = self.by_mark(library, &accepted.plan)?;
            found.splice(0..0, by_mark);
        }
        Ok(Facts {
            title: self.title.clone(),
            states: judgement.states,
            is_joint: judged.is_joint,
            finding,
            evidence,
            warnings: found,
            plan: accepted.plan,
            model: accepted.model,
        })
    }

    /// Whether a safe plan would be unsafe, or refused, if blank stay limits were
    /// the ceiling.
    fn by_mark(&self, library: &mut Library, plan: &Plan) -> Result<Option<Warning>, Failure> {
        if plan.mark == CEILING_MARK {
            return Ok(None);
        }
        let plan = Plan {
            mark: CEILING_MARK,
            ..plan.clone()
        };
        let judged = match library.judge(&encode(&plan)) {
            Err(Refusal::ClockUnreset) => return Ok(Some(Warning::AcceptedByMark)),
            answer => self.proved(answer)?,
        };
        let is_unsafe = judged.judgement.verdict == Verdict::Unsafe;
        Ok(is_unsafe.then_some(Warning::SafeByMark))
    }

    /// The answer of a call on a plan that the library accepted.
    pub fn proved<T>(&self, answer: Result<T, Refusal>) -> Result<T, Failure> {
        answer.map_err(|refusal| self.at_odds(&refusal.to_string()))
    }

    /// Our evidence, once the proved check has passed it.
    fn evidence(
        &self,
        library: &mut Library,
        accepted: &Accepted,
        verdict: Verdict,
    ) -> Result<Vec<u8>, Failure> {
        let evidence = self.proved(library.evidence(&accepted.model))?;
        let kind = self.proved(library.check(&accepted.model, &evidence))?;
        match (verdict, kind) {
            (Verdict::Safe, Kind::Sheet) | (Verdict::Unsafe, Kind::Trail) => Ok(evidence),
            _ => Err(self.at_odds(&format!("{verdict}, but the evidence is a {kind}"))),
        }
    }

    fn margin(&self, library: &mut Library, accepted: &Accepted) -> Result<u32, Failure> {
        match self.proved(library.margin(&accepted.model))? {
            SheetMargin::Safe { margin, .. } => Ok(margin),
            SheetMargin::Unsafe { .. } => Err(self.at_odds("safe, but without a margin")),
        }
    }

    /// What is known of an unsafe plan; its steps are for the judge to say.
    fn danger(
        &self,
        library: &mut Library,
        accepted: &Accepted,
        evidence: &[u8],
    ) -> Result<Unsafe, Failure> {
        let Harm::Within { base, rate, .. } = self.proved(library.harm(&accepted.model))? else {
            return Err(self.at_odds("unsafe, but without harm"));
        };
        let plan = &accepted.plan;
        let reading = read_trail(plan, evidence);
        let end = reading.steps.last().map_or(start_of(plan), |step| step.to);
        let perfect = perfect(library, accepted).map_err(|words| self.at_odds(&words))?;
        // Where perfect clocks fail too, the trail that shows it is a run.
        let example = match perfect {
            Perfect::Clean => example(plan, &reading.steps),
            Perfect::FailsToo { .. } => None,
        };
        Ok(Unsafe {
            steps: reading.steps.len(),
            location: end.location,
            perfect,
            base,
            rate,
            example,
        })
    }
}
