//! A case: a pair, a model, and one mark for each run of the replacement.

use super::models::Model;
use super::pair::Pair;
use super::refusal::{Cause, Refusal};
use super::runs::Event;
use super::steps::{HandIn, MAX_EVENTS, Step};

/// A case that is open for hand-ins.
#[derive(Debug)]
pub struct Case<'a> {
    pair: &'a Pair,
    model: Model,
    /// Whether each run of the replacement is marked.
    marks: Vec<bool>,
    /// The word that the steps work on.
    working: Vec<Event>,
    /// The word that they have to reach.
    goal: Vec<Event>,
}

/// What is left of a case that was sealed.
#[derive(Clone, Copy, Debug, PartialEq, Eq)]
pub struct Report {
    pub model: Model,
    /// How many runs of the replacement are not idle.
    pub not_idle: u16,
    /// How many different runs are marked.
    pub marked: u16,
    /// The lowest run that is neither idle nor marked; none means sound.
    pub unmatched: Option<u16>,
}

impl<'a> Case<'a> {
    /// Opens a case with no mark set.
    pub fn open(pair: &'a Pair, model: Model) -> Case<'a> {
        Case {
            pair,
            model,
            marks: vec![false; usize::from(pair.replacement.runs())],
            working: Vec::with_capacity(MAX_EVENTS),
            goal: Vec::with_capacity(MAX_EVENTS),
        }
    }

    /// Judges a hand-in, and marks its replacement run if it is accepted. The
    /// marks never decide an answer.
    pub fn hand_in(&mut self, file: &[u8]) -> Result<(), Refusal> {
        let replacement_run = self.judge(file)?;
        self.marks[usize::from(replacement_run)] = true;
        Ok(())
    }

    /// Judges a hand-in, and answers its replacement run if it is accepted.
    fn judge(&mut self, file: &[u8]) -> Result<u16, Refusal> {
        let hand_in = HandIn::read(file)?;
        let replacement = self
            .pair
            .replacement
            .run(hand_in.replacement_run, &mut self.goal)?;
        let original = self
            .pair
            .original
            .run(hand_in.original_run, &mut self.working)?;
        if replacement.idle || original.idle {
            return Err(Cause::IdleRun.at(0));
        }
        if replacement.start != original.start {
            return Err(Cause::StartRegisters.at(0));
        }
        for (index, &step) in hand_in.steps.iter().enumerate() {
            Step::from(step)
                .take(&mut self.working, self.pair.limits, self.model)
                .map_err(|cause| cause.at(index))?;
        }
        if replacement.end != original.end || self.working != self.goal {
            return Err(Cause::Ending.at(0));
        }
        Ok(hand_in.replacement_run)
    }

    /// Ends the case, and answers its report.
    pub fn seal(self) -> Report {
        let mut report = Report {
            model: self.model,
            not_idle: 0,
            marked: 0,
            unmatched: None,
        };
        for number in self.pair.replacement.runs_not_idle() {
            report.not_idle += 1;
            // An idle run is never marked, so that no mark is passed over.
            if self.marks[usize::from(number)] {
                report.marked += 1;
            } else if report.unmatched.is_none() {
                report.unmatched = Some(number);
            }
        }
        report
    }
}
