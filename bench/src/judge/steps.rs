//! The hand-in file, and the steps that turn one word into another.

use super::file;
use super::models::{Kind, Model, Removal};
use super::pair::Limits;
use super::refusal::{Cause, Refusal};
use super::runs::Event;

/// The most steps that a hand-in may have.
pub const MAX_STEPS: usize = 64;

/// The most events that the word may have while steps are taken.
pub const MAX_EVENTS: usize = 48;

/// What a step does to the word.
#[derive(Clone, Copy, Debug, PartialEq, Eq)]
pub enum Rule {
    /// Rules 1 to 6 look at two events that stand side by side.
    Rewrite(Rewrite),
    /// Rule 7: a load is put in.
    AddLoad,
}

/// The rules that swap two events or remove one of them, by their numbers.
#[derive(Clone, Copy, Debug, PartialEq, Eq)]
#[repr(u8)]
pub enum Rewrite {
    /// Two accesses swap, if the model lets them.
    Swap = 1,
    /// A load of what was just stored goes, if the model forwards it.
    Forward = 2,
    /// A load of what was just loaded goes.
    LoadAfterLoad = 3,
    /// A store that is stored over at once goes.
    StoreBeforeStore = 4,
    /// A store of what was just loaded goes, if the model permits it.
    StoreAfterLoad = 5,
    /// A load of what was just stored goes, if the model permits it.
    LoadAfterStore = 6,
}

impl Rule {
    /// The rule of that number.
    pub fn from_number(number: u8) -> Option<Rule> {
        match number {
            1 => Some(Rule::Rewrite(Rewrite::Swap)),
            2 => Some(Rule::Rewrite(Rewrite::Forward)),
            3 => Some(Rule::Rewrite(Rewrite::LoadAfterLoad)),
            4 => Some(Rule::Rewrite(Rewrite::StoreBeforeStore)),
            5 => Some(Rule::Rewrite(Rewrite::StoreAfterLoad)),
            6 => Some(Rule::Rewrite(Rewrite::LoadAfterStore)),
            7 => Some(Rule::AddLoad),
            _ => None,
        }
    }

    /// The rule's number.
    pub fn number(self) -> u8 {
        match self {
            Rule::Rewrite(rewrite) => rewrite as u8,
            Rule::AddLoad => 7,
        }
    }
}

/// One step as it stands in a hand-in; any four bytes are a step.
#[derive(Clone, Copy, Debug, PartialEq, Eq)]
pub struct Step {
    pub rule: u8,
    pub place: u8,
    pub location: u8,
    pub value: u8,
}

impl From<[u8; 4]> for Step {
    fn from([rule, place, location, value]: [u8; 4]) -> Step {
        Step {
            rule,
            place,
            location,
            value,
        }
    }
}

impl Step {
    /// Takes the step on the word, or answers why it is declined: that it does
    /// not fit (13), that the model says no (14), or that the word is full
    /// (15). A declined step leaves the word as it was.
    pub fn take(self, word: &mut Vec<Event>, limits: Limits, model: Model) -> Result<(), Cause> {
        match Rule::from_number(self.rule) {
            Some(Rule::Rewrite(rewrite)) => self.rewrite(rewrite, word, model),
            Some(Rule::AddLoad) => self.add_load(word, limits),
            None => Err(Cause::Misfit),
        }
    }

    /// Rules 1 to 6: the two events at the step's place have to be accesses,
    /// and the bytes that the rule has no use for 0.
    fn rewrite(self, rewrite: Rewrite, word: &mut Vec<Event>, model: Model) -> Result<(), Cause> {
        let place = usize::from(self.place);
        let Some(&[first, second]) = word.get(place..place + 2) else {
            return Err(Cause::Misfit);
        };
        let (Some((first, first_value)), Some((second, second_value))) =
            (first.access(), second.access())
        else {
            return Err(Cause::Misfit);
        };
        let kinds = (first.kind, second.kind);
        let location = first.location;
        let same_location = location == second.location;
        let same = same_location && first_value == second_value;

        use Kind::{Load, Store};
        let (fits, allowed) = match rewrite {
            Rewrite::Swap => (true, model.may_swap(first, second)),
            Rewrite::Forward => (same && kinds == (Store, Load), model.forwards_at(location)),
            Rewrite::LoadAfterLoad => (same && kinds == (Load, Load), true),
            Rewrite::StoreBeforeStore => (same_location && kinds == (Store, Store), true),
            Rewrite::StoreAfterLoad => (
                same && kinds == (Load, Store),
                model.permits(Removal::StoreAfterLoad, location),
            ),
            Rewrite::LoadAfterStore => (
                same && kinds == (Store, Load),
                model.permits(Removal::LoadAfterStore, location),
            ),
        };
        if !fits || self.location != 0 || self.value != 0 {
            return Err(Cause::Misfit);
        }
        if !allowed {
            return Err(Cause::Forbidden);
        }
        match rewrite {
            Rewrite::Swap => word.swap(place, place + 1),
            Rewrite::StoreBeforeStore => {
                word.remove(place);
            }
            _ => {
                word.remove(place + 1);
            }
        }
        Ok(())
    }

    /// Rule 7: puts in a load before the step's place, or at the end.
    fn add_load(self, word: &mut Vec<Event>, limits: Limits) -> Result<(), Cause> {
        let Step {
            location, value, ..
        } = self;
        let place = usize::from(self.place);
        if location >= limits.locations || value >= limits.values || place > word.len() {
            return Err(Cause::Misfit);
        }
        if word.len() >= MAX_EVENTS {
            return Err(Cause::Overlong);
        }
        word.insert(place, Event::Load { location, value });
        Ok(())
    }
}

/// The claim that a run of the replacement follows from one of the original.
#[derive(Clone, Copy, Debug, PartialEq, Eq)]
pub struct HandIn<'a> {
    pub replacement_run: u16,
    pub original_run: u16,
    /// The steps, each as its rule, place, location and value.
    pub steps: &'a [[u8; 4]],
}

impl<'a> HandIn<'a> {
    /// Reads a hand-in file: two run numbers and at most 64 steps.
    pub fn read(file: &'a [u8]) -> Result<HandIn<'a>, Refusal> {
        let (chunks, over) = file::rest(file)?.as_chunks::<4>();
        match chunks {
            [[high, low, original_high, original_low], steps @ ..]
                if over.is_empty() && steps.len() <= MAX_STEPS =>
            {
                Ok(HandIn {
                    replacement_run: u16::from_be_bytes([*high, *low]),
                    original_run: u16::from_be_bytes([*original_high, *original_low]),
                    steps,
                })
            }
            _ => Err(Cause::HandInLength.at(0)),
        }
    }
}
