//! Steps on a word, one after another.

use super::draw::shuffle;
use crate::assemble;
use crate::judge::steps::{MAX_EVENTS, MAX_STEPS};
use crate::judge::{Cause, Event, Model, Pair, Step};
use crate::random::Random;

/// A word, and the steps that led to it.
#[derive(Clone)]
pub struct Walk<'a> {
    pair: &'a Pair,
    model: Model,
    pub word: Vec<Event>,
    pub steps: Vec<assemble::Step>,
}

impl<'a> Walk<'a> {
    /// Begins with the word of a run of the original, which there has to be.
    pub fn new(pair: &'a Pair, model: Model, original: u16) -> Walk<'a> {
        let mut word = Vec::new();
        let run = pair.original.run(original, &mut word);
        assert!(run.is_ok(), "the original has a run {original}");
        Walk {
            pair,
            model,
            word,
            steps: Vec::new(),
        }
    }

    /// Takes a step if it can be taken.
    pub fn take(&mut self, step: assemble::Step) -> bool {
        let taken = Step::from(step).take(&mut self.word, self.pair.limits, self.model);
        if taken.is_ok() {
            self.steps.push(step);
        }
        taken.is_ok()
    }

    /// What the judge answers to a step from here.
    pub fn answer(&self, step: assemble::Step) -> Result<(), Cause> {
        Step::from(step).take(&mut self.word.clone(), self.pair.limits, self.model)
    }

    /// A step of rules 1 to 6 that gets the answer, if there is one. Every rule is as likely as any
    /// other that has one.
    pub fn step_with(
        &self,
        random: &mut Random,
        answer: Result<(), Cause>,
    ) -> Option<assemble::Step> {
        let mut rules = [1, 2, 3, 4, 5, 6];
        shuffle(random, &mut rules);
        rules.iter().find_map(|&rule| {
            let steps: Vec<assemble::Step> = (0..=self.word.len() as u8)
                .map(|place| [rule, place, 0, 0])
                .filter(|&step| self.answer(step) == answer)
                .collect();
            (!steps.is_empty()).then(|| *random.pick(&steps))
        })
    }

    /// A step that puts in a load.
    pub fn put_in(&self, random: &mut Random) -> assemble::Step {
        let limits = self.pair.limits;
        [
            7,
            random.below(self.word.len() + 1) as u8,
            random.byte(limits.locations),
            random.byte(limits.values),
        ]
    }

    /// Takes any step that can be taken.
    pub fn wander(&mut self, random: &mut Random) {
        let step = match self.step_with(random, Ok(())) {
            Some(step) if !random.once_in(4) => step,
            _ => self.put_in(random),
        };
        self.take(step);
    }

    /// Takes steps that lead back to the same word, if there are any.
    pub fn detour(&mut self, random: &mut Random) {
        if self.word.is_empty() || self.steps.len() + 2 > MAX_STEPS {
            return;
        }
        let place = random.below(self.word.len());
        if random.once_in(4) && self.there_and_back(place) {
            return;
        }
        self.put_in_and_remove(random, place);
    }

    /// Swaps two events twice.
    fn there_and_back(&mut self, place: usize) -> bool {
        let swap = [1, place as u8, 0, 0];
        let mut ahead = self.clone();
        let back = ahead.take(swap) && ahead.take(swap);
        if back {
            *self = ahead;
        }
        back
    }

    /// Puts in a load of what is loaded or stored at the place, and removes it again.
    fn put_in_and_remove(&mut self, random: &mut Random, place: usize) {
        let (location, value, rule) = match self.word[place] {
            Event::Load { location, value } => (location, value, 3),
            Event::Store { location, value } => (location, value, *random.pick(&[2, 6])),
            _ => return,
        };
        let mut ahead = self.clone();
        let at = place as u8;
        if ahead.take([7, at + 1, location, value]) && ahead.take([rule, at, 0, 0]) {
            *self = ahead;
        }
    }

    /// Puts in loads until the word has that many events or the steps are used up.
    pub fn grow(&mut self, random: &mut Random, events: usize) {
        for _ in self.steps.len()..MAX_STEPS {
            if self.word.len() < events {
                let step = self.put_in(random);
                self.take(step);
            }
        }
    }

    /// Puts in copies of a load until the word is full, or as many as can be removed again, and
    /// removes them. Does nothing if the word has no load.
    pub fn climb(&mut self) {
        let loaded = |event: &Event| matches!(event, Event::Load { .. });
        let Some(place) = self.word.iter().position(loaded) else {
            return;
        };
        let Event::Load { location, value } = self.word[place] else {
            return;
        };
        let height = (MAX_EVENTS - self.word.len()).min((MAX_STEPS - self.steps.len()) / 2);
        for _ in 0..height {
            self.take([7, place as u8, location, value]);
        }
        for _ in 0..height {
            self.take([3, place as u8, 0, 0]);
        }
    }
}
