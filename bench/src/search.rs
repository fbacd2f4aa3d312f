//! A search for derivations: from which run of the original a run of the replacement follows, and by
//! which steps.

use std::collections::HashSet;
use std::ops::Range;

use crate::assemble::{self, hand_in};
use crate::judge::steps::MAX_EVENTS;
use crate::judge::{Event, Model, Pair, Registers, Snippet, Step};

/// How many events a word may have more than the goal.
const DETOUR: usize = 2;

/// How far from the events that differ steps are tried.
const MARGIN: usize = 2;

/// How far the search goes for one run.
#[derive(Clone, Copy, Debug)]
pub struct Bounds {
    /// The most steps.
    pub depth: usize,
    /// The most words that are looked at.
    pub words: usize,
}

/// What a hand-in claims: that the steps turn the original's word into the replacement's.
#[derive(Clone, Debug, PartialEq, Eq)]
pub struct Derivation {
    pub replacement: u16,
    pub original: u16,
    pub steps: Vec<assemble::Step>,
}

impl Derivation {
    /// The derivation as a hand-in.
    pub fn file(&self) -> Vec<u8> {
        hand_in(self.replacement, self.original, &self.steps)
    }
}

/// A derivation for each run of the replacement that is not idle, from the lowest run up; none where
/// none was found.
pub fn derivations(pair: &Pair, model: Model, bounds: Bounds) -> Vec<Option<Derivation>> {
    let originals = behaviours(&pair.original);
    behaviours(&pair.replacement)
        .iter()
        .map(|goal| Search::new(pair, model, bounds, goal).find(&originals))
        .collect()
}

/// A run that is not idle.
struct Behaviour {
    number: u16,
    start: Registers,
    end: Registers,
    word: Vec<Event>,
}

fn behaviours(snippet: &Snippet) -> Vec<Behaviour> {
    (0..snippet.runs())
        .filter_map(|number| {
            let mut word = Vec::new();
            let run = snippet.run(number, &mut word).ok()?;
            (!run.idle).then_some(Behaviour {
                number,
                start: run.start,
                end: run.end,
                word,
            })
        })
        .collect()
}

/// Whether steps may turn the one into the other, as far as can be told without taking any.
fn may_become(from: &Behaviour, to: &Behaviour) -> bool {
    from.start == to.start
        && from.end == to.end
        && others(&from.word).eq(others(&to.word))
        && has_stores(&from.word, &to.word)
        && loads_can_go(&from.word, &to.word)
}

/// The events that no step touches.
fn others(word: &[Event]) -> impl Iterator<Item = &Event> {
    word.iter().filter(|event| event.access().is_none())
}

/// No step puts in a store.
fn has_stores(from: &[Event], to: &[Event]) -> bool {
    to.iter()
        .filter(|event| matches!(event, Event::Store { .. }))
        .all(|store| from.contains(store))
}

/// A load goes only beside a load or a store of the same value.
fn loads_can_go(from: &[Event], to: &[Event]) -> bool {
    from.iter().all(|&event| match event {
        Event::Load { location, value } => {
            to.contains(&event) || from.contains(&Event::Store { location, value })
        }
        _ => true,
    })
}

/// Where a word comes from.
#[derive(Clone, Copy)]
enum Origin {
    /// It is the word of a run of the original.
    Run(u16),
    /// It comes of an earlier word by a step.
    Step(usize, assemble::Step),
}

struct Node {
    word: Vec<Event>,
    origin: Origin,
    depth: usize,
}

/// A search from all runs of the original at once, breadth first.
struct Search<'a> {
    pair: &'a Pair,
    model: Model,
    bounds: Bounds,
    goal: &'a Behaviour,
    /// The goal's loads: no other is worth putting in.
    loads: Vec<(u8, u8)>,
    nodes: Vec<Node>,
    seen: HashSet<Vec<u8>>,
}

impl<'a> Search<'a> {
    fn new(pair: &'a Pair, model: Model, bounds: Bounds, goal: &'a Behaviour) -> Search<'a> {
        Search {
            pair,
            model,
            bounds,
            goal,
            loads: loads(&goal.word),
            nodes: Vec::new(),
            seen: HashSet::new(),
        }
    }

    fn find(mut self, originals: &[Behaviour]) -> Option<Derivation> {
        let goal = self.goal;
        for original in originals.iter().filter(|from| may_become(from, goal)) {
            if self.visit(&original.word, Origin::Run(original.number), 0) {
                return Some(self.derivation());
            }
        }
        let mut next = 0;
        while next < self.nodes.len() {
            if self.expand(next) {
                return Some(self.derivation());
            }
            next += 1;
        }
        None
    }

    /// Keeps a word that is new. Answers whether it is the goal, which is then the last one kept.
    fn visit(&mut self, word: &[Event], origin: Origin, depth: usize) -> bool {
        if self.nodes.len() == self.bounds.words || !self.seen.insert(key(word)) {
            return false;
        }
        self.nodes.push(Node {
            word: word.to_vec(),
            origin,
            depth,
        });
        word == self.goal.word
    }

    /// Takes each step from a word. Answers whether one of them leads to the goal.
    fn expand(&mut self, index: usize) -> bool {
        let depth = self.nodes[index].depth + 1;
        if depth > self.bounds.depth {
            return false;
        }
        let word = self.nodes[index].word.clone();
        let mut working = word.clone();
        for step in self.worth_trying(&word) {
            // A step that is declined leaves the word as it was.
            if Step::from(step)
                .take(&mut working, self.pair.limits, self.model)
                .is_err()
            {
                continue;
            }
            if self.visit(&working, Origin::Step(index, step), depth) {
                return true;
            }
            working.clone_from(&word);
        }
        false
    }

    fn worth_trying(&self, word: &[Event]) -> Vec<assemble::Step> {
        let mut steps = Vec::new();
        let roomy = word.len() < MAX_EVENTS.min(self.goal.word.len() + DETOUR);
        for place in self.window(word) {
            let at = place as u8;
            if place + 1 < word.len() {
                steps.extend((1..=6).map(|rule| [rule, at, 0, 0]));
            }
            if roomy && place <= word.len() {
                let put_in = |&(location, value)| [7, at, location, value];
                steps.extend(self.loads.iter().map(put_in));
            }
        }
        steps
    }

    /// The places around the events in which the word differs from the goal. Steps elsewhere only
    /// make it differ more.
    fn window(&self, word: &[Event]) -> Range<usize> {
        let goal = &self.goal.word;
        let front = in_common(word.iter(), goal.iter());
        let back = word.len() - in_common(word.iter().rev(), goal.iter().rev());
        front.min(back).saturating_sub(MARGIN)..front.max(back) + MARGIN
    }

    /// The way to the last word.
    fn derivation(&self) -> Derivation {
        let mut steps = Vec::new();
        let mut at = self.nodes.len() - 1;
        loop {
            match self.nodes[at].origin {
                Origin::Step(before, step) => {
                    steps.push(step);
                    at = before;
                }
                Origin::Run(original) => {
                    steps.reverse();
                    return Derivation {
                        replacement: self.goal.number,
                        original,
                        steps,
                    };
                }
            }
        }
    }
}

/// The different loads of a word, as locations and values.
fn loads(word: &[Event]) -> Vec<(u8, u8)> {
    let mut loads = Vec::new();
    for event in word {
        if let &Event::Load { location, value } = event
            && !loads.contains(&(location, value))
        {
            loads.push((location, value));
        }
    }
    loads
}

/// How many events the two begin with in common.
fn in_common<'a>(
    left: impl Iterator<Item = &'a Event>,
    right: impl Iterator<Item = &'a Event>,
) -> usize {
    left.zip(right)
        .take_while(|(left, right)| left == right)
        .count()
}

/// A word as bytes, one for each event: locations are below 8 and values below 4.
fn key(word: &[Event]) -> Vec<u8> {
    word.iter()
        .map(|&event| match event {
            Event::Load { location, value } => location << 2 | value,
            Event::Store { location, value } => 0x20 | location << 2 | value,
            Event::Fence => 0x40,
            Event::Get { value } => 0x44 | value,
            Event::Print { value } => 0x48 | value,
            Event::LoadStore {
                location,
                found,
                left,
            } => 0x80 | location << 4 | found << 2 | left,
        })
        .collect()
}

#[cfg(test)]
mod tests {
    use super::*;
    use crate::assemble::{Head, copy, load, pair, store};

    const BOUNDS: Bounds = Bounds {
        depth: 4,
        words: 100,
    };

    fn found(
        model: Model,
        original: &[assemble::Code],
        replacement: &[assemble::Code],
    ) -> Vec<bool> {
        let head = Head { v: 2, r: 2, l: 2 };
        let pair = Pair::read(&pair(head, original, replacement)).unwrap();
        derivations(&pair, model, BOUNDS)
            .iter()
            .map(Option::is_some)
            .collect()
    }

    #[test]
    fn a_load_less_is_found_for_every_run() {
        let original = [load(0, 0), load(1, 0)];
        let replacement = [load(0, 0), copy(1, 0)];
        assert_eq!(found(Model::Sc, &original, &replacement), [true; 8]);
    }

    #[test]
    fn a_swap_is_found_where_the_model_allows_it() {
        let (stored, loaded) = (store(0, 0), load(1, 1));
        let original = [stored.clone(), loaded.clone()];
        let replacement = [loaded, stored];
        assert_eq!(found(Model::Tso, &original, &replacement), [true; 8]);
        assert_eq!(found(Model::Sc, &original, &replacement), [false; 8]);
        assert_eq!(found(Model::Tso, &replacement, &original), [false; 8]);
    }
}
