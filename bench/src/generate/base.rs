//! Pairs that are accepted, with what was found for them.

use super::draw::{self, Draw, shuffle};
use super::templates::{self, Change};
use super::walk::Walk;
use crate::assemble::{self, Code, Head};
use crate::judge::{Model, Pair};
use crate::random::Random;
use crate::search::{Bounds, Derivation, derivations};

const BOUNDS: Bounds = Bounds {
    depth: 6,
    words: 250,
};

/// A pair under a model, and the derivations that the search found for it.
pub struct Base {
    pub head: Head,
    pub model: Model,
    pub file: Vec<u8>,
    pub pair: Pair,
    pub found: Vec<Derivation>,
}

impl Base {
    /// A pair of one or two local changes.
    pub fn changed(random: &mut Random) -> Base {
        let most_runs = match random.below(24) {
            0 => 1024,
            1..=4 => 256,
            _ => 64,
        };
        Base::draw(random, most_runs, templates::snippets)
    }

    /// A pair with words of many events.
    pub fn long(random: &mut Random) -> Base {
        Base::draw(random, 64, |draw| {
            let count = 20 + draw.random.below(13);
            let original: Vec<Code> = (0..count).map(|_| eventful(draw)).collect();
            let mut replacement = original.clone();
            if draw.random.once_in(3) {
                replacement.remove(draw.random.below(count));
            }
            (original, replacement)
        })
    }

    /// A pair of any snippet and one that differs from it in a statement or two.
    pub fn any(random: &mut Random) -> Base {
        Base::draw(random, 64, |draw| {
            let count = 1 + draw.random.below(10);
            let original = draw.body(count, 3);
            let mut replacement = original.clone();
            for _ in 0..draw.random.below(3) {
                differ(draw, &mut replacement);
            }
            (original, replacement)
        })
    }

    /// Draws until a pair keeps its limits and has few enough runs.
    fn draw(random: &mut Random, most_runs: u16, snippets: impl Fn(&mut Draw) -> Change) -> Base {
        loop {
            let head = draw::head(random);
            let (original, replacement) = snippets(&mut Draw { random, head });
            let file = assemble::pair(head, &original, &replacement);
            let Ok(pair) = Pair::read(&file) else {
                continue;
            };
            if pair.original.runs().max(pair.replacement.runs()) > most_runs {
                continue;
            }
            let model = *random.pick(&Model::ALL);
            let found = derivations(&pair, model, BOUNDS);
            return Base {
                head,
                model,
                file,
                found: found.into_iter().flatten().collect(),
                pair,
            };
        }
    }

    /// A stream under the pair's own model.
    pub fn stream(&self, hand_ins: &[Vec<u8>]) -> Vec<u8> {
        assemble::stream(self.model.number(), &self.file, hand_ins)
    }

    /// A stream of these derivations.
    pub fn stream_of(&self, derivations: &[Derivation]) -> Vec<u8> {
        let hand_ins: Vec<_> = derivations.iter().map(Derivation::file).collect();
        self.stream(&hand_ins)
    }

    /// A derivation that was found, or one that is made up.
    pub fn derivation(&self, random: &mut Random) -> Derivation {
        if self.found.is_empty() || random.once_in(8) {
            self.made_up(random)
        } else {
            random.pick(&self.found).clone()
        }
    }

    /// Two runs, mostly with the same start registers, and steps that can be taken.
    pub fn made_up(&self, random: &mut Random) -> Derivation {
        let replacement = random.below(self.pair.replacement.runs().into());
        let starts = self.starts();
        let runs = usize::from(self.pair.original.runs());
        let mut original = random.below(runs);
        if !random.once_in(5) {
            original = original / starts * starts + replacement % starts;
        }
        let mut walk = Walk::new(&self.pair, self.model, original as u16);
        for _ in 0..random.below(4) {
            walk.wander(random);
        }
        Derivation {
            replacement: replacement as u16,
            original: original as u16,
            steps: walk.steps,
        }
    }

    /// How many start registers there are; they are the lowest digits of a run.
    pub fn starts(&self) -> usize {
        usize::from(self.head.v).pow(self.head.r.into())
    }

    /// The same derivation with that many detours on its way.
    pub fn with_detours(
        &self,
        random: &mut Random,
        derivation: &Derivation,
        detours: usize,
    ) -> Derivation {
        let steps = &derivation.steps;
        let stops: Vec<usize> = (0..detours)
            .map(|_| random.below(steps.len() + 1))
            .collect();
        let mut walk = Walk::new(&self.pair, self.model, derivation.original);
        for at in 0..=steps.len() {
            for _ in stops.iter().filter(|&&stop| stop == at) {
                walk.detour(random);
            }
            if let Some(&step) = steps.get(at) {
                walk.take(step);
            }
        }
        Derivation {
            steps: walk.steps,
            ..derivation.clone()
        }
    }
}

/// Streams whose hand-ins were all found by the search.
pub fn valid_streams(random: &mut Random) -> Vec<Vec<u8>> {
    let base = match random.below(8) {
        0 => Base::long(random),
        1 => Base::any(random),
        _ => Base::changed(random),
    };
    let mut streams = vec![base.stream_of(&base.found)];
    streams.push(base.stream_of(&some_of(random, &base.found)));
    streams.push(base.stream_of(&repeated(random, &base.found)));
    for most in [2, 31] {
        streams.push(base.stream_of(&roundabout(random, &base, most)));
    }
    let other = random.pick(&Model::ALL).number();
    let hand_ins: Vec<_> = base.found.iter().map(Derivation::file).collect();
    streams.push(assemble::stream(other, &base.file, &hand_ins));
    streams
}

/// A random part of the derivations, in any order.
fn some_of(random: &mut Random, found: &[Derivation]) -> Vec<Derivation> {
    let mut some = found.to_vec();
    shuffle(random, &mut some);
    some.truncate(random.below(found.len() + 1));
    some
}

/// All derivations and some of them once more, in any order.
fn repeated(random: &mut Random, found: &[Derivation]) -> Vec<Derivation> {
    let mut all = found.to_vec();
    all.extend(some_of(random, found));
    shuffle(random, &mut all);
    all
}

/// The derivations with detours, as many of them as fit into a stream.
fn roundabout(random: &mut Random, base: &Base, most: usize) -> Vec<Derivation> {
    base.found
        .iter()
        .take(100)
        .map(|derivation| {
            let detours = random.below(most + 1);
            base.with_detours(random, derivation, detours)
        })
        .collect()
}

/// A statement that leaves an event, but rarely one that takes a choice.
fn eventful(draw: &mut Draw) -> Code {
    match draw.random.below(16) {
        0 => draw.choosing(),
        1 => assemble::fence(),
        2 => assemble::print(draw.register()),
        3 => draw.quiet(),
        _ => assemble::store(draw.location(), draw.register()),
    }
}

/// Drops, doubles, exchanges or puts in a statement.
fn differ(draw: &mut Draw, block: &mut Vec<Code>) {
    if block.is_empty() {
        block.push(draw.leaf());
        return;
    }
    let at = draw.random.below(block.len());
    match draw.random.below(4) {
        0 => drop(block.remove(at)),
        1 => block.insert(at, block[at].clone()),
        2 => block.swap(at, 0),
        _ => block.insert(at, draw.leaf()),
    }
}
