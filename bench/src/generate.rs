//! Streams of all kinds, the same ones for the same seed.

mod base;
mod draw;
mod fields;
mod hand_ins;
mod limits;
mod noise;
mod pairs;
mod snippets;
mod templates;
mod walk;

use std::collections::VecDeque;

use crate::random::Random;

/// The most bytes of a stream that is changed or cut off at every byte.
const SHORT: usize = 160;

/// What a stream is made to show.
#[derive(Clone, Copy, Debug, PartialEq, Eq)]
pub enum Kind {
    /// Hand-ins that were found by a search.
    Valid,
    /// Hand-ins with something wrong.
    HandIns,
    /// Pair files with something wrong.
    Pairs,
    /// Random snippets and random hand-ins.
    Snippets,
    /// A stream cut off, at every byte.
    CutOff,
    /// A stream with one byte changed, at every byte.
    Changed,
    /// Streams that are empty, full, too long or cut into odd parts.
    Limits,
    /// Random bytes, alone or behind the beginning of a stream.
    Noise,
}

impl Kind {
    pub const ALL: [Kind; 8] = [
        Kind::Valid,
        Kind::HandIns,
        Kind::Pairs,
        Kind::Snippets,
        Kind::CutOff,
        Kind::Changed,
        Kind::Limits,
        Kind::Noise,
    ];

    pub fn name(self) -> &'static str {
        match self {
            Kind::Valid => "valid",
            Kind::HandIns => "damaged hand-ins",
            Kind::Pairs => "damaged pairs",
            Kind::Snippets => "random snippets",
            Kind::CutOff => "cut off",
            Kind::Changed => "one byte changed",
            Kind::Limits => "stream limits",
            Kind::Noise => "random bytes",
        }
    }

    /// How many streams of this kind there are to those of the others.
    fn share(self) -> usize {
        match self {
            Kind::Limits => 2,
            Kind::CutOff | Kind::Noise => 8,
            Kind::Valid | Kind::Snippets => 10,
            Kind::Pairs | Kind::Changed => 12,
            Kind::HandIns => 16,
        }
    }
}

/// Makes streams without end.
pub struct Generator {
    random: Random,
    /// How many streams of each kind were made.
    made: [usize; Kind::ALL.len()],
    waiting: VecDeque<(Kind, Vec<u8>)>,
}

impl Generator {
    pub fn new(seed: u64) -> Generator {
        let mut generator = Generator {
            random: Random::new(seed),
            made: [0; Kind::ALL.len()],
            waiting: VecDeque::new(),
        };
        generator.put(Kind::Limits, limits::fixed());
        generator
    }

    fn put(&mut self, kind: Kind, streams: Vec<Vec<u8>>) {
        self.made[kind as usize] += streams.len();
        self.waiting
            .extend(streams.into_iter().map(|stream| (kind, stream)));
    }

    /// Makes more of the kind that is furthest below its share.
    fn refill(&mut self) {
        let mut kind = Kind::Valid;
        for other in Kind::ALL {
            if self.made[other as usize] * kind.share() < self.made[kind as usize] * other.share() {
                kind = other;
            }
        }
        let streams = batch(&mut self.random, kind);
        self.put(kind, streams);
    }
}

impl Iterator for Generator {
    type Item = (Kind, Vec<u8>);

    fn next(&mut self) -> Option<(Kind, Vec<u8>)> {
        while self.waiting.is_empty() {
            self.refill();
        }
        self.waiting.pop_front()
    }
}

fn batch(random: &mut Random, kind: Kind) -> Vec<Vec<u8>> {
    match kind {
        Kind::Valid => base::valid_streams(random),
        Kind::HandIns => hand_ins::streams(random),
        Kind::Pairs => pairs::streams(random),
        Kind::Snippets => snippets::streams(random),
        Kind::CutOff => cut_off(&short(random)),
        Kind::Changed => changed(&short(random)),
        Kind::Limits => limits::streams(random),
        Kind::Noise => {
            let whole = short(random);
            noise::streams(random, &whole)
        }
    }
}

/// A short stream whose pair is accepted.
fn short(random: &mut Random) -> Vec<u8> {
    loop {
        let mut streams = match random.below(3) {
            0 => hand_ins::streams(random),
            _ => base::valid_streams(random),
        };
        streams.retain(|stream| stream.len() <= SHORT);
        if !streams.is_empty() {
            return random.pick(&streams).clone();
        }
    }
}

/// All beginnings of a stream.
fn cut_off(stream: &[u8]) -> Vec<Vec<u8>> {
    (0..=stream.len())
        .map(|end| stream[..end].to_vec())
        .collect()
}

/// The stream with each of its bytes changed in turn, in several ways.
fn changed(stream: &[u8]) -> Vec<Vec<u8>> {
    let mut streams = Vec::new();
    for at in 0..stream.len() {
        for byte in changes(stream[at]) {
            let mut changed = stream.to_vec();
            changed[at] = byte;
            streams.push(changed);
        }
    }
    streams
}

/// The bytes that a byte is changed to: one more, one less, each bit flipped, 0 and 255.
fn changes(byte: u8) -> Vec<u8> {
    let mut changes: Vec<u8> = (0..8).map(|bit| byte ^ 1 << bit).collect();
    changes.extend([byte.wrapping_add(1), byte.wrapping_sub(1), 0, 255]);
    changes.retain(|&other| other != byte);
    changes.sort();
    changes.dedup();
    changes
}

#[cfg(test)]
mod tests {
    use super::*;

    #[test]
    fn the_same_seed_makes_the_same_streams() {
        let first = Generator::new(3).take(5_000);
        assert!(first.eq(Generator::new(3).take(5_000)));
    }
}
