//! Random snippets on both sides, with random hand-ins.

use super::draw::{self, Draw, most_choices};
use crate::assemble::{self, Head, Step, hand_in, pair};
use crate::judge::{Model, Pair};
use crate::random::Random;

/// A few such streams.
pub fn streams(random: &mut Random) -> Vec<Vec<u8>> {
    (0..10).map(|_| stream(random)).collect()
}

fn stream(random: &mut Random) -> Vec<u8> {
    let head = draw::head(random);
    let file = snippets(random, head);
    let mut hand_ins = Vec::new();
    if let Ok(pair) = Pair::read(&file) {
        let count = random.below(8);
        hand_ins.extend((0..count).map(|_| random_hand_in(random, head, &pair)));
    }
    let model = random.pick(&Model::ALL).number();
    assemble::stream(model, &file, &hand_ins)
}

/// Two snippets of any size; few of them have too many runs.
fn snippets(random: &mut Random, head: Head) -> Vec<u8> {
    let most = *random.pick(&[4, 8, 12, 32]);
    let choices = most_choices(head) + random.below(20) / 19;
    let mut draw = Draw { random, head };
    let mut body = || {
        let statements = draw.random.below(most + 1);
        draw.body(statements, choices)
    };
    let (original, replacement) = (body(), body());
    pair(head, &original, &replacement)
}

fn random_hand_in(random: &mut Random, head: Head, pair: &Pair) -> Vec<u8> {
    let starts = u16::from(head.v).pow(head.r.into());
    let replacement = random.below(pair.replacement.runs().into()) as u16;
    let mut original = random.below(pair.original.runs().into()) as u16;
    if !random.once_in(4) {
        original = original / starts * starts + replacement % starts;
    }
    let steps: Vec<Step> = (0..random.below(5)).map(|_| step(random, head)).collect();
    hand_in(replacement, original, &steps)
}

/// A step that is not altogether unlikely to fit.
fn step(random: &mut Random, head: Head) -> Step {
    let place = random.byte(4);
    match random.below(3) {
        0 => [7, place, random.byte(head.l), random.byte(head.v)],
        1 => [random.byte(9), place, 0, 0],
        _ => [1 + random.byte(6), place, random.byte(2), 0],
    }
}
