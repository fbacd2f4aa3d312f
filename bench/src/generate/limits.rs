//! Streams at the limits of a stream.

use super::base::Base;
use super::draw::{self, Draw, most_choices, shuffle};
use crate::assemble::{self, Code, hand_in, pair, skip};
use crate::judge::stream::MAX_STREAM;
use crate::random::Random;

/// How many bytes a hand-in without steps has.
const HAND_IN: usize = 7;

/// Every first byte, alone, with a cut-off pair and with a whole stream; and the empty stream.
pub fn fixed() -> Vec<Vec<u8>> {
    const FILES: &[u8] = &[
        1, 0, 10, 2, 1, 1, 0, 3, 1, 0, 0, 0, 0, 1, 0, 4, 0, 0, 0, 0, 1, 0, 4, 0, 1, 0, 1,
    ];
    let mut streams = vec![vec![]];
    for number in 0..=255 {
        for files in [&[][..], &[1], &[1, 0], FILES] {
            streams.push([&[number], files].concat());
        }
    }
    streams
}

/// A stream that is full to the last byte, and variants of it; and short streams whose last parts
/// are cut off.
pub fn streams(random: &mut Random) -> Vec<Vec<u8>> {
    let full = full(random);
    let mut streams = vec![full[..MAX_STREAM - 1].to_vec()];
    for more in 1..=2 {
        let mut long = full.clone();
        long.resize(MAX_STREAM + more, 1);
        streams.push(long);
    }
    streams.push(wrong_versions(random, &full));
    streams.push(past_the_end(random, &full));
    streams.push(zeros(&full));
    streams.push(full);
    let base = Base::changed(random);
    let whole = base.stream_of(&base.found);
    streams.push(wrong_versions(random, &whole));
    streams.push(past_the_end(random, &whole));
    streams.extend(trailing(random, &whole));
    streams
}

/// A stream of 32,768 bytes with as many runs and hand-ins as there may be; all of them are for equal
/// runs of equal snippets.
fn full(random: &mut Random) -> Vec<u8> {
    let head = draw::head(random);
    let mut draw = Draw { random, head };
    let block = crowded(&mut draw);
    let bytes = pair(head, &block, &block).len();
    // Skips make the rest a whole number of hand-ins.
    let mut original = block.clone();
    original.extend(vec![skip(); (MAX_STREAM - 1 - bytes) % HAND_IN]);
    let file = pair(head, &original, &block);
    let runs = u16::from(head.v).pow(u32::from(head.r) + most_choices(head) as u32);
    let mut order: Vec<u16> = (0..runs).collect();
    if random.once_in(2) {
        shuffle(random, &mut order);
    }
    let hand_ins: Vec<_> = order
        .iter()
        .cycle()
        .map(|&run| hand_in(run, run, &[]))
        .take((MAX_STREAM - 1 - file.len()) / HAND_IN)
        .collect();
    assemble::stream(1 + random.byte(5), &file, &hand_ins)
}

/// As many statements that take a choice as there may be, and some others.
fn crowded(draw: &mut Draw) -> Vec<Code> {
    let choices = most_choices(draw.head);
    let mut block: Vec<_> = (0..choices).map(|_| draw.choosing()).collect();
    for _ in 0..draw.random.below(8) {
        block.push(draw.quiet());
    }
    shuffle(draw.random, &mut block);
    let depth = draw.random.below(4) / 3;
    draw.nested(depth, block)
}

/// Where the parts of a stream begin, its pair first.
fn parts(stream: &[u8]) -> Vec<usize> {
    let mut parts = Vec::new();
    let mut at = 1;
    while let Some(&[_, high, low]) = stream.get(at..at + 3) {
        parts.push(at);
        at += 3 + usize::from(u16::from_be_bytes([high, low]));
    }
    parts
}

/// Some hand-ins, and rarely the pair, with another version.
fn wrong_versions(random: &mut Random, stream: &[u8]) -> Vec<u8> {
    let mut stream = stream.to_vec();
    let parts = parts(&stream);
    for (number, &at) in parts.iter().enumerate() {
        if random.once_in(if number == 0 { 20 } else { 3 }) {
            stream[at] = *random.pick(&[0, 2, 255]);
        }
    }
    stream
}

/// One part with a length that passes the stream's end, or nearly.
fn past_the_end(random: &mut Random, stream: &[u8]) -> Vec<u8> {
    let mut stream = stream.to_vec();
    let at = *random.pick(&parts(&stream));
    let left = stream.len() - at - 3;
    let length = *random.pick(&[left.saturating_sub(1), left, left + 1, 0xFFFF]);
    let length = length.min(0xFFFF) as u16;
    stream[at + 1..at + 3].copy_from_slice(&length.to_be_bytes());
    stream
}

/// The same pair with nothing but zeros behind it, in parts of three bytes.
fn zeros(full: &[u8]) -> Vec<u8> {
    let pair = 4 + usize::from(u16::from_be_bytes([full[2], full[3]]));
    let mut stream = full[..pair].to_vec();
    stream.resize(full.len(), 0);
    stream
}

/// One to seven bytes behind the last part.
fn trailing(random: &mut Random, stream: &[u8]) -> Vec<Vec<u8>> {
    (1..8)
        .map(|more| {
            let mut stream = stream.to_vec();
            stream.extend((0..more).map(|_| random.byte(3)));
            stream
        })
        .collect()
}
