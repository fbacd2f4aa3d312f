//! Random bytes, and random bytes where something else is expected.

use super::draw;
use crate::assemble::{self, counted, file};
use crate::judge::stream::MAX_STREAM;
use crate::random::Random;

/// Streams of random bytes; `whole` is a stream of which beginnings are used.
pub fn streams(random: &mut Random, whole: &[u8]) -> Vec<Vec<u8>> {
    let mut streams = vec![bytes(random, 64), bytes(random, 1000)];
    for _ in 0..6 {
        streams.push(behind(random, whole));
        streams.push(framed(random));
        streams.push(random_hand_ins(random, whole));
    }
    if random.once_in(50) {
        streams.push(bytes(random, MAX_STREAM + 2));
    }
    streams
}

/// Fewer than that many bytes; small ones go further than large ones.
fn bytes(random: &mut Random, below: usize) -> Vec<u8> {
    let limit = *random.pick(&[3, 8, 13, 14, 256]);
    (0..random.below(below))
        .map(|_| random.below(limit) as u8)
        .collect()
}

/// Random bytes behind the beginning of a stream.
fn behind(random: &mut Random, whole: &[u8]) -> Vec<u8> {
    let end = random.below(whole.len() + 1);
    [&whole[..end], &bytes(random, 40)].concat()
}

/// A pair whose head and lengths are right, and whose bodies are random bytes.
fn framed(random: &mut Random) -> Vec<u8> {
    let head = draw::head(random);
    let mut rest = vec![head.v, head.r, head.l];
    rest.extend(counted(&bytes(random, 24)));
    rest.extend(counted(&bytes(random, 24)));
    assemble::stream(1 + random.byte(5), &file(&rest), &[])
}

/// The pair of a stream with hand-ins whose rests are random bytes.
fn random_hand_ins(random: &mut Random, whole: &[u8]) -> Vec<u8> {
    let pair = 4 + usize::from(u16::from_be_bytes([whole[2], whole[3]]));
    let mut stream = whole[..pair].to_vec();
    for _ in 0..1 + random.below(6) {
        let mut rest = bytes(random, 24);
        if !random.once_in(3) {
            // Run numbers are small, and steps whole.
            rest.resize(rest.len() / 4 * 4 + 4, 0);
            rest[0] = 0;
            rest[2] = 0;
        }
        stream.extend(file(&rest));
    }
    stream
}
