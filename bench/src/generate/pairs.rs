//! Pair files with something wrong, aimed at each of the refusals 1 to 8.

use super::base::Base;
use super::draw::{self, Draw, most_choices};
use super::fields::{Field, fields};
use crate::assemble::{self, Code, Head, body, counted, file, hand_in, pair};
use crate::judge::pair::{MAX_DEPTH, MAX_STATEMENTS};
use crate::random::Random;

/// Streams of damaged pairs.
pub fn streams(random: &mut Random) -> Vec<Vec<u8>> {
    let base = match random.below(3) {
        0 => Base::changed(random),
        _ => Base::any(random),
    };
    let mut files = heads(random, &base);
    for faults in [1, 1, 1, 1, 1, 1, 2, 2, 3] {
        files.push(with_faults(random, &base, faults));
    }
    files.extend(headers(random, &base));
    files.extend(left_over(random, &base));
    files.extend(cut_off(random, &base));
    for _ in 0..4 {
        files.push(about_32_statements(random));
        files.push(about_eight_deep(random));
        files.push(about_4096_runs(random));
    }
    files
        .into_iter()
        .map(|file| stream(random, &file))
        .collect()
}

/// A stream with the file as its pair, and a few hand-ins behind it.
fn stream(random: &mut Random, pair: &[u8]) -> Vec<u8> {
    let hand_ins: Vec<_> = (0..random.below(4))
        .map(|_| hand_in(random.below(8) as u16, random.below(8) as u16, &[]))
        .collect();
    assemble::stream(1 + random.byte(5), pair, &hand_ins)
}

/// v, r and l at their limits and past them, one at a time and all at once.
fn heads(random: &mut Random, base: &Base) -> Vec<Vec<u8>> {
    const NEAR: [&[u8]; 3] = [
        &[0, 1, 2, 4, 5, 255],
        &[0, 1, 4, 5, 255],
        &[0, 1, 8, 9, 255],
    ];
    let mut files = Vec::new();
    for (at, near) in NEAR.iter().enumerate() {
        let mut file = base.file.clone();
        file[3 + at] = *random.pick(near);
        files.push(file);
    }
    let mut file = base.file.clone();
    for (at, near) in NEAR.iter().enumerate() {
        file[3 + at] = *random.pick(near);
    }
    files.push(file);
    files
}

/// Changes that many fields.
fn with_faults(random: &mut Random, base: &Base, faults: usize) -> Vec<u8> {
    let mut file = base.file.clone();
    let fields = fields(base.head, &file);
    for _ in 0..faults {
        let &(at, field) = random.pick(&fields);
        match field {
            Field::Number => file[at] = *random.pick(&[0, 11, 12, 13, 14, 255]),
            Field::Operand(limit) => {
                file[at] = *random.pick(&[limit - 1, limit, limit, limit + 1, 255]);
            }
            Field::Length => change_length(random, &mut file[at..at + 2]),
        }
    }
    file
}

/// Makes a length longer or shorter, mostly by one.
fn change_length(random: &mut Random, bytes: &mut [u8]) {
    let length = u16::from_be_bytes([bytes[0], bytes[1]]);
    let by = *random.pick(&[1, 1, u16::MAX, u16::MAX, 2, u16::MAX - 1, 256, 0x8000]);
    let changed = if random.once_in(8) {
        0
    } else {
        length.wrapping_add(by)
    };
    bytes.copy_from_slice(&changed.to_be_bytes());
}

/// The version or the length of the file changed.
fn headers(random: &mut Random, base: &Base) -> Vec<Vec<u8>> {
    let mut version = base.file.clone();
    version[0] = *random.pick(&[0, 2, 255]);
    let mut length = base.file.clone();
    change_length(random, &mut length[1..3]);
    let mut both = length.clone();
    both[0] = random.byte(4);
    vec![version, length, both]
}

/// Bytes behind the replacement, with a length that counts them.
fn left_over(random: &mut Random, base: &Base) -> Vec<Vec<u8>> {
    let mut more = base.file[3..].to_vec();
    more.resize(more.len() + 1 + random.below(3), random.byte(14));
    let mut faulty = with_faults(random, base, 1).split_off(3);
    faulty.push(random.byte(14));
    vec![file(&more), file(&faulty)]
}

/// The rest cut off, with a length that says so: at every byte for a few pairs, at some for others.
fn cut_off(random: &mut Random, base: &Base) -> Vec<Vec<u8>> {
    let rest = &base.file[3..];
    if random.once_in(10) {
        return (0..rest.len()).map(|end| file(&rest[..end])).collect();
    }
    (0..4)
        .map(|_| file(&rest[..random.below(rest.len())]))
        .collect()
}

/// A pair of which one snippet is the given one and the other is small.
fn beside_small(random: &mut Random, head: Head, block: &[Code]) -> Vec<u8> {
    let small = Draw { random, head }.body(2, 0);
    if random.once_in(2) {
        pair(head, block, &small)
    } else {
        pair(head, &small, block)
    }
}

/// 31 to 34 statements, nested in any way; sometimes the last ones are no statements at all.
fn about_32_statements(random: &mut Random) -> Vec<u8> {
    let head = draw::head(random);
    let statements = MAX_STATEMENTS - 1 + random.below(4);
    let choices = most_choices(head);
    let mut block = Draw { random, head }.body(statements, choices);
    if random.once_in(3) {
        block.push(Code::Leaf(vec![*random.pick(&[0, 1, 11, 12, 13, 255])]));
    }
    beside_small(random, head, &block)
}

/// 7 to 10 blocks inside each other, with something in the innermost, perhaps something wrong.
fn about_eight_deep(random: &mut Random) -> Vec<u8> {
    let head = draw::head(random);
    let depth = MAX_DEPTH - 1 + random.below(4);
    let mut draw = Draw { random, head };
    let mut innermost = draw.leaves(2);
    if draw.random.once_in(3) {
        innermost.push(ill_formed(draw.random));
    }
    let mut block = draw.leaves(2);
    block.extend(draw.nested(depth, innermost));
    block.extend(draw.leaves(2));
    beside_small(random, head, &block)
}

/// An if or a declare whose length is missing or too long.
fn ill_formed(random: &mut Random) -> Code {
    let bytes: &[u8] = match random.below(5) {
        0 => &[12, 0, 0, 0, 1],
        1 => &[12, 0, 0, 0],
        2 => &[12, 0, 0],
        3 => &[11, 0, 0, 0, 0, 1],
        _ => &[11, 0, 0, 0, 0],
    };
    Code::Leaf(bytes.to_vec())
}

/// As many runs as there may be, or the next number above it, or a great many.
fn about_4096_runs(random: &mut Random) -> Vec<u8> {
    let head = draw::head(random);
    let most = most_choices(head);
    let choices = *random.pick(&[most, most + 1, most + 2, MAX_STATEMENTS]);
    let both = random.once_in(4);
    let depth = random.below(3);
    let mut draw = Draw { random, head };
    let choosing: Vec<_> = (0..choices.min(MAX_STATEMENTS - depth))
        .map(|_| draw.choosing())
        .collect();
    let block = draw.nested(depth, choosing);
    if both {
        let mut rest = vec![head.v, head.r, head.l];
        rest.extend(counted(&body(&block)).repeat(2));
        return file(&rest);
    }
    beside_small(random, head, &block)
}
