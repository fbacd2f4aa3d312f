//! Hand-ins with something wrong, aimed at each of the refusals 9 to 16.

use super::base::Base;
use super::walk::Walk;
use crate::assemble::{Step, file, hand_in};
use crate::judge::steps::{MAX_EVENTS, MAX_STEPS};
use crate::judge::stream::MAX_STREAM;
use crate::judge::{Cause, Snippet};
use crate::random::Random;
use crate::search::Derivation;

type Damage = fn(&mut Random, &Base) -> Vec<u8>;

const DAMAGES: &[Damage] = &[
    unharmed,
    odd_length,
    short_rest,
    about_64_steps,
    no_such_run,
    idle_run,
    other_start,
    other_original,
    other_replacement,
    unknown_rule,
    place_too_far,
    spare_byte,
    put_in_at_limits,
    misfit,
    forbidden,
    overlong,
    climbed,
    step_dropped,
    step_added,
    steps_exchanged,
    byte_changed,
    header_changed,
];

/// Streams of one pair whose hand-ins are damaged in all these ways.
pub fn streams(random: &mut Random) -> Vec<Vec<u8>> {
    let base = match random.below(4) {
        0 => Base::long(random),
        1 => Base::any(random),
        _ => Base::changed(random),
    };
    let mut streams: Vec<Vec<u8>> = DAMAGES
        .iter()
        .map(|damage| {
            let mut hand_ins = vec![damage(random, &base)];
            for _ in 0..random.below(4) {
                hand_ins.push(random.pick(DAMAGES)(random, &base));
            }
            base.stream(&hand_ins)
        })
        .collect();
    streams.push(every_step(random, &base));
    streams.push(every_run(&base));
    streams.push(every_start(&base));
    streams
}

fn unharmed(random: &mut Random, base: &Base) -> Vec<u8> {
    base.derivation(random).file()
}

/// One to three bytes more or less than whole steps.
fn odd_length(random: &mut Random, base: &Base) -> Vec<u8> {
    let mut rest = base.derivation(random).file().split_off(3);
    let by = 1 + random.below(3);
    if random.once_in(2) {
        rest.truncate(rest.len() - by);
    } else {
        rest.resize(rest.len() + by, random.byte(8));
    }
    file(&rest)
}

fn short_rest(random: &mut Random, _: &Base) -> Vec<u8> {
    file(&vec![0; random.below(5)])
}

/// As many detours as there is room for, and one or a few steps more.
fn about_64_steps(random: &mut Random, base: &Base) -> Vec<u8> {
    let mut derivation = base.derivation(random);
    let detours = (MAX_STEPS - derivation.steps.len()) / 2;
    derivation = base.with_detours(random, &derivation, detours);
    let steps = *random.pick(&[0, MAX_STEPS, MAX_STEPS, MAX_STEPS + 1, 100]);
    while derivation.steps.len() < steps {
        derivation.steps.push([7, 0, 0, 0]);
    }
    derivation.file()
}

fn no_such_run(random: &mut Random, base: &Base) -> Vec<u8> {
    let mut derivation = base.derivation(random);
    let which = random.below(3);
    if which != 0 {
        derivation.replacement = near_the_end(random, &base.pair.replacement);
    }
    if which != 1 {
        derivation.original = near_the_end(random, &base.pair.original);
    }
    derivation.file()
}

/// The last run, or a number past it.
fn near_the_end(random: &mut Random, snippet: &Snippet) -> u16 {
    let runs = snippet.runs();
    *random.pick(&[runs - 1, runs, runs, runs + 1, 4096, u16::MAX])
}

fn idle_run(random: &mut Random, base: &Base) -> Vec<u8> {
    let mut derivation = base.derivation(random);
    let which = random.below(3);
    if which != 0 {
        let idle = pick_idle(random, &base.pair.replacement);
        derivation.replacement = idle.unwrap_or(derivation.replacement);
    }
    if which != 1 {
        let idle = pick_idle(random, &base.pair.original);
        derivation.original = idle.unwrap_or(derivation.original);
    }
    derivation.file()
}

fn pick_idle(random: &mut Random, snippet: &Snippet) -> Option<u16> {
    let idle: Vec<u16> = (0..snippet.runs())
        .filter(|&run| snippet.is_idle(run) == Ok(true))
        .collect();
    (!idle.is_empty()).then(|| *random.pick(&idle))
}

fn other_start(random: &mut Random, base: &Base) -> Vec<u8> {
    let mut derivation = base.derivation(random);
    derivation.original = random.below(base.pair.original.runs().into()) as u16;
    derivation.file()
}

/// Another run of the original with the same start registers.
fn other_original(random: &mut Random, base: &Base) -> Vec<u8> {
    let mut derivation = base.derivation(random);
    derivation.original = same_start(random, base, &base.pair.original, derivation.original);
    derivation.file()
}

/// Another run of the replacement with the same start registers.
fn other_replacement(random: &mut Random, base: &Base) -> Vec<u8> {
    let mut derivation = base.derivation(random);
    let run = derivation.replacement;
    derivation.replacement = same_start(random, base, &base.pair.replacement, run);
    derivation.file()
}

fn same_start(random: &mut Random, base: &Base, snippet: &Snippet, run: u16) -> u16 {
    let starts = base.starts();
    let choices = usize::from(snippet.runs()) / starts;
    (random.below(choices) * starts + usize::from(run) % starts) as u16
}

/// A derivation with one more step somewhere on its way.
fn with_step(
    random: &mut Random,
    base: &Base,
    step: impl FnOnce(&mut Random, &Walk) -> Option<Step>,
) -> Vec<u8> {
    let mut derivation = base.derivation(random);
    let at = random.below(derivation.steps.len() + 1);
    let mut walk = Walk::new(&base.pair, base.model, derivation.original);
    for &step in &derivation.steps[..at] {
        walk.take(step);
    }
    if let Some(step) = step(random, &walk) {
        derivation.steps.insert(at, step);
    }
    derivation.file()
}

fn unknown_rule(random: &mut Random, base: &Base) -> Vec<u8> {
    with_step(random, base, |random, walk| {
        let rule = *random.pick(&[0, 8, 9, 128, 255]);
        Some([rule, random.below(walk.word.len() + 1) as u8, 0, 0])
    })
}

/// The last place at which two events stand, and those behind it.
fn place_too_far(random: &mut Random, base: &Base) -> Vec<u8> {
    with_step(random, base, |random, walk| {
        let events = walk.word.len() as u8;
        let place = *random.pick(&[
            events.saturating_sub(2),
            events.saturating_sub(1),
            events,
            255,
        ]);
        Some([1 + random.byte(6), place, 0, 0])
    })
}

/// A step that would fit, or be forbidden, but for a byte that has to be 0.
fn spare_byte(random: &mut Random, base: &Base) -> Vec<u8> {
    with_step(random, base, |random, walk| {
        let answer = *random.pick(&[Ok(()), Err(Cause::Forbidden)]);
        let mut step = walk.step_with(random, answer)?;
        step[2 + random.below(2)] = *random.pick(&[1, 255]);
        Some(step)
    })
}

/// Rule 7 with its location, its value or its place at the limit or past it.
fn put_in_at_limits(random: &mut Random, base: &Base) -> Vec<u8> {
    with_step(random, base, |random, walk| {
        let mut step = walk.put_in(random);
        let field = 1 + random.below(3);
        let last = [0, walk.word.len() as u8, base.head.l - 1, base.head.v - 1][field];
        step[field] = *random.pick(&[last, last + 1, last + 1, 255]);
        Some(step)
    })
}

fn misfit(random: &mut Random, base: &Base) -> Vec<u8> {
    with_step(random, base, |random, walk| {
        walk.step_with(random, Err(Cause::Misfit))
    })
}

fn forbidden(random: &mut Random, base: &Base) -> Vec<u8> {
    with_step(random, base, |random, walk| {
        walk.step_with(random, Err(Cause::Forbidden))
    })
}

/// A word that grows to about 48 events, and perhaps a step beyond.
fn overlong(random: &mut Random, base: &Base) -> Vec<u8> {
    let mut derivation = base.derivation(random);
    let mut walk = Walk::new(&base.pair, base.model, derivation.original);
    let events = MAX_EVENTS - random.below(2);
    walk.grow(random, events);
    derivation.steps = walk.steps.clone();
    for _ in 0..1 + random.below(2) {
        let place = *random.pick(&[0, 47, 48, 49]);
        let beyond = [7, place, random.byte(base.head.l), random.byte(base.head.v)];
        derivation.steps.push(beyond);
    }
    derivation.file()
}

/// A word that grows as far as it can and is brought back.
fn climbed(random: &mut Random, base: &Base) -> Vec<u8> {
    let derivation = base.derivation(random);
    let mut walk = Walk::new(&base.pair, base.model, derivation.original);
    walk.climb();
    let room = MAX_STEPS.saturating_sub(walk.steps.len());
    let then = derivation.steps.iter().take(room);
    let steps: Vec<Step> = walk.steps.iter().chain(then).copied().collect();
    hand_in(derivation.replacement, derivation.original, &steps)
}

fn step_dropped(random: &mut Random, base: &Base) -> Vec<u8> {
    let mut derivation = base.derivation(random);
    if !derivation.steps.is_empty() {
        let at = random.below(derivation.steps.len());
        derivation.steps.remove(at);
    }
    derivation.file()
}

/// A step that can be taken, at the end.
fn step_added(random: &mut Random, base: &Base) -> Vec<u8> {
    let derivation = base.derivation(random);
    let mut walk = Walk::new(&base.pair, base.model, derivation.original);
    for &step in &derivation.steps {
        walk.take(step);
    }
    walk.wander(random);
    Derivation {
        steps: walk.steps,
        ..derivation
    }
    .file()
}

fn steps_exchanged(random: &mut Random, base: &Base) -> Vec<u8> {
    let mut derivation = base.derivation(random);
    derivation = base.with_detours(random, &derivation, 2);
    if derivation.steps.len() > 1 {
        let at = random.below(derivation.steps.len() - 1);
        derivation.steps.swap(at, at + 1);
    }
    derivation.file()
}

fn byte_changed(random: &mut Random, base: &Base) -> Vec<u8> {
    let mut bytes = base.derivation(random).file();
    let at = 3 + random.below(bytes.len() - 3);
    bytes[at] = bytes[at].wrapping_add(*random.pick(&[1, 255, 2, 128]));
    bytes
}

fn header_changed(random: &mut Random, base: &Base) -> Vec<u8> {
    let mut bytes = base.derivation(random).file();
    let at = random.below(3);
    bytes[at] = bytes[at].wrapping_add(*random.pick(&[1, 255, 4]));
    bytes
}

/// One hand-in for every step near the limits, each behind the steps of a derivation.
fn every_step(random: &mut Random, base: &Base) -> Vec<u8> {
    let derivation = base.derivation(random);
    let mut walk = Walk::new(&base.pair, base.model, derivation.original);
    let before = random.below(derivation.steps.len() + 1);
    for &step in &derivation.steps[..before] {
        walk.take(step);
    }
    let mut hand_ins = Vec::new();
    for rule in 0..=8 {
        for place in 0..=walk.word.len() as u8 + 1 {
            for (location, value) in near_limits(base) {
                let mut steps = derivation.steps[..before].to_vec();
                steps.push([rule, place, location, value]);
                hand_ins.push(hand_in(derivation.replacement, derivation.original, &steps));
            }
        }
    }
    within_limits(base.stream(&hand_ins))
}

/// Locations and values at the limits and past them.
fn near_limits(base: &Base) -> [(u8, u8); 5] {
    let (l, v) = (base.head.l, base.head.v);
    [(0, 0), (l - 1, v - 1), (l, 0), (0, v), (l, v)]
}

/// One hand-in without steps for every two runs, and those just past them.
fn every_run(base: &Base) -> Vec<u8> {
    let originals = base.pair.original.runs();
    let hand_ins: Vec<_> = (0..=base.pair.replacement.runs())
        .flat_map(|replacement| {
            (0..=originals).map(move |original| hand_in(replacement, original, &[]))
        })
        .take(MAX_STREAM / 7)
        .collect();
    within_limits(base.stream(&hand_ins))
}

/// One hand-in without steps for every two runs with the same start registers.
fn every_start(base: &Base) -> Vec<u8> {
    let starts = base.starts();
    let hand_ins: Vec<_> = (0..base.pair.replacement.runs())
        .flat_map(|replacement| {
            let first = usize::from(replacement) % starts;
            (first..base.pair.original.runs().into())
                .step_by(starts)
                .map(move |original| hand_in(replacement, original as u16, &[]))
        })
        .take(MAX_STREAM / 7)
        .collect();
    within_limits(base.stream(&hand_ins))
}

/// As much of a stream as may be handed in.
fn within_limits(mut stream: Vec<u8>) -> Vec<u8> {
    stream.truncate(MAX_STREAM);
    stream
}
