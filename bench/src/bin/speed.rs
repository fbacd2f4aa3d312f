//! Measures the time that each judge takes for a stream, and how it grows with the hand-ins.
//!
//! Both are given the same bytes and make the lines in memory of their own, anew for each stream. A
//! time is the best of many, so that what else the machine does counts little.

use std::hint::black_box;
use std::time::Instant;

use bench::assemble::{Code, Head, hand_in, load, pair, store, stream, sum};
use bench::{judge, proved};

/// The model byte of TSO.
const TSO: u8 = 3;

/// The most bytes that a stream has.
const LONGEST: usize = 32_768;

/// More bytes than the lines of any stream have.
const ROOM: usize = 1 << 17;

fn main() {
    println!("microseconds for one stream          bytes  hand-ins    proved      Rust   ratio");
    row("(a) accepted, two steps each", &accepted(usize::MAX));
    row("    accepted, without steps", &accepted_without_steps());
    row("(b) opening, 4,096 runs, no if", &opened(&straight()));
    row("    opening, 4,096 runs, with ifs", &opened(&branching()));
    row("(c) refused at the last of 64 steps", &refused_late());
    println!();
    println!("growth of (a)");
    for hand_ins in [100, 200, 400] {
        row(&format!("    {hand_ins} hand-ins"), &accepted(hand_ins));
    }
}

/// Measures both judges on a stream, and prints what came.
fn row(name: &str, stream: &[u8]) {
    let mut out = vec![0; ROOM];
    let length = proved::judge_stream(stream, &mut out).expect("memory and room suffice");
    let lines = out[..length].to_vec();
    assert_eq!(lines, judged(stream), "the judges agree");

    let proved = best(|| {
        black_box(proved::judge_stream(black_box(stream), &mut out));
    });
    let rust = best(|| {
        black_box(judged(black_box(stream)));
    });
    let hand_ins = lines.iter().filter(|&&byte| byte == b'\n').count() - 1;
    println!("{name:36} {:6}  {hand_ins:8}  {proved:8.1}  {rust:8.1}  {:6.2}", stream.len(), proved / rust);
}

fn judged(stream: &[u8]) -> Vec<u8> {
    let mut out = Vec::new();
    judge::judge_stream(stream, &mut out);
    out
}

/// The shortest time of a call, in microseconds.
fn best(mut call: impl FnMut()) -> f64 {
    const ROUNDS: usize = 60;
    const CALLS: usize = 20;
    let mut least = f64::INFINITY;
    for _ in 0..ROUNDS {
        let start = Instant::now();
        for _ in 0..CALLS {
            call();
        }
        least = least.min(start.elapsed().as_secs_f64());
    }
    least / CALLS as f64 * 1e6
}

/// With nine loads a snippet has 4,096 runs.
const HEAD: Head = Head { v: 2, r: 3, l: 4 };

/// Loads of all locations, into all registers in turn.
fn loads(count: u8) -> Vec<Code> {
    (0..count).map(|i| load(i % 3, i % 4)).collect()
}

/// A load moves before two stores. Each run follows from the original's run of the same number, by two
/// swaps.
fn accepted(most: usize) -> Vec<u8> {
    let stores = vec![store(0, 0), store(1, 1)];
    let moved = vec![load(2, 2)];
    let original = [stores.clone(), moved.clone(), loads(8)].concat();
    let replacement = [moved, stores, loads(8)].concat();
    let steps = [[1, 1, 0, 0], [1, 0, 0, 0]];
    let hand_ins: Vec<Vec<u8>> = (0..4096).map(|run| hand_in(run, run, &steps)).collect();
    filled(&pair(HEAD, &original, &replacement), &hand_ins, most)
}

/// Two equal snippets.
fn accepted_without_steps() -> Vec<u8> {
    let snippet = [vec![store(0, 0), store(1, 1)], loads(9)].concat();
    let hand_ins: Vec<Vec<u8>> = (0..4096).map(|run| hand_in(run, run, &[])).collect();
    filled(&pair(HEAD, &snippet, &snippet), &hand_ins, usize::MAX)
}

/// As many of the hand-ins as a stream takes, and at most so many.
fn filled(pair: &[u8], hand_ins: &[Vec<u8>], most: usize) -> Vec<u8> {
    let mut room = LONGEST - 1 - pair.len();
    let fit = hand_ins
        .iter()
        .take(most)
        .take_while(|file| {
            let fits = file.len() <= room;
            room = room.saturating_sub(file.len());
            fits
        })
        .count();
    stream(TSO, pair, &hand_ins[..fit])
}

/// A stream of a pair alone: the original is empty.
fn opened(replacement: &[Code]) -> Vec<u8> {
    stream(TSO, &pair(HEAD, &[], replacement), &[])
}

/// 32 statements, none of them an if.
fn straight() -> Vec<Code> {
    let others = (0..23).map(|i| if i % 2 == 0 { store(i % 4, i % 3) } else { sum(i % 3, 0, 1) });
    loads(9).into_iter().chain(others).collect()
}

/// 32 statements, with loads and stores in two ifs: some runs are idle.
fn branching() -> Vec<Code> {
    let branch = |register| Code::If(register, loads(2), vec![store(0, 0), store(1, 1)]);
    let others = (0..17).map(|i| if i % 2 == 0 { store(i % 4, i % 3) } else { sum(i % 3, 0, 1) });
    [loads(5), vec![branch(0), branch(1)], others.collect()].concat()
}

/// Each hand-in has 64 steps, of which the last is one that the model forbids: loads are put in until
/// the word has 48 events, one is taken out and put in again, and then two loads should swap.
fn refused_late() -> Vec<u8> {
    let snippet = loads(9);
    let growth = (0..39).map(|_| [7, 0, 0, 0]);
    let detour = (0..12).flat_map(|_| [[3, 0, 0, 0], [7, 0, 0, 0]]);
    let steps: Vec<[u8; 4]> = growth.chain(detour).chain([[1, 0, 0, 0]]).collect();
    let hand_ins: Vec<Vec<u8>> = (0..4096).map(|run| hand_in(run, run, &steps)).collect();
    filled(&pair(HEAD, &snippet, &snippet), &hand_ins, usize::MAX)
}
