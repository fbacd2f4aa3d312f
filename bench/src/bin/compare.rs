//! Gives many streams to both judges and compares what they print.
//!
//! `compare [seed [streams]]`. The exit status is 1 if a stream gets two answers, or if the streams
//! leave something out that they have to show.

use std::process::ExitCode;

use bench::generate::{Generator, Kind};
use bench::judge::file::cut;
use bench::{judge, proved};

const DEFAULT_SEED: u64 = 1;
const DEFAULT_STREAMS: usize = 200_000;

/// Fewer streams than this show too little.
const FEWEST_STREAMS: usize = 20_000;

/// The numbers of refusals end here.
const LAST_REFUSAL: usize = 18;

/// The one refusal that no stream gets: it is for callers that lend too little room.
const NOT_IN_STREAMS: usize = 17;

/// As many steps make an accepted hand-in a long one.
const LONG: usize = 3;

/// How many streams that differ are printed.
const SHOWN: usize = 5;

/// More bytes than the lines of any stream have: a line has at most 24, and a stream of 32,768 bytes
/// at most 10,922 hand-ins whose lines have at most six each.
const ROOM: usize = 1 << 17;

fn main() -> ExitCode {
    let Some((seed, streams)) = arguments() else {
        eprintln!("usage: compare [seed [streams]]");
        return ExitCode::FAILURE;
    };
    let tally = compare(seed, streams);
    tally.print(seed);
    let faults = tally.faults();
    for fault in &faults {
        println!("fault: {fault}");
    }
    if faults.is_empty() {
        ExitCode::SUCCESS
    } else {
        ExitCode::FAILURE
    }
}

/// The seed and the number of streams.
fn arguments() -> Option<(u64, usize)> {
    let mut arguments = std::env::args().skip(1);
    let seed = match arguments.next() {
        Some(argument) => argument.parse().ok()?,
        None => DEFAULT_SEED,
    };
    let streams = match arguments.next() {
        Some(argument) => argument.parse().ok()?,
        None => DEFAULT_STREAMS,
    };
    arguments.next().is_none().then_some((seed, streams))
}

fn compare(seed: u64, streams: usize) -> Tally {
    let mut tally = Tally::default();
    let mut lines = Vec::new();
    let mut room = vec![0; ROOM];
    for (number, (kind, stream)) in Generator::new(seed).take(streams).enumerate() {
        lines.clear();
        judge::judge_stream(&stream, &mut lines);
        let proved = proved::judge_stream(&stream, &mut room).map(|length| &room[..length]);
        if proved != Some(&lines[..]) {
            tally.differing += 1;
            if tally.differing <= SHOWN {
                show(seed, number, kind, &stream, &lines, proved);
            }
        }
        tally.count(kind, &stream, &lines);
    }
    tally
}

/// Prints a stream that differs, and both outputs.
fn show(seed: u64, number: usize, kind: Kind, stream: &[u8], lines: &[u8], proved: Option<&[u8]>) {
    let hex: String = stream.iter().map(|byte| format!("{byte:02X}")).collect();
    println!("seed {seed}, stream {number}, {}: {hex}", kind.name());
    println!("this judge:\n{}", String::from_utf8_lossy(lines));
    match proved {
        Some(lines) => println!("the proved judge:\n{}", String::from_utf8_lossy(lines)),
        None => println!("the proved judge has no answer"),
    }
}

/// What the streams have shown.
#[derive(Default)]
struct Tally {
    kinds: [usize; Kind::ALL.len()],
    /// How many answers have each number; 0 is acceptance.
    answers: [usize; LAST_REFUSAL + 1],
    sound: usize,
    not_sound: usize,
    /// How many hand-ins with many steps were accepted.
    long: usize,
    /// The most steps of an accepted hand-in.
    most_steps: usize,
    differing: usize,
}

impl Tally {
    fn streams(&self) -> usize {
        self.kinds.iter().sum()
    }

    fn count(&mut self, kind: Kind, stream: &[u8], lines: &[u8]) {
        self.kinds[kind as usize] += 1;
        let lines: Vec<Vec<usize>> = lines.split(|&byte| byte == b'\n').map(numbers).collect();
        for line in &lines {
            match line[..] {
                [answer, _] => self.answers[answer] += 1,
                [_, _, _, 0, _] => self.sound += 1,
                [_, _, _, _, _] => self.not_sound += 1,
                _ => {}
            }
        }
        // Only then are the lines before it those of hand-ins.
        if lines.iter().any(|line| line.len() == 5) {
            self.count_steps(stream, &lines);
        }
    }

    /// Counts the steps of the hand-ins that were accepted.
    fn count_steps(&mut self, stream: &[u8], lines: &[Vec<usize>]) {
        let (_, mut hand_ins) = cut(&stream[1..]);
        for line in lines {
            let (hand_in, others) = cut(hand_ins);
            hand_ins = others;
            if line[..] == [0, 0] {
                let steps = (hand_in.len() - 7) / 4;
                self.long += usize::from(steps >= LONG);
                self.most_steps = self.most_steps.max(steps);
            }
        }
    }

    fn print(&self, seed: u64) {
        println!("seed {seed}: {} streams compared", self.streams());
        for kind in Kind::ALL {
            println!("{:>9}  {}", self.kinds[kind as usize], kind.name());
        }
        println!("answers by number, 0 for accepted:");
        for (number, count) in self.answers.iter().enumerate() {
            if number != NOT_IN_STREAMS {
                println!("{count:>9}  {number}");
            }
        }
        println!("reports:");
        println!("{:>9}  sound", self.sound);
        println!("{:>9}  not sound", self.not_sound);
        println!("accepted hand-ins with at least {LONG} steps:");
        println!("{:>9}  with up to {} steps", self.long, self.most_steps);
        println!("streams that differ: {}", self.differing);
    }

    /// What is wrong, or has not been shown.
    fn faults(&self) -> Vec<String> {
        let mut faults: Vec<String> = (0..=LAST_REFUSAL)
            .filter(|&number| number != NOT_IN_STREAMS && self.answers[number] == 0)
            .map(|number| format!("no answer has the number {number}"))
            .collect();
        let mut fault_if = |wrong: bool, what: &str| {
            if wrong {
                faults.push(what.to_owned());
            }
        };
        fault_if(self.sound == 0, "no verdict is sound");
        fault_if(self.not_sound == 0, "every verdict is sound");
        fault_if(self.long == 0, "no accepted hand-in is long");
        fault_if(
            self.streams() < FEWEST_STREAMS,
            "too few streams were compared",
        );
        fault_if(self.differing > 0, "the judges differ");
        faults
    }
}

/// The numbers of a line.
fn numbers(line: &[u8]) -> Vec<usize> {
    let line = std::str::from_utf8(line).expect("lines are digits and spaces");
    line.split_whitespace()
        .map(|number| number.parse().expect("lines are numbers"))
        .collect()
}
