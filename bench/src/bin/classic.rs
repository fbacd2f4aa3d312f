//! The well-known local transformations, as pairs with derivations on each model.
//!
//! `classic` prints a line for each pair and model, as the table of `samples` has them: a name, a tab
//! and a stream. `classic lines` prints what the second judge answers to each, in the form of that
//! program's stored output. `classic verdicts` prints only the verdicts.

use bench::assemble::{Code, Head, copy, load, pair, store, stream};
use bench::judge::{Model, Pair, judge_stream};
use bench::search::{Bounds, Derivation, derivations};

/// Registers and locations by the names that docs/EXAMPLES.md gives them.
const R: u8 = 0;
const S: u8 = 1;
const T: u8 = 2;
const A: u8 = 0;
const B: u8 = 1;

const NAMES: [&str; 5] = ["sc", "390", "tso", "pso", "clr"];

const BOUNDS: Bounds = Bounds { depth: 4, words: 10_000 };

struct Transformation {
    name: &'static str,
    original: Vec<Code>,
    replacement: Vec<Code>,
}

impl Transformation {
    /// The pair file: two values, three registers, two locations.
    fn file(&self) -> Vec<u8> {
        pair(Head { v: 2, r: 3, l: 2 }, &self.original, &self.replacement)
    }

    /// A hand-in for each run of the replacement that has a derivation on the model or, if there is
    /// none, on another: so the stream also shows what the model does not allow.
    fn stream(&self, model: Model) -> Vec<u8> {
        let file = self.file();
        let pair = Pair::read(&file).expect("a pair within the limits");
        let mut found = derivations(&pair, model, BOUNDS);
        for other in Model::ALL {
            let theirs = derivations(&pair, other, BOUNDS);
            for (mine, theirs) in found.iter_mut().zip(theirs) {
                *mine = mine.take().or(theirs);
            }
        }
        let hand_ins: Vec<Vec<u8>> = found.iter().flatten().map(Derivation::file).collect();
        stream(model.number(), &file, &hand_ins)
    }
}

fn transformations() -> Vec<Transformation> {
    let choice = |first, second| vec![Code::If(R, first, second)];
    vec![
        Transformation {
            name: "load-reordering",
            original: choice(vec![load(S, A), load(T, B)], vec![load(T, B), load(S, A)]),
            replacement: vec![load(S, A), load(T, B)],
        },
        Transformation {
            name: "store-reordering",
            original: choice(vec![store(A, S), store(B, T)], vec![store(B, T), store(A, S)]),
            replacement: vec![store(A, S), store(B, T)],
        },
        Transformation {
            name: "irrelevant-read-elimination",
            original: vec![Code::Declare(
                R,
                0,
                vec![load(R, A), Code::If(R, vec![store(B, S)], vec![store(B, S)])],
            )],
            replacement: vec![store(B, S)],
        },
        Transformation {
            name: "irrelevant-read-introduction",
            original: choice(vec![Code::Declare(S, 0, vec![load(S, A), store(B, S)])], vec![]),
            replacement: vec![Code::Declare(
                S,
                0,
                vec![load(S, A), Code::If(R, vec![store(B, S)], vec![])],
            )],
        },
        Transformation {
            name: "read-after-read",
            original: vec![load(R, A), load(S, A)],
            replacement: vec![load(R, A), copy(S, R)],
        },
        Transformation {
            name: "read-after-write",
            original: vec![store(A, R), load(S, A)],
            replacement: vec![store(A, R), copy(S, R)],
        },
        Transformation {
            name: "write-before-write",
            original: vec![store(A, R), store(A, S)],
            replacement: vec![store(A, S)],
        },
        Transformation {
            name: "write-after-read",
            original: vec![load(R, A), Code::If(R, vec![], vec![store(A, R)])],
            replacement: vec![load(R, A)],
        },
    ]
}

/// The lines that the second judge prints, with bars between them.
fn lines(stream: &[u8]) -> String {
    let mut out = Vec::new();
    judge_stream(stream, &mut out);
    let text = String::from_utf8(out).expect("lines are text");
    text.trim_end().replace('\n', " | ")
}

fn hexadecimal(bytes: &[u8]) -> String {
    bytes.iter().map(|byte| format!("{byte:02x}")).collect()
}

fn main() {
    let what = std::env::args().nth(1).unwrap_or_default();
    for transformation in transformations() {
        for (model, name) in Model::ALL.into_iter().zip(NAMES) {
            let stream = transformation.stream(model);
            let title = format!("{}-{name}", transformation.name);
            match what.as_str() {
                "lines" => println!("{title}: {}", lines(&stream)),
                "verdicts" => {
                    let all = lines(&stream);
                    println!("{title}: {}", all.rsplit(" | ").next().unwrap_or(&all));
                }
                _ => println!("{title}\t{}", hexadecimal(&stream)),
            }
        }
    }
}
