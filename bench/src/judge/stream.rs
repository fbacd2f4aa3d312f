//! The stream that a judge is given, and the lines that it prints.

use super::case::{Case, Report};
use super::file;
use super::models::Model;
use super::pair::Pair;
use super::refusal::{Cause, Refusal};

/// The most bytes that a stream may have.
pub const MAX_STREAM: usize = 32_768;

/// Appends to `out` the lines that `bankcheck` prints for the stream.
pub fn judge_stream(stream: &[u8], out: &mut Vec<u8>) {
    match open_stream(stream) {
        Ok((model, pair, hand_ins)) => judge_hand_ins(model, &pair, hand_ins, out),
        Err(refusal) => push_answer(Err(refusal), out),
    }
}

/// Reads the model byte and the pair, and answers what is left: the hand-ins.
fn open_stream(stream: &[u8]) -> Result<(Model, Pair, &[u8]), Refusal> {
    let (model, files) = match stream {
        [number, files @ ..] if stream.len() <= MAX_STREAM => (Model::from_number(*number), files),
        _ => (None, stream),
    };
    let model = model.ok_or(Cause::Stream.at(0))?;
    let (pair, hand_ins) = file::cut(files);
    Ok((model, Pair::read(pair)?, hand_ins))
}

/// Judges each hand-in in turn, one line for each, and then reports.
fn judge_hand_ins(model: Model, pair: &Pair, mut hand_ins: &[u8], out: &mut Vec<u8>) {
    let mut case = Case::open(pair, model);
    while !hand_ins.is_empty() {
        let (hand_in, others) = file::cut(hand_ins);
        push_answer(case.hand_in(hand_in), out);
        hand_ins = others;
    }
    push_report(case.seal(), out);
}

/// An answer is the number and the place of a refusal, or `0 0`.
fn push_answer(answer: Result<(), Refusal>, out: &mut Vec<u8>) {
    match answer {
        Ok(()) => push_line([0, 0], out),
        Err(Refusal { cause, place }) => push_line([usize::from(cause.number()), place], out),
    }
}

/// A report is the model's number, how many runs are not idle, how many are
/// marked, whether the verdict is not sound, and the lowest unmatched run.
fn push_report(report: Report, out: &mut Vec<u8>) {
    push_line(
        [
            usize::from(report.model.number()),
            usize::from(report.not_idle),
            usize::from(report.marked),
            usize::from(report.unmatched.is_some()),
            usize::from(report.unmatched.unwrap_or(0)),
        ],
        out,
    );
}

/// A line is decimal numbers with one space between two, and a line feed.
fn push_line<const N: usize>(numbers: [usize; N], out: &mut Vec<u8>) {
    for (index, number) in numbers.into_iter().enumerate() {
        if index > 0 {
            out.push(b' ');
        }
        push_decimal(number, out);
    }
    out.push(b'\n');
}

/// Appends a number in decimal, without leading zeros.
fn push_decimal(mut number: usize, out: &mut Vec<u8>) {
    const MAX_DIGITS: usize = 20;
    let mut digits = [0; MAX_DIGITS];
    let mut first = MAX_DIGITS;
    loop {
        first -= 1;
        digits[first] = b'0' + (number % 10) as u8;
        number /= 10;
        if number == 0 {
            break;
        }
    }
    out.extend_from_slice(&digits[first..]);
}
