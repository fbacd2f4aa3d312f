//! The worked examples of the pages.

use super::case::Case;
use super::models::{Access, Kind, Model, Removal};
use super::pair::{Limits, Pair, Snippet};
use super::refusal::{Cause, Refusal};
use super::runs::Event::{self, Load, LoadStore, Store};
use super::steps::{HandIn, MAX_EVENTS, Step};
use super::stream::{MAX_STREAM, judge_stream};

/// The bytes that are written in hexadecimal, spaces left out.
fn hex(text: &str) -> Vec<u8> {
    let digits: Vec<u8> = text
        .chars()
        .filter(|digit| !digit.is_whitespace())
        .map(|digit| digit.to_digit(16).unwrap() as u8)
        .collect();
    digits
        .chunks(2)
        .map(|pair| pair[0] << 4 | pair[1])
        .collect()
}

/// A length in two bytes, and the bytes.
fn with_length(bytes: &[u8]) -> Vec<u8> {
    let length = u16::try_from(bytes.len()).unwrap();
    [&length.to_be_bytes(), bytes].concat()
}

/// The file of a pair.
fn pair_file(limits: [u8; 3], original: &[u8], replacement: &[u8]) -> Vec<u8> {
    let rest = [&limits, &*with_length(original), &*with_length(replacement)].concat();
    [&[1], &*with_length(&rest)].concat()
}

fn pair(limits: [u8; 3], original: &str, replacement: &str) -> Pair {
    Pair::read(&pair_file(limits, &hex(original), &hex(replacement))).unwrap()
}

fn refused(file: &[u8]) -> (u8, usize) {
    let Refusal { cause, place } = Pair::read(file).unwrap_err();
    (cause.number(), place)
}

/// The answer to one hand-in, as a number and a place.
fn answer(pair: &Pair, model: Model, hand_in: &str) -> (u8, usize) {
    match Case::open(pair, model).hand_in(&hex(hand_in)) {
        Ok(()) => (0, 0),
        Err(Refusal { cause, place }) => (cause.number(), place),
    }
}

fn lines(stream: &[u8]) -> String {
    let mut out = Vec::new();
    judge_stream(stream, &mut out);
    String::from_utf8(out).unwrap()
}

/// The first r end registers, the word, and whether the run is idle.
fn run(snippet: &Snippet, number: u16) -> (Vec<u8>, Vec<Event>, bool) {
    let mut word = Vec::new();
    let run = snippet.run(number, &mut word).unwrap();
    let registers = usize::from(snippet.limits().registers);
    (run.end[..registers].to_vec(), word, run.idle)
}

const WORKED_PAIR: &str = "01 0016 02 01 01 000C 010000 0B00 0000 0003 020000 0003 010000";

#[test]
fn the_worked_pair_file() {
    let pair = Pair::read(&hex(WORKED_PAIR)).unwrap();
    assert_eq!(
        pair.limits,
        Limits {
            values: 2,
            registers: 1,
            locations: 1
        }
    );
    assert_eq!(pair.original.statements(), 3);
    assert_eq!(pair.original.choices(), 1);
    assert_eq!(pair.original.runs(), 4);
    assert_eq!(pair.replacement.statements(), 1);
    assert_eq!(pair.replacement.runs(), 4);
    let load = |value| Load { location: 0, value };
    let store = Store {
        location: 0,
        value: 0,
    };
    for number in 0..4 {
        let value = u8::from(number >= 2);
        let (end, word, idle) = run(&pair.original, number);
        assert_eq!((end, idle), (vec![value], false));
        let original = if value == 0 {
            vec![load(0), store]
        } else {
            vec![load(1)]
        };
        assert_eq!(word, original);
        assert_eq!(
            run(&pair.replacement, number),
            (vec![value], vec![load(value)], false)
        );
    }
}

#[test]
fn pair_files_that_are_refused() {
    for (file, answer) in [
        ("01 00", (1, 0)),
        ("02 0007 02 01 01 0000 0000", (2, 0)),
        ("01 0008 02 01 01 0000 0000", (3, 1)),
        ("01 0000", (4, 3)),
        ("01 0007 02 05 00 0000 0000", (4, 4)),
        ("01 0003 02 01 01", (5, 6)),
        ("01 0004 02 01 01 00", (5, 6)),
        ("01 0009 02 01 01 0002 01 00 0000", (5, 10)),
        ("01 000B 02 01 01 0004 0B 00 0001 0000", (5, 10)),
        ("01 000A 02 01 01 0003 0B 00 00 0000", (5, 10)),
        ("01 0008 02 01 01 0000 0000 07", (5, 10)),
        ("01 0008 02 01 01 0001 0D 0000", (6, 8)),
        ("01 000A 02 01 01 0003 01 01 00 0000", (6, 9)),
        ("01 000A 02 01 01 0003 01 01 01 0000", (6, 9)),
        // Not in the page: what is left over comes after what is in a body,
        // and a second snippet is read like the first.
        ("01 0002 02 01", (4, 5)),
        ("01 0005 02 01 01 0000", (5, 8)),
        ("01 0009 02 01 01 0000 0001 0D 00", (6, 10)),
        ("01 0009 02 01 01 0000 0003 0000", (5, 8)),
        ("", (1, 0)),
    ] {
        assert_eq!(refused(&hex(file)), answer, "{file}");
    }
}

#[test]
fn at_most_32_statements() {
    let skips = |count| pair_file([2, 1, 1], &vec![0; count], &vec![0; 32]);
    assert!(Pair::read(&skips(32)).is_ok());
    assert_eq!(refused(&skips(33)), (7, 40));
    // The 33rd statement is not read, whatever its number is.
    let mut unknown = vec![0; 33];
    unknown[32] = 0xFF;
    assert_eq!(refused(&pair_file([2, 1, 1], &unknown, &[])), (7, 40));
}

#[test]
fn blocks_at_most_eight_deep() {
    let nested = |depth, innermost: &[u8]| {
        (0..depth).fold(innermost.to_vec(), |inner, _| {
            [&[0x0C, 0, 1], &*with_length(&inner)].concat()
        })
    };
    assert!(Pair::read(&pair_file([2, 1, 1], &nested(8, &[]), &[])).is_ok());
    // The ninth declare stands at 8 + 8·5, and its length three bytes behind.
    assert_eq!(
        refused(&pair_file([2, 1, 1], &nested(9, &[]), &[])),
        (7, 51)
    );
    // A length that passes the end of its block comes before a depth.
    let missing = nested(8, &[0x0C, 0, 1, 0, 1]);
    assert_eq!(refused(&pair_file([2, 1, 1], &missing, &[])), (5, 51));
}

#[test]
fn at_most_4096_runs() {
    let loads = |count| [1, 0, 0].repeat(count);
    assert_eq!(refused(&pair_file([3, 1, 1], &loads(7), &[])), (8, 0));
    assert_eq!(refused(&pair_file([3, 1, 1], &[], &loads(7))), (8, 0));
    assert_eq!(
        refused(&pair_file([4, 4, 8], &loads(32), &loads(32))),
        (8, 0)
    );
    let most = Pair::read(&pair_file([4, 1, 1], &loads(5), &[])).unwrap();
    assert_eq!(most.original.runs(), 4096);
    // Anything else that is wrong comes first.
    let mut left_over = pair_file([3, 1, 1], &loads(7), &[]);
    left_over.push(0);
    left_over[2] += 1;
    assert_eq!(refused(&left_over), (5, 31));
}

#[test]
fn digits_of_a_run_number() {
    let pair = pair([3, 2, 1], "09 00", "");
    assert_eq!(pair.original.start_registers(14).unwrap()[..2], [2, 1]);
    assert_eq!(
        run(&pair.original, 14),
        (vec![1, 1], vec![Event::Get { value: 1 }], false)
    );
    let mut word = vec![Event::Fence];
    assert_eq!(
        pair.original.run(27, &mut word),
        Err(Cause::NoSuchRun.at(0))
    );
    assert_eq!(word, [Event::Fence]);
}

#[test]
fn idle_runs() {
    let pair = pair([2, 1, 1], "0B 00 0003 010000 0000", "");
    let snippet = &pair.original;
    let load = |value| Load { location: 0, value };
    assert_eq!(run(snippet, 0), (vec![0], vec![], false));
    assert_eq!(run(snippet, 1), (vec![0], vec![load(0)], false));
    assert_eq!(run(snippet, 2), (vec![0], vec![], true));
    assert_eq!(run(snippet, 3), (vec![1], vec![load(1)], false));
    assert_eq!(snippet.runs_not_idle().collect::<Vec<_>>(), [0, 1, 3]);
    assert_eq!(snippet.is_idle(2), Ok(true));
    assert_eq!(snippet.is_idle(4), Err(Cause::NoSuchRun.at(0)));
    let taken = |number| snippet.run(number, &mut Vec::new()).unwrap().taken;
    assert_eq!([taken(0), taken(1), taken(2), taken(3)], [0, 1, 0, 1]);
}

#[test]
fn a_declare_and_a_compare_and_swap() {
    let pair = pair([2, 2, 1], "0C 00 01 0005 07 01 00 00 00", "");
    assert_eq!(pair.original.runs(), 8);
    let load_store = |found, left| LoadStore {
        location: 0,
        found,
        left,
    };
    assert_eq!(
        run(&pair.original, 4),
        (vec![0, 1], vec![load_store(1, 1)], false)
    );
    assert_eq!(
        run(&pair.original, 0),
        (vec![0, 0], vec![load_store(0, 0)], false)
    );
}

#[test]
fn compare_and_swap_reads_before_it_sets() {
    // r0 := cas A, r0, r0: r0 starts as 1.
    let pair = pair([3, 1, 1], "07 00 00 00 00", "");
    let load_store = |found, left| LoadStore {
        location: 0,
        found,
        left,
    };
    for found in 0..3 {
        assert_eq!(
            run(&pair.original, 1 + 3 * u16::from(found)),
            (vec![found], vec![load_store(found, found)], false)
        );
    }
}

#[test]
fn nested_declares_and_ifs() {
    // declare r0 = 2 {print r0; declare r0 = 1 {print r0}; print r0}; print r0;
    // if r0 {if r0 {fence} else {}} else {print r0}; r1 := r0 + r0;
    // r0 := (r0 = r1)
    let pair = pair(
        [3, 2, 1],
        "0C0002 000B 0A00 0C0001 0002 0A00 0A00 0A00 \
         0B00 0007 0B00 0001 08 0000 0002 0A00 05010000 06000001",
        "",
    );
    let print = |value| Event::Print { value };
    for start in 0..3 {
        let mut word = vec![print(2), print(1), print(2), print(start)];
        word.push(if start == 0 { print(0) } else { Event::Fence });
        let sum = 2 * start % 3;
        let end = vec![u8::from(sum == start), sum];
        assert_eq!(run(&pair.original, u16::from(start)), (end, word, false));
    }
}

#[test]
fn what_the_models_answer() {
    use Kind::{Load, Store};
    for (number, model) in (1..).zip(Model::ALL) {
        assert_eq!(model.number(), number);
        assert_eq!(Model::from_number(number), Some(model));
    }
    assert_eq!(Model::from_number(0), None);
    assert_eq!(Model::from_number(6), None);

    let swaps = |model: Model, first, second, apart: u8| {
        let first = Access {
            kind: first,
            location: 0,
        };
        let second = Access {
            kind: second,
            location: apart,
        };
        model.may_swap(first, second)
    };
    let table = |first, second, apart| Model::ALL.map(|model| swaps(model, first, second, apart));
    assert_eq!(table(Store, Load, 1), [false, true, true, true, true]);
    assert_eq!(table(Store, Store, 1), [false, false, false, true, false]);
    assert_eq!(table(Load, Load, 1), [false, false, false, false, true]);
    assert_eq!(table(Load, Store, 1), [false; 5]);
    assert_eq!(table(Store, Load, 0), [false; 5]);
    assert_eq!(table(Store, Store, 0), [false; 5]);
    assert_eq!(table(Load, Load, 0), [false, false, false, false, true]);
    assert_eq!(table(Load, Store, 0), [false; 5]);
    assert_eq!(table(Store, Load, 8), [false; 5]);

    let forwards = |location| Model::ALL.map(|model| model.forwards_at(location));
    assert_eq!(forwards(7), [false, false, true, true, true]);
    assert_eq!(forwards(8), [false; 5]);

    let permits = |removal, location| Model::ALL.map(|model| model.permits(removal, location));
    let (five, six) = (Removal::StoreAfterLoad, Removal::LoadAfterStore);
    assert_eq!(permits(five, 7), [true, false, false, true, false]);
    assert_eq!(permits(six, 7), [true, false, true, true, true]);
    assert_eq!(permits(five, 8), [false; 5]);
    assert_eq!(permits(six, 8), [false; 5]);
}

#[test]
fn a_swap() {
    let (there, back) = ("020000 010101", "010101 020000");
    let forth = pair([2, 2, 2], there, back);
    let reverse = pair([2, 2, 2], back, there);
    assert_eq!((forth.original.runs(), forth.replacement.runs()), (8, 8));
    let hand_in = "01 0008 0000 0000 01000000";
    for model in Model::ALL {
        let expected = if model == Model::Sc { (14, 0) } else { (0, 0) };
        assert_eq!(answer(&forth, model, hand_in), expected);
        assert_eq!(answer(&reverse, model, hand_in), (14, 0));
    }
}

#[test]
fn a_load_less() {
    let pair = pair([2, 2, 1], "010000 010100", "010000 040100");
    for (hand_in, expected) in [
        ("01 0008 0004 000C 03000000", (0, 0)),
        ("01 0008 0004 0004 03000000", (13, 0)),
        ("01 0008 0004 000C 03000001", (13, 0)),
        ("01 000C 0004 000C 03000000 03000000", (13, 1)),
        ("01 000C 0004 000C 03000000 07010001", (16, 0)),
        ("01 0004 0004 000C", (16, 0)),
        ("01 0004 0005 000C", (12, 0)),
        ("01 0004 0008 000C", (10, 0)),
        ("01 0006 0004 000C 0300", (9, 0)),
        // Not in the page.
        ("01 0000", (9, 0)),
        ("01 0004 0004 0010", (10, 0)),
        ("01 0005 0004 000C", (3, 1)),
    ] {
        for model in Model::ALL {
            assert_eq!(answer(&pair, model, hand_in), expected, "{hand_in}");
        }
    }
}

#[test]
fn forwarding_or_rule_6() {
    let pair = pair([2, 2, 1], "020000 010100", "020000 040100");
    let by = |hand_in| Model::ALL.map(|model| answer(&pair, model, hand_in).0);
    assert_eq!(by("01 0008 0001 0005 02000000"), [14, 14, 0, 0, 0]);
    assert_eq!(by("01 0008 0001 0005 06000000"), [0, 14, 0, 0, 0]);
}

#[test]
fn idle_comes_behind_numbers_and_before_start_registers() {
    // The original has an idle run 2; the replacement has two runs.
    let pair = pair([2, 1, 1], "0B 00 0003 010000 0000", "");
    let on = |hand_in| answer(&pair, Model::Sc, hand_in);
    assert_eq!(on("01 0004 0002 0002"), (10, 0));
    assert_eq!(on("01 0004 0001 0002"), (11, 0));
    assert_eq!(on("01 0004 0000 0003"), (12, 0));
    assert_eq!(on("01 0004 0000 0000"), (0, 0));
    // The words are alike from nothing, but the end registers differ.
    assert_eq!(on("01 0004 0001 0001"), (16, 0));
}

#[test]
fn hand_ins_of_at_most_64_steps() {
    let hand_in = |steps| {
        let rest = [&[0, 1, 0, 2][..], &[7, 0, 0, 0].repeat(steps)].concat();
        [&[1], &*with_length(&rest)].concat()
    };
    let file = hand_in(64);
    let read = HandIn::read(&file).unwrap();
    assert_eq!((read.replacement_run, read.original_run), (1, 2));
    assert_eq!(read.steps.len(), 64);
    assert_eq!(HandIn::read(&hand_in(65)), Err(Cause::HandInLength.at(0)));
}

#[test]
fn steps_that_fit_and_steps_that_do_not() {
    let limits = Limits {
        values: 2,
        registers: 1,
        locations: 2,
    };
    let load = |location, value| Load { location, value };
    let store = |location, value| Store { location, value };
    let take = |step: [u8; 4], model, word: &[Event]| {
        let mut after = word.to_vec();
        let answer = Step::from(step).take(&mut after, limits, model);
        assert!(answer.is_ok() || after == word);
        answer.map(|()| after)
    };

    // Two accesses to one location fit rule 1.
    let same = [store(0, 0), load(0, 0)];
    for model in Model::ALL {
        assert_eq!(take([1, 0, 0, 0], model, &same), Err(Cause::Forbidden));
    }
    let loads = [load(0, 0), load(0, 1)];
    assert_eq!(
        take([1, 0, 0, 0], Model::Clr, &loads),
        Ok(vec![load(0, 1), load(0, 0)])
    );
    // Rule 4 keeps the second store, whatever the values are.
    let stores = [store(1, 0), store(1, 1), load(1, 1)];
    assert_eq!(
        take([4, 0, 0, 0], Model::S390, &stores),
        Ok(vec![store(1, 1), load(1, 1)])
    );
    assert_eq!(
        take([6, 1, 0, 0], Model::Sc, &stores),
        Ok(vec![store(1, 0), store(1, 1)])
    );
    assert_eq!(
        take([2, 1, 0, 0], Model::Sc, &stores),
        Err(Cause::Forbidden)
    );
    // Rule 5 keeps the load.
    let back = [load(1, 1), store(1, 1)];
    assert_eq!(take([5, 0, 0, 0], Model::Pso, &back), Ok(vec![load(1, 1)]));
    // A load-store is no access, nor is a fence, a get or a print.
    for event in [
        LoadStore {
            location: 0,
            found: 0,
            left: 0,
        },
        Event::Fence,
        Event::Get { value: 0 },
        Event::Print { value: 0 },
    ] {
        for rule in 1..=6 {
            for word in [[event, event], [event, load(0, 0)], [store(0, 0), event]] {
                for model in Model::ALL {
                    assert_eq!(take([rule, 0, 0, 0], model, &word), Err(Cause::Misfit));
                }
            }
        }
    }
    // No such rule; a spare byte; a place too far.
    for step in [
        [0, 0, 0, 0],
        [8, 0, 0, 0],
        [255, 255, 255, 255],
        [3, 0, 1, 0],
        [3, 0, 0, 1],
        [3, 1, 0, 0],
        [3, 255, 0, 0],
        [7, 0, 2, 0],
        [7, 0, 0, 2],
        [7, 3, 0, 0],
    ] {
        let word = [load(0, 0), load(0, 0)];
        assert_eq!(take(step, Model::Tso, &word), Err(Cause::Misfit));
    }
}

#[test]
fn a_word_of_at_most_48_events() {
    let limits = Limits {
        values: 2,
        registers: 1,
        locations: 1,
    };
    let mut word = vec![Event::Fence; MAX_EVENTS - 1];
    let mut put_in = |place| Step::from([7, place, 0, 1]).take(&mut word, limits, Model::Sc);
    assert_eq!(put_in(47), Ok(()));
    assert_eq!(put_in(48), Err(Cause::Overlong));
    assert_eq!(put_in(0), Err(Cause::Overlong));
    assert_eq!(put_in(49), Err(Cause::Misfit));
    assert_eq!(word.len(), 48);
    assert_eq!(
        word[47],
        Load {
            location: 0,
            value: 1
        }
    );
}

#[test]
fn the_worked_stream() {
    let files = WORKED_PAIR.to_owned()
        + "010008 0000 0000 05000000"
        + "010004 0002 0002"
        + "010004 0003 0003";
    let tso = hex(&("03".to_owned() + &files));
    assert_eq!(lines(&tso), "14 0\n0 0\n0 0\n3 4 2 1 0\n");
    let sc = hex(&("01".to_owned() + &files));
    assert_eq!(lines(&sc), "0 0\n0 0\n0 0\n1 4 3 1 1\n");
    let sound = [sc, hex("010008 0001 0001 05000000")].concat();
    assert_eq!(lines(&sound), "0 0\n0 0\n0 0\n0 0\n1 4 4 0 0\n");
}

#[test]
fn short_streams() {
    for (stream, expected) in [
        ("", "18 0\n"),
        ("06", "18 0\n"),
        ("00 01", "18 0\n"),
        ("03", "1 0\n"),
        ("03 01 00", "1 0\n"),
        ("03 01 0007 02 01 01 0000 0000", "3 2 0 1 0\n"),
        ("03 01 0007 02 01 01 0000 0000 01", "1 0\n3 2 0 1 0\n"),
        (
            "03 01 0007 02 01 01 0000 0000 02 0004 0000 0000 01 0004 0001 0001",
            "2 0\n0 0\n3 2 1 1 0\n",
        ),
        // Not in the page: parts that the stream's end cuts off.
        ("03 01 0008 02 01 01 0000 0000", "3 1\n"),
        ("03 02 0008 02 01 01 0000 0000", "2 0\n"),
        (
            "05 01 0007 02 01 01 0000 0000 01 0004 0000",
            "3 1\n5 2 0 1 0\n",
        ),
    ] {
        assert_eq!(lines(&hex(stream)), expected, "{stream}");
    }
}

#[test]
fn streams_of_at_most_32768_bytes() {
    let mut stream = hex("03 01 0007 02 01 01 0000 0000");
    let hand_ins = MAX_STREAM - stream.len();
    stream.resize(MAX_STREAM, 0);
    // Each part is three bytes 0, and the last one what is left.
    let mut expected = "2 0\n".repeat(hand_ins / 3);
    expected += match hand_ins % 3 {
        0 => "",
        _ => "1 0\n",
    };
    expected += "3 2 0 1 0\n";
    assert_eq!(lines(&stream), expected);
    stream.push(0);
    assert_eq!(lines(&stream), "18 0\n");
}

#[test]
fn answers_are_appended() {
    let mut out = b"before\n".to_vec();
    judge_stream(&[], &mut out);
    assert_eq!(out, b"before\n18 0\n");
}
