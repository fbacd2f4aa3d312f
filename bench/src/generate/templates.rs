//! Well-known local changes, good ones and a few bad ones.

use super::draw::Draw;
use crate::assemble::{
    Code, compare_and_swap, constant, copy, equal, fence, get, load, print, skip, store, sum,
};

/// What stands in the original, and what in its place in the replacement.
pub type Change = (Vec<Code>, Vec<Code>);

type Template = fn(&mut Draw) -> Change;

const TEMPLATES: &[Template] = &[
    loads_exchanged,
    stores_exchanged,
    load_before_store,
    load_behind_store,
    store_behind_loads,
    load_put_in,
    load_put_in_before_load,
    read_after_read,
    read_after_read_twice,
    read_after_far_read,
    read_after_write,
    read_and_write_after_write,
    write_before_write,
    write_before_far_write,
    write_after_read,
    write_after_read_if_not_zero,
    write_after_read_if_zero,
    constant_folded,
    copy_folded,
    sum_folded,
    zero_added,
    equal_folded,
    skip_removed,
    the_same,
    the_same_block,
    blocks_alike,
    store_before_if,
    declared_elsewhere,
    beside_compare_and_swap,
    beside_fence,
    get_and_print,
    print_of_constant,
    load_of_another,
    store_dropped,
    constant_changed,
    compare_and_swap_changed,
];

/// Both snippets of a pair: one or two changes, with the same statements around them.
pub fn snippets(draw: &mut Draw) -> Change {
    let (mut original, mut replacement) = alike(draw.leaves(2));
    for _ in 0..1 + draw.random.below(5) / 4 {
        append(&mut original, &mut replacement, placed(draw));
        let between = draw.leaves(1);
        append(&mut original, &mut replacement, alike(between));
    }
    (original, replacement)
}

fn append(original: &mut Vec<Code>, replacement: &mut Vec<Code>, change: Change) {
    original.extend(change.0);
    replacement.extend(change.1);
}

/// A change, as it is or inside an if or a declare.
fn placed(draw: &mut Draw) -> Change {
    let template = *draw.random.pick(TEMPLATES);
    let (original, replacement) = template(draw);
    let (a, x) = (draw.register(), draw.value());
    let other = draw.leaves(1);
    let around: &dyn Fn(Vec<Code>) -> Code = match draw.random.below(8) {
        0 => &|inner| Code::Declare(a, x, inner),
        1 => &|inner| Code::If(a, inner, other.clone()),
        2 => &|inner| Code::If(a, other.clone(), inner),
        _ => return (original, replacement),
    };
    (vec![around(original)], vec![around(replacement)])
}

fn alike(block: Vec<Code>) -> Change {
    (block.clone(), block)
}

fn exchanged(first: Code, second: Code) -> Change {
    (vec![first.clone(), second.clone()], vec![second, first])
}

fn loads_exchanged(draw: &mut Draw) -> Change {
    let ((a, b), (l, m)) = (draw.two_registers(), draw.two_locations());
    exchanged(load(a, l), load(b, m))
}

fn stores_exchanged(draw: &mut Draw) -> Change {
    let ((a, b), (l, m)) = (draw.two_registers(), draw.two_locations());
    exchanged(store(l, a), store(m, b))
}

fn load_before_store(draw: &mut Draw) -> Change {
    let ((a, b), (l, m)) = (draw.two_registers(), draw.two_locations());
    exchanged(store(l, a), load(b, m))
}

fn load_behind_store(draw: &mut Draw) -> Change {
    let ((a, b), (l, m)) = (draw.two_registers(), draw.two_locations());
    exchanged(load(b, m), store(l, a))
}

fn store_behind_loads(draw: &mut Draw) -> Change {
    let ((a, b), (l, m)) = (draw.two_registers(), draw.two_locations());
    let k = draw.location();
    (
        vec![store(l, a), load(b, m), load(b, k)],
        vec![load(b, m), load(b, k), store(l, a)],
    )
}

fn load_put_in(draw: &mut Draw) -> Change {
    let (a, l, x) = (draw.register(), draw.location(), draw.value());
    (vec![], vec![Code::Declare(a, x, vec![load(a, l)])])
}

fn load_put_in_before_load(draw: &mut Draw) -> Change {
    let ((a, b), l, x) = (draw.two_registers(), draw.location(), draw.value());
    let put_in = Code::Declare(a, x, vec![load(a, l)]);
    (vec![load(b, l)], vec![put_in, load(b, l)])
}

fn read_after_read(draw: &mut Draw) -> Change {
    let ((a, b), l) = (draw.two_registers(), draw.location());
    (vec![load(a, l), load(b, l)], vec![load(a, l), copy(b, a)])
}

fn read_after_read_twice(draw: &mut Draw) -> Change {
    let ((a, b), l) = (draw.two_registers(), draw.location());
    (
        vec![load(a, l), load(b, l), load(a, l)],
        vec![load(a, l), copy(b, a)],
    )
}

fn read_after_far_read(draw: &mut Draw) -> Change {
    let ((a, b), (l, m)) = (draw.two_registers(), draw.two_locations());
    (
        vec![load(a, l), load(b, m), load(b, l)],
        vec![load(a, l), load(b, m), copy(b, a)],
    )
}

fn read_after_write(draw: &mut Draw) -> Change {
    let ((a, b), l) = (draw.two_registers(), draw.location());
    (vec![store(l, a), load(b, l)], vec![store(l, a), copy(b, a)])
}

fn read_and_write_after_write(draw: &mut Draw) -> Change {
    let ((a, b), l) = (draw.two_registers(), draw.location());
    (
        vec![store(l, a), load(b, l), store(l, a), load(b, l)],
        vec![store(l, a), copy(b, a)],
    )
}

fn write_before_write(draw: &mut Draw) -> Change {
    let ((a, b), l) = (draw.two_registers(), draw.location());
    (vec![store(l, a), store(l, b)], vec![store(l, b)])
}

fn write_before_far_write(draw: &mut Draw) -> Change {
    let ((a, b), (l, m)) = (draw.two_registers(), draw.two_locations());
    (
        vec![store(l, a), store(m, b), store(l, b)],
        vec![store(m, b), store(l, b)],
    )
}

fn write_after_read(draw: &mut Draw) -> Change {
    let (a, l) = (draw.register(), draw.location());
    (vec![load(a, l), store(l, a)], vec![load(a, l)])
}

fn write_after_read_if_not_zero(draw: &mut Draw) -> Change {
    let (a, l) = (draw.register(), draw.location());
    let written = Code::If(a, vec![store(l, a)], vec![]);
    (vec![load(a, l), written], vec![load(a, l)])
}

fn write_after_read_if_zero(draw: &mut Draw) -> Change {
    let (a, l) = (draw.register(), draw.location());
    let written = Code::If(a, vec![], vec![store(l, a)]);
    (vec![load(a, l), written], vec![load(a, l)])
}

fn constant_folded(draw: &mut Draw) -> Change {
    let ((a, b), x) = (draw.two_registers(), draw.value());
    (
        vec![constant(a, x), copy(b, a)],
        vec![constant(a, x), constant(b, x)],
    )
}

fn copy_folded(draw: &mut Draw) -> Change {
    let (a, b) = draw.two_registers();
    (vec![copy(a, b), copy(b, a), copy(a, b)], vec![copy(a, b)])
}

fn sum_folded(draw: &mut Draw) -> Change {
    let (a, x, b) = (draw.register(), draw.value(), draw.register());
    let twice = (x + x) % draw.head.v;
    (
        vec![constant(a, x), sum(b, a, a)],
        vec![constant(a, x), constant(b, twice)],
    )
}

fn zero_added(draw: &mut Draw) -> Change {
    let ((a, b), c) = (draw.two_registers(), draw.register());
    (
        vec![constant(a, 0), sum(c, a, b)],
        vec![constant(a, 0), copy(c, b)],
    )
}

fn equal_folded(draw: &mut Draw) -> Change {
    let (a, b) = draw.two_registers();
    (vec![equal(a, b, b)], vec![constant(a, 1)])
}

fn skip_removed(draw: &mut Draw) -> Change {
    let leaf = draw.leaf();
    (vec![skip(), leaf.clone(), skip()], vec![leaf])
}

fn the_same(draw: &mut Draw) -> Change {
    alike(vec![draw.leaf()])
}

fn the_same_block(draw: &mut Draw) -> Change {
    alike(draw.body(4, 2))
}

fn blocks_alike(draw: &mut Draw) -> Change {
    let (a, leaf) = (draw.register(), draw.leaf());
    let either = Code::If(a, vec![leaf.clone()], vec![leaf.clone()]);
    (vec![either], vec![leaf])
}

fn store_before_if(draw: &mut Draw) -> Change {
    let ((a, b), l) = (draw.two_registers(), draw.location());
    let (first, second) = (draw.leaf(), draw.quiet());
    let stored = |then: &Code| vec![store(l, b), then.clone()];
    (
        vec![Code::If(a, stored(&first), stored(&second))],
        vec![store(l, b), Code::If(a, vec![first], vec![second])],
    )
}

fn declared_elsewhere(draw: &mut Draw) -> Change {
    let ((a, b), l, x) = (draw.two_registers(), draw.location(), draw.value());
    let declared = |a| vec![Code::Declare(a, x, vec![store(l, a), print(a)])];
    (declared(a), declared(b))
}

fn beside_compare_and_swap(draw: &mut Draw) -> Change {
    let ((a, b), l, x) = (draw.two_registers(), draw.location(), draw.value());
    let swapped = compare_and_swap(a, l, a, b);
    (
        vec![constant(b, x), swapped.clone(), constant(b, x)],
        vec![constant(b, x), swapped],
    )
}

fn beside_fence(draw: &mut Draw) -> Change {
    let (a, b) = draw.two_registers();
    exchanged(fence(), copy(a, b))
}

fn get_and_print(draw: &mut Draw) -> Change {
    let (a, b) = draw.two_registers();
    (
        vec![get(a), copy(b, a), print(b)],
        vec![get(b), copy(a, b), print(a)],
    )
}

fn print_of_constant(draw: &mut Draw) -> Change {
    let ((a, b), x) = (draw.two_registers(), draw.value());
    let set = [constant(a, x), constant(b, x)];
    let then = |last| [&set[..], &[last]].concat();
    (then(print(a)), then(print(b)))
}

/// Not sound where there are two locations.
fn load_of_another(draw: &mut Draw) -> Change {
    let (a, (l, m)) = (draw.register(), draw.two_locations());
    (vec![load(a, l)], vec![load(a, m)])
}

/// Not sound.
fn store_dropped(draw: &mut Draw) -> Change {
    (vec![store(draw.location(), draw.register())], vec![])
}

/// Not sound where the values differ: the words are equal, but not the end registers.
fn constant_changed(draw: &mut Draw) -> Change {
    let (a, x, y) = (draw.register(), draw.value(), draw.value());
    (vec![constant(a, x)], vec![constant(a, y)])
}

/// Sound for some registers only, but some runs are alike for all of them.
fn compare_and_swap_changed(draw: &mut Draw) -> Change {
    let (a, l, (b, c)) = (draw.register(), draw.location(), draw.two_registers());
    let mut other = [b, c];
    other[draw.random.below(2)] = draw.register();
    (
        vec![compare_and_swap(a, l, b, c)],
        vec![compare_and_swap(a, l, other[0], other[1])],
    )
}
