//! The bytes of snippets, pair files, hand-ins and streams.

/// A statement. Leaves are kept as their bytes.
#[derive(Clone, Debug, PartialEq)]
pub enum Code {
    Leaf(Vec<u8>),
    If(u8, Vec<Code>, Vec<Code>),
    Declare(u8, u8, Vec<Code>),
}

pub fn skip() -> Code {
    Code::Leaf(vec![0])
}

pub fn load(register: u8, location: u8) -> Code {
    Code::Leaf(vec![1, register, location])
}

pub fn store(location: u8, register: u8) -> Code {
    Code::Leaf(vec![2, location, register])
}

pub fn constant(register: u8, value: u8) -> Code {
    Code::Leaf(vec![3, register, value])
}

pub fn copy(register: u8, from: u8) -> Code {
    Code::Leaf(vec![4, register, from])
}

pub fn sum(register: u8, left: u8, right: u8) -> Code {
    Code::Leaf(vec![5, register, left, right])
}

pub fn equal(register: u8, left: u8, right: u8) -> Code {
    Code::Leaf(vec![6, register, left, right])
}

pub fn compare_and_swap(register: u8, location: u8, compared: u8, new: u8) -> Code {
    Code::Leaf(vec![7, register, location, compared, new])
}

pub fn fence() -> Code {
    Code::Leaf(vec![8])
}

pub fn get(register: u8) -> Code {
    Code::Leaf(vec![9, register])
}

pub fn print(register: u8) -> Code {
    Code::Leaf(vec![10, register])
}

/// How many statements a block has, inner ones counted.
pub fn statements(block: &[Code]) -> usize {
    block
        .iter()
        .map(|code| match code {
            Code::Leaf(_) => 1,
            Code::If(_, first, second) => 1 + statements(first) + statements(second),
            Code::Declare(_, _, inner) => 1 + statements(inner),
        })
        .sum()
}

/// A block's bytes.
pub fn body(block: &[Code]) -> Vec<u8> {
    let mut bytes = Vec::new();
    for code in block {
        match code {
            Code::Leaf(leaf) => bytes.extend_from_slice(leaf),
            Code::If(register, first, second) => {
                bytes.extend_from_slice(&[11, *register]);
                bytes.extend(counted(&body(first)));
                bytes.extend(counted(&body(second)));
            }
            Code::Declare(register, value, inner) => {
                bytes.extend_from_slice(&[12, *register, *value]);
                bytes.extend(counted(&body(inner)));
            }
        }
    }
    bytes
}

/// A length in two bytes, and the bytes.
pub fn counted(bytes: &[u8]) -> Vec<u8> {
    let mut all = (bytes.len() as u16).to_be_bytes().to_vec();
    all.extend_from_slice(bytes);
    all
}

/// A file of version 1 with the given rest.
pub fn file(rest: &[u8]) -> Vec<u8> {
    let mut bytes = vec![1];
    bytes.extend(counted(rest));
    bytes
}

/// How many values, registers and locations a pair has.
#[derive(Clone, Copy, Debug)]
pub struct Head {
    pub v: u8,
    pub r: u8,
    pub l: u8,
}

/// A pair file.
pub fn pair(head: Head, original: &[Code], replacement: &[Code]) -> Vec<u8> {
    let mut rest = vec![head.v, head.r, head.l];
    rest.extend(counted(&body(original)));
    rest.extend(counted(&body(replacement)));
    file(&rest)
}

/// A step as it is written: rule, place, location, value.
pub type Step = [u8; 4];

/// A hand-in file.
pub fn hand_in(replacement: u16, original: u16, steps: &[Step]) -> Vec<u8> {
    let mut rest = replacement.to_be_bytes().to_vec();
    rest.extend(original.to_be_bytes());
    rest.extend(steps.iter().flatten());
    file(&rest)
}

/// A stream of a model byte, a pair and hand-ins.
pub fn stream(model: u8, pair: &[u8], hand_ins: &[Vec<u8>]) -> Vec<u8> {
    let mut bytes = vec![model];
    bytes.extend_from_slice(pair);
    bytes.extend(hand_ins.iter().flatten());
    bytes
}
