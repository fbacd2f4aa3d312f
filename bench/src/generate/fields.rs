//! Where the fields of a pair file stand.

use crate::assemble::Head;

/// What stands in a pair file behind its head.
#[derive(Clone, Copy, Debug, PartialEq)]
pub enum Field {
    /// The number of a statement.
    Number,
    /// An operand, which has to be below its limit.
    Operand(u8),
    /// The first byte of a block's length.
    Length,
}

/// Finds the fields of a pair file that is accepted, each with its offset.
pub fn fields(head: Head, file: &[u8]) -> Vec<(usize, Field)> {
    let mut finder = Finder {
        head,
        file,
        at: 6,
        found: Vec::new(),
    };
    finder.block();
    finder.block();
    finder.found
}

struct Finder<'a> {
    head: Head,
    file: &'a [u8],
    at: usize,
    found: Vec<(usize, Field)>,
}

impl Finder<'_> {
    fn block(&mut self) {
        let length = u16::from_be_bytes([self.file[self.at], self.file[self.at + 1]]);
        self.pass(Field::Length, 2);
        let end = self.at + usize::from(length);
        while self.at < end {
            self.statement();
        }
    }

    fn statement(&mut self) {
        let Head { v, r, l } = self.head;
        let number = self.file[self.at];
        let operands: &[u8] = match number {
            0 | 8 => &[],
            1 => &[r, l],
            2 => &[l, r],
            3 | 12 => &[r, v],
            4 => &[r, r],
            5 | 6 => &[r, r, r],
            7 => &[r, l, r, r],
            _ => &[r],
        };
        self.pass(Field::Number, 1);
        for &limit in operands {
            self.pass(Field::Operand(limit), 1);
        }
        let blocks = match number {
            11 => 2,
            12 => 1,
            _ => 0,
        };
        for _ in 0..blocks {
            self.block();
        }
    }

    fn pass(&mut self, field: Field, bytes: usize) {
        self.found.push((self.at, field));
        self.at += bytes;
    }
}
