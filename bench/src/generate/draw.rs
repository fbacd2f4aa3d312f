//! Random heads, statements and blocks.

use crate::assemble::{self, Code, Head};
use crate::judge::pair::{MAX_DEPTH, MAX_RUNS};
use crate::random::Random;

/// A head within its limits.
pub fn head(random: &mut Random) -> Head {
    Head {
        v: *random.pick(&[2, 2, 2, 3, 3, 4]),
        r: 1 + random.byte(4),
        l: 1 + random.byte(8),
    }
}

/// How many statements that take a choice a snippet may have with at most 4,096 runs.
pub fn most_choices(head: Head) -> usize {
    let mut choices = 0;
    while u32::from(head.v).pow(u32::from(head.r) + choices + 1) <= u32::from(MAX_RUNS) {
        choices += 1;
    }
    choices as usize
}

/// Puts the things into a random order.
pub fn shuffle<T>(random: &mut Random, things: &mut [T]) {
    for last in (1..things.len()).rev() {
        things.swap(last, random.below(last + 1));
    }
}

/// Draws statements within the limits of a head.
pub struct Draw<'a> {
    pub random: &'a mut Random,
    pub head: Head,
}

impl Draw<'_> {
    pub fn register(&mut self) -> u8 {
        self.random.byte(self.head.r)
    }

    pub fn location(&mut self) -> u8 {
        self.random.byte(self.head.l)
    }

    pub fn value(&mut self) -> u8 {
        self.random.byte(self.head.v)
    }

    /// Two registers, different ones if there are two.
    pub fn two_registers(&mut self) -> (u8, u8) {
        two_below(self.random, self.head.r)
    }

    /// Two locations, different ones if there are two.
    pub fn two_locations(&mut self) -> (u8, u8) {
        two_below(self.random, self.head.l)
    }

    /// A statement that takes a choice.
    pub fn choosing(&mut self) -> Code {
        let (a, b, c) = (self.register(), self.register(), self.register());
        match self.random.below(4) {
            0 => assemble::compare_and_swap(a, self.location(), b, c),
            1 => assemble::get(a),
            _ => assemble::load(a, self.location()),
        }
    }

    /// A statement that takes no choice and holds no blocks.
    pub fn quiet(&mut self) -> Code {
        let (a, b, c) = (self.register(), self.register(), self.register());
        match self.random.below(10) {
            0 => assemble::skip(),
            1 => assemble::constant(a, self.value()),
            2 => assemble::copy(a, b),
            3 => assemble::sum(a, b, c),
            4 => assemble::equal(a, b, c),
            5 => assemble::fence(),
            6 => assemble::print(a),
            _ => assemble::store(self.location(), a),
        }
    }

    /// A statement that holds no blocks.
    pub fn leaf(&mut self) -> Code {
        if self.random.once_in(3) {
            self.choosing()
        } else {
            self.quiet()
        }
    }

    /// A few statements that hold no blocks.
    pub fn leaves(&mut self, most: usize) -> Vec<Code> {
        (0..self.random.below(most + 1))
            .map(|_| self.leaf())
            .collect()
    }

    /// A body with exactly that many statements, inner ones counted, of which at most `choices` take
    /// a choice.
    pub fn body(&mut self, statements: usize, mut choices: usize) -> Vec<Code> {
        self.block(statements, &mut choices, 0)
    }

    fn block(&mut self, statements: usize, choices: &mut usize, depth: usize) -> Vec<Code> {
        let mut block = Vec::new();
        let mut left = statements;
        while left > 0 {
            left -= 1;
            if depth < MAX_DEPTH && self.random.once_in(4) {
                let inner = self.random.below(left + 1);
                left -= inner;
                block.push(self.holder(inner, choices, depth));
            } else if *choices > 0 && self.random.once_in(3) {
                *choices -= 1;
                block.push(self.choosing());
            } else {
                block.push(self.quiet());
            }
        }
        block
    }

    /// An if or a declare that holds that many statements.
    fn holder(&mut self, inner: usize, choices: &mut usize, depth: usize) -> Code {
        let register = self.register();
        if self.random.once_in(2) {
            let value = self.value();
            return Code::Declare(register, value, self.block(inner, choices, depth + 1));
        }
        let first = self.random.below(inner + 1);
        Code::If(
            register,
            self.block(first, choices, depth + 1),
            self.block(inner - first, choices, depth + 1),
        )
    }

    /// The block inside that many ifs and declares.
    pub fn nested(&mut self, depth: usize, innermost: Vec<Code>) -> Vec<Code> {
        (0..depth).fold(innermost, |inner, _| {
            let register = self.register();
            vec![match self.random.below(3) {
                0 => Code::If(register, inner, vec![]),
                1 => Code::If(register, vec![], inner),
                _ => Code::Declare(register, self.value(), inner),
            }]
        })
    }
}

/// Two bytes below the given one, different ones if there are two.
fn two_below(random: &mut Random, n: u8) -> (u8, u8) {
    let first = random.byte(n);
    let second = (first + 1 + random.byte((n - 1).max(1))) % n;
    (first, second)
}
