//! The pair file: two snippets that share their values, registers and
//! locations.

use super::file;
use super::refusal::{Cause, Refusal};

/// The most statements that a snippet may have, inner blocks counted.
pub const MAX_STATEMENTS: usize = 32;

/// The depth of the innermost blocks; a body has depth 0.
pub const MAX_DEPTH: usize = 8;

/// The most runs that a snippet may have.
pub const MAX_RUNS: u16 = 4096;

/// The most registers that a snippet may have.
pub const MAX_REGISTERS: usize = 4;

/// How many values, registers and locations there are.
#[derive(Clone, Copy, Debug, PartialEq, Eq)]
pub struct Limits {
    /// v, from 2 to 4: values are 0 to v−1.
    pub values: u8,
    /// r, from 1 to 4: registers are 0 to r−1.
    pub registers: u8,
    /// l, from 1 to 8: locations are 0 to l−1.
    pub locations: u8,
}

/// What is done at one place of a snippet.
///
/// Statements stand in the order of their bytes. A skip leaves nothing behind;
/// an if and a declare leave their ends as instructions of their own. A
/// `target` is the index of the instruction to go on with.
#[derive(Clone, Copy, Debug, PartialEq, Eq)]
pub enum Instruction {
    Load {
        into: u8,
        location: u8,
    },
    Store {
        location: u8,
        from: u8,
    },
    Constant {
        into: u8,
        value: u8,
    },
    Copy {
        into: u8,
        from: u8,
    },
    Sum {
        into: u8,
        left: u8,
        right: u8,
    },
    Equal {
        into: u8,
        left: u8,
        right: u8,
    },
    CompareAndSwap {
        into: u8,
        location: u8,
        expected: u8,
        new: u8,
    },
    Fence,
    Get {
        into: u8,
    },
    Print {
        from: u8,
    },
    /// The head of an if: goes on behind its first block if the register is 0.
    UnlessZero {
        register: u8,
        target: u8,
    },
    /// The end of an if's first block: passes over the second one.
    Jump {
        target: u8,
    },
    /// The head of a declare: keeps the register's value in `slot`.
    Declare {
        register: u8,
        value: u8,
        slot: u8,
    },
    /// The end of a declare: gives the register its former value back.
    Restore {
        register: u8,
        slot: u8,
    },
}

/// One of the two snippets of a pair, with a number of runs that keeps its
/// limit.
#[derive(Clone, Debug, PartialEq, Eq)]
pub struct Snippet {
    limits: Limits,
    statements: u8,
    choices: u8,
    runs: u16,
    code: Vec<Instruction>,
}

impl Snippet {
    /// The limits that it shares with the pair's other snippet.
    pub fn limits(&self) -> Limits {
        self.limits
    }

    /// How many statements it has, those in inner blocks counted.
    pub fn statements(&self) -> u8 {
        self.statements
    }

    /// n, how many of its statements are a load, a compare-and-swap or a get.
    pub fn choices(&self) -> u8 {
        self.choices
    }

    /// How many runs it has: v^(r+n), at most 4,096.
    pub fn runs(&self) -> u16 {
        self.runs
    }

    /// What it does, as instructions.
    pub fn code(&self) -> &[Instruction] {
        &self.code
    }
}

/// An original and the snippet that is to replace it.
#[derive(Clone, Debug, PartialEq, Eq)]
pub struct Pair {
    pub limits: Limits,
    pub original: Snippet,
    pub replacement: Snippet,
}

impl Pair {
    /// Reads a pair file from front to back; the first fault that is met is
    /// the answer, and the numbers of runs are looked at last.
    pub fn read(file: &[u8]) -> Result<Pair, Refusal> {
        file::rest(file)?;
        let mut reader = Reader {
            bytes: file,
            at: file::HEADER_LEN,
        };
        let limits = Limits {
            values: reader.limit(2, 4)?,
            registers: reader.limit(1, 4)?,
            locations: reader.limit(1, 8)?,
        };
        let original = reader.body(limits)?;
        let replacement = reader.body(limits)?;
        if reader.at < file.len() {
            return Err(Cause::Missing.at(reader.at));
        }
        Ok(Pair {
            limits,
            original: original.into_snippet()?,
            replacement: replacement.into_snippet()?,
        })
    }
}

/// The bytes of a file, and the offset up to which they have been read.
struct Reader<'a> {
    bytes: &'a [u8],
    at: usize,
}

impl Reader<'_> {
    /// Reads v, r or l.
    fn limit(&mut self, lowest: u8, highest: u8) -> Result<u8, Refusal> {
        match self.bytes.get(self.at) {
            Some(&byte) if (lowest..=highest).contains(&byte) => {
                self.at += 1;
                Ok(byte)
            }
            _ => Err(Cause::Head.at(self.at)),
        }
    }

    /// Reads a length of two bytes, and answers where the block behind it
    /// ends. Neither the length nor the block may pass `end`.
    fn block_end(&mut self, end: usize) -> Result<usize, Refusal> {
        let Some(&[high, low]) = self.bytes[..end].get(self.at..self.at + 2) else {
            return Err(Cause::Missing.at(self.at));
        };
        let begin = self.at + 2;
        let block_end = begin + usize::from(u16::from_be_bytes([high, low]));
        if block_end > end {
            return Err(Cause::Missing.at(self.at));
        }
        self.at = begin;
        Ok(block_end)
    }

    /// Reads the length of a body, and the body.
    fn body(&mut self, limits: Limits) -> Result<Body, Refusal> {
        let end = self.block_end(self.bytes.len())?;
        let mut body = Body {
            limits,
            statements: 0,
            choices: 0,
            code: Vec::with_capacity(MAX_STATEMENTS.min(end - self.at)),
        };
        body.read_block(self, end, 0)?;
        Ok(body)
    }

    /// Reads an operand, which has to stand before `end` and be below `limit`.
    fn operand(&mut self, end: usize, limit: u8) -> Result<u8, Refusal> {
        match self.bytes[..end].get(self.at) {
            None => Err(Cause::Missing.at(self.at)),
            Some(&byte) if byte >= limit => Err(Cause::Unknown.at(self.at)),
            Some(&byte) => {
                self.at += 1;
                Ok(byte)
            }
        }
    }
}

/// A body that is being read, or whose runs have not been counted yet.
struct Body {
    limits: Limits,
    statements: u8,
    choices: u8,
    code: Vec<Instruction>,
}

impl Body {
    /// Reads statements until the block's end, which is known beforehand.
    fn read_block(&mut self, reader: &mut Reader, end: usize, depth: usize) -> Result<(), Refusal> {
        while let Some(&number) = reader.bytes[..end].get(reader.at) {
            if usize::from(self.statements) == MAX_STATEMENTS {
                return Err(Cause::TooMuch.at(reader.at));
            }
            if number > 12 {
                return Err(Cause::Unknown.at(reader.at));
            }
            self.statements += 1;
            reader.at += 1;
            self.read_operands(reader, number, end, depth)?;
        }
        Ok(())
    }

    /// Reads what follows the number of a statement: its operands, each in
    /// turn, and its inner blocks.
    fn read_operands(
        &mut self,
        reader: &mut Reader,
        number: u8,
        end: usize,
        depth: usize,
    ) -> Result<(), Refusal> {
        let Limits {
            values,
            registers,
            locations,
        } = self.limits;
        let instruction = match number {
            1 => {
                self.choices += 1;
                Instruction::Load {
                    into: reader.operand(end, registers)?,
                    location: reader.operand(end, locations)?,
                }
            }
            2 => Instruction::Store {
                location: reader.operand(end, locations)?,
                from: reader.operand(end, registers)?,
            },
            3 => Instruction::Constant {
                into: reader.operand(end, registers)?,
                value: reader.operand(end, values)?,
            },
            4 => Instruction::Copy {
                into: reader.operand(end, registers)?,
                from: reader.operand(end, registers)?,
            },
            5 => Instruction::Sum {
                into: reader.operand(end, registers)?,
                left: reader.operand(end, registers)?,
                right: reader.operand(end, registers)?,
            },
            6 => Instruction::Equal {
                into: reader.operand(end, registers)?,
                left: reader.operand(end, registers)?,
                right: reader.operand(end, registers)?,
            },
            7 => {
                self.choices += 1;
                Instruction::CompareAndSwap {
                    into: reader.operand(end, registers)?,
                    location: reader.operand(end, locations)?,
                    expected: reader.operand(end, registers)?,
                    new: reader.operand(end, registers)?,
                }
            }
            8 => Instruction::Fence,
            9 => {
                self.choices += 1;
                Instruction::Get {
                    into: reader.operand(end, registers)?,
                }
            }
            10 => Instruction::Print {
                from: reader.operand(end, registers)?,
            },
            11 => {
                let register = reader.operand(end, registers)?;
                return self.read_if(reader, register, end, depth);
            }
            12 => {
                let register = reader.operand(end, registers)?;
                let value = reader.operand(end, values)?;
                // A declare stands at depth 0 to 7, so that its depth names a
                // slot that no declare around it uses.
                let slot = depth as u8;
                self.code.push(Instruction::Declare {
                    register,
                    value,
                    slot,
                });
                self.read_inner_block(reader, end, depth)?;
                Instruction::Restore { register, slot }
            }
            _ => return Ok(()),
        };
        self.code.push(instruction);
        Ok(())
    }

    /// Reads the two blocks of an if; the first is read whole before the
    /// second length is looked at.
    fn read_if(
        &mut self,
        reader: &mut Reader,
        register: u8,
        end: usize,
        depth: usize,
    ) -> Result<(), Refusal> {
        let head = self.code.len();
        self.code.push(Instruction::UnlessZero {
            register,
            target: 0,
        });
        self.read_inner_block(reader, end, depth)?;
        let jump = self.code.len();
        self.code.push(Instruction::Jump { target: 0 });
        let second = self.code.len();
        self.read_inner_block(reader, end, depth)?;
        let behind = self.code.len();
        if behind == second {
            // The second block does nothing: there is nothing to pass over.
            self.code.pop();
            self.code[head] = Instruction::UnlessZero {
                register,
                target: target(jump),
            };
        } else {
            self.code[head] = Instruction::UnlessZero {
                register,
                target: target(second),
            };
            self.code[jump] = Instruction::Jump {
                target: target(behind),
            };
        }
        Ok(())
    }

    /// Reads the length of an inner block, and the block. That the length is
    /// missing or too long comes before that the block is too deep.
    fn read_inner_block(
        &mut self,
        reader: &mut Reader,
        end: usize,
        depth: usize,
    ) -> Result<(), Refusal> {
        let place = reader.at;
        let inner_end = reader.block_end(end)?;
        if depth == MAX_DEPTH {
            return Err(Cause::TooMuch.at(place));
        }
        self.read_block(reader, inner_end, depth + 1)
    }

    /// Counts the runs.
    fn into_snippet(self) -> Result<Snippet, Refusal> {
        let digits = u32::from(self.limits.registers) + u32::from(self.choices);
        match u16::from(self.limits.values).checked_pow(digits) {
            Some(runs) if runs <= MAX_RUNS => Ok(Snippet {
                limits: self.limits,
                statements: self.statements,
                choices: self.choices,
                runs,
                code: self.code,
            }),
            _ => Err(Cause::TooManyRuns.at(0)),
        }
    }
}

/// The index of an instruction as it is kept in one. Each statement leaves at
/// most two instructions, so that there are at most 64.
fn target(index: usize) -> u8 {
    index as u8
}
