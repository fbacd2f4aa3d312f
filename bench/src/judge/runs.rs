//! Runs: what a snippet does from given start registers and with given
//! choices.

use super::models::{Access, Kind};
use super::pair::{Instruction, MAX_DEPTH, MAX_REGISTERS, Snippet};
use super::refusal::{Cause, Refusal};

/// What a snippet does to memory or to the outside.
#[derive(Clone, Copy, Debug, PartialEq, Eq)]
pub enum Event {
    /// Finds the value at the location.
    Load {
        location: u8,
        value: u8,
    },
    /// Leaves the value at the location.
    Store {
        location: u8,
        value: u8,
    },
    /// Finds one value at the location and leaves another, at once.
    LoadStore {
        location: u8,
        found: u8,
        left: u8,
    },
    Fence,
    /// Gets the value from outside.
    Get {
        value: u8,
    },
    /// Shows the value.
    Print {
        value: u8,
    },
}

impl Event {
    /// The event as an access, and the value that it finds or leaves. A load
    /// or a store is an access, and nothing else.
    pub fn access(self) -> Option<(Access, u8)> {
        let (kind, location, value) = match self {
            Event::Load { location, value } => (Kind::Load, location, value),
            Event::Store { location, value } => (Kind::Store, location, value),
            _ => return None,
        };
        Some((Access { kind, location }, value))
    }
}

/// The values of the registers; those that a snippet does not have are 0.
pub type Registers = [u8; MAX_REGISTERS];

/// What there is to say of a run beside its word.
#[derive(Clone, Copy, Debug, PartialEq, Eq)]
pub struct Run {
    pub start: Registers,
    pub end: Registers,
    /// How many choices were taken.
    pub taken: u8,
    /// Whether a choice that was not taken is not 0.
    pub idle: bool,
}

/// Where the events of a run go.
trait Recorder {
    fn record(&mut self, event: Event);
}

impl Recorder for Vec<Event> {
    fn record(&mut self, event: Event) {
        self.push(event);
    }
}

/// Forgets the events, for runs whose word nobody asks for.
struct Forget;

impl Recorder for Forget {
    fn record(&mut self, _: Event) {}
}

/// The digits of a run number that have not been taken yet, lowest first.
struct Digits {
    base: u32,
    rest: u32,
}

impl Digits {
    fn take(&mut self) -> u8 {
        let digit = self.rest % self.base;
        self.rest /= self.base;
        // A digit is below v, which is at most 4.
        digit as u8
    }
}

impl Snippet {
    /// Carries out the run of that number. `word` becomes the run's word; it
    /// is left alone if there is no such run.
    pub fn run(&self, number: u16, word: &mut Vec<Event>) -> Result<Run, Refusal> {
        self.check_number(number)?;
        word.clear();
        Ok(self.carry_out(number, word))
    }

    /// Whether the run of that number is idle.
    pub fn is_idle(&self, number: u16) -> Result<bool, Refusal> {
        self.check_number(number)?;
        Ok(self.carry_out(number, &mut Forget).idle)
    }

    /// The start registers of the run of that number.
    pub fn start_registers(&self, number: u16) -> Result<Registers, Refusal> {
        self.check_number(number)?;
        Ok(self.start(&mut self.digits(number)))
    }

    /// The numbers of the runs that are not idle, from the lowest up.
    pub fn runs_not_idle(&self) -> impl Iterator<Item = u16> {
        (0..self.runs()).filter(|&number| !self.carry_out(number, &mut Forget).idle)
    }

    fn check_number(&self, number: u16) -> Result<(), Refusal> {
        if number < self.runs() {
            Ok(())
        } else {
            Err(Cause::NoSuchRun.at(0))
        }
    }

    fn digits(&self, number: u16) -> Digits {
        Digits {
            base: u32::from(self.limits().values),
            rest: u32::from(number),
        }
    }

    /// The first r digits are the start registers, from register 0 up.
    fn start(&self, digits: &mut Digits) -> Registers {
        let mut registers = [0; MAX_REGISTERS];
        for register in registers
            .iter_mut()
            .take(usize::from(self.limits().registers))
        {
            *register = digits.take();
        }
        registers
    }

    /// Carries out a run that there is. The digits behind the start registers
    /// are the choices, in the order in which they are taken; the run is idle
    /// if what is left of the number at the end is not 0.
    fn carry_out(&self, number: u16, word: &mut impl Recorder) -> Run {
        let mut digits = self.digits(number);
        let start = self.start(&mut digits);
        let values = self.limits().values;
        let code = self.code();

        let mut registers = start;
        let mut kept = [0; MAX_DEPTH];
        let mut taken = 0;
        let mut at = 0;
        while let Some(&instruction) = code.get(at) {
            at += 1;
            match instruction {
                Instruction::Load { into, location } => {
                    let value = digits.take();
                    taken += 1;
                    word.record(Event::Load { location, value });
                    registers[usize::from(into)] = value;
                }
                Instruction::Store { location, from } => {
                    let value = registers[usize::from(from)];
                    word.record(Event::Store { location, value });
                }
                Instruction::Constant { into, value } => registers[usize::from(into)] = value,
                Instruction::Copy { into, from } => {
                    registers[usize::from(into)] = registers[usize::from(from)];
                }
                Instruction::Sum { into, left, right } => {
                    let sum = registers[usize::from(left)] + registers[usize::from(right)];
                    registers[usize::from(into)] = if sum < values { sum } else { sum - values };
                }
                Instruction::Equal { into, left, right } => {
                    let equal = registers[usize::from(left)] == registers[usize::from(right)];
                    registers[usize::from(into)] = u8::from(equal);
                }
                Instruction::CompareAndSwap {
                    into,
                    location,
                    expected,
                    new,
                } => {
                    let found = digits.take();
                    taken += 1;
                    let left = if found == registers[usize::from(expected)] {
                        registers[usize::from(new)]
                    } else {
                        found
                    };
                    word.record(Event::LoadStore {
                        location,
                        found,
                        left,
                    });
                    registers[usize::from(into)] = found;
                }
                Instruction::Fence => word.record(Event::Fence),
                Instruction::Get { into } => {
                    let value = digits.take();
                    taken += 1;
                    word.record(Event::Get { value });
                    registers[usize::from(into)] = value;
                }
                Instruction::Print { from } => {
                    word.record(Event::Print {
                        value: registers[usize::from(from)],
                    });
                }
                Instruction::UnlessZero { register, target } => {
                    if registers[usize::from(register)] == 0 {
                        at = usize::from(target);
                    }
                }
                Instruction::Jump { target } => at = usize::from(target),
                Instruction::Declare {
                    register,
                    value,
                    slot,
                } => {
                    let register = &mut registers[usize::from(register)];
                    kept[usize::from(slot)] = *register;
                    *register = value;
                }
                Instruction::Restore { register, slot } => {
                    registers[usize::from(register)] = kept[usize::from(slot)];
                }
            }
        }
        Run {
            start,
            end: registers,
            taken,
            idle: digits.rest != 0,
        }
    }
}
