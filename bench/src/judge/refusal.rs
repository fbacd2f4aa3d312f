//! Why a file is declined, and where.

/// The causes for which a file or a stream is declined, with their numbers.
///
/// Number 17 is missing: it answers a caller that lends too little room, and
/// here nobody lends any.
#[derive(Clone, Copy, Debug, PartialEq, Eq)]
#[repr(u8)]
pub enum Cause {
    /// The file has fewer than three bytes.
    Short = 1,
    /// The version byte is not 1.
    Version = 2,
    /// The length differs from the number of bytes that follow it.
    Length = 3,
    /// v, r or l is missing or out of its limits.
    Head = 4,
    /// An operand or a length is missing, a length passes the end of what
    /// holds it, or a byte is left over.
    Missing = 5,
    /// A statement's number is above 12, or an operand not below its limit.
    Unknown = 6,
    /// A 33rd statement, or the length of a block of depth 9.
    TooMuch = 7,
    /// A snippet has more than 4,096 runs.
    TooManyRuns = 8,
    /// The rest of a hand-in is not 4 + 4s bytes, s from 0 to 64.
    HandInLength = 9,
    /// A run number is not below the number of the snippet's runs.
    NoSuchRun = 10,
    /// A run of a hand-in is idle.
    IdleRun = 11,
    /// The two runs of a hand-in have different start registers.
    StartRegisters = 12,
    /// A step does not fit.
    Misfit = 13,
    /// A step fits, and the model says no.
    Forbidden = 14,
    /// The word would have 49 events.
    Overlong = 15,
    /// The word or the end registers differ after the last step.
    Ending = 16,
    /// The stream is empty or too long, or its model byte is not 1 to 5.
    Stream = 18,
}

impl Cause {
    /// The number that is printed for the cause.
    pub const fn number(self) -> u8 {
        self as u8
    }

    /// The refusal for this cause at `place`.
    pub const fn at(self, place: usize) -> Refusal {
        Refusal { cause: self, place }
    }
}

/// A cause, and the offset or the step at which it was met.
#[derive(Clone, Copy, Debug, PartialEq, Eq)]
pub struct Refusal {
    pub cause: Cause,
    pub place: usize,
}
