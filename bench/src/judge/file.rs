//! What every file begins with: a version and the length of the rest.

use super::refusal::{Cause, Refusal};

/// The version byte of every file.
pub const VERSION: u8 = 1;

/// How many bytes stand before the rest of a file.
pub const HEADER_LEN: usize = 3;

/// Checks the version and the length of a file, and answers its rest.
pub fn rest(file: &[u8]) -> Result<&[u8], Refusal> {
    let [version, high, low, rest @ ..] = file else {
        return Err(Cause::Short.at(0));
    };
    if *version != VERSION {
        return Err(Cause::Version.at(0));
    }
    if usize::from(u16::from_be_bytes([*high, *low])) != rest.len() {
        return Err(Cause::Length.at(1));
    }
    Ok(rest)
}

/// Cuts the first file off `bytes` by its own length alone, and answers it
/// and what is left behind it. A file that is cut short is all of `bytes`.
pub fn cut(bytes: &[u8]) -> (&[u8], &[u8]) {
    let len = match bytes {
        [_, high, low, ..] => HEADER_LEN + usize::from(u16::from_be_bytes([*high, *low])),
        _ => bytes.len(),
    };
    bytes.split_at(len.min(bytes.len()))
}
