//! The Rust's answers and Go's, in the form of ours: a number, or a refusal with its place.

use std::fmt::{self, Display, Formatter};

#[cfg(feature = "promql")]
pub mod backquotes;
#[cfg(feature = "promql")]
pub mod depth;
#[cfg(feature = "promql")]
pub mod duration;
pub mod fault;
#[cfg(feature = "go")]
pub mod go;
#[cfg(feature = "promql")]
pub mod lexer;
pub mod literal;
#[cfg(feature = "promql")]
pub mod number;
#[cfg(feature = "promql")]
pub mod reason;
#[cfg(feature = "promql")]
pub mod separators;
#[cfg(feature = "promql")]
pub mod string;
#[cfg(feature = "promql")]
pub mod token;
pub mod utf8;

/// A text has at most this many bytes.
pub const MOST_BYTES: usize = 65_535;
/// A number text, or a duration text, has at most this many bytes.
pub const MOST_NUMBER_BYTES: usize = 256;

/// The number of the refusal of a text that is too long.
pub const TOO_LONG: u8 = 1;
/// The number of the refusal of a text that is not UTF-8.
pub const NOT_UTF8: u8 = 2;
/// The number of the refusal of a result that needs more room.
pub const NO_ROOM: u8 = 3;
/// The number of the refusal of a bad literal, and of a code point that is no character.
pub const BAD_LITERAL: u8 = 40;

/// What a call answers.
#[derive(Clone, Copy, Debug, PartialEq, Eq)]
pub enum Answer {
    /// Accepted, with a number.
    Value(u64),
    /// Refused with a number, at a byte offset and a character number.
    Refused(u8, u16, u16),
}

impl Answer {
    /// A refusal without a place.
    pub fn refused(number: u8) -> Self {
        Answer::Refused(number, 0, 0)
    }

    /// The answer as the one number that our C functions return.
    pub fn packed(self) -> u64 {
        match self {
            Answer::Value(value) => value,
            Answer::Refused(number, byte, character) => {
                1 << 63 | u64::from(number) << 32 | u64::from(byte) << 16 | u64::from(character)
            }
        }
    }
}

impl Display for Answer {
    fn fmt(&self, f: &mut Formatter) -> fmt::Result {
        match self {
            Answer::Value(value) => write!(f, "ok {value}"),
            Answer::Refused(number, byte, character) => {
                write!(f, "refused {number} {byte} {character}")
            }
        }
    }
}

/// Writes a text to the front: how many bytes it has.
fn write(text: &[u8], out: &mut [u8]) -> Answer {
    match out.get_mut(..text.len()) {
        None => Answer::refused(NO_ROOM),
        Some(front) => {
            front.copy_from_slice(text);
            Answer::Value(text.len() as u64)
        }
    }
}
