//! A refusal as an error: its number, its place, and its sentence.

use crate::fault::Fault;
use crate::ffi;
use crate::message::Message;
use crate::reading::Reading;
use crate::refusal::{self, BAD_LITERAL, END_IN_STRING, NEITHER_NUMBER_NOR_DURATION};
use core::fmt;

/// An answer with this bit is a refusal.
const REFUSED: u64 = 1 << 63;

/// Where a refusal's number stands in an answer, and its byte; its character number stands in the lowest bits.
const NUMBER_AT: u32 = 32;
const BYTE_AT: u32 = 16;

/// Why a call was refused: the refusal's number, and its place where it has one.
///
/// It shows itself as a sentence with the byte; of a bad literal, with what is wrong there. [`message`](Error::message) has the
/// sentence as promql-parser has it.
///
/// ```
/// let error = simmerpath::lexer("up / .x").unwrap_err();
/// assert_eq!(error.number(), simmerpath::refusal::AFTER_DOT);
/// assert_eq!((error.byte(), error.character()), (6, 6));
/// assert_eq!(error.found(), Some('x'));
/// assert_eq!(error.to_string(), "unexpected character after '.': 'x', at byte 6");
///
/// let error = simmerpath::unquote_str(r#""C:\queries""#).unwrap_err();
/// assert_eq!(error.to_string(), r"unknown escape '\q', at byte 3");
/// ```
#[derive(Clone, Copy, Debug, PartialEq, Eq, Hash)]
pub struct Error {
    number: u16,
    byte: u16,
    character: u16,
    found: Option<char>,
    fault: Option<Fault>,
    reading: Option<Reading>,
}

/// The result of a call that answered this on a text.
pub(crate) fn result(answer: u64, text: &[u8]) -> Result<u64, Error> {
    if answer & REFUSED == 0 {
        return Ok(answer);
    }
    let (number, byte) = ((answer >> NUMBER_AT) as u16, (answer >> BYTE_AT) as u16);
    let has_place = refusal::has_place(number);
    let found = has_place.then(|| char_at(text, usize::from(byte)));
    Err(Error {
        number,
        byte,
        character: answer as u16,
        found: found.flatten(),
        fault: None,
        reading: None,
    })
}

/// The result of a call that answered this on a query, in a reading. The sentences of two refusals show the query from where the
/// refused lexeme begins, which is found by the rules of the reading.
pub(crate) fn query_result(answer: u64, query: &[u8], reading: Reading) -> Result<u64, Error> {
    result(answer, query).map_err(|error| match error.number {
        NEITHER_NUMBER_NOR_DURATION | END_IN_STRING => Error {
            reading: Some(reading),
            ..error
        },
        _ => error,
    })
}

/// The result of a call that answered this on a literal: where that is bad, the refusal has a place, and something is wrong there.
pub(crate) fn literal_result(answer: u64, literal: &[u8]) -> Result<u64, Error> {
    result(answer, literal).map_err(|error| match error.number {
        BAD_LITERAL => Error {
            found: char_at(literal, error.byte()),
            fault: Some(Fault::of(literal, error.byte())),
            ..error
        },
        _ => error,
    })
}

/// The character that begins at a byte of a text.
pub(crate) fn char_at(text: &[u8], at: usize) -> Option<char> {
    let mut code = ffi::NO_CHARACTER;
    ffi::utf8_char_at(text, at, &mut code);
    char::from_u32(code)
}

impl Error {
    /// The refusal's number: one of [`refusal`].
    pub fn number(&self) -> u16 {
        self.number
    }

    /// The byte of the refusal's place; 0 where it has none.
    pub fn byte(&self) -> usize {
        usize::from(self.byte)
    }

    /// How many characters begin before the refusal's place; 0 where it has none.
    pub fn character(&self) -> usize {
        usize::from(self.character)
    }

    /// Whether the refusal has a place.
    pub fn has_place(&self) -> bool {
        self.fault.is_some() || refusal::has_place(self.number)
    }

    /// The character at the refusal's place; none where it has no place, and where no character begins there: at the end, at the
    /// last byte of a longer character, and where there is no UTF-8.
    pub fn found(&self) -> Option<char> {
        self.found
    }

    /// The reading that a query was refused in, where promql-parser's sentence rests on it.
    pub(crate) fn reading(&self) -> Reading {
        self.reading.unwrap_or_default()
    }

    /// The sentence as promql-parser has it, for the text that was refused: with no place, and with as much of the text as it
    /// shows. Where promql-parser refuses nothing or has no sentence, it is ours.
    ///
    /// ```
    /// let query = "rate(up[5m3])";
    /// let error = simmerpath::lexer(query).unwrap_err();
    /// assert_eq!(error.message(query).to_string(), "bad number or duration syntax: 5m3]");
    /// assert_eq!(error.to_string(), "bad number or duration syntax, found ']', at byte 11");
    /// ```
    pub fn message<'t>(&self, text: &'t str) -> Message<'t> {
        Message::new(*self, text)
    }

    /// Writes the sentence, with the character that it names.
    pub(crate) fn write_sentence(&self, f: &mut fmt::Formatter<'_>) -> fmt::Result {
        let sentence = refusal::sentence(self.number);
        let found = match self.found {
            Some(found) => found,
            None => return f.write_str(sentence),
        };
        if let Some((before, behind)) = sentence.split_once("{}") {
            write!(f, "{before}{found}{behind}")
        } else if let Some((before, behind)) = sentence.split_once("{:?}") {
            write!(f, "{before}{found:?}{behind}")
        } else {
            f.write_str(sentence)
        }
    }
}

impl fmt::Display for Error {
    fn fmt(&self, f: &mut fmt::Formatter<'_>) -> fmt::Result {
        match self.fault {
            Some(fault) => fault.fmt(f)?,
            None => self.write_sentence(f)?,
        }
        if self.number == NEITHER_NUMBER_NOR_DURATION {
            match self.found {
                Some(found) => write!(f, ", found '{found}'")?,
                None => write!(f, ", found the end")?,
            }
        }
        if self.has_place() {
            write!(f, ", at byte {}", self.byte)?;
        }
        Ok(())
    }
}

#[cfg(core_error)]
impl core::error::Error for Error {}

#[cfg(all(feature = "std", not(core_error)))]
impl std::error::Error for Error {}
