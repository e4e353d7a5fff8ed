//! The UTF-8 functions by `std::str::from_utf8` and `char`.

use super::{Answer, BAD_LITERAL, MOST_BYTES, NOT_UTF8, NO_ROOM, TOO_LONG};
use std::str;

/// A text, and where the characters of its longest well-formed prefix begin.
pub struct Text<'a> {
    bytes: &'a [u8],
    starts: Vec<usize>,
    end: usize,
}

impl<'a> Text<'a> {
    /// The text of these bytes.
    pub fn new(bytes: &'a [u8]) -> Self {
        let prefix = prefix(bytes);
        Text {
            bytes,
            starts: prefix.char_indices().map(|(start, _)| start).collect(),
            end: prefix.len(),
        }
    }

    /// How many characters the text has.
    pub fn validate(&self) -> Answer {
        if self.bytes.len() > MOST_BYTES {
            Answer::refused(TOO_LONG)
        } else if self.end < self.bytes.len() {
            self.not_utf8(self.end)
        } else {
            Answer::Value(self.char_number(self.end))
        }
    }

    /// How many characters of the prefix begin before byte `to`.
    pub fn char_number(&self, to: usize) -> u64 {
        self.starts.partition_point(|&start| start < to) as u64
    }

    /// The length of the character at byte `at`, and its code point where there is one.
    pub fn char_at(&self, at: usize) -> (Answer, Option<u32>) {
        let rest = self.bytes.get(at..).unwrap_or(&[]);
        if self.bytes.len() > MOST_BYTES {
            (Answer::refused(TOO_LONG), None)
        } else if rest.is_empty() {
            (Answer::Value(0), None)
        } else if let Some(c) = prefix(&rest[..rest.len().min(4)]).chars().next() {
            (Answer::Value(c.len_utf8() as u64), Some(c.into()))
        } else {
            (self.not_utf8(at), None)
        }
    }

    /// The refusal of a text in which no character begins at byte `at`.
    fn not_utf8(&self, at: usize) -> Answer {
        Answer::Refused(NOT_UTF8, at as u16, self.char_number(at) as u16)
    }
}

/// The text of these bytes, or its refusal.
pub fn admitted(bytes: &[u8]) -> Result<&str, Answer> {
    match (Text::new(bytes).validate(), str::from_utf8(bytes)) {
        (Answer::Value(_), Ok(text)) => Ok(text),
        (refused, _) => Err(refused),
    }
}

/// The text of these bytes, or its refusal, where it may have at most so many.
pub fn admitted_within(bytes: &[u8], most: usize) -> Result<&str, Answer> {
    if bytes.len() > most {
        return Err(Answer::refused(TOO_LONG));
    }
    admitted(bytes)
}

/// The longest well-formed prefix of a text.
fn prefix(bytes: &[u8]) -> &str {
    match str::from_utf8(bytes) {
        Ok(whole) => whole,
        Err(error) => prefix(&bytes[..error.valid_up_to()]),
    }
}

/// Writes the character of a code point at `at`: how many bytes it has.
pub fn encode(code: u32, out: &mut [u8], at: usize) -> Answer {
    let room = out.get_mut(at..).unwrap_or(&mut []);
    match char::from_u32(code) {
        None => Answer::refused(BAD_LITERAL),
        Some(c) if room.len() < c.len_utf8() => Answer::refused(NO_ROOM),
        Some(c) => Answer::Value(c.encode_utf8(room).len() as u64),
    }
}
