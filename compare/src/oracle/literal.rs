//! String literals: what a reading makes of one, and the refusals of document 01 around it, with the place that document 02 has
//! for a bad one.

use super::utf8::admitted;
use super::{fault, write, Answer, BAD_LITERAL, NO_ROOM};

/// Added to the length of a text that is handed back as the part of the literal behind its first sign.
pub const INNER: u64 = 1 << 32;

/// A literal, and the text that it stands for, or its refusal.
pub struct Literal<'a> {
    bytes: &'a [u8],
    text: Result<Vec<u8>, Answer>,
}

impl<'a> Literal<'a> {
    /// The literal of these bytes. A reading tells what it stands for, none for a bad one, where it is UTF-8 within the limit.
    pub fn new(bytes: &'a [u8], read: impl FnOnce(&str) -> Option<Vec<u8>>) -> Self {
        let text = admitted(bytes).and_then(|literal| judged(literal, read(literal)));
        Literal { bytes, text }
    }

    /// The literal of these bytes, which must stand for a text where it is UTF-8 within the limit.
    pub fn of_text(bytes: &'a [u8], text: &[u8]) -> Self {
        let text = admitted(bytes).map(|_| text.to_vec());
        Literal { bytes, text }
    }

    /// How many bytes the text has; none where there is no text.
    pub fn needed(&self) -> usize {
        self.text.as_ref().map_or(0, Vec::len)
    }

    /// The text, or the refusal, where there is so much room.
    pub fn text(&self, room: u64) -> Result<&[u8], Answer> {
        match &self.text {
            Ok(text) if self.has_escape() && text.len() as u64 > room => {
                Err(Answer::refused(NO_ROOM))
            }
            Ok(text) => Ok(text),
            Err(refused) => Err(*refused),
        }
    }

    /// Hands the text back: how many bytes it has, and whether it is a part of the literal. Else it is written to the front.
    pub fn hand_back(&self, out: &mut [u8]) -> Answer {
        match self.text(out.len() as u64) {
            Ok(text) if self.has_escape() => write(text, out),
            Ok(text) => Answer::Value(INNER + text.len() as u64),
            Err(refused) => refused,
        }
    }

    /// Whether the text is a part of the literal.
    pub fn is_part(&self) -> bool {
        !self.has_escape()
    }

    /// Whether the literal has an escape: a backslash, and not between backquotes.
    fn has_escape(&self) -> bool {
        self.bytes.contains(&b'\\') && self.bytes[0] != b'`'
    }
}

/// The text that a reading has for a literal, or the refusal of a bad one. It must have none just where something is wrong.
fn judged(literal: &str, text: Option<Vec<u8>>) -> Result<Vec<u8>, Answer> {
    match (text, fault::place(literal)) {
        (Some(text), None) => Ok(text),
        (None, Some((byte, character))) => Err(Answer::Refused(BAD_LITERAL, byte, character)),
        (text, place) => panic!("{literal:?} is read as {text:?}, and goes wrong at {place:?}"),
    }
}
