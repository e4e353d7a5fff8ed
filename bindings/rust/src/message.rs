//! Refusals in the sentences of promql-parser, which its users know, with as much of the refused text as it shows.

use crate::begin::begin;
use crate::error::Error;
use crate::refusal::{self, END_IN_STRING, NEITHER_NUMBER_NOR_DURATION};
use crate::refusal::{NOT_A_DURATION, NOT_A_NUMBER, OUTSIDE_I64};
use core::fmt;

/// A refusal's sentence as promql-parser has it: what [`Error::message`] gives.
#[derive(Clone, Copy, Debug)]
pub struct Message<'t> {
    error: Error,
    text: &'t str,
}

impl<'t> Message<'t> {
    /// The sentence of an error, for the text that was refused.
    pub(crate) fn new(error: Error, text: &'t str) -> Self {
        Message { error, text }
    }

    /// The text from the first byte of the refused lexeme up to and with the character at the refusal's place.
    fn lexeme(&self) -> &'t str {
        let at = self.error.byte();
        let end = at + self.error.found().map_or(0, char::len_utf8);
        let start = begin(self.text.as_bytes(), at, self.error.reading());
        self.text.get(start..end).unwrap_or_default()
    }

    /// The sign that opens the string which the query ends in.
    fn sign(&self) -> &'t str {
        self.lexeme().get(..1).unwrap_or_default()
    }

    /// What the text of a number was to be read as: an integer where it has an x, or where 0 leads it and it has no mark of a
    /// decimal.
    fn number_type(&self) -> &'static str {
        let kept = || self.text.chars().filter(|c| !c.is_whitespace());
        let has = |marks: &str| kept().any(|c| marks.contains(c));
        let mut front = kept().peekable();
        front.next_if(|c| "+-".contains(*c));
        if has("xX") || (front.next() == Some('0') && !has(".89")) {
            "i64"
        } else {
            "f64"
        }
    }
}

impl fmt::Display for Message<'_> {
    fn fmt(&self, f: &mut fmt::Formatter<'_>) -> fmt::Result {
        let (number, text) = (self.error.number(), self.text);
        let sentence = refusal::sentence(number);
        match number {
            NEITHER_NUMBER_NOR_DURATION => write!(f, "{sentence}: {}", self.lexeme()),
            END_IN_STRING => write!(f, "{sentence} {}", self.sign()),
            NOT_A_DURATION => write!(f, "{sentence}: {text}"),
            NOT_A_NUMBER | OUTSIDE_I64 => {
                let read_as = self.number_type();
                write!(f, "ParseFloatError. {text} can't be parsed into {read_as}")
            }
            _ => self.error.write_sentence(f),
        }
    }
}
