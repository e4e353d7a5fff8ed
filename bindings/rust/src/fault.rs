//! What is wrong with a bad literal. The C function answers where it goes wrong, and the literal shows what stands there. Nothing
//! but the sentence of an error rests on what stands here.

use crate::error::char_at;
use core::fmt;

/// The signs that a literal may stand between.
const SIGNS: &[u8] = b"\"'`";

/// What is wrong with a literal at the place of its refusal.
#[derive(Clone, Copy, Debug, PartialEq, Eq, Hash)]
pub(crate) enum Fault {
    /// No sign at its front.
    NotQuoted,
    /// A sign at its front, and no second at its end.
    Unclosed,
    /// Another sign at its end than at its front.
    OtherQuote,
    /// A line feed, and no backquotes around it.
    Newline,
    /// Its own sign, bare inside it.
    BareQuote(char),
    /// A backslash that only the closing sign follows.
    EndInEscape,
    /// A backslash before a character that begins no escape: that character.
    UnknownEscape(char),
    /// An escape with too few digits or too great a number: the character behind its backslash.
    WrongDigits(char),
}

impl Fault {
    /// What is wrong with a literal that is refused at a byte.
    pub(crate) fn of(literal: &[u8], at: usize) -> Self {
        let is_sign = |byte| SIGNS.contains(byte);
        match literal {
            [open @ .., sign] if is_sign(sign) && open.first() == Some(sign) => {
                Fault::inside(*sign, open, at)
            }
            [first, .., last] if is_sign(first) && is_sign(last) => Fault::OtherQuote,
            [first, ..] if is_sign(first) => Fault::Unclosed,
            _ => Fault::NotQuoted,
        }
    }

    /// What is wrong at a byte of a literal that stands between two of a sign, given without the second.
    fn inside(sign: u8, open: &[u8], at: usize) -> Self {
        match open.get(at) {
            Some(b'\n') => Fault::Newline,
            Some(b'\\') => Fault::escape(char_at(open, at + 1)),
            _ => Fault::BareQuote(sign.into()),
        }
    }

    /// What is wrong with an escape, by the character behind its backslash.
    fn escape(behind: Option<char>) -> Self {
        match behind {
            Some(c @ ('x' | 'u' | 'U' | '0'..='7')) => Fault::WrongDigits(c),
            Some(c) => Fault::UnknownEscape(c),
            None => Fault::EndInEscape,
        }
    }
}

impl fmt::Display for Fault {
    fn fmt(&self, f: &mut fmt::Formatter<'_>) -> fmt::Result {
        match self {
            Fault::NotQuoted => f.write_str("not between quotes"),
            Fault::Unclosed => f.write_str("the closing quote is missing"),
            Fault::OtherQuote => f.write_str("the closing quote differs from the opening one"),
            Fault::Newline => f.write_str("newline in a quoted literal"),
            Fault::BareQuote(sign) => write!(f, "unexpected quote {sign} inside the literal"),
            Fault::EndInEscape => f.write_str("escape sequence not terminated"),
            Fault::UnknownEscape(c) => write!(f, "unknown escape '\\{c}'"),
            Fault::WrongDigits(c) => write!(f, "wrong digits in escape '\\{c}'"),
        }
    }
}
