//! The documented reading of number texts, by Go's `strconv.ParseInt`, in the base of the prefix, and `strconv.ParseFloat`: both
//! take separators as Go's literals have them. Document 01 says which of the two is to be asked, and that white space is
//! dropped before. Not all that it has is Go's:
//!
//! - A sign behind the prefix of hex or octal is its own, and Go has none there. A sign may stand before `nan`, and in Go none.
//! - Go has the prefixes `0b` and `0o`.
//! - Go says that an integer is too great at the digit that makes it so, and looks at nothing behind that.
//! - The least integer, negated, is outside 64 bits: what the minus stands before is. In Go it is a part of the number.
//! - A decimal outside the exact range is refused. Go rounds it.
//!
//! Nothing is said of a text of the first four.

use super::super::number::{bare, is_exact, notation, Notation, Number, NAN};
use super::super::number::{NOT_A_NUMBER, NOT_EXACT};
use super::super::utf8::admitted_within;
use super::super::{Answer, MOST_NUMBER_BYTES};
use super::PROGRAM;

/// The bits of the least integer.
const LEAST: u64 = 0xc3e0_0000_0000_0000;

/// What a function of Go's makes of a text.
#[derive(Clone, Copy)]
enum Said {
    Bits(u64),
    TooGreat,
    Bad,
}

/// A number text, and what Go makes of it without white space: as an integer, and as a decimal.
#[derive(Clone)]
pub struct Asked {
    pub bytes: Vec<u8>,
    integer: Said,
    decimal: Said,
}

impl Asked {
    /// The number of the text, or its refusal; none where Go has other numbers.
    pub fn number(&self) -> Option<Result<Number, Answer>> {
        let text = match admitted_within(&self.bytes, MOST_NUMBER_BYTES) {
            Ok(text) => text,
            Err(refused) => return Some(Err(refused)),
        };
        let bare = bare(text);
        let plain = bare.replace('_', "");
        let (notation, digits) = notation(&plain).unwrap_or((Notation::Hex, ""));
        let read = match notation {
            Notation::Decimal => self.decimal(&bare, &plain)?,
            Notation::Hex | Notation::Octal => self.integer(&plain, digits)?,
        };
        let number = read.map(|bits| Number { notation, bits });
        Some(number.map_err(Answer::refused))
    }

    /// Whether Go is known to answer otherwise than we must.
    pub fn is_known(&self) -> bool {
        let refused = Err(Answer::refused(NOT_EXACT));
        self.number().map_or(true, |number| number == refused)
    }

    /// The bits of a decimal, or the number of its refusal.
    fn decimal(&self, bare: &str, plain: &str) -> Option<Result<u64, u8>> {
        match self.decimal {
            Said::Bad if matches!(bare, "+nan" | "-nan") => None,
            Said::Bad => Some(Err(NOT_A_NUMBER)),
            Said::Bits(bits) if is_exact(plain) => {
                let is_nan = f64::from_bits(bits).is_nan();
                Some(Ok(if is_nan { NAN } else { bits }))
            }
            Said::Bits(_) | Said::TooGreat => Some(Err(NOT_EXACT)),
        }
    }

    /// The same of hex or octal, with these digits behind the prefix.
    fn integer(&self, plain: &str, digits: &str) -> Option<Result<u64, u8>> {
        match self.integer {
            _ if digits.starts_with(&['+', '-', 'b', 'o'][..]) => None,
            Said::TooGreat => None,
            Said::Bits(LEAST) if plain.starts_with('-') => None,
            Said::Bits(bits) => Some(Ok(bits)),
            Said::Bad => Some(Err(NOT_A_NUMBER)),
        }
    }
}

/// The texts, with what Go says of each.
pub fn asked(texts: impl Iterator<Item = Vec<u8>>) -> impl Iterator<Item = Asked> {
    super::asked("numbers", texts, said).map(|(bytes, [integer, decimal])| Asked {
        bytes,
        integer,
        decimal,
    })
}

/// What a line of the program means.
fn said(line: &str) -> [Said; 2] {
    let mut words = line.split(' ').map(|word| match word {
        "bad" => Said::Bad,
        "range" => Said::TooGreat,
        _ => {
            let bits = u64::from_str_radix(word, 16);
            Said::Bits(bits.unwrap_or_else(|_| panic!("{PROGRAM} says {line}")))
        }
    });
    let mut next = || words.next().expect("the program says two words");
    [next(), next()]
}
