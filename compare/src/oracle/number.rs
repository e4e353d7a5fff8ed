//! Number texts by the Rust's number.rs, and what document 01 has beside it: the limit, the notation, which refusal a bad text
//! has. Every value is the Rust's; a NaN has no sign here. We must answer as it does, but for these known differences:
//!
//! - A decimal outside the exact range is refused. The Rust rounds it.
//! - A text with an `x` that does not begin with a 0, behind an optional sign, is not a number text. The Rust panics.
//! - The least integer, negated, is outside 64 bits. The Rust overflows: it panics, or, as it is built, gives -2^63.

use super::utf8::admitted_within;
use super::{Answer, MOST_NUMBER_BYTES};

/// The number of the refusal of a decimal outside the exact range.
pub(super) const NOT_EXACT: u8 = 53;
/// The number of the refusal of what is not a number text.
pub(super) const NOT_A_NUMBER: u8 = 60;
/// The number of the refusal of hex or octal outside a signed 64-bit integer.
const TOO_GREAT: u8 = 61;

/// The bits of every NaN.
pub(super) const NAN: u64 = 0x7ff8_0000_0000_0000;

/// The greatest w, and the least and the greatest E, of an exact value, w times 10^E.
const MOST_EXACT: u64 = 1 << 53;
const EXACT_SCALES: [i128; 2] = [-22, 22];

/// How a number is written, by the number that our C function answers with.
#[derive(Clone, Copy, Debug, PartialEq, Eq)]
pub enum Notation {
    Decimal = 0,
    Hex = 1,
    Octal = 2,
}

/// A number, by the bits of its `f64`.
#[derive(Debug, PartialEq)]
pub struct Number {
    pub notation: Notation,
    pub bits: u64,
}

/// The number of a text, or its refusal.
pub fn number(bytes: &[u8]) -> Result<Number, Answer> {
    let text = admitted_within(bytes, MOST_NUMBER_BYTES)?;
    let read = promql::number(text);
    let bare = bare(text);
    let refused = |number| Err(Answer::refused(number));
    let (notation, digits) = match notation(&bare) {
        Some(written) => written,
        None => {
            assert_eq!(read, None, "the Rust reads {text:?}");
            return refused(NOT_A_NUMBER);
        }
    };
    let integer = notation != Notation::Decimal;
    assert_eq!(integer, is_integer_of_rust(&bare), "{text:?}");
    match read {
        Some(Err(_)) => refused(refusal(notation, digits)),
        Some(Ok(value)) if integer && negates_least(&bare, Some(value)) => refused(TOO_GREAT),
        Some(Ok(_)) if !integer && !is_exact(&bare) => refused(NOT_EXACT),
        Some(Ok(value)) => Ok(Number {
            notation,
            bits: if value.is_nan() { NAN } else { value.to_bits() },
        }),
        None => {
            assert!(negates_least(&bare, None), "the Rust panics on {text:?}");
            refused(TOO_GREAT)
        }
    }
}

/// Whether the Rust panics on a text, or has a value for one that we must refuse.
pub fn is_known(bytes: &[u8]) -> bool {
    let read = admitted_within(bytes, MOST_NUMBER_BYTES).map(promql::number);
    match read {
        Ok(None) => true,
        Ok(Some(Ok(_))) => number(bytes).is_err(),
        Ok(Some(Err(_))) | Err(_) => false,
    }
}

/// A text without white space, in lower case.
pub(super) fn bare(text: &str) -> String {
    let dark = text.chars().filter(|c| !c.is_whitespace());
    dark.collect::<String>().to_ascii_lowercase()
}

/// How a text is written by document 01, and its digits with the sign of their own; none for an `x` without a leading 0.
pub(super) fn notation(bare: &str) -> Option<(Notation, &str)> {
    let unsigned = bare.strip_prefix(&['+', '-'][..]).unwrap_or(bare);
    let leading = unsigned.starts_with('0') && unsigned != "0";
    if !bare.contains('x') && (!leading || bare.contains(&['.', '8', '9'][..])) {
        return Some((Notation::Decimal, bare));
    }
    match unsigned.strip_prefix("0x") {
        Some(digits) => Some((Notation::Hex, digits)),
        None => Some((Notation::Octal, unsigned.strip_prefix('0')?)),
    }
}

/// Whether the Rust reads a text as hex or octal: with a letter behind it that is no digit, it says what it could not read.
fn is_integer_of_rust(bare: &str) -> bool {
    let said = promql::number(&format!("{bare}z"));
    let integer = matches!(said, Some(Err(said)) if said.ends_with("i64"));
    integer && !matches!(bare, "0" | "+0" | "-0")
}

/// The refusal of a text that the Rust has no value for: digits that it does not take are too many.
fn refusal(notation: Notation, digits: &str) -> u8 {
    let radix = match notation {
        Notation::Decimal => return NOT_A_NUMBER,
        Notation::Hex => 16,
        Notation::Octal => 8,
    };
    let unsigned = digits.strip_prefix(&['+', '-'][..]).unwrap_or(digits);
    if !unsigned.is_empty() && unsigned.chars().all(|c| c.is_digit(radix)) {
        TOO_GREAT
    } else {
        NOT_A_NUMBER
    }
}

/// Whether the Rust, which found this value in hex or octal, or panicked, has negated the least integer: it reads -2^63 without
/// the minus, and not 2^63 with it.
fn negates_least(bare: &str, value: Option<f64>) -> bool {
    let least = i64::MIN as f64;
    let positive = bare.strip_prefix('-').and_then(promql::number);
    positive == Some(Ok(least)) && value != Some(-least)
}

/// Whether a decimal that the Rust has a value for is infinity or NaN by name, zero, or an exact value.
pub(super) fn is_exact(decimal: &str) -> bool {
    let named = decimal.contains('n');
    let (mantissa, exponent) = decimal.split_once('e').unwrap_or((decimal, "0"));
    let (whole, part) = mantissa.split_once('.').unwrap_or((mantissa, ""));
    let digits = [whole, part].concat();
    let digits = digits.trim_start_matches(&['+', '-', '0'][..]);
    let least = digits.trim_end_matches('0');
    let shift = (digits.len() - least.len()) as i128 - part.len() as i128;
    let [first, last] = EXACT_SCALES;
    let in_scale = |exponent: i64| (first..=last).contains(&(i128::from(exponent) + shift));
    let is_small = |value: u64| value <= MOST_EXACT;
    named
        || least.is_empty()
        || exponent.parse().map_or(false, in_scale) && least.parse().map_or(false, is_small)
}
