//! The token layer by the Rust's token.rs and lex.rs. We must answer as it does, but for these known differences:
//!
//! - A kind that has no number in document 01 shows `unknown token`. The Rust has other texts for some: for the names that
//!   bound its classes, and for tokens that are left out here.
//! - A word is known by its ASCII letters in any case. The Rust lowers all letters, and so takes the KELVIN SIGN for `k`. No
//!   other character that is not ASCII has ASCII alone for its lower case. The lexer hands over no such word.

use super::{write, Answer};
use std::str;

/// The number that stands for no kind.
const NO_KIND: u64 = 65_536;

/// The character whose lower case is `k`, beside `K`.
const KELVIN_SIGN: char = '\u{212a}';

/// The words of the table: those that a kind shows, then the special numbers.
pub fn words() -> Vec<&'static str> {
    let kinds = (0..=u16::MAX).filter(|&kind| promql::keyword(promql::display(kind)) == Some(kind));
    kinds.map(promql::display).chain(["inf", "nan"]).collect()
}

/// The kind of a word.
pub fn keyword(word: &[u8]) -> Option<u16> {
    let word = str::from_utf8(word).ok()?;
    let kind = promql::keyword(&word.to_lowercase())?;
    (!word.contains(KELVIN_SIGN)).then_some(kind)
}

/// Whether the Rust knows a word that we must not know.
pub fn is_word_of_rust(word: &[u8]) -> bool {
    let lowered = str::from_utf8(word).map(str::to_lowercase);
    lowered.map_or(false, |lowered| promql::keyword(&lowered) != keyword(word))
}

/// The kind of a word as a number.
pub fn keyword_number(word: &[u8]) -> Answer {
    Answer::Value(keyword(word).map_or(NO_KIND, u64::from))
}

/// The display text of a kind.
pub fn display(kind: u16) -> &'static str {
    match kind {
        19 | 39 | 54 | 1000.. => "unknown token",
        _ => promql::display(kind),
    }
}

/// Whether the Rust has another text for a kind.
pub fn is_kind_of_rust(kind: u16) -> bool {
    promql::display(kind) != display(kind)
}

/// Writes the display text of a kind to the front: how many bytes it has.
pub fn write_display(kind: u16, out: &mut [u8]) -> Answer {
    write(display(kind).as_bytes(), out)
}

/// Whether a kind is an operator, a comparison, a set operator, an aggregator, an aggregator with a parameter.
pub fn classes(kind: u16) -> [bool; 5] {
    promql::classes(kind)
}

/// The classes of a kind as a number: a bit for each, the lowest first.
pub fn classes_number(kind: u16) -> Answer {
    let bits = classes(kind).map(u64::from);
    Answer::Value(bits.iter().rev().fold(0, |number, bit| number * 2 + bit))
}

/// Whether a text is a label, as 1 or 0.
pub fn label_number(text: &[u8]) -> Answer {
    Answer::Value(str::from_utf8(text).map_or(0, |text| promql::is_label(text).into()))
}
