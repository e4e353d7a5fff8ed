//! Strings by the Rust's string.rs, and the refusals of document 01, which it has not. We must answer as it does, but for one
//! known difference: where a backslash that begins an escape stands before a character that is not ASCII, the literal is
//! bad. The Rust panics there.

use super::literal::Literal;
use super::utf8::admitted;
use super::{write, Answer};
use promql::Unquoted;

/// A text of any length, escaped.
pub fn escape(text: &str) -> String {
    promql::escape(text)
}

/// A text, escaped, or its refusal.
pub fn escaped(text: &[u8]) -> Result<String, Answer> {
    admitted(text).map(escape)
}

/// Writes a text, escaped, to the front: how many bytes that has.
pub fn write_escaped(text: &[u8], out: &mut [u8]) -> Answer {
    match escaped(text) {
        Ok(escaped) => write(escaped.as_bytes(), out),
        Err(refused) => refused,
    }
}

/// A literal in the crate reading.
pub fn literal(bytes: &[u8]) -> Literal<'_> {
    Literal::new(bytes, |literal| match promql::unquote(literal) {
        Unquoted::Text(text) => Some(text.into_bytes()),
        Unquoted::Bad => None,
        Unquoted::Panicked => {
            assert!(may_panic(literal), "the Rust panics on {literal:?}");
            None
        }
    })
}

/// Whether the Rust panics on a literal that we must refuse.
pub fn is_panic_of_rust(bytes: &[u8]) -> bool {
    let panics =
        |literal| may_panic(literal) && matches!(promql::unquote(literal), Unquoted::Panicked);
    admitted(bytes).map_or(false, panics)
}

/// Whether a literal has a backslash before a character that is not ASCII.
fn may_panic(literal: &str) -> bool {
    let pairs = literal.as_bytes().windows(2);
    pairs
        .filter(|pair| pair[0] == b'\\')
        .any(|pair| !pair[1].is_ascii())
}
