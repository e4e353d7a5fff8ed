//! Stands in for the crate lrpar: the name that the Rust's lexer uses.

/// A token of a kind, at a place of a text.
pub trait Lexeme<Kind> {
    fn new(kind: Kind, start: usize, len: usize) -> Self;
}
