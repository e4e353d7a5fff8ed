//! Stands in for the crate cfgrammar: the name that the Rust's lexer uses.

/// Where the lines of a text begin, of which nothing is kept.
#[derive(Default)]
pub struct NewlineCache;

impl NewlineCache {
    pub fn new() -> Self {
        NewlineCache
    }
}
