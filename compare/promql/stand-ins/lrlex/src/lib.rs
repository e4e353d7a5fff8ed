//! Stands in for the crate lrlex: the names that the Rust's lexer uses.

use cfgrammar::NewlineCache;
use lrpar::Lexeme;
use std::convert::Infallible;
use std::marker::PhantomData;

/// Includes the module of this name that the build script wrote.
#[macro_export]
macro_rules! lrlex_mod {
    ($name:expr) => {
        include!(concat!(env!("OUT_DIR"), "/", $name, ".rs"));
    };
}

/// A lexeme, to be read back.
pub struct DefaultLexeme<Kind> {
    pub kind: Kind,
    pub start: usize,
    pub len: usize,
}

impl<Kind> Lexeme<Kind> for DefaultLexeme<Kind> {
    fn new(kind: Kind, start: usize, len: usize) -> Self {
        DefaultLexeme { kind, start, len }
    }
}

/// The types of a lexer.
pub trait LexerTypes {
    type Lexeme;
}

/// The types of a lexer whose lexemes are `DefaultLexeme`.
pub struct DefaultLexerTypes<Kind>(PhantomData<Kind>);

impl<Kind> LexerTypes for DefaultLexerTypes<Kind> {
    type Lexeme = DefaultLexeme<Kind>;
}

/// The lexemes of a text, none of them an error.
pub struct LRNonStreamingLexer<'lexer, 'input, Types: LexerTypes> {
    lexemes: Vec<Result<Types::Lexeme, Infallible>>,
    lifetimes: PhantomData<(&'lexer (), &'input ())>,
}

impl<'input, Types: LexerTypes> LRNonStreamingLexer<'_, 'input, Types> {
    pub fn new(
        _text: &'input str,
        lexemes: Vec<Result<Types::Lexeme, Infallible>>,
        _newlines: NewlineCache,
    ) -> Self {
        LRNonStreamingLexer {
            lexemes,
            lifetimes: PhantomData,
        }
    }

    /// The lexemes, in their order.
    pub fn lexemes(self) -> impl Iterator<Item = Types::Lexeme> {
        self.lexemes.into_iter().flatten()
    }
}
