//! The Rust of promql-parser, built unchanged from the documents' folder, and the functions of it that are compared.

/// The Rust's `src/parser`. What is allowed is due to its text, of which we use a part, and to the number 39, which bounds
/// two classes. A kind that `token_map` lacks would be a variable.
#[allow(dead_code, unexpected_cfgs, unreachable_patterns)]
#[deny(unused_variables)]
mod parser {
    include!(concat!(env!("OUT_DIR"), "/parser/mod.rs"));
}

/// The Rust's `src/util`, of which we use a part.
#[allow(dead_code, unexpected_cfgs, unused_imports)]
mod util {
    include!(concat!(env!("OUT_DIR"), "/util/mod.rs"));
}

/// What the Rust's files use of its library that Rust 1.63 has not yet. A newer library's own comes before it.
#[allow(dead_code)]
mod newer {
    pub trait IsMultipleOf {
        fn is_multiple_of(self, of: Self) -> bool;
    }

    impl IsMultipleOf for u128 {
        fn is_multiple_of(self, of: Self) -> bool {
            self % of == 0
        }
    }
}

use parser::lex;
use parser::token::{self, TokenType};
use std::cell::Cell;
use std::panic::{self, UnwindSafe};
use std::sync::Once;
use std::time::Duration;
use util::{duration, number, string};

/// The kind of a word of the table.
pub fn keyword(word: &str) -> Option<u16> {
    token::get_keyword_token(word)
}

/// The display text of a kind.
pub fn display(kind: u16) -> &'static str {
    token::token_display(kind)
}

/// Whether a kind is an operator, a comparison, a set operator, an aggregator, an aggregator with a parameter.
pub fn classes(kind: u16) -> [bool; 5] {
    let kind = TokenType::new(kind);
    [
        kind.is_operator(),
        kind.is_comparison_operator(),
        kind.is_set_operator(),
        kind.is_aggregator(),
        kind.is_aggregator_with_param(),
    ]
}

/// Whether a text is a label.
pub fn is_label(text: &str) -> bool {
    lex::is_label(text)
}

/// The kind, start and length of each lexeme of a query, or what is said of a bad one.
pub fn lexemes(query: &str) -> Result<Vec<(u16, usize, usize)>, String> {
    let lexemes = lex::lexer(query)?.lexemes();
    Ok(lexemes
        .map(|lexeme| (lexeme.kind, lexeme.start, lexeme.len))
        .collect())
}

/// The same, step by step.
pub use lex::steps::{steps, Place, Steps, Stopped};

/// What the Rust's files lean on, for what reads beside them.
pub use regex::Regex;

/// A text, escaped.
pub fn escape(text: &str) -> String {
    string::escape_string(text)
}

/// What became of a literal.
pub enum Unquoted {
    Text(String),
    Bad,
    Panicked,
}

/// What a string literal stands for.
pub fn unquote(literal: &str) -> Unquoted {
    match quietly(|| string::unquote_string(literal)) {
        Some(Ok(text)) => Unquoted::Text(text),
        Some(Err(_)) => Unquoted::Bad,
        None => Unquoted::Panicked,
    }
}

/// The value of a number text, or what is said of a bad one; none where the Rust panics.
pub fn number(text: &str) -> Option<Result<f64, String>> {
    quietly(|| number::parse_str_radix(text))
}

/// The duration of a text, or what is said of a bad one; none where the Rust panics. Minus zero seconds are zero here, as newer
/// libraries have it: that of Rust 1.63 panics on them.
pub fn duration(text: &str) -> Option<Result<Duration, String>> {
    let read = quietly(|| duration::parse_duration(text));
    let is_zero = || text.parse() == Ok(0.0);
    let panics = || quietly(|| Duration::from_secs_f64(-0.0)).is_none();
    if read.is_none() && is_zero() && panics() {
        return Some(Ok(Duration::ZERO));
    }
    read
}

/// The text of a duration.
pub fn display_duration(duration: Duration) -> String {
    duration::display_duration(&duration)
}

/// The Rust's own functions, for what times them.
pub use lex::lexer;
pub use util::duration::parse_duration;
pub use util::number::parse_str_radix;
pub use util::string::{escape_string, unquote_string};

thread_local! {
    /// Whether nothing is to be said of a panic.
    static QUIET: Cell<bool> = Cell::new(false);
}

/// What a call returns; none where it panics, of which nothing is said.
fn quietly<T>(call: impl FnOnce() -> T + UnwindSafe) -> Option<T> {
    static HOOK: Once = Once::new();
    HOOK.call_once(|| {
        let said = panic::take_hook();
        panic::set_hook(Box::new(move |panic| {
            if !QUIET.with(Cell::get) {
                said(panic);
            }
        }));
    });
    QUIET.with(|quiet| quiet.set(true));
    let returned = panic::catch_unwind(call).ok();
    QUIET.with(|quiet| quiet.set(false));
    returned
}
