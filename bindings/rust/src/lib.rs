//! Lexes PromQL queries, and reads the strings, numbers and durations in them.
//!
//! The work is done by C functions that are proved: each ends for all bytes and all lengths of what it is lent, with the one answer
//! that its definition gives, or with a numbered refusal, after which all that it was lent is as it was. The functions here have
//! the names of promql-parser's, whose answers they give. What that has not: [`Lexeme::depth`], [`pieces`], [`word_reason`],
//! [`parse_duration_exact`], and the reading that Prometheus documents, where it differs, which is asked for by a [`Reading`]. All of
//! them are safe to call, and none panics.
//!
//! ```
//! use simmerpath::token::{T_EOF, T_IDENTIFIER, T_LEFT_BRACKET};
//!
//! let query = "up[5m]";
//! let lexemes = simmerpath::lexer(query)?;
//! let texts: Vec<&str> = lexemes.iter().map(|lexeme| lexeme.text(query)).collect();
//! assert_eq!(texts, ["up", "[", "5m", "]", ""]);
//! assert_eq!(lexemes[0].kind, T_IDENTIFIER);
//! assert_eq!(lexemes[1].kind, T_LEFT_BRACKET);
//! assert_eq!(lexemes[4].kind, T_EOF);
//!
//! let lexemes = simmerpath::lexer("sum(rate(up[5m]))")?;
//! assert_eq!((lexemes[1].depth, lexemes[9].depth), (0, 0)); // sum's own parentheses
//! assert_eq!((lexemes[3].depth, lexemes[8].depth), (1, 1)); // rate's
//!
//! let refused = simmerpath::lexer("up[:5m]").unwrap_err();
//! assert_eq!((refused.number(), refused.byte()), (29, 3));
//! # Ok::<(), simmerpath::Error>(())
//! ```
//!
//! # What stands between lexemes
//!
//! White space and comments alone. [`pieces`] gives them and the lexemes in their order, so that no byte of a query is left out:
//!
//! ```
//! use simmerpath::{lexer, pieces, Piece};
//!
//! let query = "up > 1 # too high";
//! let lexemes = lexer(query)?;
//! let bare = pieces(query, &lexemes).filter(|piece| !matches!(piece, Piece::Comment(_)));
//! assert_eq!(bare.map(|piece| piece.text(query)).collect::<String>(), "up > 1 ");
//! # Ok::<(), simmerpath::Error>(())
//! ```
//!
//! # Without allocation
//!
//! The crate needs no `std`, and without its feature `alloc`, which is on by default, no allocation either. What is left then
//! works on lent slices: [`lex_into`], [`unquote_string_into`], [`escape_string_into`]; and what needs none, as [`pieces`] and
//! [`word_reason`].

#![no_std]
#![deny(missing_docs, unsafe_code, unsafe_op_in_unsafe_fn)]

#[cfg(feature = "alloc")]
extern crate alloc;

#[cfg(all(feature = "std", not(core_error)))]
extern crate std;

mod begin;
mod duration;
mod error;
mod fault;
#[allow(unsafe_code)]
mod ffi;
mod lex;
mod message;
mod number;
mod piece;
mod reading;
mod reason;
pub mod refusal;
mod string;
mod text;
pub mod token;
pub mod utf8;

pub use duration::{display_duration, parse_duration, parse_duration_exact, DurationText};
pub use error::Error;
#[cfg(feature = "raw")]
#[doc(hidden)]
pub use ffi::raw;
pub use lex::{lex_into, Lexeme, Lexemes};
#[cfg(feature = "alloc")]
pub use lex::{lexer, lexer_in};
pub use message::Message;
pub use number::{parse_str_radix, parse_str_radix_in, Notation, Number};
pub use piece::{pieces, Piece, Pieces};
pub use reading::Reading;
pub use reason::{word_reason, Reason, Sentence};
#[cfg(feature = "alloc")]
pub use string::{escape_string, unquote_str, unquote_string};
pub use string::{escape_string_into, unquote_string_into};
pub use text::Text;
pub use token::{
    get_keyword_token, is_aggregator, is_aggregator_with_param, is_comparison_operator, is_label,
    is_operator, is_set_operator, token_display, TokenId, TokenText,
};

/// The most bytes that a query, a literal or a text to escape may have.
pub const TEXT_LIMIT: usize = 65_535;

/// The most bytes that the text of a number or of a duration may have.
pub const NUMBER_LIMIT: usize = 256;
