//! One call of each side for each thing that is timed: on an input, with the room that ours is lent. Each answers with a number
//! that both sides must agree on, so that no call can be left out.

use simmerpath::{Reading, TEXT_LIMIT};
use std::time::Duration;

/// A call of one side.
pub type Call = fn(&mut Room, &str) -> u64;

/// How many bytes an escape takes at most for each byte of a text.
const WIDEST_ESCAPE: usize = 2;

/// What ours is lent: lists for the lexemes of any query, and a buffer for any text.
pub struct Room {
    kinds: Vec<u16>,
    starts: Vec<u32>,
    lengths: Vec<u32>,
    depths: Vec<u32>,
    text: Vec<u8>,
}

impl Room {
    /// As much room as any call needs.
    pub fn new() -> Self {
        let most_lexemes = TEXT_LIMIT + 1;
        Room {
            kinds: vec![0; most_lexemes],
            starts: vec![0; most_lexemes],
            lengths: vec![0; most_lexemes],
            depths: vec![0; most_lexemes],
            text: vec![0; WIDEST_ESCAPE * TEXT_LIMIT],
        }
    }
}

/// Lexing: how many lexemes a query has.
pub mod lexing {
    use super::*;

    /// Into the lists that are lent.
    pub fn ours(room: &mut Room, query: &str) -> u64 {
        let Room {
            kinds,
            starts,
            lengths,
            depths,
            ..
        } = room;
        let lexemes = simmerpath::lex_into(query, Reading::Crate, kinds, starts, lengths, depths);
        lexemes.expect("a query that is accepted").len() as u64
    }

    /// To a vector.
    pub fn ours_to_vector(_: &mut Room, query: &str) -> u64 {
        let lexemes = simmerpath::lexer(query);
        lexemes.expect("a query that is accepted").len() as u64
    }

    /// As its function gives them.
    pub fn original(_: &mut Room, query: &str) -> u64 {
        let lexemes = promql::lexer(query).expect("a query that is accepted");
        lexemes.lexemes().count() as u64
    }
}

/// Unquoting: how long the text of a literal is.
pub mod unquoting {
    use super::*;

    /// Into the buffer that is lent, or as a part of the literal.
    pub fn ours(room: &mut Room, literal: &str) -> u64 {
        let text = simmerpath::unquote_string_into(literal, Reading::Crate, &mut room.text);
        text.expect("a literal that is accepted").len() as u64
    }

    /// To a string of its own.
    pub fn original(_: &mut Room, literal: &str) -> u64 {
        let text = promql::unquote_string(literal);
        text.expect("a literal that is accepted").len() as u64
    }
}

/// Escaping: how long the escaped text is.
pub mod escaping {
    use super::*;

    /// Into the buffer that is lent.
    pub fn ours(room: &mut Room, text: &str) -> u64 {
        let escaped = simmerpath::escape_string_into(text, &mut room.text);
        escaped.expect("a text that is accepted").len() as u64
    }

    /// To a string of its own.
    pub fn original(_: &mut Room, text: &str) -> u64 {
        promql::escape_string(text).len() as u64
    }
}

/// Numbers: the bits of the value.
pub mod numbers {
    use super::*;

    /// With the notation beside the value.
    pub fn ours(_: &mut Room, text: &str) -> u64 {
        let number = simmerpath::parse_str_radix(text);
        number.expect("a number that is accepted").value.to_bits()
    }

    /// The value alone.
    pub fn original(_: &mut Room, text: &str) -> u64 {
        let number = promql::parse_str_radix(text);
        number.expect("a number that is accepted").to_bits()
    }
}

/// Durations: a sum of what they have.
pub mod durations {
    use super::*;

    /// By two numbers that are lent, made a duration.
    pub fn ours(_: &mut Room, text: &str) -> u64 {
        let duration = simmerpath::parse_duration(text);
        sum(duration.expect("a duration that is accepted"))
    }

    /// As its function gives it.
    pub fn original(_: &mut Room, text: &str) -> u64 {
        let duration = promql::parse_duration(text);
        sum(duration.expect("a duration that is accepted"))
    }

    /// The seconds and the nanoseconds of a duration, added up.
    fn sum(duration: Duration) -> u64 {
        duration.as_secs() + u64::from(duration.subsec_nanos())
    }
}
