//! Strings between backquotes in the documented reading: a second reading of document 02's sentence (L5). The Rust looks for
//! escapes in every string, so a query is made plain for it: each backslash between backquotes becomes an `x`, which leaves the
//! length and all places as they were, and nothing between backquotes that the Rust could take for an escape. All else is the
//! Rust's.
//!
//! Where these strings are is told by a scan for comments and strings alone. Wherever else a `#` or a sign of a string stands, as
//! in brackets and behind a `!`, the Rust refuses the query there, so that what the scan makes of the rest is of no account. That
//! the scan is right is asked of the Rust: its strings between backquotes in the plain query must be those found, up to the
//! refusal, and one that it refuses too. Then the plain query differs from the query inside such strings alone, and these have no
//! escapes and end at the next backquote.

use super::lexer::Lexed;
use std::ops::Range;

/// A query for the Rust, and the strings between backquotes in it.
pub struct Plain {
    pub query: String,
    found: Vec<Range<usize>>,
}

impl Plain {
    /// That of a query.
    pub fn of(query: &str) -> Self {
        let found = backquoted(query.as_bytes());
        let mut plain = query.to_string();
        for string in &found {
            let text = query[string.clone()].replace('\\', "x");
            plain.replace_range(string.clone(), &text);
        }
        Plain {
            query: plain,
            found,
        }
    }

    /// Whether the Rust has found the same strings, up to where it refuses the query, and what it refuses is no other.
    pub fn are_those_of(&self, lexed: &Lexed) -> bool {
        let rest = lexed.rest().unwrap_or(self.query.len());
        let found = self.found.iter().filter(|string| string.start < rest);
        let spans = lexed.starts.iter().zip(&lexed.lengths);
        let lexemes = spans.map(|(&start, &length)| start as usize..(start + length) as usize);
        let known = lexemes.filter(|lexeme| self.query[lexeme.clone()].starts_with('`'));
        let is_refused_found = self.found.iter().any(|string| string.start == rest);
        found.cloned().eq(known) && is_refused_found == self.query[rest..].starts_with('`')
    }
}

/// Where the strings between backquotes stand, with their signs; the last may have no end.
fn backquoted(query: &[u8]) -> Vec<Range<usize>> {
    let mut found = Vec::new();
    let mut start = 0;
    while let Some(&first) = query.get(start) {
        let behind = &query[start + 1..];
        let length = match first {
            b'#' => up_to(behind, b"\r\n"),
            b'`' => up_to(behind, b"`"),
            b'"' | b'\'' => up_to_sign(behind, first),
            _ => 0,
        };
        let end = start + 1 + length;
        if first == b'`' {
            found.push(start..end);
        }
        start = end;
    }
    found
}

/// How many bytes there are up to and with the first of these, or in all.
fn up_to(bytes: &[u8], ends: &[u8]) -> usize {
    let found = bytes.iter().position(|byte| ends.contains(byte));
    found.map_or(bytes.len(), |at| at + 1)
}

/// The same for a sign that is not escaped.
fn up_to_sign(bytes: &[u8], sign: u8) -> usize {
    let mut length = 0;
    loop {
        length += up_to(&bytes[length..], &[sign, b'\\']);
        if length == bytes.len() || bytes[length - 1] == sign {
            return length;
        }
        length += 1;
    }
}
