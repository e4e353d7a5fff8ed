//! Digit separators in the documented reading: a second reading of document 02's sentence (L2), as regular expressions. The Rust
//! has no separators, so nothing else tells where they may stand in a query. The rest is the Rust's:
//!
//! - A number text whose separators are all so placed is the number that the Rust has for the text without them.
//! - A query is lexed by the Rust, with as many `1` in the place of each number that has separators, behind its first digit or point.
//!   It stops there before, and so says where that number begins. Backslashes between backquotes were replaced before, by
//!   `backquotes`.
//!
//! What has no separator must be by these expressions what it is by the Rust.

use super::backquotes::Plain;
use super::lexer::Lexed;
use super::number::{self, bare, Number, NOT_A_NUMBER};
use super::utf8::{admitted, admitted_within, Text};
use super::{Answer, MOST_NUMBER_BYTES};
use promql::Regex;

/// The kinds of what begins with a digit.
const NUMBER: u16 = 4;
const DURATION: u16 = 5;

/// What stands for `D` in the expressions, and for `H`: groups of decimal digits, and of hex digits, with one separator between two.
const DECIMAL_GROUPS: &str = "([0-9]+(_[0-9]+)*)";
const HEX_GROUPS: &str = "([0-9a-fA-F]+(_[0-9a-fA-F]+)*)";

/// All number texts, in lower case and without white space, and some that are none for other reasons than separators.
const TEXTS: &str = r"^[+-]?(inf|infinity|nan|0x_?H|0x[+-]H|0[+-]D|(D(\.D?)?|\.D)(e[+-]?D)?)$";
/// As much of a query as may belong to a number: what can be taken is.
const NUMBERS: &str = r"^(0[xX](_?H)?(\.H?)?|D?(\.D?)?)([eE][+-]?D?)?";
/// As much behind a number as may make a duration of it, up to the last unit, and the digits behind that.
const UNITS: &str = r"^[smhdwy]s?([0-9]+[smhdw]s?)*";
const DIGITS: &str = r"^[0-9]*";

/// The expressions, each compiled once in a thread.
struct Expressions {
    texts: Regex,
    numbers: Regex,
    units: Regex,
    digits: Regex,
}

impl Expressions {
    /// Compiles them.
    fn new() -> Self {
        let compiled = |expression: &str| {
            let expression = expression
                .replace('D', DECIMAL_GROUPS)
                .replace('H', HEX_GROUPS);
            Regex::new(&expression).expect("the expressions are good")
        };
        Expressions {
            texts: compiled(TEXTS),
            numbers: compiled(NUMBERS),
            units: compiled(UNITS),
            digits: compiled(DIGITS),
        }
    }
}

thread_local! {
    static EXPRESSIONS: Expressions = Expressions::new();
}

/// The number of a text in the documented reading, or its refusal.
pub fn number(bytes: &[u8]) -> Result<Number, Answer> {
    let text = admitted_within(bytes, MOST_NUMBER_BYTES)?;
    let bare = bare(text);
    let is_placed = EXPRESSIONS.with(|all| all.texts.is_match(&bare));
    let refused = Err(Answer::refused(NOT_A_NUMBER));
    if bare.contains('_') && !is_placed {
        return refused;
    }
    let read = number::number(bare.replace('_', "").as_bytes());
    let is_number = read != refused;
    assert!(is_placed || !is_number, "the Rust reads {text:?}");
    read
}

/// Whether the readings of a number text differ.
pub fn differ_in_number(bytes: &[u8]) -> bool {
    number(bytes) != number::number(bytes)
}

/// What the query of these bytes is read as in the documented reading.
pub fn lexed(bytes: &[u8]) -> Lexed {
    let query = match admitted(bytes) {
        Ok(query) => query,
        Err(_) => return Lexed::new(bytes),
    };
    let strings = Plain::of(query);
    let mut plain = strings.query.clone();
    loop {
        let lexed = Lexed::of(&plain);
        assert!(strings.are_those_of(&lexed), "{query:?}");
        let (start, at) = match lexed.bad_numeral() {
            None => return agreed(query, lexed),
            Some(found) => found,
        };
        match numeral(&query[start..]) {
            Ok((NUMBER, length)) if query[start..][..length].contains('_') => {
                plain.replace_range(start + 1..start + length, &"1".repeat(length - 1));
            }
            Ok(taken) => panic!("{query:?} has {taken:?} at {start}"),
            Err(length) => {
                let must = start + length;
                let is_separated = query[start..must].contains('_');
                assert!(is_separated || must == at, "{query:?} is bad at {must}");
                let character = Text::new(bytes).char_number(must);
                return agreed(query, lexed.with_bad_numeral(query, start, must, character));
            }
        }
    }
}

/// Whether the readings of a query differ, which they can only where the Rust refuses a number, or where there is a backslash and a
/// backquote.
pub fn differ_in_lexing(bytes: &[u8]) -> bool {
    let known = Lexed::new(bytes);
    let may = b"\\`".iter().all(|byte| bytes.contains(byte)) || known.bad_numeral().is_some();
    may && lexed(bytes) != known
}

/// The same, once every number and duration among the lexemes is what the expressions say.
fn agreed(query: &str, lexed: Lexed) -> Lexed {
    let spans = lexed.starts.iter().zip(&lexed.lengths);
    for (&kind, (&start, &length)) in lexed.kinds.iter().zip(spans) {
        let text = &query[start as usize..];
        if matches!(kind, NUMBER | DURATION) && text.starts_with(|c| ".0123456789".contains(c)) {
            assert_eq!(numeral(text), Ok((kind, length as usize)), "{text:?}");
        }
    }
    lexed
}

/// The kind and the length of the number or the duration that a text begins with; else how much may belong to one.
fn numeral(text: &str) -> Result<(u16, usize), usize> {
    let taken = |expression: &Regex, from: usize| {
        let found = expression.find(&text[from..]);
        found.map(|found| from + found.end())
    };
    let goes_on = |at: usize, with: &str| {
        text[at..].starts_with(|c: char| c.is_ascii_alphanumeric() || with.contains(c))
    };
    EXPRESSIONS.with(|all| {
        let number = taken(&all.numbers, 0).unwrap_or(0);
        if !goes_on(number, "_.") {
            return Ok((NUMBER, number));
        }
        if text[..number].contains('_') {
            return Err(number);
        }
        let units = taken(&all.units, number).ok_or(number)?;
        let digits = taken(&all.digits, units).unwrap_or(units);
        if digits > units || goes_on(units, "_") {
            return Err(digits);
        }
        Ok((DURATION, units))
    })
}
