//! Where the lexeme begins that a query was refused in. The C function answers where it stopped, and promql-parser's sentences
//! show the lexeme from its first byte on. Nothing but those sentences rests on what stands here.

use crate::piece::comment;
use crate::reading::Reading;

/// The byte where the lexeme begins that reaches byte `at`, in a query that a reading accepts up to that lexeme.
pub(crate) fn begin(query: &[u8], at: usize, reading: Reading) -> usize {
    let mut start = 0;
    let mut in_brackets = false;
    while let Some(&first) = query.get(start) {
        let end = start + length(first, &query[start..], in_brackets, reading);
        if end >= at {
            break;
        }
        in_brackets = first == b'[' || (in_brackets && first != b']');
        start = end;
    }
    start
}

/// The length of what a text begins with, whose first byte is given: a comment, a string, a number or duration, a word, or a byte.
fn length(first: u8, text: &[u8], in_brackets: bool, reading: Reading) -> usize {
    match first {
        b'#' => comment(text),
        b'`' if reading == Reading::Documented => raw_string(first, text),
        b'"' | b'\'' | b'`' => string(first, text),
        b'0'..=b'9' | b'.' => numeral(text),
        b':' if in_brackets => 1,
        _ if is_word(&first) => run(text, 0, is_word),
        _ => 1,
    }
}

/// Whether a word goes on with a byte.
fn is_word(byte: &u8) -> bool {
    byte.is_ascii_alphanumeric() || *byte == b'_' || *byte == b':'
}

/// Where the run of a class ends that begins at byte `from`.
fn run(text: &[u8], from: usize, class: fn(&u8) -> bool) -> usize {
    let rest = text.get(from..).unwrap_or_default();
    from + rest.iter().take_while(|byte| class(byte)).count()
}

/// Behind byte `at` where that is in a set, else there.
fn past(text: &[u8], at: usize, set: &[u8]) -> usize {
    at + usize::from(text.get(at).map_or(false, |byte| set.contains(byte)))
}

/// The length of a string, with both signs; that of all the text where it does not end.
fn string(sign: u8, text: &[u8]) -> usize {
    let mut escaped = false;
    let inside = |&byte: &u8| {
        let goes_on = escaped || byte != sign;
        escaped = !escaped && byte == b'\\';
        goes_on
    };
    let end = 1 + text.iter().skip(1).copied().take_while(inside).count();
    past(text, end, &[sign])
}

/// The same of a string without escapes.
fn raw_string(sign: u8, text: &[u8]) -> usize {
    let inside = |&&byte: &&u8| byte != sign;
    let end = 1 + text.iter().skip(1).take_while(inside).count();
    past(text, end, &[sign])
}

/// The length of a number or a duration, or of as much as may belong to one. A `_` is taken as a digit: in a number it is a
/// separator, or the place of the refusal, in either reading.
fn numeral(text: &[u8]) -> usize {
    let is_hex = matches!(text, [b'0', b'x' | b'X', ..]);
    let (prefix, digit): (&[u8], fn(&u8) -> bool) = if is_hex {
        (b"0x", |byte| byte.is_ascii_hexdigit() || *byte == b'_')
    } else {
        (b"", |byte| byte.is_ascii_digit() || *byte == b'_')
    };
    let whole = run(text, prefix.len(), digit);
    let fraction = run(text, past(text, whole, b"."), digit);
    let mark = past(text, fraction, b"eE");
    let end = if mark > fraction {
        run(text, past(text, mark, b"+-"), digit)
    } else {
        fraction
    };
    units(text, end)
}

/// Where the units and the further parts of a duration end that begin at byte `from`.
fn units(text: &[u8], from: usize) -> usize {
    let mut at = from;
    let mut end = past(text, at, b"smhdwy");
    while end > at {
        let part = past(text, end, b"s");
        at = run(text, part, u8::is_ascii_digit);
        if at == part {
            break;
        }
        end = past(text, at, b"smhdw");
    }
    at.max(end)
}
