//! Where a bad literal goes wrong: a second reading of document 02's sentence (L1) and of document 01's escapes. Neither the Rust
//! nor Go says where, so nothing else tells the place. It is the same in both readings.

use super::utf8::Text;

/// What escapes by itself behind a backslash, beside the literal's own sign.
const LETTERS: &str = "abfnrtv\\";

/// The greatest value of an octal escape.
const MOST_OCTAL: u32 = 255;

/// The place where a literal goes wrong, in bytes and in characters that begin before it; none where it is good.
pub fn place(literal: &str) -> Option<(u16, u16)> {
    let at = byte(literal)?;
    let character = Text::new(literal.as_bytes()).char_number(at);
    Some((at as u16, character as u16))
}

/// The byte where a literal goes wrong.
fn byte(literal: &str) -> Option<usize> {
    let (first, last) = match literal.as_bytes() {
        [first, .., last] => (first, last),
        _ => return Some(0),
    };
    let end = literal.len() - 1;
    if first != last {
        return Some(end);
    }
    let content = literal.get(1..end).unwrap_or_default();
    let inside = match char::from(*first) {
        '`' => content.find('`'),
        sign @ ('"' | '\'') => content.find('\n').or_else(|| met_first(content, sign)),
        _ => return Some(0),
    };
    inside.map(|at| 1 + at)
}

/// Where reading meets a bare sign or a bad escape in a content.
fn met_first(content: &str, sign: char) -> Option<usize> {
    let mut rest = content;
    loop {
        let at = rest.find(&['\\', sign][..])?;
        let behind = rest[at..].strip_prefix('\\');
        match behind.and_then(|behind| past_escape(behind, sign)) {
            Some(past) => rest = past,
            None => return Some(content.len() - rest.len() + at),
        }
    }
}

/// What stands past an escape, given what stands behind its backslash; none where it is bad.
fn past_escape(behind: &str, sign: char) -> Option<&str> {
    let letter = behind.chars().next()?;
    let past = &behind[letter.len_utf8()..];
    if letter == sign || LETTERS.contains(letter) {
        return Some(past);
    }
    let (numeral, count, radix) = match letter {
        'x' => (past, 2, 16),
        'u' => (past, 4, 16),
        'U' => (past, 8, 16),
        _ => (behind, 3, 8),
    };
    let digits = numeral.get(..count)?;
    let mut values = digits.chars().map(|digit| digit.to_digit(radix));
    let value = values.try_fold(0, |value, digit| Some(value * radix + digit?))?;
    let is_good = match radix {
        8 => value <= MOST_OCTAL,
        _ => char::from_u32(value).is_some(),
    };
    is_good.then(|| &numeral[count..])
}
