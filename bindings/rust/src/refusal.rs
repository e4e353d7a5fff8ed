//! The numbers of the refusals, and what is said of each.
//!
//! Those of a query, 10 to 32, [`NOT_UTF8`], and [`BAD_LITERAL`] of a literal have a place: a byte and a character. The others have
//! none.

/// Makes a constant of each refusal, and of all of them the table of sentences.
macro_rules! refusals {
    ($($(#[$doc:meta])+ $name:ident = $number:literal, $sentence:literal;)+) => {
        $($(#[$doc])+ pub const $name: u16 = $number;)+

        /// The sentences. There `{}` stands for the character at the refusal's place, and `{:?}` for that as Rust shows it.
        const SENTENCES: &[(u16, &str)] = &[$(($name, $sentence)),+];
    };
}

refusals! {
    /// The text is longer than its limit: [`TEXT_LIMIT`](crate::TEXT_LIMIT) or [`NUMBER_LIMIT`](crate::NUMBER_LIMIT).
    TOO_LONG = 1, "too long: a query, a literal or a text has at most 65,535 bytes, a number or a duration 256";
    /// The text is not UTF-8. The place is the end of the longest well-formed prefix.
    NOT_UTF8 = 2, "not UTF-8";
    /// The result needs more room than was lent.
    NO_ROOM = 3, "the result needs more room than was lent";
    /// The query ends with `(` open. The place is the end.
    UNCLOSED_PAREN = 10, "unclosed left parenthesis";
    /// `=~` outside braces. The place is the `~`.
    REGEX_OUTSIDE = 11, "unexpected character after '=': '{}'";
    /// Outside braces, another character after `!`.
    AFTER_BANG = 12, "unexpected character after '!': '{}'";
    /// The query ends after `!`.
    END_AFTER_BANG = 13, "'!' can not be at the end";
    /// `.` before a character that is no digit. The place is that character.
    AFTER_DOT = 14, "unexpected character after '.': '{}'";
    /// The query ends after `.`. The place is the `.`.
    END_AFTER_DOT = 15, "unexpected character: {:?}";
    /// `)` that closes nothing.
    UNMATCHED_PAREN = 16, "unexpected right parenthesis '{}'";
    /// `}` that closes nothing.
    UNMATCHED_BRACE = 17, "unexpected right brace '{}'";
    /// `]` that closes nothing.
    UNMATCHED_BRACKET = 18, "unexpected right bracket '{}'";
    /// Outside braces and brackets, a character that begins nothing.
    OTHER = 19, "unexpected character: {:?}";
    /// Neither a number nor a duration. The place is the first character that cannot belong to it, or the end: a `_` where none may
    /// stand, too, and a unit behind a number with a `_`.
    NEITHER_NUMBER_NOR_DURATION = 20, "bad number or duration syntax";
    /// In a string that has escapes, a backslash before a character that is none. The place is that character.
    UNKNOWN_ESCAPE = 21, "unknown escape sequence '{}'";
    /// The query ends after a backslash in a string that has escapes.
    END_IN_ESCAPE = 22, "escape sequence not terminated";
    /// The query ends in a string.
    END_IN_STRING = 23, "unterminated quoted string";
    /// In braces, another character after `!`.
    AFTER_BANG_IN_BRACES = 24, "unexpected character after '!' inside braces: '{}'";
    /// `{` in braces.
    BRACE_IN_BRACES = 25, "unexpected left brace '{}' inside braces";
    /// In braces, a character that begins nothing there.
    OTHER_IN_BRACES = 26, "unexpected character inside braces: '{}'";
    /// The query ends in braces.
    END_IN_BRACES = 27, "unexpected end of input inside braces";
    /// A second colon in brackets.
    SECOND_COLON = 28, "unexpected second colon({}) in brackets";
    /// A colon directly after `[`.
    COLON_FIRST = 29, "expect duration before first colon({}) in brackets";
    /// `[` in brackets.
    BRACKET_IN_BRACKETS = 30, "unexpected left brace '{}' inside brackets";
    /// In brackets, a character that begins nothing there.
    OTHER_IN_BRACKETS = 31, "unexpected character inside brackets: '{}'";
    /// The query ends in brackets.
    END_IN_BRACKETS = 32, "unexpected end of input inside brackets";
    /// A string literal that cannot be read; or, with no place, a code point that is no character's. The place is byte 0 of a
    /// literal that has fewer than two bytes; its last byte, where that differs from its first; byte 0, where both are no quote; the
    /// first line feed, unless the quotes are backquotes; else the literal's own quote, bare inside it, or the backslash of a bad
    /// escape, whichever comes first.
    BAD_LITERAL = 40, "invalid syntax";
    /// An empty text for a duration.
    EMPTY = 50, "empty duration string";
    /// The duration `0`, or units that add up to nothing.
    ZERO = 51, "duration must be greater than 0";
    /// Neither a decimal nor a text of units.
    NOT_A_DURATION = 52, "not a valid duration string";
    /// A decimal outside the range that is read exactly.
    OUTSIDE_EXACT = 53, "the decimal is outside the range that is read exactly";
    /// Seconds that are negative, infinite, no number, or 2^64 and over.
    OUT_OF_RANGE = 54, "the seconds are negative, not finite, or too many";
    /// A part whose number is above 4,294,967,295, by [`parse_duration_exact`](crate::parse_duration_exact).
    OVERSIZED_PART = 55, "a part of the duration is above 4,294,967,295";
    /// Not the text of a number, also for a `_` where none may stand.
    NOT_A_NUMBER = 60, "not the text of a number";
    /// Hexadecimal or octal, and outside a signed 64-bit integer.
    OUTSIDE_I64 = 61, "outside a signed 64-bit integer";
    /// A number that no lexeme of the query has, by [`word_reason`](crate::word_reason).
    NO_SUCH_LEXEME = 72, "the query has no lexeme of this number";
    /// A lexeme that is not a word, by [`word_reason`](crate::word_reason).
    NOT_A_WORD = 74, "the lexeme is not a word";
}

/// What is said of a refusal that has no sentence here.
const UNKNOWN: &str = "refused";

/// What is said of a refusal.
pub(crate) fn sentence(number: u16) -> &'static str {
    let row = SENTENCES.iter().find(|row| row.0 == number);
    row.map_or(UNKNOWN, |row| row.1)
}

/// Whether a refusal has a place, whatever was refused. [`BAD_LITERAL`] has one of a literal alone.
pub(crate) fn has_place(number: u16) -> bool {
    number == NOT_UTF8 || (UNCLOSED_PAREN..=END_IN_BRACKETS).contains(&number)
}

#[cfg(test)]
mod tests {
    use super::*;

    #[test]
    fn numbers_ascend() {
        assert!(SENTENCES.windows(2).all(|rows| rows[0].0 < rows[1].0));
    }

    #[test]
    fn every_number_has_its_sentence() {
        assert_eq!(sentence(BAD_LITERAL), "invalid syntax");
        assert_eq!(sentence(0), UNKNOWN);
    }

    #[test]
    fn queries_and_broken_text_have_places() {
        let with_place = SENTENCES.iter().filter(|row| has_place(row.0));
        assert_eq!(with_place.count(), 24);
        assert!(!has_place(BAD_LITERAL));
    }
}
