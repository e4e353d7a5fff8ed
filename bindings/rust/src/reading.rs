//! The two readings, which lexing and the readers of literals and numbers have.

/// By whose rules a text is read, where promql-parser and the documents of Prometheus differ.
///
/// ```
/// use simmerpath::{lexer_in, parse_str_radix_in, unquote_string, Reading};
///
/// assert!(lexer_in("1_000", Reading::Crate).is_err());
/// assert_eq!(lexer_in("1_000", Reading::Documented)?[0].length, 5);
/// assert_eq!(parse_str_radix_in("1_000", Reading::Documented)?.value, 1000.0);
///
/// assert_eq!(lexer_in(r"`\d`", Reading::Crate).unwrap_err().number(), 21);
/// assert_eq!(lexer_in(r"`\d`", Reading::Documented)?[0].length, 4);
///
/// assert_eq!(*unquote_string(r"'\xe9'", Reading::Crate)?, *"é".as_bytes());
/// assert_eq!(*unquote_string(r"'\xe9'", Reading::Documented)?, [0xe9]);
/// # Ok::<(), simmerpath::Error>(())
/// ```
#[derive(Clone, Copy, Debug, Default, PartialEq, Eq, Hash)]
pub enum Reading {
    /// As promql-parser reads it. In a literal `\x` and octal escapes give a code point, so that its text is UTF-8. No number has
    /// a `_`. In a query escapes are looked for in every string, between backquotes too.
    #[default]
    Crate,
    /// As Prometheus documents it. In a literal these escapes give a byte, so that its text need not be UTF-8. In a number one `_`
    /// may stand between two digits of the same part, and between `0x` and the first digit; it has no effect on the value, and a
    /// number that has one begins no duration. In a query a string between backquotes has no escapes: it ends at the next
    /// backquote, and a backslash in it is a character as any other.
    Documented,
}

impl Reading {
    /// The reading as the C functions take it.
    pub(crate) fn documented(self) -> u32 {
        u32::from(self == Reading::Documented)
    }
}
