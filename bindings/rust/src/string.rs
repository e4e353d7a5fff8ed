//! Reading string literals, in two readings, and escaping texts.

use crate::error::{literal_result, result, Error};
use crate::ffi;
use crate::reading::Reading;
#[cfg(feature = "alloc")]
use crate::TEXT_LIMIT;
#[cfg(feature = "alloc")]
use alloc::{borrow::Cow, string::String, vec, vec::Vec};
use core::str;

/// An answer with this bit has its text in the literal, behind the first byte.
const INNER: u64 = 1 << 32;

/// How many bytes an escape takes at most for each byte of a text.
#[cfg(feature = "alloc")]
const WIDEST_ESCAPE: usize = 2;

/// The text of a string literal: the part of the literal itself where it has no escapes.
///
/// # Errors
///
/// [`BAD_LITERAL`](crate::refusal::BAD_LITERAL), with the place where the literal goes wrong,
/// [`TOO_LONG`](crate::refusal::TOO_LONG) and [`NOT_UTF8`](crate::refusal::NOT_UTF8).
///
/// ```
/// use simmerpath::{unquote_string, Reading};
/// use std::borrow::Cow;
///
/// let plain = unquote_string("'plain'", Reading::Crate)?;
/// assert!(matches!(plain, Cow::Borrowed(b"plain")));
///
/// let literal = r#""\303\251""#;
/// assert_eq!(*unquote_string(literal, Reading::Crate)?, *"Ã©".as_bytes());
/// assert_eq!(*unquote_string(literal, Reading::Documented)?, *"é".as_bytes());
///
/// let error = unquote_string(r#""é\q""#, Reading::Crate).unwrap_err();
/// assert_eq!((error.number(), error.byte(), error.character()), (40, 3, 2));
/// # Ok::<(), simmerpath::Error>(())
/// ```
#[cfg(feature = "alloc")]
pub fn unquote_string<L>(literal: &L, reading: Reading) -> Result<Cow<'_, [u8]>, Error>
where
    L: AsRef<[u8]> + ?Sized,
{
    let literal = literal.as_ref();
    let has_escapes = literal.contains(&b'\\');
    let room = if has_escapes {
        literal.len().min(TEXT_LIMIT)
    } else {
        0
    };
    let mut text = vec![0; room];
    match unquoted(literal, reading, &mut text)? {
        Unquoted::Inner(inner) => Ok(Cow::Borrowed(inner)),
        Unquoted::Written(length) => {
            text.truncate(length);
            Ok(Cow::Owned(text))
        }
    }
}

/// The text of a string literal in the reading of promql-parser, in which it is UTF-8.
///
/// # Errors
///
/// [`BAD_LITERAL`](crate::refusal::BAD_LITERAL), with the place where the literal goes wrong, and
/// [`TOO_LONG`](crate::refusal::TOO_LONG).
///
/// ```
/// assert_eq!(simmerpath::unquote_str(r"'it\'s'")?, "it's");
///
/// let error = simmerpath::unquote_str("`a`b`").unwrap_err();
/// assert_eq!(error.to_string(), "unexpected quote ` inside the literal, at byte 2");
/// assert_eq!(error.message("`a`b`").to_string(), "invalid syntax");
/// # Ok::<(), simmerpath::Error>(())
/// ```
#[cfg(feature = "alloc")]
pub fn unquote_str(literal: &str) -> Result<Cow<'_, str>, Error> {
    Ok(match unquote_string(literal, Reading::Crate)? {
        Cow::Borrowed(text) => Cow::Borrowed(str::from_utf8(text).unwrap_or_default()),
        Cow::Owned(text) => Cow::Owned(String::from_utf8(text).unwrap_or_default()),
    })
}

/// The text of a string literal: the part of the literal itself where it has no escapes, else what is written to the front of
/// `text`. The rest of `text` stays, and all of it where nothing is written. No text has more bytes than its literal.
///
/// # Errors
///
/// Those of [`unquote_string`], and [`NO_ROOM`](crate::refusal::NO_ROOM) where `text` is too short.
///
/// ```
/// use simmerpath::{unquote_string_into, Reading};
///
/// let mut text = [b'.'; 4];
/// assert_eq!(unquote_string_into(r"'\t1'", Reading::Crate, &mut text)?, b"\t1");
/// assert_eq!(&text, b"\t1..");
/// assert_eq!(unquote_string_into("`longer`", Reading::Crate, &mut text)?, b"longer");
/// assert_eq!(&text, b"\t1..");
/// # Ok::<(), simmerpath::Error>(())
/// ```
pub fn unquote_string_into<'t, L>(
    literal: &'t L,
    reading: Reading,
    text: &'t mut [u8],
) -> Result<&'t [u8], Error>
where
    L: AsRef<[u8]> + ?Sized,
{
    match unquoted(literal.as_ref(), reading, text)? {
        Unquoted::Inner(inner) => Ok(inner),
        Unquoted::Written(length) => Ok(&text[..length]),
    }
}

/// Where the text of a literal stands: in the literal itself, or so many bytes of it at the front of the buffer that was lent.
enum Unquoted<'t> {
    Inner(&'t [u8]),
    Written(usize),
}

/// Reads a literal, with a buffer for a text that does not stand in it.
fn unquoted<'t>(
    literal: &'t [u8],
    reading: Reading,
    text: &mut [u8],
) -> Result<Unquoted<'t>, Error> {
    let answer = ffi::unquote_string(literal, reading.documented(), text);
    let answer = literal_result(answer, literal)?;
    let length = (answer % INNER) as usize;
    Ok(if answer < INNER {
        Unquoted::Written(length)
    } else {
        Unquoted::Inner(&literal[1..][..length])
    })
}

/// A text, escaped so that it can stand between double quotes. It may have any length: escaping the parts of a text and joining
/// them is proved to be escaping the text.
///
/// ```
/// assert_eq!(simmerpath::escape_string("C:\\data\t\"é\""), r#"C:\\data\t\"é\""#);
/// ```
#[cfg(feature = "alloc")]
pub fn escape_string(text: &str) -> String {
    let mut escaped = Vec::with_capacity(text.len());
    let mut rest = text;
    while !rest.is_empty() {
        let (part, behind) = rest.split_at(part_length(rest));
        let from = escaped.len();
        escaped.resize(from + WIDEST_ESCAPE * part.len(), 0);
        let length = ffi::escape_string(part.as_bytes(), &mut escaped[from..]);
        escaped.truncate(from.saturating_add(length as usize));
        rest = behind;
    }
    String::from_utf8(escaped).unwrap_or_default()
}

/// The length of the longest part at the front of a text that is whole characters within the limit.
#[cfg(feature = "alloc")]
fn part_length(text: &str) -> usize {
    let mut length = text.len().min(TEXT_LIMIT);
    while !text.is_char_boundary(length) {
        length -= 1;
    }
    length
}

/// Writes a text to the front of `out`, escaped so that it can stand between double quotes. The rest of `out` stays. No text
/// has more than twice as many bytes when it is escaped.
///
/// # Errors
///
/// [`TOO_LONG`](crate::refusal::TOO_LONG), and [`NO_ROOM`](crate::refusal::NO_ROOM) where `out` is too short.
///
/// ```
/// let mut out = [b'.'; 6];
/// assert_eq!(simmerpath::escape_string_into("a\nb", &mut out)?, r"a\nb");
/// assert_eq!(&out, br"a\nb..");
/// # Ok::<(), simmerpath::Error>(())
/// ```
pub fn escape_string_into<'o>(text: &str, out: &'o mut [u8]) -> Result<&'o str, Error> {
    let answer = ffi::escape_string(text.as_bytes(), out);
    let length = result(answer, text.as_bytes())? as usize;
    Ok(str::from_utf8(&out[..length]).unwrap_or_default())
}
