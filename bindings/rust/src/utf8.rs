//! UTF-8 text in bytes: what the readers rest on. Its laws are those of RFC 3629.

use crate::error::{result, Error};
use crate::ffi;

/// How many characters a text has.
///
/// # Errors
///
/// [`NOT_UTF8`](crate::refusal::NOT_UTF8), with the end of the longest well-formed prefix as its place, and
/// [`TOO_LONG`](crate::refusal::TOO_LONG).
///
/// ```
/// use simmerpath::utf8::validate;
/// assert_eq!(validate("é!"), Ok(2));
/// assert_eq!(validate(b"\xc3\xa9\xff").unwrap_err().byte(), 2);
/// ```
pub fn validate<T: AsRef<[u8]> + ?Sized>(text: &T) -> Result<usize, Error> {
    let text = text.as_ref();
    result(ffi::utf8_validate(text), text).map(|count| count as usize)
}

/// How many characters of a text begin before a byte: the character number of a lexeme's start. Past the longest well-formed
/// prefix it is the number of that prefix's characters.
///
/// ```
/// use simmerpath::utf8::char_number;
/// assert_eq!(char_number("é!", 2), 1);
/// assert_eq!(char_number("é!", 9), 2);
/// ```
pub fn char_number<T: AsRef<[u8]> + ?Sized>(text: &T, to: usize) -> usize {
    ffi::utf8_char_number(text.as_ref(), to) as usize
}

/// The character that begins at a byte of a text; none at its end and behind it.
///
/// # Errors
///
/// [`NOT_UTF8`](crate::refusal::NOT_UTF8) where none begins at that byte, and [`TOO_LONG`](crate::refusal::TOO_LONG).
///
/// ```
/// use simmerpath::utf8::char_at;
/// assert_eq!(char_at("é!", 0), Ok(Some('é')));
/// assert_eq!(char_at("é!", 3), Ok(None));
/// assert_eq!(char_at("é!", 1).unwrap_err().number(), 2);
/// ```
pub fn char_at<T: AsRef<[u8]> + ?Sized>(text: &T, at: usize) -> Result<Option<char>, Error> {
    let text = text.as_ref();
    let mut code = ffi::NO_CHARACTER;
    result(ffi::utf8_char_at(text, at, &mut code), text)?;
    Ok(char::from_u32(code))
}

/// Writes the bytes of a code point at a byte of `out`: how many they are. The rest of `out` stays.
///
/// # Errors
///
/// [`BAD_LITERAL`](crate::refusal::BAD_LITERAL), with no place, where it is no character's code point, and
/// [`NO_ROOM`](crate::refusal::NO_ROOM).
///
/// ```
/// use simmerpath::utf8::encode;
/// let mut out = [b'.'; 4];
/// assert_eq!(encode(0xe9, &mut out, 1), Ok(2));
/// assert_eq!(&out, b".\xc3\xa9.");
///
/// let error = encode(0xd800, &mut out, 0).unwrap_err();
/// assert_eq!((error.number(), error.has_place()), (40, false));
/// ```
pub fn encode(code: u32, out: &mut [u8], at: usize) -> Result<usize, Error> {
    result(ffi::utf8_encode(code, out, at), &[]).map(|length| length as usize)
}
