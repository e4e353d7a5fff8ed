//! Reading the texts of numbers.

use crate::error::{result, Error};
use crate::ffi;
use crate::reading::Reading;

/// A number, and how it was written.
#[derive(Clone, Copy, Debug, PartialEq)]
pub struct Number {
    /// Its value.
    pub value: f64,
    /// How it was written.
    pub notation: Notation,
}

/// How a number is written.
#[derive(Clone, Copy, Debug, PartialEq, Eq, Hash)]
pub enum Notation {
    /// In decimal, or as `inf` or `nan`.
    Decimal,
    /// In hexadecimal: `0x1F`.
    Hex,
    /// In octal: `017`.
    Octal,
}

/// What the C function answers for the notations other than decimal.
const HEX: u64 = 1;
const OCTAL: u64 = 2;

/// The number of a text in the reading of promql-parser. White space is dropped, wherever it stands.
///
/// # Errors
///
/// [`NOT_A_NUMBER`](crate::refusal::NOT_A_NUMBER), [`OUTSIDE_I64`](crate::refusal::OUTSIDE_I64),
/// [`OUTSIDE_EXACT`](crate::refusal::OUTSIDE_EXACT), [`TOO_LONG`](crate::refusal::TOO_LONG) and
/// [`NOT_UTF8`](crate::refusal::NOT_UTF8).
///
/// ```
/// use simmerpath::{parse_str_radix, Notation, Number};
///
/// assert_eq!(parse_str_radix("1.5e3")?, Number { value: 1500.0, notation: Notation::Decimal });
/// assert_eq!(parse_str_radix("-0x1F")?, Number { value: -31.0, notation: Notation::Hex });
/// assert_eq!(parse_str_radix("017")?, Number { value: 15.0, notation: Notation::Octal });
/// assert_eq!(parse_str_radix("1e23").unwrap_err().number(), 53);
/// # Ok::<(), simmerpath::Error>(())
/// ```
pub fn parse_str_radix<T: AsRef<[u8]> + ?Sized>(text: &T) -> Result<Number, Error> {
    parse_str_radix_in(text, Reading::Crate)
}

/// The number of a text in a reading. White space is dropped, wherever it stands, before it is judged where a `_` stands.
///
/// # Errors
///
/// Those of [`parse_str_radix`].
///
/// ```
/// use simmerpath::{parse_str_radix_in, Notation, Number, Reading};
///
/// let read = |text| parse_str_radix_in(text, Reading::Documented);
/// assert_eq!(read("1_000.5")?, Number { value: 1000.5, notation: Notation::Decimal });
/// assert_eq!(read("0x_ff")?, Number { value: 255.0, notation: Notation::Hex });
/// assert_eq!(read("1__000").unwrap_err().number(), 60);
/// assert_eq!(parse_str_radix_in("1_000.5", Reading::Crate).unwrap_err().number(), 60);
/// # Ok::<(), simmerpath::Error>(())
/// ```
pub fn parse_str_radix_in<T>(text: &T, reading: Reading) -> Result<Number, Error>
where
    T: AsRef<[u8]> + ?Sized,
{
    let text = text.as_ref();
    let mut bits = 0;
    let answer = ffi::parse_str_radix(text, reading.documented(), &mut bits);
    let notation = match result(answer, text)? {
        HEX => Notation::Hex,
        OCTAL => Notation::Octal,
        _ => Notation::Decimal,
    };
    let value = f64::from_bits(bits);
    Ok(Number { value, notation })
}
