//! The records of the reading of numbers.

use crate::filled;
use compare::oracle::number::{self, Notation, Number};
use compare::oracle::{separators, Answer};
use compare::texts::hex;
use compare::texts::numbers::{NO_WHITE_SPACE, WHITE_SPACE};

/// Lines written by hand: records in every form, and lines that are no record.
const BY_HAND: &[&str] = &[
    "number -",
    "number 31 0",
    "number 2D31",
    "number 31 18446744073709551616",
    "number",
    "number ",
    "number 3",
    "number 31 x",
    "numbers 31",
    "Number 31",
];

/// Decimals: their grammar, the exact range and both sides of its bounds, what is nearly a decimal; then hex and octal, with
/// their signs and bounds, and what is nearly such; then what is not UTF-8.
const TEXTS: &[&[u8]] = &[
    b"0",
    b"+0",
    b"-0",
    b"-0.0",
    b"0.",
    b".0",
    b"-0e9",
    b"0e8",
    b"0e999",
    b"-0.00e-999",
    b"1",
    b"-1",
    b"+15",
    b"5.",
    b".5",
    b"-1.5",
    b"1.50e1",
    b"1E+5",
    b"1e-5",
    b"01e8",
    b"08",
    b"-09",
    b"0.1",
    b"12345.6789",
    b"1e22",
    b"1e23",
    b"1e-22",
    b"1e-23",
    b"10e22",
    b"100e21",
    b"0.1e23",
    b"0.1e24",
    b"1000000000000000000000000",
    b"9007199254740991",
    b"9007199254740992",
    b"9007199254740993",
    b"-9007199254740994",
    b"9007199254740992e22",
    b"9007199254740992e-22",
    b"90071992547409920e-1",
    b"9007199254740993e-1",
    b"900719925474099.3e1",
    b"0.9007199254740993e16",
    b"9007199254740992.000",
    b"9.007199254740992e37",
    b"9.007199254740992e38",
    b"18446744073709551616",
    b"1e308",
    b"1e309",
    b"5e-324",
    b"1e99999999999999999999",
    b"1e-99999999999999999999",
    b"0e99999999999999999999",
    b"inf",
    b"+Inf",
    b"-INFINITY",
    b"infinity",
    b"NaN",
    b"+nan",
    b"-nan",
    b"in",
    b"infinit",
    b"infinityy",
    b"nan0",
    b".",
    b"+",
    b"-",
    b"+-1",
    b"--1",
    b"e5",
    b".e5",
    b"1e",
    b"1e+",
    b"1.2.3",
    b"1e5e5",
    b"1e5.",
    b"1_0",
    b"1f",
    b"5m",
    b"0x5",
    b"0X1F",
    b"-0xff",
    b"+0xABCDEF",
    b"0x-5",
    b"-0x-5",
    b"0x+5",
    b"-0x0",
    b"0x0000000000000000000000000000000000000001",
    b"0x1fffffffffffff",
    b"0x20000000000001",
    b"0x20000000000003",
    b"0x7ffffffffffffdff",
    b"0x7ffffffffffffe00",
    b"0x7fffffffffffffff",
    b"0x8000000000000000",
    b"0x-8000000000000000",
    b"0x-8000000000000001",
    b"-0x7fffffffffffffff",
    b"-0x8000000000000000",
    b"-0x-8000000000000000",
    b"-0x-7fffffffffffffff",
    b"0xfffffffffffffffffffffffffffffffff",
    b"0xfffffffffffffffffg",
    b"0x",
    b"0x-",
    b"0x--5",
    b"0x5x",
    b"0x1.8",
    b"0xg",
    b"00x5",
    b"5x",
    b"x",
    b"-+0x5",
    b"1x5",
    b"00",
    b"-00",
    b"+00",
    b"017",
    b"-017",
    b"0-5",
    b"0+5",
    b"-0-5",
    b"0-",
    b"0--5",
    b"0-8",
    b"018",
    b"0e5",
    b"0f",
    b"0777777777777777777777",
    b"01000000000000000000000",
    b"0-1000000000000000000000",
    b"-0-1000000000000000000000",
    b"0-1000000000000000000001",
    b"0 x 1 F",
    b"- 0",
    b"1 e 5",
    b"0 1 7",
    "\u{661}".as_bytes(),
    "1\u{2212}5".as_bytes(),
    "\u{130}nf".as_bytes(),
    b"\xff",
    b"1\xc2",
    b"\xe2\x80\x831\xe2\x80",
    b"0x\xed\xa0\x80",
];

/// Separators, so placed and not, in texts of each notation, with white space, signs and names.
const SEPARATED: &[&str] = &[
    "1_0",
    "1 _ 0",
    "1_0e1_0",
    "1.5_0",
    ".5_0",
    "-1_000.000_1",
    "0x_5",
    "-0x_5",
    "0x-5_0",
    "0X_1_f",
    "0_17",
    "0_8",
    "-0_0",
    "0-1_7",
    "9_007_199_254_740_992",
    "9_007_199_254_740_993",
    "1_0e2_3",
    "0x7fff_ffff_ffff_ffff",
    "0x8000_0000_0000_0000",
    "_1",
    "1_",
    "1__0",
    "1_.5",
    "1._5",
    "1_e5",
    "1e_5",
    "1e+_5",
    "0_x5",
    "0x-_5",
    "0x_-5",
    "0x_",
    "i_nf",
    "na_n",
    "_",
    "1_\u{e9}",
    "1\u{3000}_\u{3000}0",
    "1_000m",
];

/// The recorded lines.
pub fn inputs() -> Vec<String> {
    let mut lines: Vec<String> = BY_HAND.iter().map(|line| line.to_string()).collect();
    lines.extend(TEXTS.iter().map(|text| line(text)));
    let spaces = WHITE_SPACE.iter().chain(&NO_WHITE_SPACE);
    lines.extend(spaces.map(|space| line(format!("-1{space}5").as_bytes())));
    lines.extend(long().map(|text| line(text.as_bytes())));
    lines.extend(SEPARATED.iter().map(|text| line(text.as_bytes())));
    let documented = TEXTS
        .iter()
        .copied()
        .chain(SEPARATED.iter().map(|text| text.as_bytes()));
    lines.extend(documented.map(|text| format!("numberdoc {}", hex(text))));
    let digits = filled("1", "_1", "");
    lines.extend(
        [&digits, &format!("{digits}_1")].map(|text| format!("numberdoc {}", hex(text.as_bytes()))),
    );
    lines
}

/// The record of a text.
fn line(text: &[u8]) -> String {
    format!("number {}", hex(text))
}

/// Texts as long as the limit, and a byte longer: with many digits, with many zeros that an exponent makes up for, with a long
/// exponent, and white space.
fn long() -> [String; 9] {
    [
        filled("", "9", ""),
        filled("0.", "0", "1e250"),
        filled("1", "0", "e-251"),
        filled("1e", "9", ""),
        filled("1e-", "0", "22"),
        filled("-0x", "0", "ff"),
        filled("0", "\u{3000}", "17 "),
        filled("", " ", ""),
        filled("1", " ", "") + " ",
    ]
}

/// The answer to `number`.
pub fn number(text: &[u8]) -> String {
    told(number::number(text))
}

/// The answer to `numberdoc`.
pub fn numberdoc(text: &[u8]) -> String {
    told(separators::number(text))
}

/// The bits of a number and its notation.
fn told(number: Result<Number, Answer>) -> String {
    match number {
        Ok(number) => format!("ok {:016x} {}", number.bits, word(number.notation)),
        Err(refused) => refused.to_string(),
    }
}

/// The word for a notation.
fn word(notation: Notation) -> &'static str {
    match notation {
        Notation::Decimal => "decimal",
        Notation::Hex => "hex",
        Notation::Octal => "octal",
    }
}
