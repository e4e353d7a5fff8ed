//! The records of the UTF-8 functions.

use compare::oracle::utf8::Text;
use compare::oracle::MOST_BYTES;
use compare::texts::{self, hex};

/// The examples of RFC 3629: those of its section 7, then the bad ones of its section 10.
const RFC_3629: &[&[u8]] = &[
    b"\x41\xe2\x89\xa2\xce\x91\x2e",
    b"\xed\x95\x9c\xea\xb5\xad\xec\x96\xb4",
    b"\xe6\x97\xa5\xe6\x9c\xac\xe8\xaa\x9e",
    b"\xef\xbb\xbf\xf0\xa3\x8e\xb4",
    b"\xc0\x80",
    b"\x2f\xc0\xae\x2e\x2f",
];

/// Lines written by hand: records in every form, and lines that are no record.
const BY_HAND: &[&str] = &[
    "utf8 -",
    "utf8 - 0",
    "utf8 41",
    "utf8 41 5",
    "utf8 41 007",
    "utf8 41 18446744073709551615",
    "utf8 41 00000000000000000000000000000000000000018446744073709551615",
    "utf8 C3A9",
    "utf8 c3A9",
    "utf8 C3",
    "",
    " ",
    "-",
    "utf8",
    "utf8 ",
    " utf8 41",
    "utf8 41 ",
    "utf8  41",
    "utf8 41  5",
    "utf8 41 5 ",
    "utf8 41 5 6",
    "utf8\t41",
    "utf8 41\t5",
    "utf8 41\r",
    "utf8 4",
    "utf8 414",
    "utf8 4g",
    "utf8 g4",
    "utf8 0x41",
    "utf8 --",
    "utf8 -41",
    "utf8 41-",
    "utf8 é",
    "utf8 41 -",
    "utf8 41 +5",
    "utf8 41 5x",
    "utf8 41 x",
    "utf8 41 18446744073709551616",
    "utf8 41 99999999999999999999999999999999999999999",
    "Utf8 41",
    "utf9 41",
    "utf-8 41",
];

/// The seed and the number of the generated texts.
const GENERATED: (u64, usize) = (3629, 400);

/// The recorded lines.
pub fn inputs() -> Vec<String> {
    let (seed, count) = GENERATED;
    let mut texts: Vec<Vec<u8>> = RFC_3629.iter().map(|text| text.to_vec()).collect();
    texts.extend(texts::table_ends());
    texts.extend(texts::cut_characters());
    texts.extend(texts::random(seed).take(count));
    texts.extend([MOST_BYTES, MOST_BYTES + 1].map(texts::of_length));
    let records = texts.iter().map(|text| format!("utf8 {}", hex(text)));
    let by_hand = BY_HAND.iter().map(|line| line.to_string());
    by_hand.chain(records).collect()
}

/// The answer to `utf8`: how many characters a text has.
pub fn utf8(text: &[u8]) -> String {
    Text::new(text).validate().to_string()
}
