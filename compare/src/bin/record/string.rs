//! The records of the functions on strings.

use compare::oracle::go::documented;
use compare::oracle::literal::Literal;
use compare::oracle::string::{self, escaped};
use compare::oracle::{Answer, MOST_BYTES, NO_ROOM};
use compare::texts::literals::quoted;
use compare::texts::{hex, of_length};
use std::iter;

/// Lines written by hand: records in every form, and lines that are no record.
const BY_HAND: &[&str] = &[
    "escape -",
    "escape - 0",
    "escape 5C",
    "escape 5c 18446744073709551615",
    "escape 5c 18446744073709551616",
    "escape",
    "escape ",
    "escape 5",
    "escape 5c 2 ",
    "escapes 5c",
    "unquote -",
    "unquote - 0",
    "unquote 225C6E22",
    "unquote 225c6e22 18446744073709551615",
    "unquote 225c6e22 18446744073709551616",
    "unquote",
    "unquote ",
    "unquote 222",
    "unquote 2222 x",
    "unquoted 2222",
    "Unquote 2222",
    "unquotedoc 225C6E22",
    "unquotedoc 225c6e22 1 ",
    "unquotedoc",
    "unquotedoc 222",
    "unquotedocs 2222",
    "unquoteDoc 2222",
];

/// Texts to escape.
const TEXTS: &[&[u8]] = &[
    b"",
    b"a",
    b"\\",
    b"\"",
    b"\n",
    b"\r",
    b"\t",
    b"'",
    b"`",
    b"\0",
    b"\x08\x0b\x0c",
    b"\x1f !#\x7f",
    b"n r t",
    b"\\n",
    b"\\\\\"\"",
    b"say \"no\"\r\n\tor 'C:\\new'",
    "\u{e9}\u{20ac}\u{10ffff}".as_bytes(),
    "\\\u{e9}\"\u{20ac}\n".as_bytes(),
    "\u{85}\u{a0}\u{2028}".as_bytes(),
    b"\xff",
    b"\"\xff\"",
    b"\xc3\xa9\xc3",
    b"\xed\xa0\x80",
];

/// Texts to escape in several rooms.
const TEXTS_IN_ROOMS: &[&[u8]] = &[b"", b"a", b"\\", b"a\"b", b"\xc3\xa9\n", b"\xff"];

/// Literals, each for both readings: what is none, then without escapes, between backquotes, with each escape, and with what
/// is nearly one.
const LITERALS: &[&[u8]] = &[
    b"\"",
    b"'",
    b"`",
    b"a",
    b"aa",
    b"aba",
    b"\"a",
    b"a\"",
    b"\"a'",
    b"'a`",
    b"`a\"",
    b" \"a\"",
    b"\"a\" ",
    b"\"\xff\"",
    b"\"\xc3\xa9\\\xc3\"",
    b"\xc3\xa9",
    b"\"\"",
    b"''",
    b"``",
    b"\"a\"",
    b"'ab'",
    b"\"a'b`c\"",
    b"'a\"b`c'",
    b"\"\0\t\r\x7f\"",
    "'\u{e9}\u{20ac}\u{10ffff}'".as_bytes(),
    b"\"\"\"",
    b"'''",
    b"\"a\"b\"",
    b"\"\n\"",
    b"'a\n'",
    b"`a\"b'c`",
    b"`\\`",
    b"`\\n\\x41`",
    b"`\\q`",
    "`\\\u{e9}`".as_bytes(),
    b"`a\r\nb`",
    b"`\r`",
    b"```",
    b"`\\``",
    b"\"\\a\\b\\f\\n\\r\\t\\v\\\\\\\"\"",
    b"'\\a\\b\\f\\n\\r\\t\\v\\\\\\''",
    b"\"\\\"",
    b"'\\'",
    b"\"\\\\\"",
    b"\"\\\\\\\"",
    b"\"\\\"\\\"\"",
    b"\"\\'\"",
    b"'\\\"'",
    b"\"\\`\"",
    b"\"\\\n\"",
    b"\"\\n\n\"",
    b"\"\\0\"",
    b"\"\\c\"",
    b"\"\\A\"",
    b"\"\\ \"",
    b"\"\\8\"",
    b"\"\\X41\"",
    b"\"\\\0\"",
    "\"\\\u{e9}\"".as_bytes(),
    "'a\\\u{10ffff}'".as_bytes(),
    "\"\\\\\u{e9}\"".as_bytes(),
    "\"\\c\\\u{e9}\"".as_bytes(),
    b"\"\\x00\\x41\\x7f\"",
    b"\"\\x80\"",
    b"\"\\xff\"",
    b"'\\xFf\\xfF'",
    b"\"\\xc3\\xa9\"",
    b"\"\\x\"",
    b"\"\\x4\"",
    b"\"\\x4g\"",
    b"\"\\xg4\"",
    b"\"\\x414\"",
    "\"\\x\u{e9}\"".as_bytes(),
    b"\"\\000\\101\\177\"",
    b"\"\\200\"",
    b"\"\\377\"",
    b"\"\\303\\251\"",
    b"'\\303\\251'",
    b"\"\\400\"",
    b"\"\\777\"",
    b"\"\\00\"",
    b"\"\\08\"",
    b"\"\\1234\"",
    b"\"\\u0000\\u0041\\u00e9\"",
    b"\"\\u20AC\\uffff\"",
    b"\"\\ud7ff\\ue000\"",
    b"\"\\ud800\"",
    b"\"\\udfff\"",
    b"\"\\ud83d\\ude00\"",
    b"\"\\u\"",
    b"\"\\u004\"",
    b"\"\\u004g\"",
    b"\"\\U00000041\\U0001f600\"",
    b"'\\U0010ffff\\U0010FFFF'",
    b"\"\\U00110000\"",
    b"\"\\U0000d800\"",
    b"\"\\Uffffffff\"",
    b"\"\\U100000041\"",
    b"\"\\U\"",
    b"\"\\U0000004\"",
    "\"\u{e9}\\u00e9\u{20ac}\\xe9\\351\"".as_bytes(),
];

/// Bad literals, each for both readings: those of which document 02's request tells the place, then others with several mistakes, or
/// with longer characters before the first.
const FAULTS: &[&[u8]] = &[
    b"\"\\\"",
    b"\"a\"b\"",
    b"\"\\q\\n\"",
    b"\"\\q\n\"",
    b"`a`b`",
    b"\"\\400\"",
    b"\"\\x8\"",
    "\"\u{e9}".as_bytes(),
    b"a\"",
    b"aa",
    "\"\u{e9}\\q\"".as_bytes(),
    b"\"a\"\\q\"",
    b"\"\\q\"a\"",
    b"\"\\n\\\"\\\\\"a\"",
    b"'\\'\\\"'",
    b"'\"\\n\\u12g4\\q'",
    b"\"a\"\n\"",
    b"'\n\n\\'",
    b"`\n\\q``a`",
    "\"\u{e9}\u{20ac}\\\u{10ffff}\"".as_bytes(),
    "'\u{10ffff}\\'\u{e9}'\u{20ac}'".as_bytes(),
    "`\u{20ac}\\\u{e9}`\u{e9}`".as_bytes(),
    "\"\u{e9}\\q\u{20ac}\n\u{e9}\n\"".as_bytes(),
    "\"\u{e9}\u{20ac}'".as_bytes(),
    "\"a\u{10ffff}".as_bytes(),
    "\u{e9}a\u{e9}".as_bytes(),
    "\u{e9}\"\"".as_bytes(),
];

/// Literals to read in several rooms: without escapes, with some, and bad ones.
const LITERALS_IN_ROOMS: &[&[u8]] = &[
    b"\"\"",
    b"\"abc\"",
    b"`\\n`",
    b"\"\\n\"",
    b"'ab\\''",
    b"\"\\xff\"",
    b"\"\\303\\251\"",
    b"\"\\U0010ffff\"",
    b"\"\\c\"",
    b"\xff",
];

/// The operations that read a literal.
const READINGS: [&str; 2] = ["unquote", "unquotedoc"];

/// The recorded lines.
pub fn inputs() -> Vec<String> {
    let mut lines: Vec<String> = BY_HAND.iter().map(|line| line.to_string()).collect();
    lines.extend(TEXTS.iter().map(|text| line("escape", text)));
    for text in TEXTS_IN_ROOMS {
        let needed = escaped(text).map_or(0, |escaped| escaped.len());
        lines.extend(in_rooms("escape", text, needed));
    }
    for literal in LITERALS.iter().chain(FAULTS) {
        lines.extend(READINGS.map(|operation| line(operation, literal)));
    }
    for literal in LITERALS_IN_ROOMS {
        let needed = string::literal(literal).needed();
        lines.extend(
            READINGS
                .iter()
                .flat_map(|operation| in_rooms(operation, literal, needed)),
        );
    }
    lines.extend(long());
    lines
}

/// The record of an operation on these bytes.
fn line(operation: &str, bytes: &[u8]) -> String {
    format!("{operation} {}", hex(bytes))
}

/// The records that name a room: each that is too little for so many bytes, just enough, and one more.
fn in_rooms(operation: &str, bytes: &[u8], needed: usize) -> Vec<String> {
    let line = line(operation, bytes);
    (0..=needed + 1)
        .map(|room| format!("{line} {room}"))
        .collect()
}

/// A literal as long as the limit with an escape, and with a bad one at its end; and a literal and a text of a byte more.
fn long() -> [String; 4] {
    let text = of_length(MOST_BYTES + 1);
    let longest = [b"\\n", &text[..MOST_BYTES - 4]].concat();
    let mistaken = [&text[..MOST_BYTES - 3], b"\\"].concat();
    [
        line("unquote", &quoted(b'"', &longest)),
        line("unquotedoc", &quoted(b'\'', &text[..MOST_BYTES - 1])),
        line("unquotedoc", &quoted(b'"', &mistaken)),
        line("escape", &text),
    ]
}

/// The answer to `escape`: a text, escaped.
pub fn escape(text: &[u8], room: u64) -> String {
    match escaped(text) {
        Ok(escaped) if escaped.len() as u64 > room => Answer::refused(NO_ROOM).to_string(),
        Ok(escaped) => ok(escaped.as_bytes()),
        Err(refused) => refused.to_string(),
    }
}

/// The answer to `unquote`: what a literal stands for in the crate reading.
pub fn unquote(literal: &[u8], room: u64) -> String {
    read(&string::literal(literal), room)
}

/// The answer to `unquotedoc`: what it stands for in the documented reading.
pub fn unquotedoc(literal: &[u8], room: u64) -> String {
    let asked = documented(iter::once(literal.to_vec()));
    asked
        .map(|literal| read(&literal.literal(), room))
        .collect()
}

/// The text of a literal.
fn read(literal: &Literal, room: u64) -> String {
    match literal.text(room) {
        Ok(text) => ok(text),
        Err(refused) => refused.to_string(),
    }
}

/// A text.
fn ok(text: &[u8]) -> String {
    format!("ok {}", hex(text))
}
