//! The records of the token layer.

use compare::oracle::token::{self, words};
use compare::oracle::{Answer, NO_ROOM};
use compare::texts::hex;
use compare::texts::words::cased;

/// Lines written by hand: records in every form, and lines that are no record.
const BY_HAND: &[&str] = &[
    "keyword -",
    "keyword 73756d 0",
    "keyword 73756D",
    "keyword",
    "keyword ",
    "keyword 7",
    "keyword 73756d x",
    "keywords 73756d",
    "Keyword 73756d",
    "display 3230",
    "display 303230",
    "display 303030303030303030303030303030303030303030303230",
    "display 3230 18446744073709551615",
    "display 3230 18446744073709551616",
    "display -",
    "display - 0",
    "display 3635353336",
    "display 3635353536",
    "display 3138343436373434303733373039353531363136",
    "display 2d31",
    "display 2b3230",
    "display 203230",
    "display 323020",
    "display 32302e30",
    "display 30783134",
    "display 2b",
    "display d9a2",
    "display ff",
    "display",
    "display 20",
    "label - 0",
    "label 61 0",
    "label",
    "label 6",
    "labels 61",
];

/// Words that are none of the table.
const NO_WORDS: &[&[u8]] = &[
    b" ",
    b"sum ",
    b" sum",
    b"sum\0",
    b"sum_",
    b"sum:",
    b"_sum",
    b":",
    b"sumavg",
    b"count values",
    b"count-values",
    b"countvalues",
    b"group_",
    b"fill_up",
    b"atan",
    b"atan22",
    b"step",
    b"infinity",
    b"+inf",
    b"{ID}",
    b"unknown token",
    b"operators_start",
    b"\xff",
    b"sum\xff",
    b"\x80sum",
    b"to\xe2\x84",
    "s\u{fc}m".as_bytes(),
    "\u{17f}um".as_bytes(),
    "l\u{130}m\u{130}tk".as_bytes(),
    "top\u{212a}".as_bytes(),
    b"a_word_that_is_longer_than_any_of_the_words_in_the_table",
];

/// Labels, and texts that are nearly labels.
const LABELS: &[&[u8]] = &[
    b"",
    b"_",
    b"a",
    b"z",
    b"A",
    b"Z",
    b"__name__",
    b"le",
    b"sum",
    b"a1",
    b"_1",
    b"job_0123456789_JOB",
    b"abcdefghijklmnopqrstuvwxyzABCDEFGHIJKLMNOPQRSTUVWXYZ",
    b"0",
    b"9",
    b"1a",
    b":",
    b"a:",
    b":a",
    b"job:rate",
    b" ",
    b" a",
    b"a ",
    b"a b",
    b"a\n",
    b"\0",
    b"a\0",
    b"a-b",
    b"a.b",
    b"a/",
    b"a@",
    b"a[",
    b"a^",
    b"a`",
    b"a{",
    b"@",
    b"[",
    b"`",
    b"{",
    b"\x7f",
    b"a\x7f",
    b"\x80",
    b"a\x80",
    b"\xff",
    b"a\xff",
    b"a\xffb",
    b"a\xe2\x84",
    "\u{e9}".as_bytes(),
    "a\u{e9}".as_bytes(),
    "\u{e9}a".as_bytes(),
    "a\u{212a}".as_bytes(),
    "a\u{661}".as_bytes(),
];

/// The kinds with a display text that is asked for in several rooms.
const IN_ROOMS: [u16; 8] = [0, 2, 19, 20, 26, 50, 72, 65_535];

/// The recorded lines.
pub fn inputs() -> Vec<String> {
    let mut lines: Vec<String> = BY_HAND.iter().map(|line| line.to_string()).collect();
    let near = words().into_iter().flat_map(near);
    let no_words = NO_WORDS.iter().map(|word| word.to_vec());
    lines.extend(
        near.chain(no_words)
            .map(|word| format!("keyword {}", hex(&word))),
    );
    lines.extend((0..=100).chain([1000, 65_535]).map(display_line));
    lines.extend(IN_ROOMS.iter().flat_map(|&kind| in_rooms(kind)));
    let long = "long_".repeat(200);
    let labels = LABELS.iter().copied().chain([long.as_bytes()]);
    lines.extend(labels.map(|label| format!("label {}", hex(label))));
    lines
}

/// A word in each case, with its last letter less, and with one more.
fn near(word: &str) -> Vec<Vec<u8>> {
    let less = word[..word.len() - 1].into();
    let more = format!("{word}s").into();
    cased(word).into_iter().chain([less, more]).collect()
}

/// The record that asks for the display text of a kind.
fn display_line(kind: u16) -> String {
    format!("display {}", hex(kind.to_string().as_bytes()))
}

/// The records that ask for it where there is no room, one byte too little, just enough, and one more.
fn in_rooms(kind: u16) -> Vec<String> {
    let length = token::display(kind).len();
    let mut rooms = vec![0, length - 1, length, length + 1];
    rooms.dedup();
    rooms
        .iter()
        .map(|room| format!("{} {room}", display_line(kind)))
        .collect()
}

/// The answer to `keyword`: the kind of a word.
pub fn keyword(word: &[u8]) -> String {
    token::keyword(word).map_or("none".to_string(), |kind| format!("ok {kind}"))
}

/// The answer to `display`: the display text of a kind and its classes.
pub fn display(kind: u16, room: u64) -> String {
    let text = token::display(kind).as_bytes();
    if (text.len() as u64) > room {
        return Answer::refused(NO_ROOM).to_string();
    }
    let flags = token::classes(kind)
        .map(u8::from)
        .map(|flag| flag.to_string());
    format!("ok {} {}", hex(text), flags.concat())
}

/// The answer to `label`: whether a text is one.
pub fn label(text: &[u8]) -> String {
    token::label_number(text).to_string()
}
