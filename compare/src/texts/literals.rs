//! String literals, and texts that are nearly such.

use super::{character, cut_characters, of_length, replaced, sequences, short, table_ends};
use crate::oracle::MOST_BYTES;
use crate::random::Random;
use std::iter;

/// The signs that a literal may stand between, and how often a random one does.
const SIGNS: [u8; 3] = *b"\"'`";
const OFTEN: &[u8] = b"\"\"''`";

/// What literals are made of: the signs; escapes that are whole, cut short, wrong, and at both sides of each bound; what goes
/// on with one that is cut short; control characters, and characters of each length.
const PIECES: [&str; 59] = [
    "\"",
    "'",
    "`",
    "\\",
    "\\\\",
    "\\\"",
    "\\'",
    "\\`",
    "\\a",
    "\\n",
    "\\c",
    "\\8",
    "\\é",
    "\\x41",
    "\\x7f",
    "\\x80",
    "\\xff",
    "\\xFf",
    "\\x",
    "\\x4",
    "\\xg",
    "\\000",
    "\\177",
    "\\200",
    "\\251",
    "\\303",
    "\\377",
    "\\400",
    "\\777",
    "\\0",
    "\\00",
    "\\08",
    "\\u0041",
    "\\ud7ff",
    "\\ud800",
    "\\udfff",
    "\\ue000",
    "\\uFFFF",
    "\\u",
    "\\u004",
    "\\U00000041",
    "\\U0000d800",
    "\\U0010ffff",
    "\\U00110000",
    "\\Uffffffff",
    "\\U",
    "\\U0010fff",
    "0",
    "7",
    "8",
    "a",
    "g",
    "n",
    "\n",
    "\r",
    "\0",
    "é",
    "€",
    "\u{10ffff}",
];

/// The most pieces of a random literal.
const MOST_PIECES: usize = 40;

/// What may stand alone behind a backslash, beside the sign.
const LETTERS: &[u8] = b"abfnrtv\\";

/// Characters that mean something in a literal or behind a backslash, and some that do not.
const COMMON: &[u8] = b"\"'`\\\n\r\0 0789abfnrtvxuUAFG";

/// A text between two of a sign.
pub fn quoted(sign: u8, text: &[u8]) -> Vec<u8> {
    [&[sign], text, &[sign]].concat()
}

/// A text between each of the signs.
fn between_signs(text: Vec<u8>) -> [Vec<u8>; 3] {
    SIGNS.map(|sign| quoted(sign, &text))
}

/// Every literal of at most three pieces; every text of at most two bytes, and of three with `a` in the middle; escapes with
/// every byte and every value; texts that are not UTF-8; literals at the limit.
pub fn fixed() -> impl Iterator<Item = Vec<u8>> {
    let pieces = sequences(&PIECES, 3).map(|pieces| pieces.concat().into_bytes());
    let not_utf8 = table_ends().into_iter().chain(cut_characters());
    let texts = pieces.chain(behind_backslash()).chain(not_utf8);
    short()
        .chain(framed())
        .chain(texts.flat_map(between_signs))
        .chain(byte_escapes())
        .chain(code_escapes())
        .chain(long())
}

/// Every byte behind a backslash, with as many digits behind it as each escape has, and with none.
fn behind_backslash() -> impl Iterator<Item = Vec<u8>> {
    let digits = [&b""[..], b"41", b"0041", b"00000041"];
    (0..=u8::MAX).flat_map(move |byte| digits.map(|digits| [b"\\", &[byte][..], digits].concat()))
}

/// Every first and last byte with one between them.
fn framed() -> impl Iterator<Item = Vec<u8>> {
    let pairs = (0..=u16::MAX).map(u16::to_be_bytes);
    pairs.map(|[first, last]| vec![first, b'a', last])
}

/// Every two bytes behind `\x`, and every two ASCII characters behind each digit.
fn byte_escapes() -> impl Iterator<Item = Vec<u8>> {
    let pairs = (0..=u16::MAX).map(u16::to_be_bytes);
    let hex = pairs.clone().map(|pair| [b"\\x", &pair[..]].concat());
    let ascii = pairs.filter(|pair| pair.is_ascii());
    let octal = ascii
        .flat_map(|pair| (b'0'..=b'9').map(move |digit| [&[b'\\', digit], &pair[..]].concat()));
    hex.chain(octal).map(|escape| quoted(b'"', &escape))
}

/// Every number of four digits behind `\u`, in lower and upper case, and numbers of eight behind `\U`: some of each plane and
/// above, and those around each power of two.
fn code_escapes() -> impl Iterator<Item = Vec<u8>> {
    let four = (0..=u16::MAX).flat_map(|code| {
        let cases = [format!("\\u{code:04x}"), format!("\\u{code:04X}")];
        cases.map(|escape| quoted(b'"', escape.as_bytes()))
    });
    let around = (0..u32::BITS).flat_map(|bit| [(1 << bit) - 1, 1 << bit, (1 << bit) + 1]);
    let some = (0..=0x11_ffff).step_by(0x101).chain(around);
    let eight = some.map(|code: u32| quoted(b'\'', format!("\\U{code:08x}").as_bytes()));
    four.chain(eight)
}

/// Literals of some hundred bytes, of some thousand, and as long as the limit, nearly and more: without escapes, all escapes, and
/// with mistakes.
fn long() -> impl Iterator<Item = Vec<u8>> {
    let lengths = (127..=130)
        .chain(4095..=4098)
        .chain(MOST_BYTES - 3..=MOST_BYTES);
    lengths.flat_map(|length| {
        let plain = of_length(length);
        let escapes = ["\\n", "\\xff", "\\U0010ffff"].map(|escape| {
            let mut text = escape.repeat(plain.len() / escape.len()).into_bytes();
            text.resize(plain.len(), b'a');
            text
        });
        let mistakes = mistaken(&plain);
        iter::once(plain)
            .chain(escapes)
            .chain(mistakes)
            .flat_map(between_signs)
    })
}

/// A text with a mistake in its last byte, and with one in its middle and another behind that.
fn mistaken(plain: &[u8]) -> Vec<Vec<u8>> {
    let (half, end) = (plain.len() / 2, plain.len() - 1);
    let last = [&b"\\"[..], b"\n", b"\xff"].map(|piece| replaced(plain, end..end + 1, piece));
    let middle = (half..end).find(|&at| plain[at].is_ascii()).unwrap_or(end);
    let pieces = [&b"\\q"[..], b"\\n\\", b"\"", b"'", b"`", b"\n"];
    let twice = last
        .iter()
        .flat_map(|text| pieces.map(|piece| replaced(text, middle..middle + 1, piece)));
    twice.chain(last.clone()).collect()
}

/// Random literals without end.
pub fn random(seed: u64) -> impl Iterator<Item = Vec<u8>> {
    let mut random = Random::new(seed);
    iter::repeat_with(move || literal(&mut random))
}

/// A literal of few pieces or many. One in four has no escape; one in four may be bad: a piece of any kind is put in, or a byte
/// is put in, changed or removed.
pub(super) fn literal(random: &mut Random) -> Vec<u8> {
    let sign = random.one_of(OFTEN);
    let most = random.one_of(&[3, MOST_PIECES]);
    let plain = random.below(4) == 0;
    let mut pieces: Vec<Vec<u8>> = (0..random.below(most + 1))
        .map(|_| piece(random, sign, plain))
        .collect();
    let wrong = random.below(16);
    if wrong < 3 {
        let place = random.below(pieces.len() + 1);
        pieces.insert(place, random.one_of(&PIECES).into());
    }
    let literal = quoted(sign, &pieces.concat());
    match wrong {
        3 => spoiled(random, &literal),
        _ => literal,
    }
}

/// A piece that may stand between two of a sign; a plain one is no escape.
fn piece(random: &mut Random, sign: u8, plain: bool) -> Vec<u8> {
    let plain = plain || random.below(3) == 0;
    match sign {
        _ if !plain => escape(random, sign),
        b'`' => bare(random, b"`"),
        _ => bare(random, &[sign, b'\\', b'\n']),
    }
}

/// A character that is none of some.
fn bare(random: &mut Random, but: &[u8]) -> Vec<u8> {
    let common = char::from(random.one_of(COMMON));
    let any = character(random);
    let chosen = random.one_of(&[common, any]).to_string().into_bytes();
    if chosen.iter().any(|byte| but.contains(byte)) {
        return b"a".to_vec();
    }
    chosen
}

/// An escape that may stand between two of a sign.
fn escape(random: &mut Random, sign: u8) -> Vec<u8> {
    let byte = random.byte();
    let code = u32::from(character(random));
    let letter = char::from(random.one_of(LETTERS));
    let escape = match random.below(6) {
        0 => format!("\\{letter}"),
        1 if sign != b'`' => format!("\\{}", char::from(sign)),
        2 => format!("\\x{byte:02x}"),
        3 => format!("\\{byte:03o}"),
        4 if code <= 0xffff => format!("\\u{code:04x}"),
        _ => format!("\\U{code:08X}"),
    };
    escape.into_bytes()
}

/// The literal with a byte put in, changed or removed.
fn spoiled(random: &mut Random, literal: &[u8]) -> Vec<u8> {
    let place = random.below(literal.len());
    let end = place + random.below(2);
    let byte = &[random.byte()][..];
    let bytes = random.one_of(&[&[][..], byte, b"\\"]);
    replaced(literal, place..end, bytes)
}
