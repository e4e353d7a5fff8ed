//! The texts that the functions are compared on, and that the replay's records are made of.

use crate::oracle::MOST_BYTES;
use crate::random::Random;
use std::collections::BTreeSet;
use std::iter;
use std::ops::Range;

pub mod durations;
pub mod escapes;
pub mod literals;
pub mod numbers;
pub mod queries;
pub mod words;

/// The bytes on both sides of each end of a range of RFC 3629's table, and a letter.
const TELLING: [u8; 25] = [
    0x00, 0x41, 0x7f, 0x80, 0x8f, 0x90, 0x9f, 0xa0, 0xbf, 0xc0, 0xc1, 0xc2, 0xdf, 0xe0, 0xe1, 0xec,
    0xed, 0xee, 0xef, 0xf0, 0xf1, 0xf3, 0xf4, 0xf5, 0xff,
];

/// RFC 3629's table: for each kind of character, the first and the last value of each of its bytes.
const TABLE: [&[(u8, u8)]; 9] = [
    &[(0x00, 0x7f)],
    &[(0xc2, 0xdf), TAIL],
    &[(0xe0, 0xe0), (0xa0, 0xbf), TAIL],
    &[(0xe1, 0xec), TAIL, TAIL],
    &[(0xed, 0xed), (0x80, 0x9f), TAIL],
    &[(0xee, 0xef), TAIL, TAIL],
    &[(0xf0, 0xf0), (0x90, 0xbf), TAIL, TAIL],
    &[(0xf1, 0xf3), TAIL, TAIL, TAIL],
    &[(0xf4, 0xf4), (0x80, 0x8f), TAIL, TAIL],
];

/// The bytes that go on with a character where the table says nothing else.
const TAIL: (u8, u8) = (0x80, 0xbf);

/// Characters of each length: its first, two others, its last. Those of three bytes stand on both sides of the surrogates.
const EDGES: [[char; 4]; 4] = [
    ['\0', ' ', 'A', '\x7f'],
    ['\u{80}', '\u{bf}', '\u{7c0}', '\u{7ff}'],
    ['\u{800}', '\u{d7ff}', '\u{e000}', '\u{ffff}'],
    ['\u{10000}', '\u{3ffff}', '\u{100000}', '\u{10ffff}'],
];

/// Every text of at most two bytes.
fn short() -> impl Iterator<Item = Vec<u8>> {
    let one = (0..=u8::MAX).map(|byte| vec![byte]);
    let two = (0..=u16::MAX).map(|pair| pair.to_be_bytes().to_vec());
    iter::once(Vec::new()).chain(one).chain(two)
}

/// Every text of at most four telling bytes.
pub fn exhaustive() -> impl Iterator<Item = Vec<u8>> {
    sequences(&TELLING, 4)
}

/// Every sequence of at most so many pieces.
fn sequences<T: Copy>(pieces: &'static [T], most: u32) -> impl Iterator<Item = Vec<T>> {
    (0..=most).flat_map(move |length| {
        (0..pieces.len().pow(length)).map(move |number| {
            let digit = |place| number / pieces.len().pow(place) % pieces.len();
            (0..length).map(|place| pieces[digit(place)]).collect()
        })
    })
}

/// The ends of each range of the table, and the values next to them, with the other bytes least or greatest.
pub fn table_ends() -> BTreeSet<Vec<u8>> {
    let mut texts = BTreeSet::new();
    for row in TABLE {
        let least: Vec<u8> = row.iter().map(|range| range.0).collect();
        let greatest: Vec<u8> = row.iter().map(|range| range.1).collect();
        for (place, &(first, last)) in row.iter().enumerate() {
            for end in [first.wrapping_sub(1), first, last, last.wrapping_add(1)] {
                texts.insert(replaced(&least, place..place + 1, &[end]));
                texts.insert(replaced(&greatest, place..place + 1, &[end]));
            }
        }
    }
    texts
}

/// Every beginning of the last character of each length: alone, after another character, and before one.
pub fn cut_characters() -> Vec<Vec<u8>> {
    let mut texts = Vec::new();
    for edges in EDGES {
        let whole = edges[3].to_string().into_bytes();
        for length in 1..=whole.len() {
            let cut = &whole[..length];
            texts.extend([
                cut.to_vec(),
                ["é".as_bytes(), cut].concat(),
                [cut, b"A"].concat(),
            ]);
        }
    }
    texts
}

/// A text of `length` bytes: characters of every length in turn, then as many `A` as are missing.
pub fn of_length(length: usize) -> Vec<u8> {
    let turn: String = EDGES.iter().map(|edges| edges[1]).collect();
    let mut text = turn.repeat(length / turn.len()).into_bytes();
    text.resize(length, b'A');
    text
}

/// Texts as long as the limit, nearly and more, whole and with a byte that is wrong.
pub fn long() -> impl Iterator<Item = Vec<u8>> {
    (MOST_BYTES - 1..=MOST_BYTES + 2).flat_map(|length| {
        let whole = of_length(length);
        let places = [0, 1, length / 2, length - 4, length - 1];
        let broken = places.map(|place| replaced(&whole, place..place + 1, &[0xf0]));
        iter::once(whole.clone()).chain(broken)
    })
}

/// Random texts without end: rounds of random bytes, telling bytes, a text of UTF-8, and that text spoiled.
pub fn random(seed: u64) -> impl Iterator<Item = Vec<u8>> {
    let mut random = Random::new(seed);
    iter::repeat_with(move || round(&mut random)).flatten()
}

/// One round of random texts.
fn round(random: &mut Random) -> Vec<Vec<u8>> {
    let mut texts = Vec::new();
    for _ in 0..4 {
        let length = random.below(17);
        texts.push((0..length).map(|_| random.byte()).collect());
        texts.push((0..length).map(|_| random.one_of(&TELLING)).collect());
    }
    let well_formed = well_formed(random);
    spoil(&well_formed, random, &mut texts);
    texts.push(well_formed);
    texts
}

/// A text of UTF-8 with characters of every length; one in 64 is longer than the others.
fn well_formed(random: &mut Random) -> Vec<u8> {
    let most = if random.below(64) == 0 { 100 } else { 8 };
    let count = 1 + random.below(most);
    let text: String = (0..count).map(|_| character(random)).collect();
    text.into_bytes()
}

/// A character, of each length as often; one in four is an edge.
fn character(random: &mut Random) -> char {
    let edges = random.one_of(&EDGES);
    if random.below(4) == 0 {
        return random.one_of(&edges);
    }
    let (first, last) = (u32::from(edges[0]), u32::from(edges[3]));
    let code = first + random.below((last - first + 1) as usize) as u32;
    char::from_u32(code).unwrap_or(edges[2])
}

/// Adds the text cut short, and with one byte changed, removed and put in, at each of its places.
fn spoil(text: &[u8], random: &mut Random, texts: &mut Vec<Vec<u8>>) {
    for place in 0..text.len() {
        let byte = random.one_of(&TELLING);
        texts.push(text[..place].to_vec());
        texts.push(replaced(text, place..place + 1, &[byte]));
        texts.push(replaced(text, place..place + 1, &[]));
        texts.push(replaced(text, place..place, &[byte]));
    }
}

/// The text with a separator between any two digits; where it has an `x`, between any two of hex, and behind the `x`.
fn grouped(text: &str) -> String {
    let is_hex = text.contains(&['x', 'X'][..]);
    let is_digit = |c: char| c.is_ascii_digit() || is_hex && c.is_ascii_hexdigit();
    let mut grouped = String::new();
    for c in text.chars() {
        if is_digit(c) && grouped.ends_with(|c| is_digit(c) || matches!(c, 'x' | 'X')) {
            grouped.push('_');
        }
        grouped.push(c);
    }
    grouped
}

/// The text with separators at random places: many between two digits, few next to an `e` and behind the last digit.
fn separated(random: &mut Random, text: &[u8]) -> Vec<u8> {
    let often = 1 + random.below(4);
    let mut separated: Vec<u8> = Vec::new();
    for &byte in text {
        let pair = [separated.last().copied().unwrap_or(b' '), byte];
        let rarity = match pair.map(|byte| byte.to_ascii_lowercase()) {
            [b'e', b'0'..=b'9'] | [b'0'..=b'9', b'e'] => 16,
            [b'0'..=b'9' | b'a'..=b'f' | b'x', b'0'..=b'9' | b'a'..=b'f'] => often,
            [b'0'..=b'9' | b'a'..=b'f' | b'x', 0..=0x7f] => 64,
            _ => usize::MAX,
        };
        if random.below(rarity) == 0 {
            separated.push(b'_');
        }
        separated.push(byte);
    }
    separated
}

/// The text with other bytes in the place of a part.
pub fn replaced(text: &[u8], part: Range<usize>, bytes: &[u8]) -> Vec<u8> {
    [&text[..part.start], bytes, &text[part.end..]].concat()
}

/// The text in hex, `-` where it is empty.
pub fn hex(text: &[u8]) -> String {
    if text.is_empty() {
        return "-".to_string();
    }
    text.iter().map(|byte| format!("{byte:02x}")).collect()
}

/// The bytes that hex digits of either case stand for, or `-` for none.
pub fn from_hex(hex: &str) -> Option<Vec<u8>> {
    if hex == "-" {
        return Some(Vec::new());
    }
    let digits: Vec<u32> = hex.chars().map(|c| c.to_digit(16)).collect::<Option<_>>()?;
    if digits.is_empty() || digits.len() % 2 == 1 {
        return None;
    }
    let bytes = digits.chunks(2).map(|pair| (pair[0] * 16 + pair[1]) as u8);
    Some(bytes.collect())
}
