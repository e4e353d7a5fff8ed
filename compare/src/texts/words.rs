//! The words of a table, and texts that are nearly such words.

use super::{replaced, short, well_formed};
use crate::oracle::MOST_BYTES;
use crate::random::Random;
use std::iter;

/// What is put into words and between them: ASCII on both sides of each end of the letters and digits, characters that
/// have to do with the letters `i`, `s` and `k` of the other case, and bytes that are no character.
const PIECES: [&[u8]; 25] = [
    b"\0",
    b" ",
    b"/",
    b"0",
    b"2",
    b"9",
    b":",
    b"@",
    b"A",
    b"Z",
    b"[",
    b"^",
    b"_",
    b"`",
    b"a",
    b"z",
    b"{",
    b"\x7f",
    "\u{130}".as_bytes(),
    "\u{131}".as_bytes(),
    "\u{17f}".as_bytes(),
    "\u{212a}".as_bytes(),
    b"\x80",
    b"\xe2\x84",
    b"\xff",
];

/// The letters, the digits, `_` and `:`.
const WORD_BYTES: &[u8] = b"abcdefghijklmnopqrstuvwxyzABCDEFGHIJKLMNOPQRSTUVWXYZ0123456789_:";

/// A word in lower, upper and mixed case.
pub fn cased(word: &str) -> [Vec<u8>; 3] {
    let mixed = word
        .bytes()
        .enumerate()
        .map(|(place, byte)| match place % 2 {
            0 => byte.to_ascii_uppercase(),
            _ => byte.to_ascii_lowercase(),
        });
    [
        word.to_ascii_lowercase().into_bytes(),
        word.to_ascii_uppercase().into_bytes(),
        mixed.collect(),
    ]
}

/// Every text of at most two bytes; the words in each case, and with a letter removed, changed and put in at each place;
/// two words with each piece between them; long texts.
pub fn fixed<'a>(words: &'a [&str]) -> impl Iterator<Item = Vec<u8>> + 'a {
    let known = words.iter().flat_map(|word| cased(word));
    let near = known.clone().flat_map(|word| near(&word));
    let pairs = words
        .iter()
        .flat_map(move |first| words.iter().map(move |last| (first, last)));
    let glued = pairs.flat_map(|(first, last)| {
        let pieces = iter::once(&b""[..]).chain(PIECES);
        pieces.map(move |piece| [first.as_bytes(), piece, last.as_bytes()].concat())
    });
    short()
        .chain(known)
        .chain(near)
        .chain(glued)
        .chain(long(words))
}

/// The texts that differ from a word in one letter.
fn near(word: &[u8]) -> Vec<Vec<u8>> {
    let mut texts = Vec::new();
    for place in 0..=word.len() {
        texts.extend(PIECES.map(|piece| replaced(word, place..place, piece)));
        if place < word.len() {
            texts.push(replaced(word, place..place + 1, &[]));
            texts.extend(PIECES.map(|piece| replaced(word, place..place + 1, piece)));
        }
    }
    texts
}

/// Labels as long as the limit of other texts and longer, whole and with a piece in them; words with as many bytes more as
/// 16 bits do not count.
fn long<'a>(words: &'a [&str]) -> impl Iterator<Item = Vec<u8>> + 'a {
    let lengths = [MOST_BYTES, MOST_BYTES + 1, 2 * MOST_BYTES];
    let labels = lengths.into_iter().flat_map(|length| {
        let label = vec![b'k'; length];
        let places = [0, length / 2, length - 1].into_iter();
        places.flat_map(move |place| {
            let label = label.clone();
            PIECES.map(move |piece| replaced(&label, place..place + 1, piece))
        })
    });
    let more = vec![b'_'; MOST_BYTES + 1];
    labels.chain(
        words
            .iter()
            .map(move |word| [word.as_bytes(), &more].concat()),
    )
}

/// Random texts without end: rounds of a word, a word spoiled, words and pieces in a row, bytes of words, ASCII, and UTF-8.
pub fn random<'a>(seed: u64, words: &'a [&str]) -> impl Iterator<Item = Vec<u8>> + 'a {
    let mut random = Random::new(seed);
    iter::repeat_with(move || round(&mut random, words)).flatten()
}

/// One round of random texts.
fn round(random: &mut Random, words: &[&str]) -> [Vec<u8>; 6] {
    let mut row = Vec::new();
    for _ in 0..1 + random.below(4) {
        row.extend(recased(random, words));
        row.extend(random.one_of(&PIECES));
    }
    row.truncate(1 + random.below(row.len()));
    let length = random.below(17);
    [
        recased(random, words),
        spoiled(random, words),
        row,
        (0..length).map(|_| random.one_of(WORD_BYTES)).collect(),
        (0..length).map(|_| random.byte() % 0x80).collect(),
        well_formed(random),
    ]
}

/// A word with letters of random case.
pub(super) fn recased(random: &mut Random, words: &[&str]) -> Vec<u8> {
    let word = random.one_of(words);
    let lower_or_upper = |byte: u8| random.one_of(&[byte, byte.to_ascii_uppercase()]);
    word.bytes().map(lower_or_upper).collect()
}

/// A word with up to three letters changed, removed, or put in.
fn spoiled(random: &mut Random, words: &[&str]) -> Vec<u8> {
    let mut word = recased(random, words);
    for _ in 0..1 + random.below(3) {
        let place = random.below(word.len() + 1);
        let end = word.len().min(place + random.below(2));
        let letter = &[random.one_of(WORD_BYTES)][..];
        let piece = random.one_of(&PIECES);
        let bytes = random.one_of(&[&[][..], letter, piece]);
        word = replaced(&word, place..end, bytes);
    }
    word
}
