//! Texts that have much to escape.

use super::sequences;
use crate::oracle::MOST_BYTES;
use crate::random::Random;
use std::iter;

/// The five that are escaped, what stands for them behind a backslash, the other quotes, control characters next to the
/// five, and longer characters.
const PIECES: [&str; 17] = [
    "\\",
    "\"",
    "\n",
    "\r",
    "\t",
    "n",
    "r",
    "t",
    "'",
    "`",
    "\0",
    "\u{8}",
    "\u{b}",
    "!",
    "#",
    "é",
    "\u{10ffff}",
];

/// Every text of at most four pieces, and texts of backslashes around the limit, and around half of it, where the literals of
/// them are at the limit.
pub fn fixed() -> impl Iterator<Item = Vec<u8>> {
    let short = sequences(&PIECES, 4).map(|pieces| pieces.concat());
    let limits = [MOST_BYTES / 2, MOST_BYTES].into_iter();
    let long = limits
        .flat_map(|limit| limit - 1..=limit + 1)
        .flat_map(|length| ["", "a"].map(|end| "\\".repeat(length) + end));
    short.chain(long).map(String::into_bytes)
}

/// Random texts without end, of up to 40 pieces.
pub fn random(seed: u64) -> impl Iterator<Item = Vec<u8>> {
    let mut random = Random::new(seed);
    iter::repeat_with(move || {
        let count = random.below(41);
        let text: String = (0..count).map(|_| random.one_of(&PIECES)).collect();
        text.into_bytes()
    })
}
