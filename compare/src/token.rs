//! Compares the functions of the token layer with the Rust's.

use crate::comparison::{compare, nowhere, Difference, Function, Outcome};
use crate::ffi::{self, Lent};
use compare::oracle::token;
use compare::oracle::Answer;
use compare::texts::words;

/// The bytes around a word: zero, and the last letters of all words. A function that reads past the end finds there what a
/// word cut short lacks.
const AROUND_WORD: &[u8] = b"\x002defgklmnoprstvxy";

/// The bytes around a text that may be a label: one that a label may have, and one that it may not.
const AROUND_LABEL: &[u8] = b"a:";

/// What stands where a display text may be written: more bytes than any has, and none that one has.
const BLANK: [u8; 15] = [
    0xf1, 0xf2, 0xf3, 0xf4, 0xf5, 0xf6, 0xf7, 0xf8, 0xf9, 0xfa, 0xfb, 0xfc, 0xfd, 0xfe, 0xff,
];

/// The functions on a text.
const ON_TEXTS: [Function<[u8]>; 2] = [
    Function {
        name: "get_keyword_token",
        difference: get_keyword_token,
        known: token::is_word_of_rust,
    },
    Function {
        name: "is_label",
        difference: is_label,
        known: nowhere,
    },
];

/// The functions on a kind.
const ON_KINDS: [Function<u16>; 2] = [
    Function {
        name: "token_display",
        difference: token_display,
        known: |&kind| token::is_kind_of_rust(kind),
    },
    Function {
        name: "token_classes",
        difference: token_classes,
        known: nowhere,
    },
];

/// Compares every function: on all fixed texts and `count` random ones, and on all kinds.
pub fn run(seed: u64, count: usize) -> u64 {
    let words = token::words();
    let random = words::random(seed, &words).take(count);
    compare(&ON_TEXTS, words::fixed(&words).chain(random)) + compare(&ON_KINDS, 0..=u16::MAX)
}

/// Where the kind of a word differs.
fn get_keyword_token(word: &[u8]) -> Option<Difference> {
    let answer = token::keyword_number(word);
    read(word, AROUND_WORD, ffi::get_keyword_token, answer)
}

/// Where the test for a label differs.
fn is_label(text: &[u8]) -> Option<Difference> {
    let answer = token::label_number(text);
    read(text, AROUND_LABEL, ffi::is_label, answer)
}

/// Where a function that only reads a text differs from an answer.
fn read(
    text: &[u8],
    around: &[u8],
    function: fn(&mut Lent<u8>) -> Outcome<()>,
    answer: Answer,
) -> Option<Difference> {
    let rust = Outcome::of(answer, ());
    let mut lent = Lent::new(text, 0);
    around.iter().find_map(|&guard| {
        lent.guard(guard);
        let ours = function(&mut lent);
        Difference::between(|| format!("{guard:x} around"), &ours, &rust)
    })
}

/// Where the display text of a kind differs, in every room that is too little, just enough and more.
fn token_display(&kind: &u16) -> Option<Difference> {
    (0..=BLANK.len()).find_map(|room| {
        let mut out = Lent::new(&BLANK[..room], 0xee);
        let mut expected = BLANK;
        let answer = token::write_display(kind, &mut expected[..room]);
        let rust = Outcome::of(answer, &expected[..room]);
        let ours = ffi::token_display(kind, &mut out);
        Difference::between(|| format!("room {room}"), &ours, &rust)
    })
}

/// Where the classes of a kind differ.
fn token_classes(&kind: &u16) -> Option<Difference> {
    let rust = Outcome::of(token::classes_number(kind), ());
    Difference::between(|| "its classes".into(), &ffi::token_classes(kind), &rust)
}
