//! Compares the UTF-8 functions with the Rust's.

use crate::comparison::{compare, nowhere, Difference, Function, Outcome};
use crate::ffi::{self, Lent};
use compare::oracle::utf8::{self, Text};
use compare::oracle::Answer;
use compare::random::Random;
use compare::texts;

/// The bytes around a text, by turns. A function that reads past the end finds there what a character cut short lacks.
const AROUND: [u8; 2] = [0x80, 0xbf];

/// What stands where a code point may be written, and around it.
const NO_CODE: u32 = 0xfeed_face;

/// What stands where a character may be written.
const BLANK: [u8; 6] = [0x11, 0x22, 0x33, 0x44, 0x55, 0x66];

/// The functions on a text.
const ON_TEXTS: [Function<[u8]>; 3] = [
    Function {
        name: "utf8_validate",
        difference: validate,
        known: nowhere,
    },
    Function {
        name: "utf8_char_number",
        difference: char_number,
        known: nowhere,
    },
    Function {
        name: "utf8_char_at",
        difference: char_at,
        known: nowhere,
    },
];

/// The function on a code point.
const ON_CODES: [Function<u32>; 1] = [Function {
    name: "utf8_encode",
    difference: encode,
    known: nowhere,
}];

/// Compares every function: on all fixed texts and `count` random ones, and on all code points.
pub fn run(seed: u64, count: usize) -> u64 {
    let fixed = texts::exhaustive()
        .chain(texts::table_ends())
        .chain(texts::long());
    let random = texts::random(seed).take(count);
    compare(&ON_TEXTS, fixed.chain(random)) + compare(&ON_CODES, codes(seed))
}

/// Every code point, and numbers above.
fn codes(seed: u64) -> impl Iterator<Item = u32> {
    let mut random = Random::new(seed);
    let above = (0..100_000).map(move |_| random.number() as u32);
    (0..=0x11_ffff).chain(above).chain([u32::MAX - 1, u32::MAX])
}

/// The places that a function is asked about: all of a short text, some of a long one, and some past the end.
fn places(len: usize) -> impl Iterator<Item = usize> {
    let near = move |place: usize| [0, len / 2, len].iter().any(|&at| place.abs_diff(at) < 4);
    let asked = move |&place: &usize| len <= 32 || near(place);
    (0..len + 3).filter(asked).chain([usize::MAX])
}

/// Where validation differs.
fn validate(text: &[u8]) -> Option<Difference> {
    let rust = Outcome::of(Text::new(text).validate(), ());
    AROUND.iter().find_map(|&around| {
        let ours = ffi::utf8_validate(&mut Lent::new(text, around));
        Difference::between(|| format!("{around:x} around"), &ours, &rust)
    })
}

/// Where the character number of a place differs.
fn char_number(text: &[u8]) -> Option<Difference> {
    let known = Text::new(text);
    let mut lent = AROUND.map(|around| Lent::new(text, around));
    places(text.len()).find_map(|to| {
        let rust = Outcome::of(Answer::Value(known.char_number(to)), ());
        let ours = ffi::utf8_char_number(&mut lent[to % 2], to);
        Difference::between(|| format!("to {to}"), &ours, &rust)
    })
}

/// Where the character at a place differs.
fn char_at(text: &[u8]) -> Option<Difference> {
    let known = Text::new(text);
    let mut lent = AROUND.map(|around| Lent::new(text, around));
    let mut code = Lent::new(&[NO_CODE], NO_CODE);
    places(text.len()).find_map(|at| {
        let (answer, found) = known.char_at(at);
        let rust = Outcome::of(answer, found.unwrap_or(NO_CODE));
        let ours = ffi::utf8_char_at(&mut lent[at % 2], at, &mut code);
        Difference::between(|| format!("at {at}"), &ours, &rust)
    })
}

/// Where the encoding of a code point differs, in every room that is too little, just enough and more.
fn encode(&code: &u32) -> Option<Difference> {
    (0..=BLANK.len()).find_map(|room| {
        let mut out = Lent::new(&BLANK[..room], 0xee);
        (0..room + 2).chain([usize::MAX]).find_map(|at| {
            let mut expected = BLANK;
            let answer = utf8::encode(code, &mut expected[..room], at);
            let rust = Outcome::of(answer, &expected[..room]);
            let ours = ffi::utf8_encode(code, &mut out, at);
            Difference::between(|| format!("room {room}, at {at}"), &ours, &rust)
        })
    })
}
