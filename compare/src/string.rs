//! Compares the functions on strings with the Rust's: escaping, and the crate reading of literals.

use crate::comparison::{compare, nowhere, Difference, Function, Outcome};
use crate::ffi::{self, Lent, BOTH, CRATE};
use crate::literal;
use compare::oracle::literal::Literal;
use compare::oracle::string;
use compare::oracle::utf8::admitted;
use compare::texts::{self, escapes, literals};

/// What stands where an escaped text may be written, and around it.
const BLANK: u8 = 0xee;

/// An escaped text has at most so many bytes for each of the text.
const MOST_A_BYTE: usize = 2;

/// The function on a text.
const ON_TEXTS: [Function<[u8]>; 1] = [Function {
    name: "escape_string",
    difference: escape_string,
    known: nowhere,
}];

/// Both functions, on a text that can be escaped.
const ON_ADMITTED: [Function<[u8]>; 1] = [Function {
    name: "unquote_string of escape_string",
    difference: read_back,
    known: nowhere,
}];

/// The function on a literal.
const ON_LITERALS: [Function<[u8]>; 1] = [Function {
    name: "unquote_string",
    difference: unquote_string,
    known: string::is_panic_of_rust,
}];

/// Compares every function on all fixed texts or literals and `count` random ones.
pub fn run(seed: u64, count: usize) -> u64 {
    let texts = || fixed_texts().chain(random_texts(seed).take(count));
    let admitted = texts().filter(|text| admitted(text).is_ok());
    let random = literals::random(seed).take(count);
    compare(&ON_TEXTS, texts())
        + compare(&ON_ADMITTED, admitted)
        + compare(&ON_LITERALS, literals::fixed().chain(random))
}

/// Texts of all kinds.
fn fixed_texts() -> impl Iterator<Item = Vec<u8>> {
    escapes::fixed()
        .chain(texts::table_ends())
        .chain(texts::long())
}

/// Random texts without end: with much to escape, and any.
fn random_texts(seed: u64) -> impl Iterator<Item = Vec<u8>> {
    escapes::random(seed)
        .zip(texts::random(seed))
        .flat_map(|(escapes, any)| [escapes, any])
}

/// Where escaping differs, with room for all that a text may need, for just what it needs, for a byte less, and none.
fn escape_string(text: &[u8]) -> Option<Difference> {
    let enough = text.len() * MOST_A_BYTE + 1;
    let needed = string::escaped(text).map_or(0, |escaped| escaped.len());
    let mut lent = Lent::new(text, BLANK);
    [enough, needed, needed.saturating_sub(1), 0]
        .iter()
        .find_map(|&room| {
            let mut expected = vec![BLANK; room];
            let mut out = Lent::new(&expected, BLANK);
            let rust = Outcome::of(string::write_escaped(text, &mut expected), &expected[..]);
            let ours = ffi::escape_string(&mut lent, &mut out);
            Difference::between(|| format!("room {room}"), &ours, &rust)
        })
}

/// Where a text that is escaped, put between double quotes and read, in both readings, is not that text again.
fn read_back(text: &[u8]) -> Option<Difference> {
    let mut out = Lent::new(&vec![BLANK; text.len() * MOST_A_BYTE], BLANK);
    let escaped = ffi::escape_string(&mut Lent::new(text, BLANK), &mut out);
    let front = escaped.written.get(..escaped.answer as usize);
    let bytes = literals::quoted(b'"', front.unwrap_or(&[]));
    literal::difference(&bytes, &Literal::of_text(&bytes, text), BOTH)
}

/// Where the crate reading differs.
fn unquote_string(bytes: &[u8]) -> Option<Difference> {
    literal::difference(bytes, &string::literal(bytes), CRATE)
}
