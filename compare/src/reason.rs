//! Compares the reasons of words with a second reading, over the Rust's lexemes: each lexeme of a query, and numbers that none has.

use crate::comparison::{compare, nowhere, Difference, Function, Outcome};
use crate::ffi::{self, Lent, Readings, CRATE, DOCUMENTED};
use compare::oracle::lexer::Lexed;
use compare::oracle::reason::Reasons;
use compare::oracle::{separators, token};
use compare::texts::queries;

/// One fixed query is compared for so many that there are, and one random query for so many of the count.
const STEP: usize = 3;
const SHARE: usize = 10;

/// The same of queries with separators, and with backslashes between backquotes.
const DOCUMENTED_STEP: usize = 5;
const DOCUMENTED_SHARE: usize = 50;

/// The bytes around a query, by turns. A function that reads past the end finds there what goes on with a word, what `or` or a fill
/// word needs behind it, and what closes braces.
const AROUND: &[u8] = b"( a:_\n}\x80";

/// So many lexemes of a query are asked for at most, evenly apart.
const MOST_ASKED: usize = 64;

/// Numbers that no lexeme has. The first two are 0, which is a lexeme's, in their lowest 16 or 32 bits alone.
const FAR: [usize; 3] = [1 << 16, 1 << 32, usize::MAX];

/// The function on a query.
const ON_QUERIES: [Function<[u8]>; 1] = [Function {
    name: "word_reason",
    difference: word_reason,
    known: nowhere,
}];

/// The same in the documented reading.
const ON_DOCUMENTED: [Function<[u8]>; 1] = [Function {
    name: "word_reason, documented",
    difference: documented,
    known: separators::differ_in_lexing,
}];

/// Compares the function on a share of the queries that lexing is compared on; in the documented reading on those with separators
/// and with backquotes.
pub fn run(seed: u64, count: usize) -> u64 {
    let words = token::words();
    let random = queries::random(seed, &words).take(count / SHARE);
    let fixed = queries::fixed(&words).step_by(STEP);
    let separated = queries::random_separated(seed, &words).take(count / DOCUMENTED_SHARE);
    let backquoted = queries::random_backquoted(seed, &words).take(count / DOCUMENTED_SHARE);
    let fixed_documented = queries::fixed_separated().chain(queries::fixed_backquoted());
    let documented = fixed_documented
        .step_by(DOCUMENTED_STEP)
        .chain(separated)
        .chain(backquoted);
    compare(&ON_QUERIES, fixed.chain(random)) + compare(&ON_DOCUMENTED, documented)
}

/// Where the crate reading differs.
fn word_reason(query: &[u8]) -> Option<Difference> {
    difference(query, &Lexed::new(query), CRATE)
}

/// Where the documented reading differs.
fn documented(query: &[u8]) -> Option<Difference> {
    difference(query, &separators::lexed(query), DOCUMENTED)
}

/// Where the answers for a query's lexemes differ, or those for numbers that none has.
fn difference(query: &[u8], lexed: &Lexed, readings: Readings) -> Option<Difference> {
    let reasons = Reasons::of(query, lexed);
    let mut lent = Lent::new(query, 0);
    let around = AROUND.iter().cycle().skip(query.len() % AROUND.len());
    let asked = readings.iter().cycle().zip(around);
    let mut turns = numbers(lexed.count()).zip(asked);
    turns.find_map(|(number, (&reading, &around))| {
        lent.guard(around);
        let must = Outcome::of(reasons.answer(number as u64), ());
        let ours = ffi::word_reason(&mut lent, reading, number);
        let call = || format!("reading {reading}, number {number}, {around:x} around");
        Difference::between(call, &ours, &must)
    })
}

/// The numbers that are asked for, of so many lexemes: these, or some of them, the one behind the last, and numbers far above.
fn numbers(count: usize) -> impl Iterator<Item = usize> {
    let step = 1 + count / MOST_ASKED;
    (0..count).rev().step_by(step).chain([count]).chain(FAR)
}
