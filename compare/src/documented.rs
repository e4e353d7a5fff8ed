//! Compares the documented reading of string literals with Go's.

use crate::comparison::{compare, nowhere, Difference, Function};
use crate::ffi::DOCUMENTED;
use crate::literal;
use compare::oracle::go::{documented, Documented};
use compare::texts::literals;

/// One random literal is compared for so many of the count.
const SHARE: usize = 5;

/// The function on a literal.
const ON_LITERALS: [Function<Documented>; 1] = [Function {
    name: "unquote_string, documented",
    difference: unquote_string,
    known: nowhere,
}];

/// Compares the function on all fixed literals, and on a share of `count` random ones.
pub fn run(seed: u64, count: usize) -> u64 {
    let random = literals::random(seed).take(count / SHARE);
    compare(&ON_LITERALS, documented(literals::fixed().chain(random)))
}

/// Where the documented reading differs.
fn unquote_string(asked: &Documented) -> Option<Difference> {
    literal::difference(&asked.bytes, &asked.literal(), DOCUMENTED)
}
