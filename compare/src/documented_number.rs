//! Compares the documented reading of numbers with Go's.

use crate::comparison::{compare, Difference, Function};
use crate::ffi::DOCUMENTED;
use crate::number;
use compare::oracle::go::number::{asked, Asked};
use compare::texts::numbers;

/// One random text with separators is compared for so many of the count, and one other, fixed or random, for so many that there are.
const SHARE: usize = 20;

/// The function on a text.
const ON_TEXTS: [Function<Asked>; 1] = [Function {
    name: "parse_str_radix, documented, with Go",
    difference: parse_str_radix,
    known: Asked::is_known,
}];

/// Compares the function on all fixed texts with separators, and on a share of the others and of `count` random ones.
pub fn run(seed: u64, count: usize) -> u64 {
    let random = numbers::random_separated(seed).take(count / SHARE);
    let others = numbers::fixed().step_by(SHARE);
    let texts = numbers::fixed_separated().chain(others).chain(random);
    compare(&ON_TEXTS, asked(texts))
}

/// Where the documented reading differs; nowhere for a text that Go says nothing of.
fn parse_str_radix(text: &Asked) -> Option<Difference> {
    number::difference(&text.bytes, &text.number()?, DOCUMENTED)
}
