//! Compares the reading of numbers: in the crate reading with the Rust's, in the documented reading with what that must be.

use crate::comparison::{compare, Difference, Function, Outcome};
use crate::ffi::{self, Lent, Readings, CRATE, DOCUMENTED};
use compare::oracle::number::{self, is_known, Number};
use compare::oracle::{separators, Answer};
use compare::texts::numbers;

/// One random text is compared for so many of the count, and one with separators.
const SHARE: usize = 2;
const SEPARATED_SHARE: usize = 10;

/// The bytes around a text, and what stands where the bits may be written and around that, by turns. A function that reads
/// past the end finds another digit there, or what a white space cut short lacks.
const AROUND: [(u8, u64); 2] = [(b'1', 0x1122_3344_5566_7788), (0x85, u64::MAX)];

/// The function on a text.
const ON_TEXTS: [Function<[u8]>; 1] = [Function {
    name: "parse_str_radix",
    difference: parse_str_radix,
    known: is_known,
}];

/// The function on a text with separators, in each reading. Where these differ, the Rust is known to answer otherwise.
const ON_SEPARATED: [Function<[u8]>; 2] = [
    Function {
        name: "parse_str_radix, with separators",
        difference: parse_str_radix,
        known: is_known,
    },
    Function {
        name: "parse_str_radix, with separators, documented",
        difference: documented,
        known: separators::differ_in_number,
    },
];

/// The function on another text in the documented reading.
const ON_OTHERS: [Function<[u8]>; 1] = [Function {
    name: "parse_str_radix, documented",
    difference: documented,
    known: separators::differ_in_number,
}];

/// Compares the function on all fixed texts, and on a share of `count` random ones; in the documented reading on those with
/// separators, and on some of the others.
pub fn run(seed: u64, count: usize) -> u64 {
    let random = |share| numbers::random(seed).take(count / share);
    let separated = numbers::random_separated(seed).take(count / SEPARATED_SHARE);
    let others = numbers::fixed()
        .step_by(SEPARATED_SHARE)
        .chain(random(SEPARATED_SHARE));
    compare(&ON_TEXTS, numbers::fixed().chain(random(SHARE)))
        + compare(&ON_SEPARATED, numbers::fixed_separated().chain(separated))
        + compare(&ON_OTHERS, others)
}

/// Where the crate reading differs.
fn parse_str_radix(text: &[u8]) -> Option<Difference> {
    difference(text, &number::number(text), CRATE)
}

/// Where the documented reading differs.
fn documented(text: &[u8]) -> Option<Difference> {
    difference(text, &separators::number(text), DOCUMENTED)
}

/// Where the notation or the bits of a number differ.
pub fn difference(
    text: &[u8],
    number: &Result<Number, Answer>,
    readings: Readings,
) -> Option<Difference> {
    let mut turns = AROUND.iter().zip(readings);
    turns.find_map(|(&(around, blank), reading)| {
        let must = match number {
            Ok(number) => Outcome::of(Answer::Value(number.notation as u64), number.bits),
            Err(refused) => Outcome::of(*refused, blank),
        };
        let mut bits = Lent::new(&[blank], blank);
        let ours = ffi::parse_str_radix(&mut Lent::new(text, around), reading, &mut bits);
        let call = || format!("reading {reading}, {around:x} around");
        Difference::between(call, &ours, &must)
    })
}
