//! Compares the functions on durations with the Rust's.

use crate::comparison::{compare, nowhere, Difference, Function, Outcome};
use crate::ffi::{self, Lent};
use compare::oracle::duration::{self, is_known, is_known_exact, is_recovered, write_displayed};
use compare::oracle::Answer;
use compare::texts::durations;
use std::time::Duration;

/// One random text, and one random duration, is compared for so many of the count.
const SHARE: usize = 5;

/// The bytes around a text, and what stands where the seconds and the nanoseconds may be written and around these, by turns. A
/// function that reads past the end finds another digit there, or a unit.
const AROUND: [(u8, (u64, u32)); 2] = [
    (b'1', (0x1122_3344_5566_7788, 0x99aa_bbcc)),
    (b's', (u64::MAX, u32::MAX)),
];

/// What stands where a duration may be written: more bytes than any has, and none that one has.
const BLANK: [u8; 31] = *b"\
    \xe1\xe2\xe3\xe4\xe5\xe6\xe7\xe8\xe9\xea\xeb\xec\xed\xee\xef\
    \xf0\xf1\xf2\xf3\xf4\xf5\xf6\xf7\xf8\xf9\xfa\xfb\xfc\xfd\xfe\xff";

/// A reading: what it answers on a text, and what it leaves in the seconds and the nanoseconds.
type Reading = fn(&mut Lent<u8>, &mut Lent<u64>, &mut Lent<u32>) -> Outcome<(u64, u32)>;

/// The readings: the present one, and the exact one.
const BOTH: [Reading; 2] = [ffi::parse_duration, ffi::parse_duration_exact];

/// The functions on a text.
const ON_TEXTS: [Function<[u8]>; 2] = [
    Function {
        name: "parse_duration",
        difference: parse_duration,
        known: is_known,
    },
    Function {
        name: "parse_duration_exact",
        difference: parse_duration_exact,
        known: is_known_exact,
    },
];

/// The function on seconds and nanoseconds.
const ON_DURATIONS: [Function<(u64, u32)>; 1] = [Function {
    name: "display_duration",
    difference: display_duration,
    known: nowhere,
}];

/// All of them, on seconds and nanoseconds that are recovered.
const ON_RECOVERED: [Function<(u64, u32)>; 1] = [Function {
    name: "parse_duration, parse_duration_exact of display_duration",
    difference: read_back,
    known: nowhere,
}];

/// Compares every function on all fixed inputs, and on a share of `count` random ones.
pub fn run(seed: u64, count: usize) -> u64 {
    let texts = durations::random(seed).take(count / SHARE);
    let pairs = || {
        let random = durations::random_pairs(seed).take(count / SHARE);
        durations::fixed_pairs().chain(random)
    };
    let recovered = pairs().filter(|&(secs, nanos)| is_recovered(secs, nanos));
    compare(&ON_TEXTS, durations::fixed().chain(texts))
        + compare(&ON_DURATIONS, pairs())
        + compare(&ON_RECOVERED, recovered)
}

/// Where the duration of a text differs.
fn parse_duration(text: &[u8]) -> Option<Difference> {
    difference(text, ffi::parse_duration, duration::duration(text))
}

/// Where the duration of a text differs in the exact reading.
fn parse_duration_exact(text: &[u8]) -> Option<Difference> {
    let must = duration::exact_duration(text);
    difference(text, ffi::parse_duration_exact, must)
}

/// Where a reading of a text differs from what it must be.
fn difference(text: &[u8], read: Reading, must: Result<Duration, Answer>) -> Option<Difference> {
    AROUND.iter().find_map(|&(around, blank)| {
        let must = match &must {
            Ok(duration) => Outcome::of(
                Answer::Value(0),
                (duration.as_secs(), duration.subsec_nanos()),
            ),
            Err(refused) => Outcome::of(*refused, blank),
        };
        let mut secs = Lent::new(&[blank.0], blank.0);
        let mut nanos = Lent::new(&[blank.1], blank.1);
        let ours = read(&mut Lent::new(text, around), &mut secs, &mut nanos);
        Difference::between(|| format!("{around:x} around"), &ours, &must)
    })
}

/// Where the text of a duration differs, in every room that is too little, just enough and more.
fn display_duration(&(secs, nanos): &(u64, u32)) -> Option<Difference> {
    let displayed = duration::displayed(secs, nanos);
    (0..=BLANK.len()).find_map(|room| {
        let mut out = Lent::new(&BLANK[..room], 0xe0);
        let mut expected = BLANK;
        let answer = write_displayed(&displayed, &mut expected[..room]);
        let must = Outcome::of(answer, &expected[..room]);
        let ours = ffi::display_duration(secs, nanos, &mut out);
        Difference::between(|| format!("room {room}"), &ours, &must)
    })
}

/// Where a duration that is written and read, in both readings, is not that duration again. Of the smaller ones, some are not
/// recovered.
fn read_back(&(secs, nanos): &(u64, u32)) -> Option<Difference> {
    if !is_recovered(secs, nanos) {
        return None;
    }
    let mut out = Lent::new(&BLANK, 0xe0);
    let displayed = ffi::display_duration(secs, nanos, &mut out);
    let text = displayed.written.get(..displayed.answer as usize);
    BOTH.iter().find_map(|&read| {
        let must = Ok(Duration::new(secs, nanos));
        difference(text.unwrap_or(&[]), read, must)
    })
}
