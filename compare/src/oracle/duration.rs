//! Durations by the Rust's duration.rs, and what document 01 has beside it: the limits, which refusal a bad text has, the exact
//! range. Every duration and every text is the Rust's. We must answer as it does, but for these known differences:
//!
//! - A decimal outside the exact range is refused. The Rust rounds it, or panics where the seconds are 2^64 and over.
//! - A negative decimal that the Rust reads as zero is refused as any other that is not zero.
//! - The Rust panics on seconds that are negative, infinite, NaN, or 2^64 and over.
//!
//! The exact reading is document 02's (L13), and the Rust has none. It is the other one, but that a part above 4,294,967,295, which
//! the Rust counts as nothing, is refused: in a text that the Rust takes for units, be their sum zero or not. The search for such a
//! part is a second reading of 02's sentence.

use super::number::{is_exact, NOT_EXACT};
use super::utf8::admitted_within;
use super::{write, Answer, MOST_NUMBER_BYTES};
use std::time::Duration;

/// The number of the refusal of an empty text.
const EMPTY: u8 = 50;
/// The number of the refusal of the text `0`, and of parts whose sum is zero.
const ZERO: u8 = 51;
/// The number of the refusal of what is neither a decimal nor a text of units.
const NOT_A_DURATION: u8 = 52;
/// The number of the refusal of seconds that are no duration, and of nanoseconds that are a second.
const OUT_OF_RANGE: u8 = 54;

/// The number of the exact reading's refusal of a part that the Rust counts as nothing.
const OVERSIZED_PART: u8 = 55;

/// The greatest number of a part that counts.
const MOST_OF_A_PART: &str = "4294967295";

/// A millisecond and a second in nanoseconds.
const MILLISECOND: u32 = 1_000_000;
const SECOND: u32 = 1_000_000_000;

/// A day in seconds, and the most days that are recovered from what is written.
const DAY: u64 = 86_400;
const MOST_DAYS: u64 = 4_294_967_295;

/// The first number of seconds that no duration has: 2^64.
const TOO_MANY: f64 = 18_446_744_073_709_551_616.0;

/// The duration of a text, or its refusal.
pub fn duration(bytes: &[u8]) -> Result<Duration, Answer> {
    let text = admitted_within(bytes, MOST_NUMBER_BYTES)?;
    let number = match promql::duration(text) {
        Some(Err(said)) => refusal(text, &said),
        Some(Ok(duration)) => match decimal_refusal(text, false) {
            None => return Ok(duration),
            Some(number) => number,
        },
        None => decimal_refusal(text, true).expect("the Rust panics on a text of units"),
    };
    Err(Answer::refused(number))
}

/// The duration of a text in the exact reading, or its refusal.
pub fn exact_duration(bytes: &[u8]) -> Result<Duration, Answer> {
    let text = admitted_within(bytes, MOST_NUMBER_BYTES)?;
    match duration(bytes) {
        Ok(_) | Err(Answer::Refused(ZERO, ..)) if has_oversized_part(text) => {
            Err(Answer::refused(OVERSIZED_PART))
        }
        read => read,
    }
}

/// Whether a text that the Rust has a duration for, or finds zero, has a part that is too great. A decimal has no parts.
fn has_oversized_part(text: &str) -> bool {
    let most = (MOST_OF_A_PART.len(), MOST_OF_A_PART);
    let mut parts = text
        .split(|c: char| !c.is_ascii_digit())
        .map(|digits| digits.trim_start_matches('0'));
    text.parse::<f64>().is_err() && parts.any(|digits| (digits.len(), digits) > most)
}

/// Whether a duration is recovered from what is written: of whole milliseconds, above zero, and of few enough days.
pub fn is_recovered(secs: u64, nanos: u32) -> bool {
    let is_whole = nanos < SECOND && nanos % MILLISECOND == 0;
    is_whole && (secs, nanos) > (0, 0) && secs / DAY <= MOST_DAYS
}

/// Whether the Rust panics on a text, or has a duration for one that we must refuse.
pub fn is_known(bytes: &[u8]) -> bool {
    let read = admitted_within(bytes, MOST_NUMBER_BYTES).map(promql::duration);
    match read {
        Ok(None) => true,
        Ok(Some(Ok(_))) => duration(bytes).is_err(),
        Ok(Some(Err(_))) | Err(_) => false,
    }
}

/// The same of the exact reading, with the texts that the Rust finds zero and we must refuse otherwise.
pub fn is_known_exact(bytes: &[u8]) -> bool {
    is_known(bytes) || exact_duration(bytes) == Err(Answer::refused(OVERSIZED_PART))
}

/// The refusal of a text of which the Rust says this.
fn refusal(text: &str, said: &str) -> u8 {
    match said.strip_suffix(text) {
        _ if said == "empty duration string" => EMPTY,
        _ if said == "duration must be greater than 0" => ZERO,
        Some("not a valid duration string: ") => NOT_A_DURATION,
        _ => panic!("the Rust says {said:?} of {text:?}"),
    }
}

/// The refusal of a decimal that the Rust has a duration for, or panics on; none for one that it decides, and for a text of
/// units.
fn decimal_refusal(text: &str, panics: bool) -> Option<u8> {
    let seconds: f64 = text.parse().ok()?;
    let lower = text.to_ascii_lowercase();
    let named = lower.contains('n');
    let mantissa = lower.split('e').next().unwrap_or_default();
    let negative = mantissa.starts_with('-') && mantissa.contains(|c| ('1'..='9').contains(&c));
    let out_of_range = named || negative;
    let may_panic = out_of_range || seconds >= TOO_MANY;
    let must_panic = may_panic && seconds != 0.0;
    assert_eq!(panics, must_panic, "whether the Rust panics on {text:?}");
    if out_of_range {
        Some(OUT_OF_RANGE)
    } else if !is_exact(&lower) {
        Some(NOT_EXACT)
    } else {
        panics.then_some(OUT_OF_RANGE)
    }
}

/// The text of a duration, or its refusal.
pub fn displayed(secs: u64, nanos: u32) -> Result<String, Answer> {
    if nanos >= SECOND {
        return Err(Answer::refused(OUT_OF_RANGE));
    }
    Ok(promql::display_duration(Duration::new(secs, nanos)))
}

/// Writes the text of a duration to the front: how many bytes it has.
pub fn write_displayed(displayed: &Result<String, Answer>, out: &mut [u8]) -> Answer {
    match displayed {
        Ok(text) => write(text.as_bytes(), out),
        Err(refused) => *refused,
    }
}
