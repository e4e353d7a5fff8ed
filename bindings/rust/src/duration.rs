//! Reading and writing durations.

use crate::error::{result, Error};
use crate::ffi;
use crate::text::Text;
use core::time::Duration;

/// The most bytes that the text of a duration has.
const LONGEST_TEXT: usize = 30;

/// The text of a duration.
pub type DurationText = Text<LONGEST_TEXT>;

/// The duration of a text: units such as `1h30m`, or a decimal number of seconds. A part whose number is above 4,294,967,295 counts
/// as nothing, as it does in promql-parser: [`parse_duration_exact`] refuses it.
///
/// # Errors
///
/// [`EMPTY`](crate::refusal::EMPTY), [`ZERO`](crate::refusal::ZERO), [`NOT_A_DURATION`](crate::refusal::NOT_A_DURATION),
/// [`OUTSIDE_EXACT`](crate::refusal::OUTSIDE_EXACT), [`OUT_OF_RANGE`](crate::refusal::OUT_OF_RANGE),
/// [`TOO_LONG`](crate::refusal::TOO_LONG) and [`NOT_UTF8`](crate::refusal::NOT_UTF8).
///
/// ```
/// use simmerpath::parse_duration;
/// use std::time::Duration;
///
/// assert_eq!(parse_duration("1h30m")?, Duration::from_secs(5_400));
/// assert_eq!(parse_duration("0.25")?, Duration::from_millis(250));
/// assert_eq!(parse_duration("0").unwrap_err().to_string(), "duration must be greater than 0");
/// # Ok::<(), simmerpath::Error>(())
/// ```
pub fn parse_duration<T: AsRef<[u8]> + ?Sized>(text: &T) -> Result<Duration, Error> {
    read(text.as_ref(), ffi::parse_duration)
}

/// The duration of a text, with no part lost: as by [`parse_duration`], but that a part whose number is above 4,294,967,295 is
/// refused.
///
/// A duration of whole milliseconds, above zero and of at most 4,294,967,295 whole days, is recovered from what
/// [`display_duration`] gives, by either function.
///
/// # Errors
///
/// Those of [`parse_duration`], and [`OVERSIZED_PART`](crate::refusal::OVERSIZED_PART).
///
/// ```
/// use simmerpath::{parse_duration, parse_duration_exact, refusal::OVERSIZED_PART};
/// use std::time::Duration;
///
/// assert_eq!(parse_duration("1d5000000000ms")?, Duration::from_secs(86_400));
/// let error = parse_duration_exact("1d5000000000ms").unwrap_err();
/// assert_eq!(error.number(), OVERSIZED_PART);
/// assert_eq!(error.to_string(), "a part of the duration is above 4,294,967,295");
/// assert_eq!(parse_duration_exact("1h30m")?, Duration::from_secs(5_400));
/// # Ok::<(), simmerpath::Error>(())
/// ```
pub fn parse_duration_exact<T: AsRef<[u8]> + ?Sized>(text: &T) -> Result<Duration, Error> {
    read(text.as_ref(), ffi::parse_duration_exact)
}

/// The duration of a text in a reading, which writes its seconds and its nanoseconds.
fn read(text: &[u8], reading: fn(&[u8], &mut u64, &mut u32) -> u64) -> Result<Duration, Error> {
    let (mut secs, mut nanos) = (0, 0);
    let answer = reading(text, &mut secs, &mut nanos);
    result(answer, text)?;
    Ok(Duration::new(secs, nanos))
}

/// The text of a duration, as Prometheus writes it. What is under a millisecond is dropped.
///
/// ```
/// use simmerpath::display_duration;
/// use std::time::Duration;
///
/// assert_eq!(display_duration(&Duration::from_secs(90 * 86_400)).as_str(), "90d");
/// assert_eq!(display_duration(&Duration::from_secs(14 * 86_400)).as_str(), "2w");
/// assert_eq!(display_duration(&Duration::from_millis(61_500)).to_string(), "1m1s500ms");
/// ```
pub fn display_duration(duration: &Duration) -> DurationText {
    Text::written(|text| ffi::display_duration(duration.as_secs(), duration.subsec_nanos(), text))
}
