//! Short texts that need no allocation.

use core::fmt;
use core::ops::Deref;
use core::str;

/// A text of at most so many bytes, which stands in itself: that of a kind or of a duration. It is used as a `&str`.
///
/// ```
/// let text = simmerpath::token_display(simmerpath::token::T_SUM);
/// assert_eq!(text.as_str(), "sum");
/// assert!(text.starts_with('s'));
/// ```
#[derive(Clone, Copy, PartialEq, Eq, Hash)]
pub struct Text<const ROOM: usize> {
    bytes: [u8; ROOM],
    length: usize,
}

impl<const ROOM: usize> Text<ROOM> {
    /// The text that is written to the front of a buffer by a function that says its length.
    pub(crate) fn written(write: impl FnOnce(&mut [u8]) -> u64) -> Self {
        let mut bytes = [0; ROOM];
        let length = write(&mut bytes) as usize;
        Text { bytes, length }
    }

    /// The text.
    pub fn as_str(&self) -> &str {
        let bytes = self.bytes.get(..self.length).unwrap_or_default();
        str::from_utf8(bytes).unwrap_or_default()
    }
}

impl<const ROOM: usize> Deref for Text<ROOM> {
    type Target = str;

    fn deref(&self) -> &str {
        self.as_str()
    }
}

impl<const ROOM: usize> AsRef<str> for Text<ROOM> {
    fn as_ref(&self) -> &str {
        self.as_str()
    }
}

impl<const ROOM: usize> fmt::Display for Text<ROOM> {
    fn fmt(&self, f: &mut fmt::Formatter<'_>) -> fmt::Result {
        f.pad(self.as_str())
    }
}

impl<const ROOM: usize> fmt::Debug for Text<ROOM> {
    fn fmt(&self, f: &mut fmt::Formatter<'_>) -> fmt::Result {
        fmt::Debug::fmt(self.as_str(), f)
    }
}
