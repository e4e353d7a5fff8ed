//! What functions are compared on, and how such an input is made smaller.

#[cfg(all(feature = "promql", feature = "go"))]
use compare::oracle::go::number::{asked, Asked};
#[cfg(feature = "go")]
use compare::oracle::go::{documented, Documented};
use compare::texts::{hex, replaced};
use std::iter;
use std::ops::Range;

/// How many bytes of a text are printed at most.
const MOST_SHOWN: usize = 64;

/// An input of some type.
pub trait Input: ToOwned {
    /// What many of them are called.
    const NAMES: &'static str;

    /// The input as it is printed.
    fn shown(&self) -> String;

    /// Smaller inputs, of which those that are much smaller come first.
    fn smaller(&self) -> Box<dyn Iterator<Item = Self::Owned> + '_>;
}

impl Input for [u8] {
    const NAMES: &'static str = "texts";

    fn shown(&self) -> String {
        if self.len() <= MOST_SHOWN {
            return hex(self);
        }
        let (shown, more) = self.split_at(MOST_SHOWN);
        format!("{}..{} more bytes", hex(shown), more.len())
    }

    /// The text without a part, with zeros for a part, and with a lower byte.
    fn smaller(&self) -> Box<dyn Iterator<Item = Self::Owned> + '_> {
        let less = parts(self.len()).flat_map(move |part| {
            let zeros = vec![0; part.len()];
            [&[], &zeros[..]].map(|bytes| replaced(self, part.clone(), bytes))
        });
        let lower = parts_of(self.len(), 1).flat_map(move |part| {
            let byte = self[part.start];
            let bytes = [byte / 2, byte.saturating_sub(16), byte.saturating_sub(1)];
            bytes.map(|byte| replaced(self, part.clone(), &[byte]))
        });
        Box::new(less.chain(lower).filter(move |text| text != self))
    }
}

#[cfg(feature = "go")]
impl Input for Documented {
    const NAMES: &'static str = "literals";

    fn shown(&self) -> String {
        self.bytes.shown()
    }

    fn smaller(&self) -> Box<dyn Iterator<Item = Self::Owned> + '_> {
        Box::new(documented(self.bytes.smaller()))
    }
}

#[cfg(all(feature = "promql", feature = "go"))]
impl Input for Asked {
    const NAMES: &'static str = "texts";

    fn shown(&self) -> String {
        self.bytes.shown()
    }

    fn smaller(&self) -> Box<dyn Iterator<Item = Self::Owned> + '_> {
        Box::new(asked(self.bytes.smaller()))
    }
}

impl Input for u32 {
    const NAMES: &'static str = "codes";

    fn shown(&self) -> String {
        format!("{self:x}")
    }

    /// The number's leading bits, and the number before it.
    fn smaller(&self) -> Box<dyn Iterator<Item = Self::Owned> + '_> {
        let leading = (1..u32::BITS).rev().map(move |bits| self >> bits);
        let lower = leading.chain(self.checked_sub(1));
        Box::new(lower.filter(move |lower| lower < self))
    }
}

impl Input for u16 {
    const NAMES: &'static str = "kinds";

    fn shown(&self) -> String {
        self.to_string()
    }

    /// None: the kinds are compared in order.
    fn smaller(&self) -> Box<dyn Iterator<Item = Self::Owned> + '_> {
        Box::new(iter::empty())
    }
}

impl Input for (u64, u32) {
    const NAMES: &'static str = "durations";

    fn shown(&self) -> String {
        format!("{} seconds, {} nanoseconds", self.0, self.1)
    }

    /// The leading bits of each number, and the number before it.
    fn smaller(&self) -> Box<dyn Iterator<Item = Self::Owned> + '_> {
        let &(secs, nanos) = self;
        let leading = (1..u64::BITS).rev().map(move |bits| secs >> bits);
        let lower = leading.chain(secs.checked_sub(1));
        let lower = lower.filter(move |&lower| lower < secs);
        let sooner = lower.map(move |secs| (secs, nanos));
        Box::new(sooner.chain(self.1.smaller().map(move |nanos| (secs, nanos))))
    }
}

/// The whole of a text of `len` bytes, its halves, their halves, and so on to its bytes.
fn parts(len: usize) -> impl Iterator<Item = Range<usize>> {
    let sizes = iter::successors(Some(len), |size| Some(size / 2));
    let sizes = sizes.take_while(|&size| size > 0);
    sizes.flat_map(move |size| parts_of(len, size))
}

/// The parts of `size` bytes, one after the other; the last may be shorter.
fn parts_of(len: usize, size: usize) -> impl Iterator<Item = Range<usize>> {
    let starts = (0..len).step_by(size);
    starts.map(move |start| start..len.min(start + size))
}
