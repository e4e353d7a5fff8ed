//! Our functions, the C functions that the crate simmerpath links, each with a safe wrapper.
//! What a function is lent stands between guards, and each wrapper tells whether all that the function may not write
//! is as it was.

use crate::comparison::Outcome;
use compare::oracle::literal::INNER;
use simmerpath::raw::*;

/// The numbers that a reading is asked for with, by turns.
pub type Readings = [u32; 4];
/// The crate reading.
pub const CRATE: Readings = [0; 4];
/// The documented reading, which any other number stands for.
pub const DOCUMENTED: Readings = [1, 1 << 31, 2, u32::MAX];
/// Both.
pub const BOTH: Readings = [0, 1, 0, 1];

/// How many guards stand on each side of a list.
const GUARDS: usize = 8;

/// A list to lend, with its guards, as it is now and as it was made.
pub struct Lent<T> {
    now: Vec<T>,
    made: Vec<T>,
}

impl<T: Copy + PartialEq> Lent<T> {
    /// The list with these contents, and with guards of this value.
    pub fn new(contents: &[T], guard: T) -> Self {
        let guards = &[guard; GUARDS][..];
        let made = [guards, contents, guards].concat();
        Lent {
            now: made.clone(),
            made,
        }
    }

    /// Makes all guards this value.
    pub fn guard(&mut self, guard: T) {
        let end = GUARDS + self.len();
        for list in [&mut self.now, &mut self.made] {
            list[..GUARDS].fill(guard);
            list[end..].fill(guard);
        }
    }

    /// Where the list begins.
    fn start(&mut self) -> *mut T {
        self.now.as_mut_ptr().wrapping_add(GUARDS)
    }

    /// How long the list is.
    fn len(&self) -> usize {
        self.now.len() - 2 * GUARDS
    }

    /// What the list has now.
    fn contents(&self) -> &[T] {
        &self.now[GUARDS..][..self.len()]
    }

    /// Makes the list again as it was made.
    fn restore(&mut self) {
        self.now.copy_from_slice(&self.made);
    }

    /// Whether the guards are as they were made.
    fn is_guarded(&self) -> bool {
        let end = GUARDS + self.len();
        self.now[..GUARDS] == self.made[..GUARDS] && self.now[end..] == self.made[end..]
    }

    /// Whether the list and its guards are as they were made.
    fn is_untouched(&self) -> bool {
        self.now == self.made
    }

    /// The outcome of a call that answered this, and that may write nothing.
    fn read(&self, answer: u64) -> Outcome<()> {
        Outcome {
            answer,
            written: (),
            untouched: self.is_untouched(),
        }
    }

    /// The outcome of a call that answered this, and that may write to the list.
    fn written(&self, answer: u64) -> Outcome<&[T]> {
        Outcome {
            answer,
            written: self.contents(),
            untouched: self.is_guarded(),
        }
    }
}

/// How many characters a text has.
pub fn utf8_validate(text: &mut Lent<u8>) -> Outcome<()> {
    // Safety: the pointer and the length are those of one list.
    let answer = unsafe { simmerpath_utf8_validate(text.start(), text.len()) };
    text.read(answer)
}

/// How many characters of the longest well-formed prefix begin before byte `to`.
pub fn utf8_char_number(text: &mut Lent<u8>, to: usize) -> Outcome<()> {
    // Safety: the pointer and the length are those of one list.
    let answer = unsafe { simmerpath_utf8_char_number(text.start(), text.len(), to) };
    text.read(answer)
}

/// The length of the character at byte `at`; its code point is written to the first cell of `code`.
pub fn utf8_char_at(text: &mut Lent<u8>, at: usize, code: &mut Lent<u32>) -> Outcome<u32> {
    code.restore();
    // Safety: the pointer and the length are those of one list, and `code` has a first cell, or a guard in its place.
    let answer = unsafe { simmerpath_utf8_char_at(text.start(), text.len(), at, code.start()) };
    Outcome {
        answer,
        written: code.contents()[0],
        untouched: text.is_untouched() && code.is_guarded(),
    }
}

/// How many bytes the character of a code point has; they are written at `at`.
pub fn utf8_encode(code: u32, out: &mut Lent<u8>, at: usize) -> Outcome<&[u8]> {
    out.restore();
    // Safety: the pointer and the length are those of one list.
    let answer = unsafe { simmerpath_utf8_encode(code, out.start(), out.len(), at) };
    out.written(answer)
}

/// The kind of a word of the table.
pub fn get_keyword_token(word: &mut Lent<u8>) -> Outcome<()> {
    // Safety: the pointer and the length are those of one list.
    let answer = unsafe { simmerpath_get_keyword_token(word.start(), word.len()) };
    word.read(answer)
}

/// How many bytes the display text of a kind has; they are written to the front.
pub fn token_display(kind: u16, out: &mut Lent<u8>) -> Outcome<&[u8]> {
    out.restore();
    // Safety: the pointer and the length are those of one list.
    let answer = unsafe { simmerpath_token_display(kind, out.start(), out.len()) };
    out.written(answer)
}

/// The classes of a kind, a bit for each.
pub fn token_classes(kind: u16) -> Outcome<()> {
    Outcome {
        // Safety: the function is lent nothing.
        answer: unsafe { simmerpath_token_classes(kind) },
        written: (),
        untouched: true,
    }
}

/// Whether a text is a label.
pub fn is_label(text: &mut Lent<u8>) -> Outcome<()> {
    // Safety: the pointer and the length are those of one list.
    let answer = unsafe { simmerpath_is_label(text.start(), text.len()) };
    text.read(answer)
}

/// How many bytes a text has when it is escaped; they are written to the front of `out`.
pub fn escape_string<'a>(text: &mut Lent<u8>, out: &'a mut Lent<u8>) -> Outcome<&'a [u8]> {
    out.restore();
    // Safety: each pointer and the length behind it are those of one list.
    let answer =
        unsafe { simmerpath_escape_string(text.start(), text.len(), out.start(), out.len()) };
    Outcome {
        untouched: text.is_untouched() && out.is_guarded(),
        ..out.written(answer)
    }
}

/// How many bytes the text of a literal has, and where they stand; those that are not in the literal are written to the front
/// of `out`. The outcome has the text and the whole of `out`.
pub fn unquote_string<'a>(
    literal: &'a mut Lent<u8>,
    documented: u32,
    out: &'a mut Lent<u8>,
) -> Outcome<[&'a [u8]; 2]> {
    out.restore();
    // Safety: each pointer and the length behind it are those of one list.
    let answer = unsafe {
        simmerpath_unquote_string(
            literal.start(),
            literal.len(),
            documented,
            out.start(),
            out.len(),
        )
    };
    let text = handed_back(answer, literal.contents(), out.contents());
    Outcome {
        answer,
        written: [text, out.contents()],
        untouched: literal.is_untouched() && out.is_guarded(),
    }
}

/// The number of a number text's notation; the bits of its value are written to the first cell of `bits`.
pub fn parse_str_radix(text: &mut Lent<u8>, documented: u32, bits: &mut Lent<u64>) -> Outcome<u64> {
    bits.restore();
    // Safety: the pointer and the length are those of one list, and `bits` has a first cell, or a guard in its place.
    let answer =
        unsafe { simmerpath_parse_str_radix(text.start(), text.len(), documented, bits.start()) };
    Outcome {
        answer,
        written: bits.contents()[0],
        untouched: text.is_untouched() && bits.is_guarded(),
    }
}

/// Zero for the duration of a text, which is written to the first cells of `secs` and `nanos`.
pub fn parse_duration(
    text: &mut Lent<u8>,
    secs: &mut Lent<u64>,
    nanos: &mut Lent<u32>,
) -> Outcome<(u64, u32)> {
    timed(text, secs, nanos, simmerpath_parse_duration)
}

/// The same in the exact reading.
pub fn parse_duration_exact(
    text: &mut Lent<u8>,
    secs: &mut Lent<u64>,
    nanos: &mut Lent<u32>,
) -> Outcome<(u64, u32)> {
    timed(text, secs, nanos, simmerpath_parse_duration_exact)
}

/// What one of the C functions that read durations does.
fn timed(
    text: &mut Lent<u8>,
    secs: &mut Lent<u64>,
    nanos: &mut Lent<u32>,
    read: unsafe extern "C" fn(*const u8, usize, *mut u64, *mut u32) -> u64,
) -> Outcome<(u64, u32)> {
    secs.restore();
    nanos.restore();
    // Safety: the pointer and the length are those of one list, and the others have a first cell, or a guard in its place.
    let answer = unsafe { read(text.start(), text.len(), secs.start(), nanos.start()) };
    Outcome {
        answer,
        written: (secs.contents()[0], nanos.contents()[0]),
        untouched: text.is_untouched() && secs.is_guarded() && nanos.is_guarded(),
    }
}

/// How many bytes the text of a duration has; they are written to the front.
pub fn display_duration(secs: u64, nanos: u32, out: &mut Lent<u8>) -> Outcome<&[u8]> {
    out.restore();
    // Safety: the pointer and the length are those of one list.
    let answer = unsafe { simmerpath_display_duration(secs, nanos, out.start(), out.len()) };
    out.written(answer)
}

/// The kinds, starts, lengths and depths of lexemes.
pub type Lists<'a> = (&'a [u16], &'a [u32], &'a [u32], &'a [u32]);

/// How many lexemes a query has; their kinds, starts, lengths and depths are written to the fronts of the lists.
pub fn lexer<'a>(
    query: &mut Lent<u8>,
    documented: u32,
    kinds: &'a mut Lent<u16>,
    starts: &'a mut Lent<u32>,
    lengths: &'a mut Lent<u32>,
    depths: &'a mut Lent<u32>,
) -> Outcome<Lists<'a>> {
    kinds.restore();
    starts.restore();
    lengths.restore();
    depths.restore();
    // Safety: each pointer and the length behind it are those of one list.
    let answer = unsafe {
        simmerpath_lexer(
            query.start(),
            query.len(),
            documented,
            kinds.start(),
            kinds.len(),
            starts.start(),
            starts.len(),
            lengths.start(),
            lengths.len(),
            depths.start(),
            depths.len(),
        )
    };
    let numbers = [&*starts, lengths, depths];
    let guarded = kinds.is_guarded() && numbers.iter().all(|list| list.is_guarded());
    Outcome {
        answer,
        written: (
            kinds.contents(),
            starts.contents(),
            lengths.contents(),
            depths.contents(),
        ),
        untouched: query.is_untouched() && guarded,
    }
}

/// Why the word that is a query's lexeme of a number has its kind.
pub fn word_reason(query: &mut Lent<u8>, documented: u32, number: usize) -> Outcome<()> {
    // Safety: the pointer and the length are those of one list.
    let answer = unsafe { simmerpath_word_reason(query.start(), query.len(), documented, number) };
    query.read(answer)
}

/// The text that an answer hands back, of the literal or of the buffer; none where it is refused.
fn handed_back<'a>(answer: u64, literal: &'a [u8], out: &'a [u8]) -> &'a [u8] {
    let (list, length) = match answer.checked_sub(INNER) {
        None => (out, answer),
        Some(length) => (literal.get(1..).unwrap_or(&[]), length),
    };
    list.get(..length as usize).unwrap_or(&[])
}
