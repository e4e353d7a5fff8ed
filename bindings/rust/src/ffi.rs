//! The C functions of libexports.a, each with a safe function of its name that answers as it does. All unsafe code stands here.
//! A slice is passed as its pointer and its length. A pointer of Rust's is never null, where the slice is empty neither.

/// The declarations, which are handed on with the feature `raw` alone.
#[doc(hidden)]
pub mod raw {
    extern "C" {
        pub fn simmerpath_utf8_validate(text: *const u8, len: usize) -> u64;
        pub fn simmerpath_utf8_char_number(text: *const u8, len: usize, to: usize) -> u64;
        pub fn simmerpath_utf8_char_at(
            text: *const u8,
            len: usize,
            at: usize,
            code: *mut u32,
        ) -> u64;
        pub fn simmerpath_utf8_encode(code: u32, out: *mut u8, len: usize, at: usize) -> u64;
        pub fn simmerpath_get_keyword_token(word: *const u8, len: usize) -> u64;
        pub fn simmerpath_token_display(kind: u16, out: *mut u8, len: usize) -> u64;
        pub fn simmerpath_token_classes(kind: u16) -> u64;
        pub fn simmerpath_is_label(text: *const u8, len: usize) -> u64;
        pub fn simmerpath_escape_string(
            text: *const u8,
            len: usize,
            out: *mut u8,
            room: usize,
        ) -> u64;
        pub fn simmerpath_unquote_string(
            literal: *const u8,
            len: usize,
            documented: u32,
            text: *mut u8,
            room: usize,
        ) -> u64;
        pub fn simmerpath_parse_str_radix(
            text: *const u8,
            len: usize,
            documented: u32,
            bits: *mut u64,
        ) -> u64;
        pub fn simmerpath_parse_duration(
            text: *const u8,
            len: usize,
            secs: *mut u64,
            nanos: *mut u32,
        ) -> u64;
        pub fn simmerpath_parse_duration_exact(
            text: *const u8,
            len: usize,
            secs: *mut u64,
            nanos: *mut u32,
        ) -> u64;
        pub fn simmerpath_display_duration(secs: u64, nanos: u32, out: *mut u8, len: usize) -> u64;
        pub fn simmerpath_lexer(
            query: *const u8,
            len: usize,
            documented: u32,
            kinds: *mut u16,
            kinds_len: usize,
            starts: *mut u32,
            starts_len: usize,
            lengths: *mut u32,
            lengths_len: usize,
            depths: *mut u32,
            depths_len: usize,
        ) -> u64;
        pub fn simmerpath_word_reason(
            query: *const u8,
            len: usize,
            documented: u32,
            number: usize,
        ) -> u64;
    }
}

use raw::*;

/// A number that is no character's code point.
pub(crate) const NO_CHARACTER: u32 = u32::MAX;

/// How many characters a text has.
pub(crate) fn utf8_validate(text: &[u8]) -> u64 {
    // SAFETY: the pointer and the length are those of one slice, which is read only.
    unsafe { simmerpath_utf8_validate(text.as_ptr(), text.len()) }
}

/// How many characters of a text begin before byte `to`.
pub(crate) fn utf8_char_number(text: &[u8], to: usize) -> u64 {
    // SAFETY: the pointer and the length are those of one slice, which is read only.
    unsafe { simmerpath_utf8_char_number(text.as_ptr(), text.len(), to) }
}

/// The length of the character at byte `at`, whose code point is written to `code`; where there is none, nothing is written.
pub(crate) fn utf8_char_at(text: &[u8], at: usize, code: &mut u32) -> u64 {
    // SAFETY: the pointer and the length are those of one slice, which is read only; `code` is lent for the call.
    unsafe { simmerpath_utf8_char_at(text.as_ptr(), text.len(), at, code) }
}

/// How many bytes of a code point are written at byte `at`.
pub(crate) fn utf8_encode(code: u32, out: &mut [u8], at: usize) -> u64 {
    // SAFETY: the pointer and the length are those of one slice, which is lent for the call.
    unsafe { simmerpath_utf8_encode(code, out.as_mut_ptr(), out.len(), at) }
}

/// The kind of a word, or a number that is no kind.
pub(crate) fn get_keyword_token(word: &[u8]) -> u64 {
    // SAFETY: the pointer and the length are those of one slice, which is read only.
    unsafe { simmerpath_get_keyword_token(word.as_ptr(), word.len()) }
}

/// How many bytes of a kind's text are written to the front.
pub(crate) fn token_display(kind: u16, out: &mut [u8]) -> u64 {
    // SAFETY: the pointer and the length are those of one slice, which is lent for the call.
    unsafe { simmerpath_token_display(kind, out.as_mut_ptr(), out.len()) }
}

/// The classes of a kind, a bit for each.
pub(crate) fn token_classes(kind: u16) -> u64 {
    // SAFETY: the function is lent nothing.
    unsafe { simmerpath_token_classes(kind) }
}

/// 1 where a text is a label's name, else 0.
pub(crate) fn is_label(text: &[u8]) -> u64 {
    // SAFETY: the pointer and the length are those of one slice, which is read only.
    unsafe { simmerpath_is_label(text.as_ptr(), text.len()) }
}

/// How many bytes of an escaped text are written to the front.
pub(crate) fn escape_string(text: &[u8], out: &mut [u8]) -> u64 {
    // SAFETY: each pointer and the length behind it are those of one slice; `text` is read only, and `out` is lent for the call.
    unsafe { simmerpath_escape_string(text.as_ptr(), text.len(), out.as_mut_ptr(), out.len()) }
}

/// How many bytes the text of a literal has: written to the front, or, with a bit more, in the literal.
pub(crate) fn unquote_string(literal: &[u8], documented: u32, text: &mut [u8]) -> u64 {
    let (out, room) = (text.as_mut_ptr(), text.len());
    // SAFETY: each pointer and the length behind it are those of one slice; `literal` is read only, and `text` is lent for the call.
    unsafe { simmerpath_unquote_string(literal.as_ptr(), literal.len(), documented, out, room) }
}

/// The notation of a number, the bits of whose value are written to `bits`.
pub(crate) fn parse_str_radix(text: &[u8], documented: u32, bits: &mut u64) -> u64 {
    // SAFETY: the pointer and the length are those of one slice, which is read only; `bits` is lent for the call.
    unsafe { simmerpath_parse_str_radix(text.as_ptr(), text.len(), documented, bits) }
}

/// Zero for a duration, which is written to `secs` and `nanos`.
pub(crate) fn parse_duration(text: &[u8], secs: &mut u64, nanos: &mut u32) -> u64 {
    // SAFETY: the pointer and the length are those of one slice, which is read only; the others are lent for the call.
    unsafe { simmerpath_parse_duration(text.as_ptr(), text.len(), secs, nanos) }
}

/// The same in the exact reading.
pub(crate) fn parse_duration_exact(text: &[u8], secs: &mut u64, nanos: &mut u32) -> u64 {
    // SAFETY: the pointer and the length are those of one slice, which is read only; the others are lent for the call.
    unsafe { simmerpath_parse_duration_exact(text.as_ptr(), text.len(), secs, nanos) }
}

/// How many bytes of a duration's text are written to the front.
pub(crate) fn display_duration(secs: u64, nanos: u32, out: &mut [u8]) -> u64 {
    // SAFETY: the pointer and the length are those of one slice, which is lent for the call.
    unsafe { simmerpath_display_duration(secs, nanos, out.as_mut_ptr(), out.len()) }
}

/// How many lexemes of a query are written to the fronts of the lists.
pub(crate) fn lexer(
    query: &[u8],
    documented: u32,
    kinds: &mut [u16],
    starts: &mut [u32],
    lengths: &mut [u32],
    depths: &mut [u32],
) -> u64 {
    // SAFETY: each pointer and the length behind it are those of one slice; `query` is read only, and the lists are lent for the
    // call.
    unsafe {
        simmerpath_lexer(
            query.as_ptr(),
            query.len(),
            documented,
            kinds.as_mut_ptr(),
            kinds.len(),
            starts.as_mut_ptr(),
            starts.len(),
            lengths.as_mut_ptr(),
            lengths.len(),
            depths.as_mut_ptr(),
            depths.len(),
        )
    }
}

/// Why the word that is a query's lexeme of a number has its kind, as a number.
pub(crate) fn word_reason(query: &[u8], documented: u32, number: usize) -> u64 {
    // SAFETY: the pointer and the length are those of one slice, which is read only.
    unsafe { simmerpath_word_reason(query.as_ptr(), query.len(), documented, number) }
}
