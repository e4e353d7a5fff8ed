//! Why a word has its kind: a second reading of document 02's sentence (L10). The Rust tells no reason, so each of the seven
//! conditions is asked by itself, of the Rust's lexemes and of the bytes of the query. At most one may hold of a lexeme, and the
//! kind that it gives must be the Rust's; where none holds, the Rust must have no name there and no word of the table.

use super::lexer::Lexed;
use super::{token, Answer};

/// The number of the refusal of a number that no lexeme has.
const NO_SUCH_LEXEME: u8 = 72;
/// The number of the refusal of a lexeme that is no word.
const NOT_A_WORD: u8 = 74;

/// The kinds of names.
const IDENTIFIER: u16 = 1;
const METRIC_IDENTIFIER: u16 = 2;

/// The three fill words.
const FILL_WORDS: [&[u8]; 3] = [b"fill", b"fill_left", b"fill_right"];

/// How many reasons there are. They are numbered from 1, in the order of the sentence.
const COUNT: usize = 7;

/// The reason of each lexeme of a query that is a word, or why the query is refused.
pub struct Reasons {
    lexing: Answer,
    each: Vec<Option<u8>>,
}

impl Reasons {
    /// Those of a query that is read as these lexemes.
    pub fn of(query: &[u8], lexed: &Lexed) -> Self {
        let lexing = lexed.answer(u64::MAX);
        let each = match lexing {
            Answer::Value(_) => reasons(query, lexed),
            Answer::Refused(..) => Vec::new(),
        };
        Reasons { lexing, each }
    }

    /// The answer for the lexeme of a number.
    pub fn answer(&self, number: u64) -> Answer {
        let lexeme = usize::try_from(number).ok();
        match (self.lexing, lexeme.and_then(|at| self.each.get(at))) {
            (Answer::Value(_), Some(Some(reason))) => Answer::Value((*reason).into()),
            (Answer::Value(_), Some(None)) => Answer::refused(NOT_A_WORD),
            (Answer::Value(_), None) => Answer::refused(NO_SUCH_LEXEME),
            (refused, _) => refused,
        }
    }
}

/// The reason of each lexeme of an accepted query; none of one that is no word.
fn reasons(query: &[u8], lexed: &Lexed) -> Vec<Option<u8>> {
    let mut open = Open::default();
    let spans = lexed.starts.iter().zip(&lexed.lengths);
    let reason = |(&kind, (&start, &length)): (&u16, (&u32, &u32))| {
        let (text, behind) = query[start as usize..].split_at(length as usize);
        let reason = Lexeme { text, behind, open }.reason(kind);
        open.pass(kind);
        reason
    };
    lexed.kinds.iter().zip(spans).map(reason).collect()
}

/// How many braces and brackets are open.
#[derive(Clone, Copy, Default)]
struct Open {
    braces: u32,
    brackets: u32,
}

impl Open {
    /// Counts a lexeme, whose kind says by the Rust's own texts which sign it is.
    fn pass(&mut self, kind: u16) {
        match promql::display(kind) {
            "{" => self.braces += 1,
            "}" => self.braces -= 1,
            "[" => self.brackets += 1,
            "]" => self.brackets -= 1,
            _ => (),
        }
    }
}

/// A lexeme: its bytes, those behind it, and what is open before it.
struct Lexeme<'q> {
    text: &'q [u8],
    behind: &'q [u8],
    open: Open,
}

impl Lexeme<'_> {
    /// The number of the one condition that holds, if any does. The kind is the Rust's.
    fn reason(&self, kind: u16) -> Option<u8> {
        let holding = self.conditions();
        let mut reasons = (1..).zip(holding).filter(|reason| reason.1);
        let reason = reasons.next().map(|reason| reason.0);
        let text = String::from_utf8_lossy(self.text);
        assert_eq!(reasons.next(), None, "two reasons hold of {text:?}");
        let given = reason.map(|reason| self.kinds()[usize::from(reason) - 1]);
        match given {
            Some(given) => assert_eq!(given, Some(kind), "{text:?} is so for {reason:?}"),
            None => assert!(!self.is_named(kind), "{text:?} has no reason"),
        }
        reason
    }

    /// The seven, each by itself: whether "`or` before a space in braces; any other word in braces; outside braces, table word
    /// other than the three fill words; fill word with `(` next, white space aside; fill word without; word with a colon; plain
    /// word".
    fn conditions(&self) -> [bool; COUNT] {
        let in_braces = self.open.braces > 0;
        let outside = !in_braces && self.open.brackets == 0;
        [
            in_braces && self.is_or() && self.has_space_next(),
            in_braces && self.is_word_of_braces() && !(self.is_or() && self.has_space_next()),
            outside && self.is_table_word() && !self.is_fill_word(),
            outside && self.is_fill_word() && self.has_paren_next(),
            outside && self.is_fill_word() && !self.has_paren_next(),
            outside && self.is_word() && self.has_colon(),
            outside && self.is_word() && !self.is_table_word() && !self.has_colon(),
        ]
    }

    /// The kind that each of them gives; none where the word has none of its own.
    fn kinds(&self) -> [Option<u16>; COUNT] {
        let own = token::keyword(self.text);
        [
            token::keyword(b"or"),
            Some(IDENTIFIER),
            own,
            own,
            Some(IDENTIFIER),
            Some(METRIC_IDENTIFIER),
            Some(IDENTIFIER),
        ]
    }

    /// Whether a kind is that of a name, or the one that the text has in the table.
    fn is_named(&self, kind: u16) -> bool {
        matches!(kind, IDENTIFIER | METRIC_IDENTIFIER) || token::keyword(self.text) == Some(kind)
    }

    /// Document 01: in braces a word starts with a letter, which `_` is too.
    fn is_word_of_braces(&self) -> bool {
        let first = self.text.first();
        first.map_or(false, |byte| byte.is_ascii_alphabetic() || *byte == b'_')
    }

    /// Document 01: "Outside braces a word starts with a letter or `:`".
    fn is_word(&self) -> bool {
        self.is_word_of_braces() || self.text.first() == Some(&b':')
    }

    /// Whether it is `or` in any case.
    fn is_or(&self) -> bool {
        self.text.eq_ignore_ascii_case(b"or")
    }

    /// Whether the byte behind it is 32.
    fn has_space_next(&self) -> bool {
        self.behind.starts_with(b" ")
    }

    /// Whether it is a word of the Rust's table, in any case.
    fn is_table_word(&self) -> bool {
        token::keyword(self.text).is_some()
    }

    /// Whether it is one of the three fill words, in any case.
    fn is_fill_word(&self) -> bool {
        let is = |word: &&[u8]| self.text.eq_ignore_ascii_case(word);
        FILL_WORDS.iter().any(is)
    }

    /// Whether the first byte behind it that is no white space is `(`.
    fn has_paren_next(&self) -> bool {
        let is_white = |byte: &&u8| b"\t\n\x0c\r ".contains(byte);
        self.behind.iter().find(|byte| !is_white(byte)) == Some(&b'(')
    }

    /// Whether it has a colon.
    fn has_colon(&self) -> bool {
        self.text.contains(&b':')
    }
}
