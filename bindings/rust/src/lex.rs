//! The lexemes of a query: as a vector, or in lists that are lent.

use crate::error::{query_result, Error};
use crate::ffi;
use crate::reading::Reading;
use crate::token::TokenId;
use core::iter::{FusedIterator, Zip};
use core::ops::Range;
use core::slice::Iter;

/// A lexeme: its kind, the byte of the query that it starts at, how many bytes it has, and how deep in parentheses it stands.
#[derive(Clone, Copy, Debug, PartialEq, Eq, Hash)]
pub struct Lexeme {
    /// Its kind: one of [`token`](crate::token).
    pub kind: TokenId,
    /// The byte that it starts at.
    pub start: usize,
    /// How many bytes it has.
    pub length: usize,
    /// How many parentheses are open before it; of a `)`, how many are left open after it, so that a pair has the same depth: the
    /// partner of a `(` is the next `)` with its depth. That is proved.
    ///
    /// ```
    /// let lexemes = simmerpath::lexer("(a + (b))")?;
    /// assert!(lexemes.iter().map(|lexeme| lexeme.depth).eq([0, 1, 1, 1, 2, 1, 0, 0]));
    /// # Ok::<(), simmerpath::Error>(())
    /// ```
    pub depth: usize,
}

impl Lexeme {
    /// The bytes of the query that the lexeme is.
    ///
    /// ```
    /// let lexemes = simmerpath::lexer("a + b")?;
    /// assert_eq!(lexemes[2].range(), 4..5);
    /// # Ok::<(), simmerpath::Error>(())
    /// ```
    pub fn range(&self) -> Range<usize> {
        self.start..self.start.saturating_add(self.length)
    }

    /// The text of the lexeme, given the query; empty where the query has no such range, or the range cuts a character.
    ///
    /// ```
    /// let query = r#"{job="é"}"#;
    /// let lexemes = simmerpath::lexer(query)?;
    /// assert_eq!(lexemes[3].text(query), r#""é""#);
    /// # Ok::<(), simmerpath::Error>(())
    /// ```
    pub fn text<'q>(&self, query: &'q str) -> &'q str {
        query.get(self.range()).unwrap_or_default()
    }

    /// The bytes of the lexeme, given the query as bytes; empty where the query has no such range.
    ///
    /// ```
    /// let query = b"a + b";
    /// let lexemes = simmerpath::lexer(query)?;
    /// assert_eq!(lexemes[1].bytes(query), b"+");
    /// # Ok::<(), simmerpath::Error>(())
    /// ```
    pub fn bytes<'q>(&self, query: &'q [u8]) -> &'q [u8] {
        query.get(self.range()).unwrap_or_default()
    }
}

/// The lexemes of a query, its end included, in the reading of promql-parser.
///
/// # Errors
///
/// Refusals 1, 2 and 10 to 32 ([`refusal`](crate::refusal)); the first that the query gives from left to right.
///
/// ```
/// use simmerpath::token::{T_EOF, T_NUMBER, T_SUB};
/// use simmerpath::Lexeme;
///
/// let lexemes = simmerpath::lexer("-0x1F")?;
/// assert_eq!(lexemes[0], Lexeme { kind: T_SUB, start: 0, length: 1, depth: 0 });
/// assert_eq!(lexemes[1], Lexeme { kind: T_NUMBER, start: 1, length: 4, depth: 0 });
/// assert_eq!(lexemes[2], Lexeme { kind: T_EOF, start: 5, length: 0, depth: 0 });
///
/// let refused = simmerpath::lexer("(up").unwrap_err();
/// assert_eq!(refused.to_string(), "unclosed left parenthesis, at byte 3");
/// # Ok::<(), simmerpath::Error>(())
/// ```
#[cfg(feature = "alloc")]
pub fn lexer<Q>(query: &Q) -> Result<alloc::vec::Vec<Lexeme>, Error>
where
    Q: AsRef<[u8]> + ?Sized,
{
    lexer_in(query, Reading::Crate)
}

/// The lexemes of a query, its end included, in a reading.
///
/// # Errors
///
/// Those of [`lexer`].
///
/// ```
/// use simmerpath::token::T_NUMBER;
/// use simmerpath::{lexer_in, Lexeme, Reading};
///
/// let lexemes = lexer_in("up > 1_000", Reading::Documented)?;
/// assert_eq!(lexemes[2], Lexeme { kind: T_NUMBER, start: 5, length: 5, depth: 0 });
///
/// let refused = lexer_in("up > 1_000", Reading::Crate).unwrap_err();
/// assert_eq!((refused.number(), refused.byte()), (20, 6));
/// let refused = lexer_in("up[1_000m]", Reading::Documented).unwrap_err();
/// assert_eq!((refused.number(), refused.byte()), (20, 8));
/// # Ok::<(), simmerpath::Error>(())
/// ```
#[cfg(feature = "alloc")]
pub fn lexer_in<Q>(query: &Q, reading: Reading) -> Result<alloc::vec::Vec<Lexeme>, Error>
where
    Q: AsRef<[u8]> + ?Sized,
{
    let query = query.as_ref();
    let room = query.len().min(crate::TEXT_LIMIT) + 1;
    let mut kinds = alloc::vec![0; room];
    let mut starts = alloc::vec![0; room];
    let mut lengths = alloc::vec![0; room];
    let mut depths = alloc::vec![0; room];
    let lexemes = lex_into(
        query,
        reading,
        &mut kinds,
        &mut starts,
        &mut lengths,
        &mut depths,
    );
    lexemes.map(Iterator::collect)
}

/// Writes the lexemes of a query, its end included, in a reading, to the fronts of four lists. What stands behind them stays, and
/// where the query is refused all of it. A query has at most one lexeme more than bytes.
///
/// # Errors
///
/// Those of [`lexer`], and [`NO_ROOM`](crate::refusal::NO_ROOM) where the shortest list is too short.
///
/// ```
/// use simmerpath::{lex_into, Reading};
///
/// let query = "or (b)";
/// let (mut kinds, mut starts) = ([9; 6], [9; 6]);
/// let (mut lengths, mut depths) = ([9; 6], [9; 6]);
/// let lexemes = lex_into(
///     query,
///     Reading::Crate,
///     &mut kinds,
///     &mut starts,
///     &mut lengths,
///     &mut depths,
/// )?;
/// assert_eq!(lexemes.len(), 5);
/// assert!(lexemes.map(|lexeme| lexeme.text(query)).eq(["or", "(", "b", ")", ""]));
/// assert_eq!((kinds, starts), ([36, 6, 1, 7, 0, 9], [0, 3, 4, 5, 6, 9]));
/// assert_eq!((lengths, depths), ([2, 1, 1, 1, 0, 9], [0, 0, 1, 0, 0, 9]));
/// # Ok::<(), simmerpath::Error>(())
/// ```
pub fn lex_into<'l, Q>(
    query: &Q,
    reading: Reading,
    kinds: &'l mut [TokenId],
    starts: &'l mut [u32],
    lengths: &'l mut [u32],
    depths: &'l mut [u32],
) -> Result<Lexemes<'l>, Error>
where
    Q: AsRef<[u8]> + ?Sized,
{
    let query = query.as_ref();
    let answer = ffi::lexer(query, reading.documented(), kinds, starts, lengths, depths);
    let count = query_result(answer, query, reading)? as usize;
    let kinds_and_depths = kinds[..count].iter().zip(&depths[..count]);
    let spans = starts[..count].iter().zip(&lengths[..count]);
    Ok(Lexemes {
        lists: kinds_and_depths.zip(spans),
    })
}

/// The kinds of lexemes, and their depths.
type KindsAndDepths<'l> = Zip<Iter<'l, TokenId>, Iter<'l, u32>>;

/// The starts of lexemes, and their lengths.
type Spans<'l> = Zip<Iter<'l, u32>, Iter<'l, u32>>;

/// An iterator over the lexemes in four lists: what [`lex_into`] gives.
#[derive(Clone, Debug)]
pub struct Lexemes<'l> {
    lists: Zip<KindsAndDepths<'l>, Spans<'l>>,
}

/// The lexeme of an entry of each list.
fn lexeme(((&kind, &depth), (&start, &length)): ((&TokenId, &u32), (&u32, &u32))) -> Lexeme {
    Lexeme {
        kind,
        start: start as usize,
        length: length as usize,
        depth: depth as usize,
    }
}

impl Iterator for Lexemes<'_> {
    type Item = Lexeme;

    fn next(&mut self) -> Option<Lexeme> {
        self.lists.next().map(lexeme)
    }

    fn size_hint(&self) -> (usize, Option<usize>) {
        self.lists.size_hint()
    }
}

impl DoubleEndedIterator for Lexemes<'_> {
    fn next_back(&mut self) -> Option<Lexeme> {
        self.lists.next_back().map(lexeme)
    }
}

impl ExactSizeIterator for Lexemes<'_> {}

impl FusedIterator for Lexemes<'_> {}
