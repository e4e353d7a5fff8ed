//! All that an accepted query is made of: its lexemes, and the white space and the comments between them.

use crate::lex::Lexeme;
use core::borrow::Borrow;
use core::iter::FusedIterator;
use core::ops::Range;

/// A piece of a query: what it is, and the bytes that it is.
#[derive(Clone, Debug, PartialEq, Eq, Hash)]
pub enum Piece {
    /// A lexeme other than the end, which has no bytes.
    Lexeme(Lexeme),
    /// A run of white space, as long as can be: bytes 9, 10, 12, 13 and 32.
    Space(Range<usize>),
    /// A comment: from a `#` through the first CR or LF, or to the end of the query.
    Comment(Range<usize>),
}

impl Piece {
    /// The bytes of the query that the piece is; of one that [`pieces`] gives there is at least one.
    ///
    /// ```
    /// let lexemes = simmerpath::lexer("up # now")?;
    /// let ranges = simmerpath::pieces("up # now", &lexemes).map(|piece| piece.range());
    /// assert!(ranges.eq([0..2, 2..3, 3..8]));
    /// # Ok::<(), simmerpath::Error>(())
    /// ```
    pub fn range(&self) -> Range<usize> {
        match self {
            Piece::Lexeme(lexeme) => lexeme.range(),
            Piece::Space(range) | Piece::Comment(range) => range.clone(),
        }
    }

    /// The text of the piece, given the query; empty where the query has no such range, or the range cuts a character.
    ///
    /// ```
    /// let query = "{ job = 'é' }";
    /// let lexemes = simmerpath::lexer(query)?;
    /// let texts = simmerpath::pieces(query, &lexemes).map(|piece| piece.text(query));
    /// assert_eq!(texts.collect::<String>(), query);
    /// # Ok::<(), simmerpath::Error>(())
    /// ```
    pub fn text<'q>(&self, query: &'q str) -> &'q str {
        query.get(self.range()).unwrap_or_default()
    }

    /// The bytes of the piece, given the query as bytes; empty where the query has no such range.
    ///
    /// ```
    /// let query = b"a # b";
    /// let lexemes = simmerpath::lexer(query)?;
    /// let comment = simmerpath::pieces(query, &lexemes).last().unwrap();
    /// assert_eq!(comment.bytes(query), b"# b");
    /// # Ok::<(), simmerpath::Error>(())
    /// ```
    pub fn bytes<'q>(&self, query: &'q [u8]) -> &'q [u8] {
        query.get(self.range()).unwrap_or_default()
    }
}

/// The pieces of a query, given its lexemes: side by side from its first byte to its last, so that each byte is of one of them.
/// Lexemes that are not those of the query may cut a comment or a run of white space, or end the pieces before the query does.
///
/// ```
/// use simmerpath::{lexer, pieces, Piece};
///
/// let query = "up  # now\n> 1";
/// let lexemes = lexer(query)?;
/// let found: Vec<Piece> = pieces(query, &lexemes).collect();
/// assert_eq!(found[0], Piece::Lexeme(lexemes[0]));
/// assert_eq!(found[1], Piece::Space(2..4));
/// assert_eq!(found[2], Piece::Comment(4..10));
/// assert_eq!(found[3], Piece::Lexeme(lexemes[1]));
/// assert_eq!(found[4], Piece::Space(11..12));
/// assert_eq!(found[5], Piece::Lexeme(lexemes[2]));
/// assert_eq!(found.len(), 6);
/// # Ok::<(), simmerpath::Error>(())
/// ```
pub fn pieces<'q, Q, L>(query: &'q Q, lexemes: L) -> Pieces<'q, L::IntoIter>
where
    Q: AsRef<[u8]> + ?Sized,
    L: IntoIterator,
    L::Item: Borrow<Lexeme>,
{
    let mut rest = lexemes.into_iter();
    Pieces {
        query: query.as_ref(),
        at: 0,
        lexeme: taken(&mut rest),
        rest,
    }
}

/// An iterator over the pieces of a query: what [`pieces`] gives.
#[derive(Clone, Debug)]
pub struct Pieces<'q, L> {
    query: &'q [u8],
    /// Where the next piece begins.
    at: usize,
    /// The next lexeme, and those behind it.
    lexeme: Option<Lexeme>,
    rest: L,
}

impl<L> Iterator for Pieces<'_, L>
where
    L: Iterator,
    L::Item: Borrow<Lexeme>,
{
    type Item = Piece;

    fn next(&mut self) -> Option<Piece> {
        let at = self.at;
        let end = self.lexeme.map_or(self.query.len(), |next| next.start);
        let between = self.query.get(at..end)?;
        let piece = match between.first() {
            Some(b'#') => Piece::Comment(at..at + comment(between)),
            Some(_) => Piece::Space(at..at + space(between)),
            None => Piece::Lexeme(self.lexeme?),
        };
        if piece.bytes(self.query).is_empty() {
            return None;
        }
        if between.is_empty() {
            self.lexeme = taken(&mut self.rest);
        }
        self.at = piece.range().end;
        Some(piece)
    }
}

impl<L> FusedIterator for Pieces<'_, L>
where
    L: Iterator,
    L::Item: Borrow<Lexeme>,
{
}

/// The next of some lexemes.
fn taken<L>(lexemes: &mut L) -> Option<Lexeme>
where
    L: Iterator,
    L::Item: Borrow<Lexeme>,
{
    lexemes.next().map(|lexeme| *lexeme.borrow())
}

/// The length of the comment that a text begins with, with the end of its line.
pub(crate) fn comment(text: &[u8]) -> usize {
    let line = text.iter().position(|byte| b"\r\n".contains(byte));
    line.map_or(text.len(), |line| line + 1)
}

/// The length of the white space that a text begins with.
fn space(text: &[u8]) -> usize {
    let space = text.iter().take_while(|byte| byte.is_ascii_whitespace());
    space.count()
}
