//! Why a word of a query has its kind.

use crate::error::{query_result, Error};
use crate::ffi;
use crate::reading::Reading;
use core::fmt;

/// Why a word has its kind: what [`word_reason`] gives. A word is a lexeme that begins with a letter, a `_` among these, or,
/// outside braces and brackets, with a colon. Exactly one of the reasons holds of a word, which is proved; those behind the first
/// two are of words outside braces. Their numbers are those of the C function.
///
/// ```
/// use simmerpath::Reason;
///
/// let sentence = Reason::InBraces.sentence("order").to_string();
/// assert_eq!(sentence, "`order` is inside braces, where every word but `or` before a space is a name");
/// ```
#[derive(Clone, Copy, Debug, PartialEq, Eq, Hash)]
pub enum Reason {
    /// `or` before a space in braces: it is the operator.
    Or = 1,
    /// Any other word in braces: it is a name.
    InBraces = 2,
    /// A word of PromQL other than `fill`, `fill_left` and `fill_right`: it has its own kind.
    Table = 3,
    /// One of these three with `(` next, white space aside: it has its own kind.
    FillCalled = 4,
    /// One of these three without: it is a name.
    FillAlone = 5,
    /// A word with a colon: it is the name of a metric.
    WithColon = 6,
    /// Any other word: it is a name.
    Plain = 7,
}

/// What the C function answers for the reasons other than the last.
const OR: u64 = Reason::Or as u64;
const IN_BRACES: u64 = Reason::InBraces as u64;
const TABLE: u64 = Reason::Table as u64;
const FILL_CALLED: u64 = Reason::FillCalled as u64;
const FILL_ALONE: u64 = Reason::FillAlone as u64;
const WITH_COLON: u64 = Reason::WithColon as u64;

impl Reason {
    /// The reason as a sentence about its word.
    ///
    /// ```
    /// use simmerpath::Reason;
    ///
    /// let sentence = Reason::FillAlone.sentence("fill").to_string();
    /// assert_eq!(sentence, "`fill` is a name here, since no `(` is next, white space aside");
    /// ```
    pub fn sentence(self, word: &str) -> Sentence<'_> {
        Sentence { reason: self, word }
    }

    /// What is said of the word, behind it.
    fn said(self) -> &'static str {
        match self {
            Reason::Or => "is inside braces and before a space, where it is the operator",
            Reason::InBraces => {
                "is inside braces, where every word but `or` before a space is a name"
            }
            Reason::Table => "is a word of PromQL, which has its own kind outside braces",
            Reason::FillCalled => "has its own kind here, since `(` is next, white space aside",
            Reason::FillAlone => "is a name here, since no `(` is next, white space aside",
            Reason::WithColon => "has a colon, and so is the name of a metric",
            Reason::Plain => "is no word of PromQL and has no colon, and so is a name",
        }
    }
}

/// A reason as a sentence about its word: what [`Reason::sentence`] gives.
#[derive(Clone, Copy, Debug)]
pub struct Sentence<'w> {
    reason: Reason,
    word: &'w str,
}

impl fmt::Display for Sentence<'_> {
    fn fmt(&self, f: &mut fmt::Formatter<'_>) -> fmt::Result {
        write!(f, "`{}` {}", self.word, self.reason.said())
    }
}

/// Why a word of a query has its kind, in a reading. The word is the lexeme of that number, counted from 0 as
/// [`lex_into`](crate::lex_into) gives them in the same reading.
///
/// # Errors
///
/// Those of lexing, refusals 1, 2 and 10 to 32 ([`refusal`](crate::refusal)); then
/// [`NO_SUCH_LEXEME`](crate::refusal::NO_SUCH_LEXEME) and [`NOT_A_WORD`](crate::refusal::NOT_A_WORD), which the end is, too.
///
/// ```
/// use simmerpath::{lexer, word_reason, Reading, Reason};
///
/// let query = "fill(up) or fill";
/// let why = |number| word_reason(query, Reading::Crate, number);
/// assert_eq!(why(0)?, Reason::FillCalled);
/// assert_eq!(why(2)?, Reason::Plain);
/// assert_eq!(why(4)?, Reason::Table);
/// assert_eq!(why(5)?, Reason::FillAlone);
/// assert_eq!(why(1).unwrap_err().to_string(), "the lexeme is not a word");
/// assert_eq!(why(7).unwrap_err().to_string(), "the query has no lexeme of this number");
///
/// let query = "up{order='1'}";
/// let word = lexer(query)?[2].text(query);
/// let reason = word_reason(query, Reading::Crate, 2)?;
/// assert_eq!(
///     reason.sentence(word).to_string(),
///     "`order` is inside braces, where every word but `or` before a space is a name"
/// );
/// # Ok::<(), simmerpath::Error>(())
/// ```
pub fn word_reason<Q>(query: &Q, reading: Reading, number: usize) -> Result<Reason, Error>
where
    Q: AsRef<[u8]> + ?Sized,
{
    let query = query.as_ref();
    let answer = ffi::word_reason(query, reading.documented(), number);
    Ok(match query_result(answer, query, reading)? {
        OR => Reason::Or,
        IN_BRACES => Reason::InBraces,
        TABLE => Reason::Table,
        FILL_CALLED => Reason::FillCalled,
        FILL_ALONE => Reason::FillAlone,
        WITH_COLON => Reason::WithColon,
        _ => Reason::Plain,
    })
}
