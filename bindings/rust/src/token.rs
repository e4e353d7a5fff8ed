//! The kinds of lexemes under promql-parser's names, their classes and texts, and the words that have a kind.
//!
//! The numbers are our own: promql-parser's come from its grammar. What has no number here is no kind: it is of no class, and is
//! shown as `unknown token`.

use crate::ffi;
use crate::text::Text;

/// The number of a kind.
pub type TokenId = u16;

/// The most bytes that the text of a kind has.
const LONGEST_TEXT: usize = 13;

/// The text of a kind.
pub type TokenText = Text<LONGEST_TEXT>;

/// Makes a constant of each kind.
macro_rules! kinds {
    ($($(#[$doc:meta])+ $name:ident = $number:literal;)+) => {
        $($(#[$doc])+ pub const $name: TokenId = $number;)+
    };
}

kinds! {
    /// The end of a query.
    T_EOF = 0;
    /// A name.
    T_IDENTIFIER = 1;
    /// A name with a colon.
    T_METRIC_IDENTIFIER = 2;
    /// A string, with both of its signs.
    T_STRING = 3;
    /// A number.
    T_NUMBER = 4;
    /// A duration.
    T_DURATION = 5;
    /// `(`
    T_LEFT_PAREN = 6;
    /// `)`
    T_RIGHT_PAREN = 7;
    /// `{`
    T_LEFT_BRACE = 8;
    /// `}`
    T_RIGHT_BRACE = 9;
    /// `[`
    T_LEFT_BRACKET = 10;
    /// `]`
    T_RIGHT_BRACKET = 11;
    /// `,`
    T_COMMA = 12;
    /// `:`
    T_COLON = 13;
    /// `=`
    T_EQL = 14;
    /// `+`
    T_ADD = 20;
    /// `-`
    T_SUB = 21;
    /// `*`
    T_MUL = 22;
    /// `/`
    T_DIV = 23;
    /// `%`
    T_MOD = 24;
    /// `^`
    T_POW = 25;
    /// `==`
    T_EQLC = 26;
    /// `!=`
    T_NEQ = 27;
    /// `<=`
    T_LTE = 28;
    /// `<`
    T_LSS = 29;
    /// `>=`
    T_GTE = 30;
    /// `>`
    T_GTR = 31;
    /// `=~`
    T_EQL_REGEX = 32;
    /// `!~`
    T_NEQ_REGEX = 33;
    /// `@`
    T_AT = 34;
    /// `and`
    T_LAND = 35;
    /// `or`
    T_LOR = 36;
    /// `unless`
    T_LUNLESS = 37;
    /// `atan2`
    T_ATAN2 = 38;
    /// `sum`
    T_SUM = 40;
    /// `avg`
    T_AVG = 41;
    /// `count`
    T_COUNT = 42;
    /// `min`
    T_MIN = 43;
    /// `max`
    T_MAX = 44;
    /// `group`
    T_GROUP = 45;
    /// `stddev`
    T_STDDEV = 46;
    /// `stdvar`
    T_STDVAR = 47;
    /// `topk`
    T_TOPK = 48;
    /// `bottomk`
    T_BOTTOMK = 49;
    /// `count_values`
    T_COUNT_VALUES = 50;
    /// `quantile`
    T_QUANTILE = 51;
    /// `limitk`
    T_LIMITK = 52;
    /// `limit_ratio`
    T_LIMIT_RATIO = 53;
    /// `offset`
    T_OFFSET = 60;
    /// `by`
    T_BY = 61;
    /// `without`
    T_WITHOUT = 62;
    /// `on`
    T_ON = 63;
    /// `ignoring`
    T_IGNORING = 64;
    /// `group_left`
    T_GROUP_LEFT = 65;
    /// `group_right`
    T_GROUP_RIGHT = 66;
    /// `bool`
    T_BOOL = 67;
    /// `smoothed`
    T_SMOOTHED = 68;
    /// `anchored`
    T_ANCHORED = 69;
    /// `fill`
    T_FILL = 70;
    /// `fill_left`
    T_FILL_LEFT = 71;
    /// `fill_right`
    T_FILL_RIGHT = 72;
    /// `start`
    T_START = 80;
    /// `end`
    T_END = 81;
}

/// What each class of a kind is worth in the answer of the C function.
const OPERATOR: u64 = 1;
const COMPARISON_OPERATOR: u64 = 2;
const SET_OPERATOR: u64 = 4;
const AGGREGATOR: u64 = 8;
const AGGREGATOR_WITH_PARAM: u64 = 16;

/// Whether a kind is of a class.
fn is_of(kind: TokenId, class: u64) -> bool {
    ffi::token_classes(kind) & class != 0
}

/// Whether a kind is an operator: a sign such as `+`, `==` or `@`, or one of the words `and`, `or`, `unless`, `atan2`.
///
/// ```
/// use simmerpath::token::{is_operator, T_ATAN2, T_EQL, T_EQLC};
/// assert!(is_operator(T_EQLC) && is_operator(T_ATAN2));
/// assert!(!is_operator(T_EQL));
/// ```
pub fn is_operator(kind: TokenId) -> bool {
    is_of(kind, OPERATOR)
}

/// Whether a kind compares: `==`, `!=`, `<=`, `<`, `>=` or `>`.
///
/// ```
/// use simmerpath::token::{is_comparison_operator, T_ADD, T_LTE};
/// assert!(is_comparison_operator(T_LTE));
/// assert!(!is_comparison_operator(T_ADD));
/// ```
pub fn is_comparison_operator(kind: TokenId) -> bool {
    is_of(kind, COMPARISON_OPERATOR)
}

/// Whether a kind is `and`, `or` or `unless`.
///
/// ```
/// use simmerpath::token::{is_set_operator, T_ATAN2, T_LUNLESS};
/// assert!(is_set_operator(T_LUNLESS));
/// assert!(!is_set_operator(T_ATAN2));
/// ```
pub fn is_set_operator(kind: TokenId) -> bool {
    is_of(kind, SET_OPERATOR)
}

/// Whether a kind is an aggregator, from `sum` to `limit_ratio`.
///
/// ```
/// use simmerpath::token::{is_aggregator, T_BY, T_SUM};
/// assert!(is_aggregator(T_SUM));
/// assert!(!is_aggregator(T_BY));
/// ```
pub fn is_aggregator(kind: TokenId) -> bool {
    is_of(kind, AGGREGATOR)
}

/// Whether a kind is an aggregator that takes a parameter.
///
/// ```
/// use simmerpath::token::{is_aggregator_with_param, T_QUANTILE, T_SUM};
/// assert!(is_aggregator_with_param(T_QUANTILE));
/// assert!(!is_aggregator_with_param(T_SUM));
/// ```
pub fn is_aggregator_with_param(kind: TokenId) -> bool {
    is_of(kind, AGGREGATOR_WITH_PARAM)
}

/// The kind of a word, in any case of its letters, if it has one of its own.
///
/// ```
/// use simmerpath::token::{get_keyword_token, T_NUMBER, T_SUM};
/// assert_eq!(get_keyword_token("Sum"), Some(T_SUM));
/// assert_eq!(get_keyword_token("inf"), Some(T_NUMBER));
/// assert_eq!(get_keyword_token("rate"), None);
/// ```
pub fn get_keyword_token<T: AsRef<[u8]> + ?Sized>(word: &T) -> Option<TokenId> {
    TokenId::try_from(ffi::get_keyword_token(word.as_ref())).ok()
}

/// The text that a kind is shown as.
///
/// ```
/// use simmerpath::token::{token_display, T_EQL_REGEX, T_STRING};
/// assert_eq!(token_display(T_EQL_REGEX).as_str(), "=~");
/// assert_eq!(token_display(T_STRING).as_str(), "{Str}");
/// assert_eq!(token_display(1000).to_string(), "unknown token");
/// ```
pub fn token_display(kind: TokenId) -> TokenText {
    Text::written(|text| ffi::token_display(kind, text))
}

/// Whether a text is a label's name: a letter or `_`, then letters, digits and `_`.
///
/// ```
/// use simmerpath::is_label;
/// assert!(is_label("le") && is_label("_2"));
/// assert!(!is_label("") && !is_label("2_") && !is_label("a:b"));
/// ```
pub fn is_label<T: AsRef<[u8]> + ?Sized>(text: &T) -> bool {
    ffi::is_label(text.as_ref()) != 0
}
