//! The kinds of a front end whose numbers are others than ours: ours, counted down from a hundred.

/// The number of a kind.
pub type TokenId = u16;

/// What ours are counted down from.
const MOST: TokenId = 100;

/// What no query has.
pub const T_ERROR: TokenId = MOST + 1;

/// The number here of a kind that has this number of ours.
pub fn turned(kind: TokenId) -> TokenId {
    MOST - kind
}

/// Makes a constant of each kind.
macro_rules! kinds {
    ($($name:ident)+) => {
        $(pub const $name: TokenId = MOST - simmerpath::token::$name;)+
    };
}

kinds! {
    T_EOF T_IDENTIFIER T_METRIC_IDENTIFIER T_STRING T_NUMBER T_DURATION
    T_LEFT_PAREN T_RIGHT_PAREN T_LEFT_BRACE T_RIGHT_BRACE T_LEFT_BRACKET T_RIGHT_BRACKET
    T_COMMA T_COLON T_EQL
    T_ADD T_SUB T_MUL T_DIV T_MOD T_POW T_EQLC T_NEQ T_LTE T_LSS T_GTE T_GTR
    T_EQL_REGEX T_NEQ_REGEX T_AT T_LAND T_LOR T_LUNLESS T_ATAN2
    T_SUM T_AVG T_COUNT T_MIN T_MAX T_GROUP T_STDDEV T_STDVAR T_TOPK T_BOTTOMK
    T_COUNT_VALUES T_QUANTILE T_LIMITK T_LIMIT_RATIO
    T_OFFSET T_BY T_WITHOUT T_ON T_IGNORING T_GROUP_LEFT T_GROUP_RIGHT T_BOOL
    T_SMOOTHED T_ANCHORED T_FILL T_FILL_LEFT T_FILL_RIGHT T_START T_END
}
