//! The `lexer` of a front end on promql-parser that reads its queries by the crate simmerpath, as docs/FRONT_END.md has it.

use crate::token::*;
use cfgrammar::NewlineCache;
use lrlex::{DefaultLexeme, DefaultLexerTypes, LRNonStreamingLexer};
use lrpar::Lexeme;

/// A lexeme of the grammar's.
type LexemeType = DefaultLexeme<TokenId>;

pub fn lexer(s: &str) -> Result<LRNonStreamingLexer<'_, '_, DefaultLexerTypes<TokenId>>, String> {
    let lexemes = simmerpath::lexer(s).map_err(|error| error.message(s).to_string())?;
    let lexemes = lexemes.iter().map(|lexeme| Ok(here(lexeme))).collect();
    Ok(LRNonStreamingLexer::new(s, lexemes, NewlineCache::new()))
}

/// A lexeme of simmerpath's as one of the grammar's.
fn here(lexeme: &simmerpath::Lexeme) -> LexemeType {
    LexemeType::new(number(lexeme.kind), lexeme.start, lexeme.length)
}

/// The number that the grammar gives to a kind of simmerpath's.
fn number(kind: simmerpath::TokenId) -> TokenId {
    macro_rules! by_name {
        ($($name:ident)+) => {
            match kind {
                $(simmerpath::token::$name => $name,)+
                _ => T_ERROR,
            }
        };
    }
    by_name! {
        T_EOF T_IDENTIFIER T_METRIC_IDENTIFIER T_STRING T_NUMBER T_DURATION
        T_LEFT_PAREN T_RIGHT_PAREN T_LEFT_BRACE T_RIGHT_BRACE T_LEFT_BRACKET T_RIGHT_BRACKET
        T_COMMA T_COLON T_EQL
        T_ADD T_SUB T_MUL T_DIV T_MOD T_POW T_EQLC T_NEQ T_LTE T_LSS T_GTE T_GTR
        T_EQL_REGEX T_NEQ_REGEX T_AT T_LAND T_LOR T_LUNLESS T_ATAN2
        T_SUM T_AVG T_COUNT T_MIN T_MAX T_GROUP T_STDDEV T_STDVAR T_TOPK T_BOTTOMK
        T_COUNT_VALUES T_QUANTILE T_LIMITK T_LIMIT_RATIO
        T_OFFSET T_BY T_WITHOUT T_ON T_IGNORING T_GROUP_LEFT T_GROUP_RIGHT T_BOOL
        T_SMOOTHED T_ANCHORED T_FILL T_FILL_LEFT T_FILL_RIGHT T_START T_END
    }
}
