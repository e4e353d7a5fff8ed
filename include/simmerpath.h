/*
 * The C functions of Simmerpath, which reads PromQL queries: it lexes them, says why a word has its kind, reads string literals,
 * numbers and durations, names tokens, escapes texts and writes durations. For C11 and C++, on a processor with 64-bit addresses.
 * docs/LINKING.md says what to link.
 *
 * Slices. A text, a buffer or a list is passed as a pointer and, right behind it, a length: of texts and buffers in bytes, of
 * lists in entries. A text needs no zero at its end. The pointer is never NULL, and is aligned for what it points to, also where
 * the length is 0, as in Rust; a length is below 2^63 bytes. What is written to overlaps nothing else that the same call is lent.
 *
 * Answers. Each function answers one number of 64 bits: its result, or a refusal. A refusal has bit 63, which no result has, the
 * number of the refusal from bit 32, and its place: the byte from bit 16, and from bit 0 how many characters begin before it.
 * simmerpath_is_refusal and the functions behind it take an answer apart.
 *
 * A refused call has written nothing. An accepted one has written what is said of it here, and left all else as it was, the rest
 * of a buffer too. Every call ends, whatever the bytes are. A function keeps nothing from one call to the next, so that threads
 * may call it side by side.
 *
 * Where a call could be refused for several reasons, SIMMERPATH_REFUSED_TOO_LONG comes first, then SIMMERPATH_REFUSED_NOT_UTF8,
 * then what the reading meets first, and SIMMERPATH_REFUSED_NO_ROOM last. What is said of a function below names its refusals
 * without SIMMERPATH_REFUSED_.
 *
 *     const char *query = "rate(a[5m])";
 *     uint16_t kinds[16];
 *     uint32_t starts[16], lengths[16], depths[16];
 *     uint64_t answer = simmerpath_lexer((const uint8_t *)query, strlen(query), SIMMERPATH_READING_CRATE, kinds, 16, starts, 16,
 *                                        lengths, 16, depths, 16);
 *     if (simmerpath_is_refusal(answer))
 *         printf("refused: %u at byte %u\n", simmerpath_refusal_number(answer), simmerpath_refusal_byte(answer));
 *     else
 *         printf("%u lexemes, the end included\n", (unsigned)answer);
 */
#ifndef SIMMERPATH_H
#define SIMMERPATH_H

#include <stddef.h>
#include <stdint.h>
#ifndef __cplusplus
#include <stdbool.h>
#endif

#ifdef __cplusplus
extern "C" {
#endif

/* No longer query, literal or text, in bytes, is read, but by the functions that refuse none. */
#define SIMMERPATH_TEXT_LIMIT 65535

/* No longer text of a number or of a duration, in bytes, is read. */
#define SIMMERPATH_NUMBER_LIMIT 256

/* No query has more lexemes: one for each byte, and its end. */
#define SIMMERPATH_MOST_LEXEMES 65536

/* No escaped text has more bytes: two for each. */
#define SIMMERPATH_MOST_ESCAPED 131070

/* No kind is shown as a text of more bytes. */
#define SIMMERPATH_MOST_DISPLAY 13

/* No duration is written in more bytes. */
#define SIMMERPATH_MOST_DURATION 30

/* No character has more bytes. */
#define SIMMERPATH_MOST_CHARACTER 4

/* What simmerpath_get_keyword_token answers for a word that has no kind of its own. */
#define SIMMERPATH_NO_KIND 0x10000

/* The kinds of lexemes. Other numbers are no kinds: they have no class, and show "unknown token". */
enum simmerpath_kind {
    SIMMERPATH_T_EOF = 0,
    SIMMERPATH_T_IDENTIFIER = 1,
    SIMMERPATH_T_METRIC_IDENTIFIER = 2,
    SIMMERPATH_T_STRING = 3,
    SIMMERPATH_T_NUMBER = 4,
    SIMMERPATH_T_DURATION = 5,
    SIMMERPATH_T_LEFT_PAREN = 6,
    SIMMERPATH_T_RIGHT_PAREN = 7,
    SIMMERPATH_T_LEFT_BRACE = 8,
    SIMMERPATH_T_RIGHT_BRACE = 9,
    SIMMERPATH_T_LEFT_BRACKET = 10,
    SIMMERPATH_T_RIGHT_BRACKET = 11,
    SIMMERPATH_T_COMMA = 12,
    SIMMERPATH_T_COLON = 13,
    SIMMERPATH_T_EQL = 14,

    /* + - * / % ^ == != <= < >= > =~ !~ @, and, or, unless, atan2 */
    SIMMERPATH_T_ADD = 20,
    SIMMERPATH_T_SUB = 21,
    SIMMERPATH_T_MUL = 22,
    SIMMERPATH_T_DIV = 23,
    SIMMERPATH_T_MOD = 24,
    SIMMERPATH_T_POW = 25,
    SIMMERPATH_T_EQLC = 26,
    SIMMERPATH_T_NEQ = 27,
    SIMMERPATH_T_LTE = 28,
    SIMMERPATH_T_LSS = 29,
    SIMMERPATH_T_GTE = 30,
    SIMMERPATH_T_GTR = 31,
    SIMMERPATH_T_EQL_REGEX = 32,
    SIMMERPATH_T_NEQ_REGEX = 33,
    SIMMERPATH_T_AT = 34,
    SIMMERPATH_T_LAND = 35,
    SIMMERPATH_T_LOR = 36,
    SIMMERPATH_T_LUNLESS = 37,
    SIMMERPATH_T_ATAN2 = 38,

    SIMMERPATH_T_SUM = 40,
    SIMMERPATH_T_AVG = 41,
    SIMMERPATH_T_COUNT = 42,
    SIMMERPATH_T_MIN = 43,
    SIMMERPATH_T_MAX = 44,
    SIMMERPATH_T_GROUP = 45,
    SIMMERPATH_T_STDDEV = 46,
    SIMMERPATH_T_STDVAR = 47,
    SIMMERPATH_T_TOPK = 48,
    SIMMERPATH_T_BOTTOMK = 49,
    SIMMERPATH_T_COUNT_VALUES = 50,
    SIMMERPATH_T_QUANTILE = 51,
    SIMMERPATH_T_LIMITK = 52,
    SIMMERPATH_T_LIMIT_RATIO = 53,

    SIMMERPATH_T_OFFSET = 60,
    SIMMERPATH_T_BY = 61,
    SIMMERPATH_T_WITHOUT = 62,
    SIMMERPATH_T_ON = 63,
    SIMMERPATH_T_IGNORING = 64,
    SIMMERPATH_T_GROUP_LEFT = 65,
    SIMMERPATH_T_GROUP_RIGHT = 66,
    SIMMERPATH_T_BOOL = 67,
    SIMMERPATH_T_SMOOTHED = 68,
    SIMMERPATH_T_ANCHORED = 69,
    SIMMERPATH_T_FILL = 70,
    SIMMERPATH_T_FILL_LEFT = 71,
    SIMMERPATH_T_FILL_RIGHT = 72,

    SIMMERPATH_T_START = 80,
    SIMMERPATH_T_END = 81
};

/* The classes of kinds, which simmerpath_token_classes adds up. */
enum simmerpath_class {
    SIMMERPATH_CLASS_OPERATOR = 1,
    SIMMERPATH_CLASS_COMPARISON_OPERATOR = 2,
    SIMMERPATH_CLASS_SET_OPERATOR = 4,
    SIMMERPATH_CLASS_AGGREGATOR = 8,
    SIMMERPATH_CLASS_AGGREGATOR_WITH_PARAM = 16
};

/*
 * The readings: promql-parser's, and the one that Prometheus documents. A function that has both takes `documented`, in which any
 * number but 0 is SIMMERPATH_READING_DOCUMENTED. What differs there:
 *
 * In a literal \xhh and octal escapes are bytes, not code points.
 *
 * In a query and in the text of a number, one _ may stand between two digits of the same part of a number: before the point,
 * behind it, or in the exponent; and one between 0x and the first digit. It has no effect on the value, and a number that has one
 * begins no duration. In the crate reading no number has a _.
 *
 * In a query a string between backquotes has no escapes: it ends at the next backquote, and a backslash in it is a character as any
 * other. In the crate reading escapes are looked for in every string of a query.
 */
enum simmerpath_reading {
    SIMMERPATH_READING_CRATE = 0,
    SIMMERPATH_READING_DOCUMENTED = 1
};

/*
 * Why a word has its kind, which simmerpath_word_reason answers. A word is a lexeme that begins with a letter, a _ among these, or,
 * outside braces and brackets, with a colon. The reasons behind the first two are of words outside braces.
 */
enum simmerpath_reason {
    SIMMERPATH_REASON_OR = 1,          /* or before a space in braces: it is the operator */
    SIMMERPATH_REASON_IN_BRACES = 2,   /* any other word in braces: it is a name */
    SIMMERPATH_REASON_TABLE = 3,       /* a word of PromQL other than fill, fill_left and fill_right: it has its own kind */
    SIMMERPATH_REASON_FILL_CALLED = 4, /* one of these three with ( next, white space aside: it has its own kind */
    SIMMERPATH_REASON_FILL_ALONE = 5,  /* one of these three without: it is a name */
    SIMMERPATH_REASON_WITH_COLON = 6,  /* a word with a colon: it is the name of a metric */
    SIMMERPATH_REASON_PLAIN = 7        /* any other word: it is a name */
};

/* How a number is written, which simmerpath_parse_str_radix answers. */
enum simmerpath_notation {
    SIMMERPATH_NOTATION_DECIMAL = 0,
    SIMMERPATH_NOTATION_HEX = 1,
    SIMMERPATH_NOTATION_OCTAL = 2
};

/* The refusals: why, and where. Those for which no place is named have byte 0 and character 0. */
enum simmerpath_refusal {
    SIMMERPATH_REFUSED_TOO_LONG = 1,                     /* longer than SIMMERPATH_TEXT_LIMIT or SIMMERPATH_NUMBER_LIMIT */
    SIMMERPATH_REFUSED_NOT_UTF8 = 2,                     /* not UTF-8: where the longest well-formed prefix ends */
    SIMMERPATH_REFUSED_NO_ROOM = 3,                      /* what is to be written needs more room */

    /* Of a query: at the character named, or at the end. */
    SIMMERPATH_REFUSED_UNCLOSED_PAREN = 10,              /* the end, with a ( open */
    SIMMERPATH_REFUSED_REGEX_OUTSIDE = 11,               /* =~ outside braces: the ~ */
    SIMMERPATH_REFUSED_AFTER_BANG = 12,                  /* another character than = after a ! outside braces */
    SIMMERPATH_REFUSED_END_AFTER_BANG = 13,              /* the end, after a ! */
    SIMMERPATH_REFUSED_AFTER_DOT = 14,                   /* no digit after a . */
    SIMMERPATH_REFUSED_END_AFTER_DOT = 15,               /* the end after a .: the . */
    SIMMERPATH_REFUSED_UNMATCHED_PAREN = 16,             /* a ) that closes nothing */
    SIMMERPATH_REFUSED_UNMATCHED_BRACE = 17,             /* a } that closes nothing */
    SIMMERPATH_REFUSED_UNMATCHED_BRACKET = 18,           /* a ] that closes nothing */
    SIMMERPATH_REFUSED_OTHER = 19,                       /* a character that begins nothing outside braces and brackets */
    SIMMERPATH_REFUSED_NEITHER_NUMBER_NOR_DURATION = 20, /* the first character not taken, a _ or a unit too, or the end */
    SIMMERPATH_REFUSED_UNKNOWN_ESCAPE = 21,              /* an unknown escape in a string with escapes: the character after the \ */
    SIMMERPATH_REFUSED_END_IN_ESCAPE = 22,               /* the end, after a \ in a string with escapes */
    SIMMERPATH_REFUSED_END_IN_STRING = 23,               /* the end, in a string */
    SIMMERPATH_REFUSED_AFTER_BANG_IN_BRACES = 24,        /* another character than = or ~ after a ! in braces */
    SIMMERPATH_REFUSED_BRACE_IN_BRACES = 25,             /* a { in braces */
    SIMMERPATH_REFUSED_OTHER_IN_BRACES = 26,             /* a character that begins nothing in braces */
    SIMMERPATH_REFUSED_END_IN_BRACES = 27,               /* the end, in braces */
    SIMMERPATH_REFUSED_SECOND_COLON = 28,                /* a second colon in brackets */
    SIMMERPATH_REFUSED_COLON_FIRST = 29,                 /* a colon right after a [ */
    SIMMERPATH_REFUSED_BRACKET_IN_BRACKETS = 30,         /* a [ in brackets */
    SIMMERPATH_REFUSED_OTHER_IN_BRACKETS = 31,           /* a character that begins nothing in brackets */
    SIMMERPATH_REFUSED_END_IN_BRACKETS = 32,             /* the end, in brackets */

    /* Of a string literal: where it goes wrong, by simmerpath_unquote_string. Of a code point: no place. */
    SIMMERPATH_REFUSED_BAD_LITERAL = 40,                 /* a bad string literal, or a code point that is no character's */

    SIMMERPATH_REFUSED_EMPTY_DURATION = 50,              /* an empty text is no duration */
    SIMMERPATH_REFUSED_ZERO_DURATION = 51,               /* the text 0, or parts with units that add up to nothing */
    SIMMERPATH_REFUSED_NOT_A_DURATION = 52,              /* neither a decimal nor parts with units */
    SIMMERPATH_REFUSED_OUTSIDE_EXACT = 53,               /* a decimal with too many digits, or too far from 1, to be read exactly */
    SIMMERPATH_REFUSED_OUT_OF_RANGE = 54,                /* seconds below 0, not finite, or 2^64 and over; too many nanoseconds */
    SIMMERPATH_REFUSED_OVERSIZED_PART = 55,              /* a part whose number is above 4,294,967,295, in the exact reading */
    SIMMERPATH_REFUSED_NOT_A_NUMBER = 60,                /* no number, or a _ where none may stand */
    SIMMERPATH_REFUSED_OUTSIDE_I64 = 61,                 /* hexadecimal or octal, and outside the signed integers of 64 bits */

    SIMMERPATH_REFUSED_NO_SUCH_LEXEME = 72,              /* a number that no lexeme of the query has */
    SIMMERPATH_REFUSED_NOT_A_WORD = 74                   /* a lexeme that is no word */
};

/* The bits of an answer that its parts begin at. */
enum simmerpath_bit {
    SIMMERPATH_BIT_BYTE = 16,
    SIMMERPATH_BIT_NUMBER = 32,
    SIMMERPATH_BIT_INNER = 32,
    SIMMERPATH_BIT_REFUSAL = 63
};

/* Whether an answer is a refusal. */
static inline bool simmerpath_is_refusal(uint64_t answer)
{
    return answer >> SIMMERPATH_BIT_REFUSAL != 0;
}

/* Which refusal a refusal is: one of enum simmerpath_refusal. */
static inline unsigned simmerpath_refusal_number(uint64_t refusal)
{
    return (uint16_t)(refusal >> SIMMERPATH_BIT_NUMBER);
}

/* The byte that a refusal names. */
static inline unsigned simmerpath_refusal_byte(uint64_t refusal)
{
    return (uint16_t)(refusal >> SIMMERPATH_BIT_BYTE);
}

/* How many characters begin before the byte that a refusal names. */
static inline unsigned simmerpath_refusal_character(uint64_t refusal)
{
    return (uint16_t)refusal;
}

/* Whether an answer of simmerpath_unquote_string says that the text stands in the literal itself, behind its first byte. */
static inline bool simmerpath_is_inner(uint64_t answer)
{
    return !simmerpath_is_refusal(answer) && answer >> SIMMERPATH_BIT_INNER != 0;
}

/* How many bytes the text has, by an answer of simmerpath_unquote_string that is no refusal. */
static inline size_t simmerpath_unquoted_length(uint64_t answer)
{
    return (uint32_t)answer;
}

/*
 * Lexes a query, in a reading: answers how many lexemes it has, its end included, and writes their kinds, the bytes that they
 * start at, their lengths in bytes, and their depths to the front of the four lists. The depth of a lexeme is how many ( are open
 * before it; that of a ) how many are left open after it, so that a pair has the same, and that of the end 0. The partner of a ( is
 * the next ) with the same depth, which is proved. There is room for as many as the shortest list has entries. Refuses with
 * TOO_LONG, NOT_UTF8, UNCLOSED_PAREN to END_IN_BRACKETS, NO_ROOM.
 */
uint64_t simmerpath_lexer(const uint8_t *query, size_t query_length, uint32_t documented, uint16_t *kinds, size_t kinds_length,
                          uint32_t *starts, size_t starts_length, uint32_t *lengths, size_t lengths_length, uint32_t *depths,
                          size_t depths_length);

/*
 * Why a word of a query has its kind: one of enum simmerpath_reason, and no other of them holds, which is proved. The word is the
 * lexeme of that number, by which simmerpath_lexer writes it in the same reading: the first has 0, and the end has one too.
 * Refuses with TOO_LONG, NOT_UTF8, UNCLOSED_PAREN to END_IN_BRACKETS, NO_SUCH_LEXEME, NOT_A_WORD.
 */
uint64_t simmerpath_word_reason(const uint8_t *query, size_t query_length, uint32_t documented, size_t number);

/* The kind of a word of PromQL, in any case of its letters, or SIMMERPATH_NO_KIND. Takes any bytes, and refuses none. */
uint64_t simmerpath_get_keyword_token(const uint8_t *word, size_t word_length);

/* Writes the text that a kind is shown as to the front of a buffer, and answers its length. Refuses with NO_ROOM. */
uint64_t simmerpath_token_display(uint16_t kind, uint8_t *out, size_t out_length);

/* The classes of a kind, added up. Refuses none. */
uint64_t simmerpath_token_classes(uint16_t kind);

/* 1 for the name of a label, else 0. Takes any bytes, and refuses none. */
uint64_t simmerpath_is_label(const uint8_t *text, size_t text_length);

/*
 * Reads a string literal, its quotes included, in a reading: answers how long its text is, and where it stands. A literal without
 * an escape has it in itself, behind the first byte (simmerpath_is_inner), and nothing is written. Else it is written to the
 * front of the buffer; it is never longer than the literal, and in the documented reading it need not be UTF-8.
 * Refuses with TOO_LONG, NOT_UTF8, BAD_LITERAL, NO_ROOM.
 *
 * The place of BAD_LITERAL is the first of these that there is: byte 0 of a literal of fewer than two bytes; the last byte, where
 * it differs from the first; byte 0, where both are no quote; the first line feed, unless the quotes are backquotes; else the
 * literal's own quote, bare inside it, or the backslash of a bad escape, whichever reading meets first.
 */
uint64_t simmerpath_unquote_string(const uint8_t *literal, size_t literal_length, uint32_t documented, uint8_t *text,
                                   size_t text_length);

/*
 * Writes a text to the front of a buffer as it stands between double quotes, and answers its length.
 * Refuses with TOO_LONG, NOT_UTF8, NO_ROOM.
 */
uint64_t simmerpath_escape_string(const uint8_t *text, size_t text_length, uint8_t *out, size_t out_length);

/*
 * Reads a number, in a reading: answers its notation, and writes the bits of its value, a double, to `bits`. White space is
 * dropped first, wherever it stands. Every NaN has the bits 7ff8000000000000.
 * Refuses with TOO_LONG, NOT_UTF8, OUTSIDE_EXACT, NOT_A_NUMBER, OUTSIDE_I64.
 */
uint64_t simmerpath_parse_str_radix(const uint8_t *text, size_t text_length, uint32_t documented, uint64_t *bits);

/*
 * Reads a duration: answers 0, and writes its seconds and its nanoseconds, which are below a second. A part whose number is above
 * 4,294,967,295 counts as nothing. Refuses with TOO_LONG, NOT_UTF8, EMPTY_DURATION to OUT_OF_RANGE.
 */
uint64_t simmerpath_parse_duration(const uint8_t *text, size_t text_length, uint64_t *secs, uint32_t *nanos);

/*
 * The same without loss of a part: one with such a part is refused.
 * Refuses with TOO_LONG, NOT_UTF8, EMPTY_DURATION to OVERSIZED_PART.
 */
uint64_t simmerpath_parse_duration_exact(const uint8_t *text, size_t text_length, uint64_t *secs, uint32_t *nanos);

/*
 * Writes the text of a duration to the front of a buffer, and answers its length. What is under a millisecond is left out, so
 * that a text may be empty. Refuses with OUT_OF_RANGE, NO_ROOM.
 */
uint64_t simmerpath_display_duration(uint64_t secs, uint32_t nanos, uint8_t *out, size_t out_length);

/* How many characters a text has. Refuses with TOO_LONG, NOT_UTF8. */
uint64_t simmerpath_utf8_validate(const uint8_t *text, size_t text_length);

/* How many characters of a text, up to where it is no longer UTF-8, begin before a byte. Takes any bytes, and refuses none. */
uint64_t simmerpath_utf8_char_number(const uint8_t *text, size_t text_length, size_t to);

/*
 * The length of the character that begins at a byte, whose code point is written to `code`. At or past the end of the text it
 * answers 0, and writes nothing. Refuses with TOO_LONG, and with NOT_UTF8 at that byte.
 */
uint64_t simmerpath_utf8_char_at(const uint8_t *text, size_t text_length, size_t at, uint32_t *code);

/* Writes a code point in UTF-8 at a byte of a buffer, and answers its length. Refuses with BAD_LITERAL, NO_ROOM. */
uint64_t simmerpath_utf8_encode(uint32_t code, uint8_t *out, size_t out_length, size_t at);

#ifdef __cplusplus
}
#endif

#endif
