//! What is said of each refusal: by promql-parser, and by the error itself, which adds the place.
#![cfg(feature = "alloc")]

use simmerpath::utf8::encode;
use simmerpath::{lexer, lexer_in, parse_duration, parse_duration_exact, parse_str_radix};
use simmerpath::{unquote_string, unquote_string_into, word_reason, Error, Reading, Reason};

/// A query, the number and byte of its refusal, and what promql-parser says of it.
const QUERIES: [(&str, u16, usize, &str); 30] = [
    ("(a", 10, 2, "unclosed left parenthesis"),
    ("a=~", 11, 2, "unexpected character after '=': '~'"),
    ("a !é", 12, 3, "unexpected character after '!': 'é'"),
    ("a !", 13, 3, "'!' can not be at the end"),
    ("1 .a", 14, 3, "unexpected character after '.': 'a'"),
    ("1 .", 15, 2, "unexpected character: '.'"),
    ("a)", 16, 1, "unexpected right parenthesis ')'"),
    ("a}", 17, 1, "unexpected right brace '}'"),
    ("a]", 18, 1, "unexpected right bracket ']'"),
    ("é1", 19, 0, "unexpected character: 'é'"),
    ("\u{b}", 19, 0, "unexpected character: '\\u{b}'"),
    ("1 + 5m3", 20, 7, "bad number or duration syntax: 5m3"),
    ("'\\é'", 21, 2, "unknown escape sequence 'é'"),
    ("'\\", 22, 2, "escape sequence not terminated"),
    ("'it' \"é'", 23, 9, "unterminated quoted string \""),
    (
        "{!a",
        24,
        2,
        "unexpected character after '!' inside braces: 'a'",
    ),
    ("{{", 25, 1, "unexpected left brace '{' inside braces"),
    ("{+", 26, 1, "unexpected character inside braces: '+'"),
    ("{", 27, 1, "unexpected end of input inside braces"),
    ("[1::", 28, 3, "unexpected second colon(:) in brackets"),
    (
        "[:",
        29,
        1,
        "expect duration before first colon(:) in brackets",
    ),
    ("[[", 30, 1, "unexpected left brace '[' inside brackets"),
    ("[é", 31, 1, "unexpected character inside brackets: 'é'"),
    ("[", 32, 1, "unexpected end of input inside brackets"),
    ("a[5m:1.2.3]", 20, 8, "bad number or duration syntax: 1.2."),
    ("0xas.5x", 20, 6, "bad number or duration syntax: .5x"),
    ("5m.5x", 20, 4, "bad number or duration syntax: .5x"),
    ("0x1e+5x", 20, 6, "bad number or duration syntax: 5x"),
    (
        "a:1 #'\n1e+5x",
        20,
        11,
        "bad number or duration syntax: 1e+5x",
    ),
    ("`\\`1` '1y2y", 23, 11, "unterminated quoted string '"),
];

/// A literal, the byte and the character of its refusal, and what the error says of it.
const LITERALS: [(&str, usize, usize, &str); 27] = [
    ("", 0, 0, "not between quotes"),
    ("a", 0, 0, "not between quotes"),
    ("aa", 0, 0, "not between quotes"),
    ("a\"", 1, 1, "not between quotes"),
    ("é", 1, 1, "not between quotes"),
    ("'", 0, 0, "the closing quote is missing"),
    ("\"é", 2, 2, "the closing quote is missing"),
    ("'é\n", 3, 2, "the closing quote is missing"),
    (
        "'é\"",
        3,
        2,
        "the closing quote differs from the opening one",
    ),
    ("'é\n'", 3, 2, "newline in a quoted literal"),
    ("\"\\q\n\"", 3, 3, "newline in a quoted literal"),
    ("'a\\\n\n'", 3, 3, "newline in a quoted literal"),
    ("\"a\"b\"", 2, 2, "unexpected quote \" inside the literal"),
    ("'\\'é'\\q'", 5, 4, "unexpected quote ' inside the literal"),
    ("`a`b`", 2, 2, "unexpected quote ` inside the literal"),
    ("`\\``", 2, 2, "unexpected quote ` inside the literal"),
    ("\"\\\"", 1, 1, "escape sequence not terminated"),
    ("'\\\\\\'", 3, 3, "escape sequence not terminated"),
    ("\"\\q\\n\"", 1, 1, "unknown escape '\\q'"),
    ("\"é\\q\"", 3, 2, "unknown escape '\\q'"),
    ("'\\é'", 1, 1, "unknown escape '\\é'"),
    ("\"\\'\"", 1, 1, "unknown escape '\\''"),
    ("'\\8'", 1, 1, "unknown escape '\\8'"),
    ("\"\\400\"", 1, 1, "wrong digits in escape '\\4'"),
    ("\"\\x8\"", 1, 1, "wrong digits in escape '\\x'"),
    ("'\\ud800'", 1, 1, "wrong digits in escape '\\u'"),
    ("'\\t\\U00110000'", 3, 3, "wrong digits in escape '\\U'"),
];

/// What promql-parser says of a text that is refused so, and what the error itself says.
fn said(text: &str, error: Error) -> (String, String) {
    (error.message(text).to_string(), error.to_string())
}

#[test]
fn of_queries() {
    for (query, number, byte, message) in QUERIES {
        let error = lexer(query).unwrap_err();
        assert_eq!((error.number(), error.byte()), (number, byte), "{query}");
        assert_eq!(said(query, error).0, message, "{query}");
    }
}

#[test]
fn of_queries_with_separators() {
    let refused = [
        ("1 + 1__0", Reading::Crate, "1_"),
        ("1 + 1__0", Reading::Documented, "1_"),
        ("1_0 + 0x_f_", Reading::Crate, "1_"),
        ("1_0 + 0x_f_", Reading::Documented, "0x_f_"),
        ("a[1_0:5m5]", Reading::Documented, "5m5]"),
        ("1_000m", Reading::Documented, "1_000m"),
        ("1_0e+1_0z", Reading::Documented, "1_0e+1_0z"),
        ("1.5_0 1h3_0m", Reading::Documented, "1h3_"),
    ];
    for (query, reading, lexeme) in refused {
        let error = lexer_in(query, reading).unwrap_err();
        assert_eq!(error.number(), 20, "{query}");
        let message = format!("bad number or duration syntax: {lexeme}");
        assert_eq!(said(query, error).0, message, "{query}");
    }
    let query = "1_0.5_0e-1_0 'it";
    let error = lexer_in(query, Reading::Documented).unwrap_err();
    assert_eq!(said(query, error).0, "unterminated quoted string '");
}

#[test]
fn of_queries_with_backquotes() {
    let neither = |lexeme: &str| format!("bad number or duration syntax: {lexeme}");
    let unterminated = |sign: &str| format!("unterminated quoted string {sign}");
    let refused = [
        (r#"`\`""#, Reading::Crate, unterminated("`")),
        (r#"`\`""#, Reading::Documented, unterminated("\"")),
        (r"`\``", Reading::Documented, unterminated("`")),
        (r"'\'`' `\\", Reading::Documented, unterminated("`")),
        (r"`\` 5x`", Reading::Documented, neither("5x")),
        (r"`\d`+`\`+1__0", Reading::Documented, neither("1_")),
        ("`\\`#`[5\n:5.5.5", Reading::Crate, neither("5.5.")),
        ("`\\`#`[5\n:5.5.5", Reading::Documented, neither(".5.")),
    ];
    for (query, reading, message) in refused {
        let error = lexer_in(query, reading).unwrap_err();
        assert_eq!(said(query, error).0, message, "{query}");
    }
}

#[test]
fn with_the_place() {
    let sentence = |query| said(query, lexer(query).unwrap_err()).1;
    assert_eq!(
        sentence("a !é"),
        "unexpected character after '!': 'é', at byte 3"
    );
    assert_eq!(
        sentence("5m3"),
        "bad number or duration syntax, found the end, at byte 3"
    );
    assert_eq!(
        sentence("5x"),
        "bad number or duration syntax, found 'x', at byte 1"
    );
    assert_eq!(sentence("'é"), "unterminated quoted string, at byte 3");
}

#[test]
fn of_literals() {
    for (literal, byte, character, sentence) in LITERALS {
        let must = (
            "invalid syntax".into(),
            format!("{sentence}, at byte {byte}"),
        );
        for reading in [Reading::Crate, Reading::Documented] {
            let error = unquote_string(literal, reading).unwrap_err();
            assert_eq!(error.number(), 40, "{literal}");
            assert_eq!((error.byte(), error.character()), (byte, character));
            assert_eq!(error.found(), found(literal, byte), "{literal}");
            assert_eq!(said(literal, error), must, "{literal}");
        }
    }
}

/// The character that begins at a byte of a text.
fn found(text: &str, at: usize) -> Option<char> {
    text.get(at..)?.chars().next()
}

#[test]
fn of_a_literal_that_is_no_bad_one() {
    let mut text = [0; 1];
    let error = unquote_string_into(r"'\n\n'", Reading::Crate, &mut text).unwrap_err();
    assert_eq!(
        error.to_string(),
        "the result needs more room than was lent"
    );
    let error = unquote_string(b"'\xff'", Reading::Crate).unwrap_err();
    assert_eq!(error.to_string(), "not UTF-8, at byte 1");
}

#[test]
fn of_code_points() {
    let error = encode(0xd800, &mut [0; 4], 1).unwrap_err();
    assert_eq!((error.number(), error.has_place()), (40, false));
    assert_eq!((error.byte(), error.character()), (0, 0));
    assert_eq!(error.found(), None);
    assert_eq!(error.to_string(), "invalid syntax");
}

#[test]
fn of_durations() {
    let both = |text| said(text, parse_duration(text).unwrap_err());
    assert_eq!(both("").0, "empty duration string");
    assert_eq!(both("0").0, "duration must be greater than 0");
    assert_eq!(both("0h0m").0, "duration must be greater than 0");
    assert_eq!(both("1.5h").0, "not a valid duration string: 1.5h");
    assert_eq!(both("1.5h").1, "not a valid duration string");
    assert_eq!(
        both("-1").0,
        "the seconds are negative, not finite, or too many"
    );
}

#[test]
fn of_durations_read_exactly() {
    let both = |text| said(text, parse_duration_exact(text).unwrap_err());
    let oversized = "a part of the duration is above 4,294,967,295";
    assert_eq!(both("1d5000000000ms"), (oversized.into(), oversized.into()));
    assert_eq!(both("0h0m").0, "duration must be greater than 0");
    assert_eq!(both("1.5h").0, "not a valid duration string: 1.5h");
}

#[test]
fn of_numbers() {
    let both = |text| said(text, parse_str_radix(text).unwrap_err());
    for text in ["", "abc", "1.2.3", "09a", "+-07", "1e"] {
        assert_eq!(
            both(text).0,
            format!("ParseFloatError. {text} can't be parsed into f64")
        );
    }
    for text in ["0e5", "0xg", "- 0b1", "0X", "0x8000000000000000", "5x"] {
        assert_eq!(
            both(text).0,
            format!("ParseFloatError. {text} can't be parsed into i64")
        );
    }
    assert_eq!(both("0e5").1, "not the text of a number");
    assert_eq!(
        both("0x8000000000000000").1,
        "outside a signed 64-bit integer"
    );
}

/// A query, the number of a word's lexeme, the reason, and what is said of it.
const REASONS: [(&str, usize, Reason, &str); 7] = [
    (
        "{Or }",
        1,
        Reason::Or,
        "`Or` is inside braces and before a space, where it is the operator",
    ),
    (
        "{or\t}",
        1,
        Reason::InBraces,
        "`or` is inside braces, where every word but `or` before a space is a name",
    ),
    (
        "1 or 2",
        1,
        Reason::Table,
        "`or` is a word of PromQL, which has its own kind outside braces",
    ),
    (
        "fill_left\t()",
        0,
        Reason::FillCalled,
        "`fill_left` has its own kind here, since `(` is next, white space aside",
    ),
    (
        "fill #(",
        0,
        Reason::FillAlone,
        "`fill` is a name here, since no `(` is next, white space aside",
    ),
    (
        "job:up",
        0,
        Reason::WithColon,
        "`job:up` has a colon, and so is the name of a metric",
    ),
    (
        "order",
        0,
        Reason::Plain,
        "`order` is no word of PromQL and has no colon, and so is a name",
    ),
];

#[test]
fn of_words() {
    for (query, number, reason, sentence) in REASONS {
        let word = lexer(query).unwrap()[number].text(query);
        assert_eq!(word_reason(query, Reading::Crate, number), Ok(reason));
        assert_eq!(reason.sentence(word).to_string(), sentence);
    }
}

#[test]
fn of_what_has_no_reason() {
    let both = |query, number| {
        let error = word_reason(query, Reading::Crate, number).unwrap_err();
        said(query, error)
    };
    let no_word = "the lexeme is not a word";
    assert_eq!(both("1 or 2", 0), (no_word.into(), no_word.into()));
    let no_lexeme = "the query has no lexeme of this number";
    assert_eq!(both("1 or 2", 4), (no_lexeme.into(), no_lexeme.into()));
    assert_eq!(both("5m3", 0).0, "bad number or duration syntax: 5m3");
}

#[test]
fn a_message_shows_nothing_that_another_text_has_not() {
    let error = lexer("1 + 5m3").unwrap_err();
    assert_eq!(
        error.message("").to_string(),
        "bad number or duration syntax: "
    );
    let error = lexer("'é").unwrap_err();
    assert_eq!(
        error.message("ab").to_string(),
        "unterminated quoted string "
    );
}

#[cfg(any(core_error, feature = "std"))]
#[test]
fn an_error_is_one_of_rust() {
    fn read(query: &str) -> Result<usize, Box<dyn std::error::Error>> {
        Ok(lexer(query)?.len())
    }
    assert_eq!(read("1").unwrap(), 2);
    let error = read("{").unwrap_err();
    assert_eq!(
        error.to_string(),
        "unexpected end of input inside braces, at byte 1"
    );
}
