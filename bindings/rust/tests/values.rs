//! The values that document 01 gives, its misreadings to catch, the places, the exact durations, the digit separators, the
//! backquotes, the depths and the reasons of document 02, and the worked examples of promql-parser.
#![cfg(feature = "alloc")]

use simmerpath::token::*;
use simmerpath::{display_duration, lexer, lexer_in, parse_duration, parse_duration_exact};
use simmerpath::{parse_str_radix, parse_str_radix_in, unquote_string, word_reason};
use simmerpath::{Error, Lexeme, Notation, Reading, Reason};
use std::time::Duration;

/// The kinds of the lexemes of a query.
fn kinds(query: &str) -> Vec<TokenId> {
    let lexemes = lexer(query).unwrap();
    lexemes.iter().map(|lexeme| lexeme.kind).collect()
}

/// The number of a query's refusal, and its byte and character.
fn refused(query: &str) -> (u16, usize, usize) {
    let error = lexer(query).unwrap_err();
    (error.number(), error.byte(), error.character())
}

#[test]
fn queries_that_are_accepted() {
    let end = Lexeme {
        kind: T_EOF,
        start: 0,
        length: 0,
        depth: 0,
    };
    assert_eq!(lexer("").unwrap(), [end]);
    assert_eq!(kinds("{or }"), [8, 36, 9, 0]);
    assert_eq!(kinds("{order}"), [8, 1, 9, 0]);
    assert_eq!(kinds("[ :5m]"), [10, 13, 5, 11, 0]);
    assert_eq!(kinds("fill ()"), [70, 6, 7, 0]);
    assert_eq!(kinds("fill #"), [1, 0]);
    assert_eq!(kinds("0x"), [T_NUMBER, T_EOF]);
    assert_eq!(kinds("1.5h"), [T_DURATION, T_EOF]);
    assert_eq!(kinds("a[5m]"), [1, 10, 5, 11, 0]);
}

#[test]
fn queries_that_are_refused() {
    assert_eq!(refused("[:5m]"), (29, 1, 1));
    assert_eq!(refused("5m3"), (20, 3, 3));
    assert_eq!(refused("\"é"), (23, 3, 2));
}

/// The kind and the length of a query that is one lexeme, or the byte of its refusal with 20.
fn single(query: &str, reading: Reading) -> Result<(TokenId, usize), usize> {
    let lexemes = lexer_in(query, reading).map_err(|error| {
        assert_eq!(error.number(), 20, "{query}");
        error.byte()
    })?;
    assert_eq!(lexemes.len(), 2, "{query}");
    Ok((lexemes[0].kind, lexemes[0].length))
}

#[test]
fn separators_in_both_readings() {
    let cases = [
        ("1__0", 1, 1),
        ("1_", 1, 1),
        ("1_.5", 1, 1),
        ("1._5", 2, 2),
        ("1e_5", 2, 2),
        ("0x_", 2, 2),
        ("0x__1", 2, 2),
        ("0_x1", 1, 1),
        ("1_000m", 1, 5),
        ("1_0em", 1, 4),
        ("1_0z", 1, 3),
        ("5_m", 1, 1),
        ("1h3_0m", 3, 3),
    ];
    for (query, byte, documented) in cases {
        assert_eq!(single(query, Reading::Crate), Err(byte), "{query}");
        let answer = single(query, Reading::Documented);
        assert_eq!(answer, Err(documented), "{query}");
    }
    let cases = [
        ("1_000", 1),
        ("0x_1f", 2),
        ("0x1_e", 3),
        ("1_0e1_0", 1),
        (".5_0", 2),
        ("1.5_0", 3),
        ("1_0e", 1),
        ("0x1.8_8", 5),
        ("0_17", 1),
    ];
    for (query, byte) in cases {
        assert_eq!(single(query, Reading::Crate), Err(byte), "{query}");
        let answer = single(query, Reading::Documented);
        assert_eq!(answer, Ok((T_NUMBER, query.len())), "{query}");
    }
    for reading in [Reading::Crate, Reading::Documented] {
        assert_eq!(single("_1", reading), Ok((T_IDENTIFIER, 2)));
        assert_eq!(single("1em", reading), Ok((T_DURATION, 3)));
    }
}

/// The kind and the length of a query's first lexeme, and how many lexemes it has; or the number and the byte of its refusal.
fn first(query: &str, reading: Reading) -> Result<(TokenId, usize, usize), (u16, usize)> {
    let lexemes = lexer_in(query, reading).map_err(|error| (error.number(), error.byte()))?;
    Ok((lexemes[0].kind, lexemes[0].length, lexemes.len()))
}

#[test]
fn backquotes_in_both_readings() {
    let string = |length| Ok((T_STRING, length, 2));
    let cases = [
        (r"`\d`", Err((21, 2)), string(4)),
        (r"`\``", string(4), Err((23, 4))),
        (r"`\`", Err((23, 3)), string(3)),
        (r"`\", Err((22, 2)), Err((23, 2))),
        (r"`\\`", string(4), string(4)),
        (r"`\```", Err((23, 5)), Ok((T_STRING, 3, 3))),
        (r"`\`5x`", string(6), Err((20, 4))),
        (r"{`\d`}", Err((21, 3)), Ok((T_LEFT_BRACE, 1, 4))),
    ];
    for (query, in_crate, documented) in cases {
        assert_eq!(first(query, Reading::Crate), in_crate, "{query}");
        assert_eq!(first(query, Reading::Documented), documented, "{query}");
    }
    for reading in [Reading::Crate, Reading::Documented] {
        assert_eq!(first(r#""\d""#, reading), Err((21, 2)));
        assert_eq!(first(r"'\", reading), Err((22, 2)));
        assert_eq!(first(r"'\''", reading), string(4));
        assert_eq!(first("`a", reading), Err((23, 2)));
    }
}

#[test]
fn depths_in_both_readings() {
    let cases = [
        ("", vec![0]),
        ("()", vec![0, 0, 0]),
        ("((a) b) c", vec![0, 1, 2, 1, 1, 0, 0, 0]),
        ("()(())", vec![0, 0, 0, 1, 1, 0, 0]),
        ("a[5m] (b)", vec![0, 0, 0, 0, 0, 1, 0, 0]),
        ("({a=\"(\"}(b))", vec![0, 1, 1, 1, 1, 1, 1, 2, 1, 0, 0]),
        ("(\"))\" + '(' - `(`)", vec![0, 1, 1, 1, 1, 1, 0, 0]),
        ("(# ))\na#(\n)", vec![0, 1, 0, 0]),
        ("fill (fill ())", vec![0, 0, 1, 1, 1, 0, 0]),
    ];
    for (query, depths) in cases {
        for reading in [Reading::Crate, Reading::Documented] {
            let lexemes = lexer_in(query, reading).unwrap();
            let read: Vec<_> = lexemes.iter().map(|lexeme| lexeme.depth).collect();
            assert_eq!(read, depths, "{query}");
        }
    }
    assert_eq!(refused("((a)"), (10, 4, 4));
    assert_eq!(refused("(a))"), (16, 3, 3));
}

/// The reason of each lexeme of a query; none of what is no word.
fn reasons(query: &str, reading: Reading) -> Vec<Option<Reason>> {
    let count = lexer_in(query, reading).unwrap().len();
    let reason = |number| match word_reason(query, reading, number) {
        Ok(reason) => Some(reason),
        Err(error) => {
            assert_eq!(error.number(), 74, "{query}");
            None
        }
    };
    (0..count).map(reason).collect()
}

#[test]
fn reasons_of_words() {
    use Reason::*;
    let each = |query| reasons(query, Reading::Crate);
    assert_eq!(each("{or }"), [None, Some(Or), None, None]);
    assert_eq!(each("{or}"), [None, Some(InBraces), None, None]);
    assert_eq!(each("{order}"), [None, Some(InBraces), None, None]);
    assert_eq!(each("OR"), [Some(Table), None]);
    assert_eq!(each("inf"), [Some(Table), None]);
    assert_eq!(each("fill\n()"), [Some(FillCalled), None, None, None]);
    assert_eq!(each("fill#\n()"), [Some(FillAlone), None, None, None]);
    assert_eq!(each("fill_left"), [Some(FillAlone), None]);
    assert_eq!(each("a:b :"), [Some(WithColon), Some(WithColon), None]);
    assert_eq!(each("[ :]"), [None, None, None, None]);
    assert_eq!(each("_ '' 1"), [Some(Plain), None, None, None]);
}

#[test]
fn reasons_in_both_readings() {
    let query = "`\\d` or 1_0";
    assert_eq!(
        word_reason(query, Reading::Documented, 1),
        Ok(Reason::Table)
    );
    let error = word_reason(query, Reading::Crate, 1).unwrap_err();
    assert_eq!((error.number(), error.byte()), (21, 2));
}

#[test]
fn words_that_are_none() {
    let refused = |query, number| {
        let error = word_reason(query, Reading::Crate, number).unwrap_err();
        assert!(!error.has_place());
        (error.number(), error.byte(), error.character())
    };
    assert_eq!(refused("up", 1), (74, 0, 0));
    for number in [2, u32::MAX as usize, usize::MAX] {
        assert_eq!(refused("up", number), (72, 0, 0));
    }
    assert_eq!(refused("", 0), (74, 0, 0));
    assert_eq!(refused("", 1), (72, 0, 0));
    let error = word_reason("up $", Reading::Crate, 9).unwrap_err();
    assert_eq!((error.number(), error.byte()), (19, 3));
}

#[test]
fn literals_in_both_readings() {
    let literal = r#""\303\251""#;
    let read = |reading| unquote_string(literal, reading).unwrap();
    assert_eq!(*read(Reading::Crate), [0xc3, 0x83, 0xc2, 0xa9]);
    assert_eq!(*read(Reading::Documented), [0xc3, 0xa9]);
}

#[test]
fn literals_that_are_refused() {
    let places = [
        (r#""\""#, 1, 1),
        (r#""a"b""#, 2, 2),
        (r#""\q\n""#, 1, 1),
        ("\"\\q\n\"", 3, 3),
        ("`a`b`", 2, 2),
        (r#""\400""#, 1, 1),
        (r#""\x8""#, 1, 1),
        ("\"é", 2, 2),
        ("a\"", 1, 1),
        ("aa", 0, 0),
        (r#""é\q""#, 3, 2),
    ];
    for (literal, byte, character) in places {
        for reading in [Reading::Crate, Reading::Documented] {
            let error = unquote_string(literal, reading).unwrap_err();
            let place = (error.byte(), error.character());
            assert_eq!(
                (error.number(), place),
                (40, (byte, character)),
                "{literal}"
            );
        }
    }
}

#[test]
fn durations_that_are_read() {
    let read = |text| parse_duration(text).unwrap();
    assert_eq!(read("00"), Duration::ZERO);
    assert_eq!(read("0.0009765625"), Duration::from_nanos(976_562));
    assert_eq!(read("0.0029296875"), Duration::from_nanos(2_929_688));
    assert_eq!(read("0.9999999999"), Duration::from_secs(1));
    assert_eq!(read("1d5000000000ms"), Duration::from_secs(86_400));
    assert_eq!(read("1h"), Duration::from_secs(3_600));
    assert_eq!(read("4d"), Duration::from_secs(3_600 * 24 * 4));
    assert_eq!(read("4d1h"), Duration::from_secs(3_600 * 97));
    let exact = Duration::from_secs(9_007_199_254_740_992);
    assert_eq!(read("9007199254740992"), exact);
}

#[test]
fn durations_that_are_refused() {
    let number = |text| parse_duration(text).unwrap_err().number();
    assert_eq!(number(""), 50);
    assert_eq!(number("0"), 51);
    assert_eq!(number("1.5h"), 52);
    assert_eq!(number("9007199254740993"), 53);
    assert_eq!(number("-1"), 54);
}

/// A duration's seconds and nanoseconds, or the number of its refusal.
fn told(read: Result<Duration, Error>) -> Result<(u64, u32), u16> {
    let parts = |d: Duration| (d.as_secs(), d.subsec_nanos());
    read.map(parts).map_err(|error| error.number())
}

#[test]
fn durations_in_both_readings() {
    let (day, sum) = (Ok((86_400, 0)), Ok((4_381_367, 295_000_000)));
    let (decimal, days) = (Ok((4_294_967_296, 0)), Ok((371_085_174_288_000, 0)));
    let cases = [
        ("1d5000000000ms", day, Err(55)),
        ("1d4294967295ms", sum, sum),
        ("4294967296s", Err(51), Err(55)),
        ("4294967296s1", Err(52), Err(52)),
        ("4294967296", decimal, decimal),
        ("0", Err(51), Err(51)),
        ("0s", Err(51), Err(51)),
        ("", Err(50), Err(50)),
        ("1e400", Err(53), Err(53)),
        ("-1", Err(54), Err(54)),
        ("4294967295d", days, days),
        ("4294967296d", Err(51), Err(55)),
    ];
    for (text, present, exact) in cases {
        assert_eq!(told(parse_duration(text)), present, "{text}");
        assert_eq!(told(parse_duration_exact(text)), exact, "{text}");
    }
    let error = parse_duration_exact("4294967296y").unwrap_err();
    assert_eq!((error.byte(), error.character()), (0, 0));
    assert!(!error.has_place());
}

#[test]
fn durations_that_are_recovered() {
    let most = 4_294_967_295 * 86_400;
    let recovered = [
        (0, 1),
        (0, 999),
        (59, 1),
        (31_536_000, 0),
        (most, 0),
        (most + 86_399, 999),
    ];
    for (secs, millis) in recovered {
        let duration = Duration::new(secs, millis * 1_000_000);
        let written = display_duration(&duration);
        assert_eq!(parse_duration(&*written), Ok(duration), "{written}");
        assert_eq!(parse_duration_exact(&*written), Ok(duration), "{written}");
    }
}

#[test]
fn durations_that_are_written() {
    let written = |days: u64| display_duration(&Duration::from_secs(86_400 * days)).to_string();
    assert_eq!(written(0), "0s");
    assert_eq!(written(14), "2w");
    assert_eq!(written(90), "90d");
    assert_eq!(&*display_duration(&Duration::from_nanos(999_999)), "");
    let longest = display_duration(&Duration::MAX);
    assert_eq!(&*longest, "213503982334601d7h15s999ms");
}

#[test]
fn numbers() {
    let read = |text| parse_str_radix(text).unwrap();
    let bits = |text| read(text).value.to_bits();
    assert_eq!(bits("9007199254740992"), 9_007_199_254_740_992f64.to_bits());
    assert_eq!(bits("-0"), (-0f64).to_bits());
    assert_eq!(bits("-00"), 0f64.to_bits());
    assert_eq!(read("-00").notation, Notation::Octal);
    assert_eq!(read("inf").notation, Notation::Decimal);
    assert!(read("NaN").value.is_nan());
    let number = |text| parse_str_radix(text).unwrap_err().number();
    assert_eq!(number("9007199254740993"), 53);
    assert_eq!(number("0e5"), 60);
    assert_eq!(number("-0x8000000000000000"), 61);
}

#[test]
fn numbers_with_separators() {
    use Notation::{Decimal, Hex, Octal};
    let crate_number = |text| parse_str_radix(text).unwrap_err().number();
    let documented = |text| parse_str_radix_in(text, Reading::Documented);
    let cases = [
        ("1 _ 0", 10.0, Decimal),
        ("0x_5", 5.0, Hex),
        ("-0x_5", -5.0, Hex),
        ("0x-5_0", -80.0, Hex),
        ("0_17", 15.0, Octal),
        ("0_8", 8.0, Decimal),
        ("1_0e1_0", 1e11, Decimal),
        ("9_007_199_254_740_992", 9_007_199_254_740_992.0, Decimal),
    ];
    for (text, value, notation) in cases {
        let read = documented(text).unwrap();
        assert_eq!((read.value, read.notation), (value, notation), "{text}");
        assert_eq!(crate_number(text), 60, "{text}");
    }
    for text in ["0x-_5", "0_x5", "1_e5", "i_nf", "_1", "1_"] {
        let error = documented(text).unwrap_err();
        assert_eq!((error.number(), error.has_place()), (60, false), "{text}");
        assert_eq!(crate_number(text), 60, "{text}");
    }
    let number = |text| documented(text).unwrap_err().number();
    assert_eq!(number("9_007_199_254_740_993"), 53);
    assert_eq!(number("0x_8000_0000_0000_0000"), 61);
}

#[test]
fn misreadings() {
    let query = r#""a""#;
    assert_eq!(lexer(query).unwrap()[0].text(query), query);
    assert_eq!(kinds("fill #\n()"), [T_IDENTIFIER, 6, 7, 0]);
    assert_eq!(kinds("0x1e+5"), [T_NUMBER, T_ADD, T_NUMBER, T_EOF]);
    let nanosecond = Duration::from_nanos(1);
    assert_eq!(parse_duration("0.0000000006"), Ok(nanosecond));
}

#[test]
fn kinds_show_the_words_that_they_are_of() {
    for word in [
        "and",
        "atan2",
        "sum",
        "limit_ratio",
        "offset",
        "fill_right",
        "end",
    ] {
        let kind = get_keyword_token(word).unwrap();
        assert_eq!(token_display(kind).as_str(), word);
        assert_eq!(get_keyword_token(&word.to_uppercase()), Some(kind));
    }
    assert_eq!(token_display(T_METRIC_IDENTIFIER).as_str(), "{Metric_ID}");
    assert_eq!(get_keyword_token("limit\u{212a}"), None);
}

#[test]
fn classes_have_as_many_kinds_as_they_should() {
    let count = |class: fn(TokenId) -> bool| (0..=TokenId::MAX).filter(|&kind| class(kind)).count();
    assert_eq!(count(is_operator), 19);
    assert_eq!(count(is_comparison_operator), 6);
    assert_eq!(count(is_set_operator), 3);
    assert_eq!(count(is_aggregator), 14);
    assert_eq!(count(is_aggregator_with_param), 6);
}
