//! Limits, rooms, and what a refused call leaves.
#![cfg(feature = "alloc")]

use simmerpath::refusal::{NOT_A_WORD, NOT_UTF8, NO_ROOM};
use simmerpath::refusal::{NO_SUCH_LEXEME, OVERSIZED_PART, TOO_LONG};
use simmerpath::{escape_string, escape_string_into, lex_into, lexer, parse_duration};
use simmerpath::{parse_duration_exact, parse_str_radix, parse_str_radix_in, unquote_str};
use simmerpath::{unquote_string, unquote_string_into, word_reason, Reading, Reason};
use simmerpath::{NUMBER_LIMIT, TEXT_LIMIT};
use std::borrow::Cow;

/// What stands in a list before a call.
const BLANK: (u16, u32, u32, u32) = (0xeeee, 0xdddd_dddd, 0xcccc_cccc, 0xbbbb_bbbb);

#[test]
fn a_query_of_the_limit_is_read_and_a_longer_one_refused() {
    let parens = "()".repeat(TEXT_LIMIT / 2) + "1";
    assert_eq!(lexer(&parens).unwrap().len(), TEXT_LIMIT + 1);
    let spaces = " ".repeat(TEXT_LIMIT);
    assert_eq!(lexer(&spaces).unwrap()[0].start, TEXT_LIMIT);
    let error = lexer(&(spaces + " ")).unwrap_err();
    assert_eq!((error.number(), error.has_place()), (TOO_LONG, false));
}

#[test]
fn the_last_word_of_a_query_of_the_limit_has_its_reason() {
    let commas = ",".repeat(TEXT_LIMIT - 1) + "a";
    let reason = |number| word_reason(&commas, Reading::Crate, number);
    assert_eq!(reason(TEXT_LIMIT - 1), Ok(Reason::Plain));
    assert_eq!(reason(TEXT_LIMIT).unwrap_err().number(), NOT_A_WORD);
    let error = reason(TEXT_LIMIT + 1).unwrap_err();
    assert_eq!(error.number(), NO_SUCH_LEXEME);
    let error = word_reason(&(commas + "a"), Reading::Crate, 0).unwrap_err();
    assert_eq!((error.number(), error.has_place()), (TOO_LONG, false));
}

#[test]
fn parentheses_as_deep_as_can_be() {
    let most = TEXT_LIMIT / 2;
    let lexemes = lexer(&["(".repeat(most), "a".into(), ")".repeat(most)].concat()).unwrap();
    assert_eq!(lexemes[most].depth, most);
    for (depth, open) in lexemes[..most].iter().enumerate() {
        let close = &lexemes[2 * most - depth];
        assert_eq!((open.depth, close.depth), (depth, depth));
    }
    assert_eq!(lexemes[2 * most + 1].depth, 0);
    let error = lexer(&"(".repeat(TEXT_LIMIT)).unwrap_err();
    assert_eq!((error.number(), error.byte()), (10, TEXT_LIMIT));
}

#[test]
fn a_place_at_the_limit_is_told() {
    let query = "\u{10ffff}".repeat(TEXT_LIMIT / 4);
    let error = lexer(&format!("\"{query}")).unwrap_err();
    assert_eq!(
        (error.number(), error.byte(), error.character()),
        (23, 65_533, 16_384)
    );
    let literal = format!("\"{query}\\\"");
    let error = unquote_str(&literal).unwrap_err();
    assert_eq!(literal.len(), TEXT_LIMIT);
    assert_eq!(
        (error.number(), error.byte(), error.character()),
        (40, 65_533, 16_384)
    );
    assert_eq!(error.found(), Some('\\'));
}

#[test]
fn literals_and_texts_at_the_limit() {
    let inner = "a".repeat(TEXT_LIMIT - 2);
    assert_eq!(unquote_str(&format!("'{inner}'")).unwrap(), inner);
    let error = unquote_str(&format!("'{inner}a'")).unwrap_err();
    assert_eq!(error.number(), TOO_LONG);
    let escapes = format!("'{}'", r"\n".repeat(TEXT_LIMIT / 2 - 1));
    let read = unquote_string(&escapes, Reading::Crate).unwrap();
    assert!(matches!(read, Cow::Owned(text) if text == b"\n".repeat(TEXT_LIMIT / 2 - 1)));
    let mut out = vec![0; 2 * TEXT_LIMIT];
    let longest = "\"".repeat(TEXT_LIMIT);
    assert_eq!(
        escape_string_into(&longest, &mut out).unwrap().len(),
        2 * TEXT_LIMIT
    );
    let error = escape_string_into(&(longest + "\""), &mut out).unwrap_err();
    assert_eq!(error.number(), TOO_LONG);
}

#[test]
fn texts_of_any_length_are_escaped() {
    for characters in ["a", "\\", "é\n", "\u{20ac}", "x\u{10ffff}\""] {
        let text = characters.repeat(3 * TEXT_LIMIT / characters.len());
        let parts = characters.chars().map(|c| escape_string(&c.to_string()));
        let once = parts.collect::<String>();
        assert_eq!(
            escape_string(&text),
            once.repeat(3 * TEXT_LIMIT / characters.len())
        );
    }
    assert_eq!(escape_string(""), "");
}

#[test]
fn numbers_and_durations_at_the_limit() {
    let zeros = "0".repeat(NUMBER_LIMIT - 2);
    assert_eq!(parse_str_radix(&format!("{zeros}.5")).unwrap().value, 0.5);
    let error = parse_str_radix(&format!("{zeros}0.5")).unwrap_err();
    assert_eq!(error.number(), TOO_LONG);
    assert_eq!(parse_duration(&format!("{zeros}5s")).unwrap().as_secs(), 5);
    let error = parse_duration(&format!("{zeros}05s")).unwrap_err();
    assert_eq!(error.number(), TOO_LONG);
}

#[test]
fn separators_count_for_the_limit() {
    let read = |text: &str| parse_str_radix_in(text, Reading::Documented);
    let digits = "8_".repeat(NUMBER_LIMIT / 2 - 1) + "8";
    assert_eq!(read(&digits).unwrap_err().number(), 53);
    let zeros = "0_".repeat(NUMBER_LIMIT / 2 - 1);
    assert_eq!(read(&format!("{zeros}09")).unwrap().value, 9.0);
    let error = read(&format!("{zeros}009")).unwrap_err();
    assert_eq!(error.number(), TOO_LONG);
}

#[test]
fn exact_durations_at_the_limit() {
    let nines = "9".repeat(NUMBER_LIMIT - 1);
    let number = |text: &str| parse_duration_exact(text).unwrap_err().number();
    assert_eq!(number(&format!("{nines}s")), OVERSIZED_PART);
    assert_eq!(number(&format!("{nines}ms")), TOO_LONG);
    assert_eq!(number(&format!("{nines}y\u{e9}")), TOO_LONG);
    let zeros = "0".repeat(NUMBER_LIMIT - 11);
    let read = parse_duration_exact(&format!("{zeros}4294967295s"));
    assert_eq!(read.unwrap().as_secs(), 4_294_967_295);
    assert_eq!(number(&format!("{zeros}4294967296s")), OVERSIZED_PART);
}

#[test]
fn bytes_that_are_no_text_are_refused() {
    let error = lexer(b"a\xc3\xa9\xff").unwrap_err();
    assert_eq!(
        (error.number(), error.byte(), error.character()),
        (NOT_UTF8, 3, 2)
    );
    assert_eq!(error.found(), None);
    assert_eq!(error.to_string(), "not UTF-8, at byte 3");
    assert_eq!(parse_duration(b"\xff").unwrap_err().number(), NOT_UTF8);
    let error = parse_duration_exact(b"5000000000s\xff").unwrap_err();
    assert_eq!((error.number(), error.byte()), (NOT_UTF8, 11));
    assert_eq!(parse_str_radix(b"\xff").unwrap_err().number(), NOT_UTF8);
}

#[test]
fn a_list_that_is_too_short_leaves_all_as_they_were() {
    for short in 0..4 {
        let room = |list| if list == short { 4 } else { 6 };
        let mut kinds = vec![BLANK.0; room(0)];
        let mut starts = vec![BLANK.1; room(1)];
        let mut lengths = vec![BLANK.2; room(2)];
        let mut depths = vec![BLANK.3; room(3)];
        let lexemes = lex_into(
            "a[5m]",
            Reading::Crate,
            &mut kinds,
            &mut starts,
            &mut lengths,
            &mut depths,
        );
        assert_eq!(lexemes.unwrap_err().number(), NO_ROOM);
        assert_eq!(kinds, vec![BLANK.0; room(0)]);
        assert_eq!(starts, vec![BLANK.1; room(1)]);
        assert_eq!(lengths, vec![BLANK.2; room(2)]);
        assert_eq!(depths, vec![BLANK.3; room(3)]);
    }
}

#[test]
fn a_refused_query_leaves_the_lists_as_they_were() {
    let (mut kinds, mut starts) = ([BLANK.0; 9], [BLANK.1; 9]);
    let (mut lengths, mut depths) = ([BLANK.2; 9], [BLANK.3; 9]);
    for (query, reading, number) in [
        ("((a) +", Reading::Crate, 10),
        ("((a)))", Reading::Crate, 16),
        ("a + b !", Reading::Crate, 13),
        ("a + 1_0", Reading::Crate, 20),
        ("1_0 + 1_", Reading::Documented, 20),
    ] {
        let lexemes = lex_into(
            query,
            reading,
            &mut kinds,
            &mut starts,
            &mut lengths,
            &mut depths,
        );
        assert_eq!(lexemes.unwrap_err().number(), number, "{query}");
    }
    assert_eq!((kinds, starts), ([BLANK.0; 9], [BLANK.1; 9]));
    assert_eq!((lengths, depths), ([BLANK.2; 9], [BLANK.3; 9]));
}

#[test]
fn a_buffer_that_is_too_short_stays_as_it_was() {
    let mut out = [b'.'; 3];
    let error = escape_string_into("\n\n", &mut out).unwrap_err();
    assert_eq!(error.number(), NO_ROOM);
    let error = unquote_string_into(r"'\n\n\n\n'", Reading::Crate, &mut out).unwrap_err();
    assert_eq!(error.number(), NO_ROOM);
    let error = unquote_string_into(r"'\n\q'", Reading::Crate, &mut out).unwrap_err();
    assert_eq!((error.number(), error.byte()), (40, 3));
    assert_eq!(out, [b'.'; 3]);
}

#[test]
fn a_lexeme_of_another_query_has_no_text() {
    let lexeme = lexer("a + longer").unwrap()[2];
    assert_eq!((lexeme.text("a"), lexeme.bytes(b"a")), ("", &b""[..]));
    assert_eq!(lexeme.text("a +éé more"), "");
}
