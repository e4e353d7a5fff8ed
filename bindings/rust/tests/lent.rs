//! What is there without allocation: all but the functions that answer with a vector, a string or a `Cow`.

use simmerpath::token::{T_DURATION, T_EOF, T_IDENTIFIER};
use simmerpath::{display_duration, escape_string_into, get_keyword_token, is_label, lex_into};
use simmerpath::{parse_duration, parse_duration_exact, parse_str_radix, parse_str_radix_in};
use simmerpath::{pieces, token_display, unquote_string_into, utf8, word_reason};
use simmerpath::{Lexeme, Reading, Reason};
use std::time::Duration;

#[test]
fn lexemes_in_lent_lists() {
    let (mut kinds, mut starts) = ([0; 7], [0; 7]);
    let (mut lengths, mut depths) = ([0; 7], [0; 7]);
    let lexemes = lex_into(
        "(a[5m])",
        Reading::default(),
        &mut kinds,
        &mut starts,
        &mut lengths,
        &mut depths,
    );
    let lexemes = lexemes.unwrap();
    assert_eq!(lexemes.len(), 7);
    let last = lexemes.clone().next_back();
    let end = Lexeme {
        kind: T_EOF,
        start: 7,
        length: 0,
        depth: 0,
    };
    assert_eq!(last, Some(end));
    let depths = lexemes.clone().map(|lexeme| lexeme.depth);
    assert!(depths.eq([0, 1, 1, 1, 1, 0, 0]));
    assert!(lexemes
        .map(|lexeme| lexeme.kind)
        .eq([6, T_IDENTIFIER, 10, T_DURATION, 11, 7, T_EOF]));
}

#[test]
fn pieces_by_lexemes_in_lent_lists() {
    let query = " a#b";
    let (mut kinds, mut starts) = ([0; 2], [0; 2]);
    let (mut lengths, mut depths) = ([0; 2], [0; 2]);
    let lexemes = lex_into(
        query,
        Reading::default(),
        &mut kinds,
        &mut starts,
        &mut lengths,
        &mut depths,
    );
    let texts = pieces(query, lexemes.unwrap()).map(|piece| piece.text(query));
    assert!(texts.eq([" ", "a", "#b"]));
}

#[test]
fn an_empty_list_is_too_short() {
    for reading in [Reading::Crate, Reading::Documented] {
        let error = lex_into("", reading, &mut [], &mut [], &mut [], &mut []).unwrap_err();
        assert_eq!((error.number(), error.byte(), error.character()), (3, 0, 0));
    }
}

#[test]
fn texts_in_lent_buffers() {
    let mut text = [b'.'; 5];
    let escaped = escape_string_into("\"é", &mut text).unwrap();
    assert_eq!(escaped, "\\\"é");
    let read = unquote_string_into(r"'\xff'", Reading::Documented, &mut text).unwrap();
    assert_eq!(read, [0xff]);
    let empty = unquote_string_into("''", Reading::default(), &mut []).unwrap();
    assert_eq!(empty, b"");
}

#[test]
fn a_bad_literal_has_a_place_and_a_bad_code_point_none() {
    let mut text = [b'.'; 4];
    let error = unquote_string_into("'é\\q'", Reading::Crate, &mut text).unwrap_err();
    assert_eq!((error.number(), error.has_place()), (40, true));
    assert_eq!((error.byte(), error.character()), (3, 2));
    let error = utf8::encode(0xd800, &mut text, 3).unwrap_err();
    assert_eq!((error.number(), error.has_place()), (40, false));
    assert_eq!((error.byte(), error.character()), (0, 0));
    assert_eq!(text, [b'.'; 4]);
}

#[test]
fn what_needs_no_room() {
    assert_eq!(parse_duration("1m").unwrap(), Duration::from_secs(60));
    assert_eq!(parse_duration_exact("1m").unwrap(), Duration::from_secs(60));
    let error = parse_duration_exact("4294967296m").unwrap_err();
    assert_eq!(error.number(), 55);
    assert_eq!(display_duration(&Duration::from_secs(60)).as_str(), "1m");
    assert_eq!(parse_str_radix("0x10").unwrap().value, 16.0);
    let read = parse_str_radix_in("0x_1_0", Reading::Documented).unwrap();
    assert_eq!(read.value, 16.0);
    let reason = word_reason("{or }", Reading::default(), 1);
    assert_eq!(reason, Ok(Reason::Or));
    let error = word_reason("{or }", Reading::default(), 0).unwrap_err();
    assert_eq!(error.number(), 74);
    assert_eq!(token_display(T_EOF).as_str(), "<eof>");
    assert_eq!(get_keyword_token(""), None);
    assert!(!is_label(""));
    assert_eq!(utf8::validate(""), Ok(0));
    assert_eq!(utf8::char_at("", 0), Ok(None));
    assert_eq!(utf8::char_number("", 1), 0);
    assert_eq!(utf8::encode(0x20, &mut [], 0).unwrap_err().number(), 3);
}
