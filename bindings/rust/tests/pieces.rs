//! The pieces of a query: lexemes, runs of white space, comments (document 02, L12).
#![cfg(feature = "alloc")]

use simmerpath::token::{TokenId, T_EOF, T_IDENTIFIER, T_LEFT_BRACKET, T_RIGHT_BRACKET, T_STRING};
use simmerpath::{lexer, lexer_in, pieces, Lexeme, Piece, Reading, TEXT_LIMIT};

/// The bytes that are white space.
const WHITE: [u8; 5] = [9, 10, 12, 13, 32];

/// The bytes that begin and end strings.
const QUOTES: [u8; 3] = *b"\"'`";

/// What the short queries are made of.
const SIGNS: [&str; 20] = [
    "a", " ", "\n", "\r", "#", "\"", "`", "(", "[5m", "]", "[", "{", "}", ")", "5", "'", "\\",
    "\t", "\x0b", "\x0c",
];

/// How many of the signs, from the first, short queries are made of, and how many signs such a query has at most.
const SHORT: [(usize, usize); 2] = [(10, 5), (SIGNS.len(), 4)];

/// The pieces of a query, each as a letter for what it is and its text; in both readings, which agree on it.
fn told(query: &str) -> Vec<(char, &str)> {
    let [crates, documented] = [Reading::Crate, Reading::Documented].map(|reading| {
        let lexemes = lexer_in(query, reading).unwrap();
        let told = pieces(query, &lexemes).map(|piece| (letter(&piece), piece.text(query)));
        told.collect::<Vec<_>>()
    });
    assert_eq!(crates, documented, "{query:?}");
    crates
}

/// A letter for what a piece is.
fn letter(piece: &Piece) -> char {
    match piece {
        Piece::Lexeme(_) => 'l',
        Piece::Space(_) => 's',
        Piece::Comment(_) => 'c',
    }
}

/// Whether both readings refuse a query.
fn refused(query: &str) -> bool {
    let readings = [Reading::Crate, Reading::Documented];
    readings.map(|reading| lexer_in(query, reading).is_err()) == [true, true]
}

#[test]
fn an_empty_query_has_no_pieces() {
    assert_eq!(told(""), []);
}

#[test]
fn a_comment_has_the_end_of_its_line() {
    let parts = [
        ('l', "a"),
        ('s', " "),
        ('c', "#c\n"),
        ('s', " "),
        ('l', "b"),
    ];
    assert_eq!(told("a #c\n b"), parts);
    assert_eq!(told("# a\r\n"), [('c', "# a\r"), ('s', "\n")]);
    assert_eq!(told("#\n\r"), [('c', "#\n"), ('s', "\r")]);
    assert_eq!(
        told("#a\n#b\r#\n"),
        [('c', "#a\n"), ('c', "#b\r"), ('c', "#\n")]
    );
}

#[test]
fn a_comment_may_end_with_the_query() {
    assert_eq!(told(" #x"), [('s', " "), ('c', "#x")]);
    assert_eq!(told("#"), [('c', "#")]);
    assert_eq!(told("a#"), [('l', "a"), ('c', "#")]);
    assert_eq!(
        told("a # é ( \" #"),
        [('l', "a"), ('s', " "), ('c', "# é ( \" #")]
    );
}

#[test]
fn a_run_of_white_space_is_as_long_as_can_be() {
    assert_eq!(told("\t\n\x0c\r "), [('s', "\t\n\x0c\r ")]);
    assert_eq!(
        told(" \n a\r\n"),
        [('s', " \n "), ('l', "a"), ('s', "\r\n")]
    );
}

#[test]
fn what_looks_like_a_comment_in_a_string_is_of_the_string() {
    for query in ["\"#\"", "'#'", "`#`", "' # '"] {
        assert_eq!(told(query), [('l', query)]);
    }
}

#[test]
fn a_comment_may_stand_in_braces() {
    let braces = [('l', "{"), ('s', " "), ('c', "#}\n"), ('l', "}")];
    assert_eq!(told("{ #}\n}"), braces);
}

#[test]
fn white_space_may_stand_in_brackets() {
    let brackets = [
        ('l', "a"),
        ('l', "["),
        ('s', " "),
        ('l', "5m"),
        ('s', " "),
        ('l', "]"),
    ];
    assert_eq!(told("a[ 5m ]"), brackets);
}

#[test]
fn no_comment_may_stand_in_brackets() {
    assert!(refused("a[#]"));
    assert!(refused("a[5m #\n]"));
}

#[test]
fn a_comment_may_have_control_characters() {
    assert_eq!(told("#\0\x0b\n"), [('c', "#\0\x0b\n")]);
}

#[test]
fn a_vertical_tab_is_no_white_space() {
    assert!(refused("a\x0bb"));
}

#[test]
fn readings_that_differ_have_other_pieces() {
    let query = r"`\` # `\\`";
    let by = |reading| {
        let lexemes = lexer_in(query, reading)?;
        let texts = pieces(query, &lexemes).map(|piece| piece.text(query));
        Ok::<_, simmerpath::Error>(texts.collect::<Vec<_>>())
    };
    assert_eq!(by(Reading::Documented).unwrap(), [r"`\`", " ", r"# `\\`"]);
    assert!(by(Reading::Crate).is_err());
}

#[test]
fn lexemes_are_given_as_they_are() {
    let lexemes = lexer("(a) ").unwrap();
    let found: Vec<Piece> = pieces("(a) ", &lexemes).collect();
    assert_eq!(
        found[..3],
        [0, 1, 2].map(|index| Piece::Lexeme(lexemes[index]))
    );
    assert_eq!(found[3..], [Piece::Space(3..4)]);
    assert_eq!(found[1].range(), 1..2);
    assert_eq!(found[3].bytes(b"(a) "), b" ");
}

/// Whether a comment is one, given whether the query ends with it.
fn is_comment(text: &str, last: bool) -> bool {
    let inner = text.strip_suffix(['\r', '\n']);
    let line = inner.unwrap_or(text);
    (last || inner.is_some()) && line.starts_with('#') && !line.contains(['\r', '\n'])
}

/// Whether a text may be that of a lexeme of a kind, as far as strings, white space and comments go.
fn is_lexeme(kind: TokenId, text: &[u8]) -> bool {
    match (kind, text) {
        (T_STRING, [first, .., last]) => first == last && QUOTES.contains(first),
        (T_STRING, _) => false,
        _ => !text
            .iter()
            .any(|byte| *byte == b'#' || WHITE.contains(byte) || QUOTES.contains(byte)),
    }
}

/// Holds the pieces of a query, if a reading accepts it, to what pieces are. Whether it does.
fn hold(query: &str, reading: Reading) -> bool {
    let lexemes = match lexer_in(query, reading) {
        Ok(lexemes) => lexemes,
        Err(_) => return false,
    };
    let mut among = lexemes.iter();
    let mut end = 0;
    let mut was_space = false;
    let mut in_brackets = false;
    for piece in pieces(query, &lexemes) {
        let text = piece.text(query);
        assert!(piece.range().start == end && !text.is_empty(), "{query:?}");
        end = piece.range().end;
        let holds = match &piece {
            Piece::Lexeme(lexeme) => {
                in_brackets =
                    lexeme.kind == T_LEFT_BRACKET || in_brackets && lexeme.kind != T_RIGHT_BRACKET;
                among.next() == Some(lexeme) && is_lexeme(lexeme.kind, text.as_bytes())
            }
            Piece::Space(_) => !was_space && text.bytes().all(|byte| WHITE.contains(&byte)),
            Piece::Comment(_) => !in_brackets && is_comment(text, end == query.len()),
        };
        assert!(holds, "{query:?}: {piece:?}");
        was_space = matches!(piece, Piece::Space(_));
    }
    assert!(end == query.len() && among.len() == 1, "{query:?}");
    true
}

/// Some queries, each with each of some signs behind it.
fn longer(queries: &[String], signs: &[&str]) -> Vec<String> {
    let mut longer = Vec::new();
    for query in queries {
        longer.extend(signs.iter().map(|sign| format!("{query}{sign}")));
    }
    longer
}

#[test]
fn short_queries_are_made_of_their_pieces() {
    for (signs, most) in SHORT {
        let mut queries = vec![String::new()];
        let mut count = 0;
        for _ in 0..most {
            queries = longer(&queries, &SIGNS[..signs]);
            for query in &queries {
                count += usize::from(hold(query, Reading::Crate));
                count += usize::from(hold(query, Reading::Documented));
            }
        }
        assert!(count > queries.len() / 5, "{count}");
    }
}

#[test]
fn queries_of_the_limit_are_made_of_their_pieces() {
    for (sign, count) in [
        (" ", 1),
        ("#", 1),
        ("#\n", TEXT_LIMIT / 2 + 1),
        ("()", TEXT_LIMIT),
    ] {
        let mut query = sign.repeat(TEXT_LIMIT / sign.len());
        if query.len() < TEXT_LIMIT {
            query.push(' ');
        }
        assert_eq!(told(&query).len(), count);
    }
}

/// A lexeme of some kind at some bytes.
fn at(kind: u16, start: usize, length: usize) -> Lexeme {
    let depth = 0;
    Lexeme {
        kind,
        start,
        length,
        depth,
    }
}

#[test]
fn lexemes_of_another_query_give_pieces_side_by_side() {
    let spans = [
        (0, 0),
        (0, 1),
        (0, 4),
        (0, 9),
        (1, 1),
        (2, 1),
        (4, 1),
        (7, 1),
        (0, usize::MAX),
        (usize::MAX, usize::MAX),
    ];
    let pairs = spans
        .iter()
        .flat_map(|span| spans.map(|other| [*span, other]));
    for spans in pairs {
        let lexemes = spans.map(|(start, length)| at(T_IDENTIFIER, start, length));
        for query in ["a b #c", "a é #é"] {
            let mut found = pieces(query, &lexemes);
            let mut end = 0;
            for piece in found.by_ref() {
                let range = piece.range();
                assert_eq!(piece.bytes(query.as_bytes()).len(), range.len());
                assert!(range.start == end && !range.is_empty());
                end = range.end;
            }
            assert_eq!(found.next(), None);
        }
    }
}

#[test]
fn lexemes_of_another_query_may_cut_and_end_pieces() {
    let lexemes = [at(T_IDENTIFIER, 1, 1), at(T_EOF, 4, 0)];
    let lexeme = Piece::Lexeme(lexemes[0]);
    let comment = Piece::Comment(0..1);
    assert!(pieces("#ab\n", &lexemes).eq([comment, lexeme.clone()]));
    let spaces = [Piece::Space(0..1), lexeme, Piece::Space(2..4)];
    assert!(pieces("    ", &lexemes).eq(spaces));
    assert_eq!(pieces("ab", &lexemes).next(), None);
}

#[test]
fn a_text_is_that_of_the_range_alone() {
    let (space, lexeme) = (Piece::Space(0..1), at(T_STRING, 0, 1));
    let first: [(&str, &str, &[u8]); 3] = [("bcd", "b", b"b"), ("", "", b""), ("é", "", b"\xc3")];
    for (query, text, bytes) in first {
        assert_eq!((space.text(query), lexeme.text(query)), (text, text));
        let query = query.as_bytes();
        assert_eq!((space.bytes(query), lexeme.bytes(query)), (bytes, bytes));
    }
}

#[test]
fn the_end_mark_may_be_left_out() {
    let query = "a #b";
    let lexemes = lexer(query).unwrap();
    assert!(pieces(query, &lexemes[..1]).eq(pieces(query, &lexemes)));
    assert_eq!(pieces(query, &lexemes[..1]).count(), 3);
}
