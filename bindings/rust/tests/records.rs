//! The recorded inputs and their answers, by the functions of the crate, and the pieces of the recorded queries. An input is OP HEX,
//! or OP HEX ROOM.
//! The variable SIMMERPATH_RECORDS names another folder for the files `inputs` and `answers`.
#![cfg(feature = "alloc")]

use simmerpath::*;
use std::path::{Path, PathBuf};
use std::time::Duration;
use std::{env, fs, str};

/// The room that is lent where a record names none: as much as any answer needs.
const MOST_ROOM: usize = 2 * TEXT_LIMIT;

/// How many lists lexemes are written to.
const LISTS: usize = 4;

/// The answer to a line that is no record.
const BAD_RECORD: &str = "bad record";

/// The folder of the records.
fn folder() -> PathBuf {
    let own = || Path::new(env!("CARGO_MANIFEST_DIR")).join("../c/records");
    env::var_os("SIMMERPATH_RECORDS").map_or_else(own, PathBuf::from)
}

#[test]
fn recorded_inputs_are_answered() {
    let read = |name| fs::read(folder().join(name)).ok();
    let (inputs, answers) = match (read("inputs"), read("answers")) {
        (Some(inputs), Some(answers)) => (inputs, answers),
        _ => return eprintln!("there are no records in {}", folder().display()),
    };
    let answers = String::from_utf8(answers).expect("an answer is text");
    let records = inputs.split(|&byte| byte == b'\n').zip(answers.lines());
    let mut count = 0;
    for (input, must) in records.filter(|record| record.1 != BAD_RECORD) {
        let input = str::from_utf8(input).expect("a record is text");
        if let Some(answer) = answer(input) {
            assert_eq!(answer, must, "{input}");
            count += 1;
        }
    }
    assert!(count > 0, "no record was answered");
}

#[test]
fn recorded_queries_are_made_of_their_pieces() {
    let inputs = match fs::read(folder().join("inputs")) {
        Ok(inputs) => String::from_utf8_lossy(&inputs).into_owned(),
        Err(_) => return eprintln!("there are no records in {}", folder().display()),
    };
    let query = |input: &str| match input.split(' ').collect::<Vec<_>>()[..] {
        ["lex" | "lexdoc", hex, ..] if is_hex(hex) => Some(bytes(hex)),
        _ => None,
    };
    let mut count = 0;
    for query in inputs.lines().filter_map(query) {
        for reading in [Reading::Crate, Reading::Documented] {
            if let Ok(lexemes) = lexer_in(&query, reading) {
                let found = pieces(&query, &lexemes).map(|piece| piece.bytes(&query).to_vec());
                let found: Vec<_> = found.collect();
                assert!(found.iter().all(|bytes| !bytes.is_empty()), "{query:?}");
                assert_eq!(found.concat(), query);
                count += 1;
            }
        }
    }
    assert!(count > 0, "no recorded query was accepted");
}

/// The answer to a record; none where no function of the crate can be asked about it.
fn answer(record: &str) -> Option<String> {
    let mut words = record.split(' ');
    let op = words.next()?;
    let bytes = bytes(words.next()?);
    let room = words.next().map(|room| room.parse().unwrap_or(MOST_ROOM));
    let mut lent = vec![0; room.unwrap_or(MOST_ROOM).min(MOST_ROOM)];
    let answered = match op {
        "utf8" => utf8::validate(&bytes).map(|count| count.to_string()),
        "keyword" => match get_keyword_token(&bytes) {
            Some(kind) => Ok(kind.to_string()),
            None => return Some("none".into()),
        },
        "label" => Ok(u8::from(is_label(&bytes)).to_string()),
        "display" => Ok(shown(&bytes, room)?),
        "escape" => {
            let text = str::from_utf8(&bytes).ok()?;
            escape_string_into(text, &mut lent).map(|text| hex(text.as_bytes()))
        }
        "unquote" => unquote_string_into(&bytes, Reading::Crate, &mut lent).map(hex),
        "unquotedoc" => unquote_string_into(&bytes, Reading::Documented, &mut lent).map(hex),
        "number" => parse_str_radix(&bytes).map(number),
        "numberdoc" => parse_str_radix_in(&bytes, Reading::Documented).map(number),
        "duration" => parse_duration(&bytes).map(timed),
        "durexact" => parse_duration_exact(&bytes).map(timed),
        "durwrite" => Ok(written(&bytes, room)?),
        "lex" => lexed(&bytes, Reading::Crate, [lent.len(); LISTS]),
        "lexdoc" => lexed(&bytes, Reading::Documented, [lent.len(); LISTS]),
        "lexrooms" => lexed_in_rooms(&bytes)?,
        "reason" => reason(&bytes, Reading::Documented)?,
        "reasoncrate" => reason(&bytes, Reading::Crate)?,
        _ => panic!("there is no op {op}"),
    };
    Some(match answered {
        Ok(answer) => format!("ok {answer}"),
        Err(e) => format!("refused {} {} {}", e.number(), e.byte(), e.character()),
    })
}

/// The text of a kind, and a digit for each class; none where a room is given, since the crate has its own.
fn shown(digits: &[u8], room: Option<usize>) -> Option<String> {
    if room.is_some() {
        return None;
    }
    let kind = str::from_utf8(digits).ok()?.parse().ok()?;
    let classes = [
        is_operator(kind),
        is_comparison_operator(kind),
        is_set_operator(kind),
        is_aggregator(kind),
        is_aggregator_with_param(kind),
    ];
    let flags = classes.map(|class| u8::from(class).to_string()).concat();
    Some(format!("{} {flags}", hex(token_display(kind).as_bytes())))
}

/// The value of a number in hex, and its notation.
fn number(number: Number) -> String {
    let notation = match number.notation {
        Notation::Decimal => "decimal",
        Notation::Hex => "hex",
        Notation::Octal => "octal",
    };
    format!("{:016x} {notation}", number.value.to_bits())
}

/// The seconds and the nanoseconds of a duration.
fn timed(duration: Duration) -> String {
    format!("{} {}", duration.as_secs(), duration.subsec_nanos())
}

/// The text of a duration, given as seconds and nanoseconds; none where a room is given, and for what is no duration of Rust's.
fn written(digits: &[u8], room: Option<usize>) -> Option<String> {
    let (secs, nanos) = str::from_utf8(digits).ok()?.split_once(' ')?;
    let (secs, nanos) = (secs.parse().ok()?, nanos.parse().ok()?);
    let duration = Duration::from_secs(secs).checked_add(Duration::from_nanos(nanos))?;
    if room.is_some() || u64::from(duration.subsec_nanos()) != nanos {
        return None;
    }
    Some(hex(display_duration(&duration).as_bytes()))
}

/// The lexemes of a query behind the rooms of the four lists; none where there are no four.
fn lexed_in_rooms(bytes: &[u8]) -> Option<Result<String, Error>> {
    let mut words = bytes.splitn(LISTS + 1, |&byte| byte == b' ');
    let mut rooms = [0; LISTS];
    for room in &mut rooms {
        let named: u64 = str::from_utf8(words.next()?).ok()?.parse().ok()?;
        *room = named.min(MOST_ROOM as u64) as usize;
    }
    Some(lexed(words.next()?, Reading::Crate, rooms))
}

/// The number of a word's reason, given that of its lexeme and the query behind a space; none where there are no such two.
fn reason(bytes: &[u8], reading: Reading) -> Option<Result<String, Error>> {
    let space = bytes.iter().position(|&byte| byte == b' ')?;
    let number = str::from_utf8(&bytes[..space]).ok()?.parse().ok()?;
    let reason = word_reason(&bytes[space + 1..], reading, number);
    Some(reason.map(|reason| (reason as u8).to_string()))
}

/// The lexemes of a query in lists of so many entries each.
fn lexed(query: &[u8], reading: Reading, rooms: [usize; LISTS]) -> Result<String, Error> {
    let (mut kinds, mut starts) = (vec![0; rooms[0]], vec![0; rooms[1]]);
    let (mut lengths, mut depths) = (vec![0; rooms[2]], vec![0; rooms[3]]);
    let lexemes = lex_into(
        query,
        reading,
        &mut kinds,
        &mut starts,
        &mut lengths,
        &mut depths,
    )?;
    let entry = |l: Lexeme| format!("{},{},{},{}", l.kind, l.start, l.length, l.depth);
    Ok(lexemes.map(entry).collect::<Vec<_>>().join(" "))
}

/// Whether a word is bytes in hex, or `-`.
fn is_hex(word: &str) -> bool {
    let is_digit = |byte: u8| byte.is_ascii_hexdigit();
    word == "-" || (word.len() % 2 == 0 && word.bytes().all(is_digit))
}

/// The bytes that are written in hex, or as `-`.
fn bytes(hex: &str) -> Vec<u8> {
    let digits = hex.trim_start_matches('-').as_bytes();
    let byte = |pair: &[u8]| u8::from_str_radix(str::from_utf8(pair).unwrap(), 16).unwrap();
    digits.chunks(2).map(byte).collect()
}

/// Bytes in hex, or as `-`.
fn hex(bytes: &[u8]) -> String {
    if bytes.is_empty() {
        return "-".into();
    }
    bytes.iter().map(|byte| format!("{byte:02x}")).collect()
}
