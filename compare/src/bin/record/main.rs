//! Writes the replay program's recorded inputs, `record inputs`, and the answers of the Rust and of Go, `record answers`.
//! A record is `OP HEX` or `OP HEX ROOM`. Both lists are the same in every run.

mod duration;
mod lexer;
mod number;
mod reason;
mod string;
mod token;
mod utf8;

use compare::oracle::MOST_NUMBER_BYTES;
use compare::texts::from_hex;
use std::env;
use std::process::ExitCode;
use std::str;

/// The answer to a line.
fn answer(line: &str) -> String {
    let answer = record(line).and_then(|(operation, input, room)| match operation {
        "utf8" => Some(utf8::utf8(&input)),
        "keyword" => Some(token::keyword(&input)),
        "display" => Some(token::display(decimal(&input)?.try_into().ok()?, room)),
        "label" => Some(token::label(&input)),
        "escape" => Some(string::escape(&input, room)),
        "unquote" => Some(string::unquote(&input, room)),
        "unquotedoc" => Some(string::unquotedoc(&input, room)),
        "number" => Some(number::number(&input)),
        "numberdoc" => Some(number::numberdoc(&input)),
        "duration" => Some(duration::duration(&input)),
        "durexact" => Some(duration::durexact(&input)),
        "durwrite" => duration::durwrite(&input, room),
        "lex" => Some(lexer::lex(&input, room)),
        "lexdoc" => Some(lexer::lexdoc(&input, room)),
        "lexrooms" => lexer::lexrooms(&input),
        "reason" => reason::reason(&input),
        "reasoncrate" => reason::reasoncrate(&input),
        _ => None,
    });
    answer.unwrap_or_else(|| "bad record".to_string())
}

/// The operation, the bytes and the room of a record; none where the line is no record. The room is the greatest where the
/// record names none.
fn record(line: &str) -> Option<(&str, Vec<u8>, u64)> {
    let fields: Vec<&str> = line.split(' ').collect();
    match fields[..] {
        [operation, hex] => Some((operation, from_hex(hex)?, u64::MAX)),
        [operation, hex, room] => Some((operation, from_hex(hex)?, decimal(room.as_bytes())?)),
        _ => None,
    }
}

/// The longest text of a number or a duration with these ends, filled between them.
fn filled(front: &str, fill: &str, back: &str) -> String {
    let count = (MOST_NUMBER_BYTES - front.len() - back.len()) / fill.len();
    [front, &fill.repeat(count), back].concat()
}

/// The value of decimal digits, where a `u64` holds it.
fn decimal(text: &[u8]) -> Option<u64> {
    let digits = str::from_utf8(text).ok()?;
    let number = digits.parse().ok()?;
    text.iter().all(u8::is_ascii_digit).then_some(number)
}

fn main() -> ExitCode {
    let words: Vec<String> = env::args().skip(1).collect();
    let written: fn(&str) -> String = match words.join(" ").as_str() {
        "inputs" => str::to_string,
        "answers" => answer,
        _ => {
            eprintln!("usage: record inputs, or record answers");
            return ExitCode::from(2);
        }
    };
    let lines = [
        utf8::inputs(),
        token::inputs(),
        string::inputs(),
        number::inputs(),
        duration::inputs(),
        lexer::inputs(),
        reason::inputs(),
    ]
    .concat();
    for line in lines {
        println!("{}", written(&line));
    }
    ExitCode::SUCCESS
}
