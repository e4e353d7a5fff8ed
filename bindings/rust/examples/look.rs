//! look: shows the queries on standard input, a line each, in colours by the class of each lexeme, with a pair of parentheses in
//! one colour by its depth. Under a query that is refused stands a caret at the refused character, and why.
//! `--color=always` and `--color=never` decide over colour; else there is some on a terminal, but for the variable NO_COLOR.
//! With `--documented` queries are read as Prometheus documents it. With `--reasons` a line for each word stands under a query that
//! is accepted: why the word has its kind.

use simmerpath::token::*;
use simmerpath::{word_reason, Error, Lexeme, Reading};
use std::env;
use std::io::{self, BufRead, Write};
use std::process::ExitCode;

/// The colours, as a terminal names them.
const KEYWORD: &str = "35";
const AGGREGATOR: &str = "1;34";
const OPERATOR: &str = "33";
const STRING: &str = "32";
const NUMBER: &str = "36";
const DURATION: &str = "1;36";
const NAME: &str = "39";
const BRACKET: &str = "1";
const COMMENT: &str = "90";
const REFUSAL: &str = "31";
const REASON: &str = "90";

/// What stands before a reason.
const INDENT: &str = "    ";

/// The colours of parentheses, by their depth: three bright colours in turn.
const PARENTHESES: [&str; 3] = ["1;93", "1;95", "1;96"];

/// Where the pictures of the control characters begin, and that of the last.
const PICTURES: u32 = 0x2400;
const PICTURE_OF_DELETE: char = '\u{2421}';

/// The exit status where the options are wrong.
const MISUSED: u8 = 2;

/// How queries are read and shown.
struct Options {
    reading: Reading,
    coloured: bool,
    reasons: bool,
}

impl Options {
    /// Those that these words ask for; none where one of them is no option.
    fn of(words: impl Iterator<Item = String>) -> Option<Self> {
        let mut options = Options {
            reading: Reading::Crate,
            coloured: is_colour_wanted(),
            reasons: false,
        };
        for word in words {
            match &*word {
                "--color=auto" => options.coloured = is_colour_wanted(),
                "--color=always" => options.coloured = true,
                "--color=never" => options.coloured = false,
                "--documented" => options.reading = Reading::Documented,
                "--reasons" => options.reasons = true,
                _ => return None,
            }
        }
        Some(options)
    }
}

fn main() -> ExitCode {
    let options = match Options::of(env::args().skip(1)) {
        Some(options) => options,
        None => {
            eprintln!("usage: look [--color=always|never|auto] [--documented] [--reasons]");
            return ExitCode::from(MISUSED);
        }
    };
    match show_all(&options) {
        Err(error) if error.kind() != io::ErrorKind::BrokenPipe => {
            eprintln!("look: {error}");
            ExitCode::FAILURE
        }
        _ => ExitCode::SUCCESS,
    }
}

/// Whether there is colour where no option says so.
fn is_colour_wanted() -> bool {
    let variable = |name| env::var(name).unwrap_or_default();
    variable("NO_COLOR").is_empty() && variable("TERM") != "dumb" && is_on_terminal()
}

/// Whether standard output is a terminal.
#[cfg(is_terminal)]
#[allow(clippy::incompatible_msrv)]
fn is_on_terminal() -> bool {
    io::IsTerminal::is_terminal(&io::stdout())
}

/// The same where Rust's library cannot say: then `--color=always` has to.
#[cfg(not(is_terminal))]
fn is_on_terminal() -> bool {
    false
}

/// Shows the queries on standard input.
fn show_all(options: &Options) -> io::Result<()> {
    let mut out = io::stdout().lock();
    for query in io::stdin().lock().split(b'\n') {
        let query = query?;
        let lexed = simmerpath::lexer_in(&query, options.reading);
        let query = String::from_utf8_lossy(&query);
        let shown = match lexed {
            Ok(lexemes) => {
                accepted(&query, &lexemes, options.coloured) + &reasons(&query, &lexemes, options)
            }
            Err(error) => refused(&query, error, options.coloured),
        };
        out.write_all(shown.as_bytes())?;
    }
    out.flush()
}

/// A query with its lexemes in their colours, and what stands between them in that of a comment.
fn accepted(query: &str, lexemes: &[Lexeme], coloured: bool) -> String {
    let mut shown = String::new();
    let mut end = 0;
    for lexeme in lexemes {
        shown += &painted(&query[end..lexeme.start], COMMENT, coloured);
        shown += &painted(lexeme.text(query), colour(lexeme), coloured);
        end = lexeme.range().end;
    }
    shown + "\n"
}

/// A line for each word of a query: why it has its kind; nothing where that is not asked for.
fn reasons(query: &str, lexemes: &[Lexeme], options: &Options) -> String {
    let line = |(number, lexeme): (usize, &Lexeme)| {
        let reason = word_reason(query, options.reading, number).ok()?;
        let sentence = reason.sentence(lexeme.text(query)).to_string();
        let shown = painted(&sentence, REASON, options.coloured);
        Some(format!("{INDENT}{shown}\n"))
    };
    let asked = lexemes.iter().enumerate().filter(|_| options.reasons);
    asked.filter_map(line).collect()
}

/// A query that is refused, and under it why.
fn refused(query: &str, error: Error, coloured: bool) -> String {
    let caret = if error.has_place() { "^ " } else { "" };
    let reason = painted(&format!("{caret}{error}"), REFUSAL, coloured);
    let indent = " ".repeat(error.character());
    format!("{}\n{indent}{reason}\n", visible(query))
}

/// The colour of a lexeme.
fn colour(lexeme: &Lexeme) -> &'static str {
    match lexeme.kind {
        T_LEFT_PAREN | T_RIGHT_PAREN => PARENTHESES[lexeme.depth % PARENTHESES.len()],
        T_STRING => STRING,
        T_NUMBER => NUMBER,
        T_DURATION => DURATION,
        T_IDENTIFIER | T_METRIC_IDENTIFIER => NAME,
        T_LEFT_BRACE..=T_COLON => BRACKET,
        T_EQL => OPERATOR,
        kind if is_operator(kind) => OPERATOR,
        kind if is_aggregator(kind) => AGGREGATOR,
        _ => KEYWORD,
    }
}

/// A text in a colour. White space has none.
fn painted(text: &str, colour: &str, coloured: bool) -> String {
    let shown = visible(text);
    if coloured && !shown.trim().is_empty() {
        format!("\x1b[{colour}m{shown}\x1b[0m")
    } else {
        shown
    }
}

/// A text with a picture for each control character, so that none of them moves the caret or does anything to the terminal.
fn visible(text: &str) -> String {
    let picture = |c: char| match c {
        '\0'..='\x1f' => char::from_u32(PICTURES + u32::from(c)).unwrap_or(c),
        '\x7f' => PICTURE_OF_DELETE,
        _ if c.is_control() => char::REPLACEMENT_CHARACTER,
        _ => c,
    };
    text.chars().map(picture).collect()
}
