//! Holds the crate simmerpath to promql-parser, as a front end uses it: what both read, and each message word for word.
//! The texts are those of `compare`, within document 01's limits.

extern crate promql;

mod lex;
mod token;

use compare::oracle::token::words;
use compare::texts::{durations, escapes, literals, numbers, queries};
use promql::Unquoted;
use simmerpath::refusal::{OUTSIDE_EXACT, OUTSIDE_I64, OUT_OF_RANGE};
use simmerpath::{Error, NUMBER_LIMIT, TEXT_LIMIT};
use std::process::ExitCode;

/// The seed of the random texts, and how many there are of each kind.
const SEED: u64 = 11;
const COUNT: usize = 100_000;

/// How many differences are shown of each kind.
const MOST_SHOWN: usize = 10;

/// What is wrong with a text: the number of our refusal, and a message.
type Wrong = (u16, String);

/// What a refusal of ours says of a text.
fn wrong(text: &str) -> impl Fn(Error) -> Wrong + '_ {
    move |error| (error.number(), error.message(text).to_string())
}

/// Whether document 01 has this refusal where promql-parser has a value.
fn is_known(number: u16) -> bool {
    [OUTSIDE_EXACT, OUT_OF_RANGE, OUTSIDE_I64].contains(&number)
}

/// Compares what is read of texts of at most so many bytes, by promql-parser and by us: whether it is the same. Where
/// promql-parser panics, as with an older library of Rust's on a negative zero, there is nothing to compare with.
fn compare<T: PartialEq>(
    name: &str,
    texts: impl Iterator<Item = Vec<u8>>,
    most: usize,
    theirs: impl Fn(&str) -> Option<Result<T, String>>,
    ours: impl Fn(&str) -> Result<T, Wrong>,
) -> bool {
    let (mut all, mut refused, mut known, mut different) = (0, 0, 0, 0);
    for text in texts.filter_map(|text| String::from_utf8(text).ok()) {
        if text.len() > most {
            continue;
        }
        all += 1;
        match (theirs(&text), ours(&text)) {
            (Some(Ok(theirs)), Ok(ours)) if theirs == ours => {}
            (Some(Err(theirs)), Err((_, ours))) if theirs == ours => refused += 1,
            (None, _) => known += 1,
            (Some(Ok(_)), Err((number, _))) if is_known(number) => known += 1,
            _ => {
                different += 1;
                if different <= MOST_SHOWN {
                    eprintln!("{name} differ on {text:?}");
                }
            }
        }
    }
    print!("{name}: {all} compared, {refused} refused by both, ");
    println!("{known} where it panics or 01 refuses more, {different} differ");
    different == 0
}

/// The lexemes of queries.
fn queries() -> bool {
    let words = words();
    let random = queries::random(SEED, &words).take(COUNT);
    let theirs = |query: &str| {
        let turned = |(kind, start, len)| (token::turned(kind), start, len);
        let lexemes = promql::lexemes(query);
        Some(lexemes.map(|lexemes| lexemes.into_iter().map(turned).collect::<Vec<_>>()))
    };
    let ours = |query: &str| match lex::lexer(query) {
        Ok(lexer) => Ok(lexer.lexemes().map(|l| (l.kind, l.start, l.len)).collect()),
        Err(message) => Err((0, message)),
    };
    let texts = queries::fixed(&words).chain(random);
    compare("queries", texts, TEXT_LIMIT, theirs, ours)
}

/// The texts of literals.
fn literals() -> bool {
    let texts = literals::fixed().chain(literals::random(SEED).take(COUNT));
    let theirs = |literal: &str| match promql::unquote(literal) {
        Unquoted::Text(text) => Some(Ok(text)),
        Unquoted::Bad => Some(Err("invalid syntax".into())),
        Unquoted::Panicked => None,
    };
    let ours = |literal: &str| {
        let text = simmerpath::unquote_str(literal).map_err(wrong(literal))?;
        Ok(text.into_owned())
    };
    compare("literals", texts, TEXT_LIMIT, theirs, ours)
}

/// Texts of any length, escaped.
fn escapes() -> bool {
    let texts = escapes::fixed().chain(escapes::random(SEED).take(COUNT));
    let theirs = |text: &str| Some(Ok(promql::escape(text)));
    let ours = |text: &str| Ok(simmerpath::escape_string(text));
    compare("escapes", texts, usize::MAX, theirs, ours)
}

/// The bits of numbers, all that are none taken for one.
fn numbers() -> bool {
    let texts = numbers::fixed().chain(numbers::random(SEED).take(COUNT));
    let bits = |value: f64| (!value.is_nan()).then(|| value.to_bits());
    let theirs = |text: &str| promql::number(text).map(|read| read.map(bits));
    let ours = |text: &str| match simmerpath::parse_str_radix(text) {
        Ok(number) => Ok(bits(number.value)),
        Err(error) => Err(wrong(text)(error)),
    };
    compare("numbers", texts, NUMBER_LIMIT, theirs, ours)
}

/// Durations.
fn durations() -> bool {
    let texts = durations::fixed().chain(durations::random(SEED).take(COUNT));
    let ours = |text: &str| simmerpath::parse_duration(text).map_err(wrong(text));
    compare("durations", texts, NUMBER_LIMIT, promql::duration, ours)
}

fn main() -> ExitCode {
    let same = [queries(), literals(), escapes(), numbers(), durations()];
    if same.contains(&false) {
        ExitCode::FAILURE
    } else {
        ExitCode::SUCCESS
    }
}
