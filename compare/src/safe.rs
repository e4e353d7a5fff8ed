//! Compares the safe functions of the crate simmerpath with the Rust's: what they return for the answers of the C functions,
//! which are compared by themselves.

use crate::comparison::{compare, nowhere, Difference, Function, Outcome};
use compare::oracle::lexer::Lexed;
use compare::oracle::number::{Notation as Known, Number};
use compare::oracle::reason::Reasons;
use compare::oracle::utf8::admitted;
use compare::oracle::{duration, number, separators, string, token, Answer};
use compare::texts::{durations, escapes, literals, numbers, queries, words};
use simmerpath::{Error, Lexeme, Notation, Reading};
use std::borrow::Cow;
use std::fmt::Debug;
use std::str;
use std::time::Duration;

/// One random input is compared for so many of the count.
const SHARE: usize = 20;

/// One fixed input is compared for so many that there are.
const STEP: usize = 7;

/// A text of so many bytes is escaped many times over too, so often that the C function would not take the whole.
const REPEATED: usize = 4;
const MANY: usize = 30_000;

/// The last lexeme of a query but its end is so many before their count.
const BEFORE_END: usize = 2;

/// What must be answered where a value is returned.
const ACCEPTED: Answer = Answer::Value(0);

/// The functions on a query.
const ON_QUERIES: [Function<[u8]>; 3] = [
    function("simmerpath::lexer", lexer),
    function("simmerpath::lex_into", lex_into),
    function("simmerpath::word_reason", word_reason),
];

/// The same in the documented reading, on a query with separators or backquotes.
const ON_DOCUMENTED_QUERIES: [Function<[u8]>; 3] = [
    function("simmerpath::lexer_in, documented", lexer_in),
    function("simmerpath::lex_into, documented", lex_into_documented),
    function("simmerpath::word_reason, documented", documented_reason),
];

/// The function on a literal.
const ON_LITERALS: [Function<[u8]>; 1] = [function("simmerpath::unquote_string", unquote_string)];

/// The function on a text.
const ON_TEXTS: [Function<[u8]>; 1] = [function("simmerpath::escape_string", escape_string)];

/// The function on the text of a number.
const ON_NUMBERS: [Function<[u8]>; 1] = [function("simmerpath::parse_str_radix", parse_str_radix)];

/// The same in the documented reading, on one with separators.
const ON_SEPARATED_NUMBERS: [Function<[u8]>; 1] = [function(
    "simmerpath::parse_str_radix_in, documented",
    parse_str_radix_in,
)];

/// The functions on the text of a duration.
const ON_DURATIONS: [Function<[u8]>; 2] = [
    function("simmerpath::parse_duration", parse_duration),
    function("simmerpath::parse_duration_exact", parse_duration_exact),
];

/// The function on seconds and nanoseconds.
const ON_PAIRS: [Function<(u64, u32)>; 1] =
    [function("simmerpath::display_duration", display_duration)];

/// The functions on a word.
const ON_WORDS: [Function<[u8]>; 1] = [function("simmerpath::get_keyword_token, is_label", word)];

/// The functions on a kind.
const ON_KINDS: [Function<u16>; 1] = [function("simmerpath::token_display, classes", kind)];

/// A function whose known differences are counted elsewhere.
const fn function<I: ?Sized>(
    name: &'static str,
    difference: fn(&I) -> Option<Difference>,
) -> Function<I> {
    Function {
        name,
        difference,
        known: nowhere,
    }
}

/// Compares every function on a share of the fixed inputs and of `count` random ones, and on all kinds.
pub fn run(seed: u64, count: usize) -> u64 {
    let known = token::words();
    let count = count / SHARE;
    let random = queries::random(seed, &known).take(count);
    let queries = queries::fixed(&known).step_by(STEP).chain(random);
    let random = queries::random_separated(seed, &known).take(count);
    let fixed = queries::fixed_separated().step_by(STEP);
    let separated_queries = fixed.chain(random);
    let random = queries::random_backquoted(seed, &known).take(count);
    let fixed = queries::fixed_backquoted().step_by(STEP);
    let documented_queries = separated_queries.chain(fixed).chain(random);
    let random = literals::random(seed).take(count);
    let literals = literals::fixed().step_by(STEP).chain(random);
    let random = escapes::random(seed).take(count);
    let texts = escapes::fixed().step_by(STEP).chain(random);
    let random = numbers::random(seed).take(count);
    let numbers = numbers::fixed().step_by(STEP).chain(random);
    let random = numbers::random_separated(seed).take(count);
    let fixed = numbers::fixed_separated().step_by(STEP);
    let separated_numbers = fixed.chain(random);
    let random = durations::random(seed).take(count);
    let durations = durations::fixed().step_by(STEP).chain(random);
    let pairs = durations::fixed_pairs().step_by(STEP);
    let random = words::random(seed, &known).take(count);
    let words = words::fixed(&known).step_by(STEP).chain(random);
    compare(&ON_QUERIES, queries)
        + compare(&ON_DOCUMENTED_QUERIES, documented_queries)
        + compare(&ON_LITERALS, literals)
        + compare(&ON_TEXTS, texts)
        + compare(&ON_NUMBERS, numbers)
        + compare(&ON_SEPARATED_NUMBERS, separated_numbers)
        + compare(&ON_DURATIONS, durations)
        + compare(&ON_PAIRS, pairs)
        + compare(&ON_WORDS, words)
        + compare(&ON_KINDS, 0..=u16::MAX)
}

/// Where what is returned differs from what must be.
fn difference<T: Debug + PartialEq>(
    call: &str,
    ours: Result<T, Error>,
    must: Result<T, Answer>,
) -> Option<Difference> {
    let outcome = |returned: Result<T, Answer>| match returned {
        Ok(value) => Outcome::of(ACCEPTED, Some(value)),
        Err(refused) => Outcome::of(refused, None),
    };
    let ours = ours.map_err(|error| {
        let (number, byte) = (error.number() as u8, error.byte() as u16);
        Answer::Refused(number, byte, error.character() as u16)
    });
    Difference::between(|| call.into(), &outcome(ours), &outcome(must))
}

/// The lexemes of a query, or its refusal, where there is so much room.
fn known_lexemes(lexed: &Lexed, room: usize) -> Result<Vec<Lexeme>, Answer> {
    let lexeme = |at: usize| Lexeme {
        kind: lexed.kinds[at],
        start: lexed.starts[at] as usize,
        length: lexed.lengths[at] as usize,
        depth: lexed.depths[at] as usize,
    };
    match lexed.answer(room as u64) {
        Answer::Value(_) => Ok((0..lexed.count()).map(lexeme).collect()),
        refused => Err(refused),
    }
}

/// Where the lexemes of a query differ, or what is said of a bad one.
fn lexer(query: &[u8]) -> Option<Difference> {
    lexing(query, &Lexed::new(query), simmerpath::lexer(query))
}

/// The same in the documented reading.
fn lexer_in(query: &[u8]) -> Option<Difference> {
    let ours = simmerpath::lexer_in(query, Reading::Documented);
    lexing(query, &separators::lexed(query), ours)
}

/// The same, given what must be and what is returned.
fn lexing(query: &[u8], lexed: &Lexed, ours: Result<Vec<Lexeme>, Error>) -> Option<Difference> {
    let said = ours.as_ref().err().zip(str::from_utf8(query).ok());
    let said = said.map(|(error, query)| error.message(query).to_string());
    let must = known_lexemes(lexed, usize::MAX);
    difference("the lexemes", ours, must).or_else(|| match lexed.said() {
        Some(must) => difference("what is said", Ok(said.as_deref()), Ok(Some(must))),
        None => None,
    })
}

/// Where the lexemes differ that are written to lists, with more room than they need, just enough, and one too little.
fn lex_into(query: &[u8]) -> Option<Difference> {
    lexing_into(query, &Lexed::new(query), Reading::Crate)
}

/// The same in the documented reading.
fn lex_into_documented(query: &[u8]) -> Option<Difference> {
    lexing_into(query, &separators::lexed(query), Reading::Documented)
}

/// The same, given what must be in a reading.
fn lexing_into(query: &[u8], lexed: &Lexed, reading: Reading) -> Option<Difference> {
    let count = lexed.count();
    [count + 1, count, count.saturating_sub(1)]
        .into_iter()
        .find_map(|room| {
            let (mut kinds, mut starts) = (vec![0; room], vec![0; room]);
            let (mut lengths, mut depths) = (vec![0; room], vec![0; room]);
            let lexemes = simmerpath::lex_into(
                query,
                reading,
                &mut kinds,
                &mut starts,
                &mut lengths,
                &mut depths,
            );
            let must = known_lexemes(lexed, room);
            difference(
                &format!("room {room}"),
                lexemes.map(Iterator::collect),
                must,
            )
        })
}

/// Where the reason of a query's last lexeme but its end differs, or of what is no lexeme.
fn word_reason(query: &[u8]) -> Option<Difference> {
    reasoning(query, &Lexed::new(query), Reading::Crate)
}

/// The same in the documented reading.
fn documented_reason(query: &[u8]) -> Option<Difference> {
    reasoning(query, &separators::lexed(query), Reading::Documented)
}

/// The same, given what must be in a reading.
fn reasoning(query: &[u8], lexed: &Lexed, reading: Reading) -> Option<Difference> {
    let reasons = Reasons::of(query, lexed);
    let count = lexed.count();
    [count.saturating_sub(BEFORE_END), count]
        .into_iter()
        .find_map(|number| {
            let must = match reasons.answer(number as u64) {
                Answer::Value(reason) => Ok(reason),
                refused => Err(refused),
            };
            let ours = simmerpath::word_reason(query, reading, number);
            let ours = ours.map(|reason| reason as u64);
            difference(&format!("number {number}"), ours, must)
        })
}

/// Where the crate reading of a literal differs, or whether its text is lent: a part of the literal itself.
fn unquote_string(bytes: &[u8]) -> Option<Difference> {
    let literal = string::literal(bytes);
    let must = literal.text(u64::MAX).map(|text| (text, literal.is_part()));
    let ours = simmerpath::unquote_string(bytes, Reading::Crate);
    let ours = ours.as_ref().map_err(|error| *error);
    let is_part = |text: &Cow<[u8]>| match text {
        Cow::Borrowed(part) => part.as_ptr() == bytes[1..].as_ptr(),
        Cow::Owned(_) => false,
    };
    difference("the text", ours.map(|text| (&**text, is_part(text))), must)
}

/// Where a text differs when it is escaped, once and many times over.
fn escape_string(bytes: &[u8]) -> Option<Difference> {
    let text = admitted(bytes).ok()?;
    let many = if text.len() == REPEATED { MANY } else { 1 };
    [1, many].into_iter().find_map(|times| {
        let ours = simmerpath::escape_string(&text.repeat(times));
        let must = string::escape(&text.repeat(times));
        difference(&format!("{times} times"), Ok(ours), Ok(must))
    })
}

/// Where the notation or the bits of a number differ.
fn parse_str_radix(text: &[u8]) -> Option<Difference> {
    radix(number::number(text), simmerpath::parse_str_radix(text))
}

/// The same in the documented reading.
fn parse_str_radix_in(text: &[u8]) -> Option<Difference> {
    let ours = simmerpath::parse_str_radix_in(text, Reading::Documented);
    radix(separators::number(text), ours)
}

/// The same, given what must be and what is returned.
fn radix(
    known: Result<Number, Answer>,
    ours: Result<simmerpath::Number, Error>,
) -> Option<Difference> {
    let known = known.map(|known| {
        let notation = match known.notation {
            Known::Decimal => Notation::Decimal,
            Known::Hex => Notation::Hex,
            Known::Octal => Notation::Octal,
        };
        (notation, known.bits)
    });
    let ours = ours.map(|number| (number.notation, number.value.to_bits()));
    difference("the number", ours, known)
}

/// Where the duration of a text differs.
fn parse_duration(text: &[u8]) -> Option<Difference> {
    let ours = simmerpath::parse_duration(text);
    difference("the duration", ours, duration::duration(text))
}

/// Where the duration of a text differs in the exact reading.
fn parse_duration_exact(text: &[u8]) -> Option<Difference> {
    let ours = simmerpath::parse_duration_exact(text);
    difference("the duration", ours, duration::exact_duration(text))
}

/// Where the text of a duration differs. Nanoseconds that are a second or more are no duration of Rust's.
fn display_duration(&(secs, nanos): &(u64, u32)) -> Option<Difference> {
    let must = duration::displayed(secs, nanos).ok()?;
    let ours = simmerpath::display_duration(&Duration::new(secs, nanos));
    difference("the text", Ok(ours.as_str()), Ok(&must))
}

/// Where the kind of a word differs, or whether it is a label.
fn word(word: &[u8]) -> Option<Difference> {
    let ours = simmerpath::get_keyword_token(word);
    let kind = difference("the kind", Ok(ours), Ok(token::keyword(word)));
    let ours = Answer::Value(simmerpath::is_label(word).into());
    kind.or_else(|| difference("the label", Ok(ours), Ok(token::label_number(word))))
}

/// Where the text of a kind differs, or its classes.
fn kind(&kind: &u16) -> Option<Difference> {
    let classes = [
        simmerpath::is_operator(kind),
        simmerpath::is_comparison_operator(kind),
        simmerpath::is_set_operator(kind),
        simmerpath::is_aggregator(kind),
        simmerpath::is_aggregator_with_param(kind),
    ];
    let shown = simmerpath::token_display(kind);
    let ours = (shown.as_str(), classes);
    let must = (token::display(kind), token::classes(kind));
    difference("the text and the classes", Ok(ours), Ok(must))
}
