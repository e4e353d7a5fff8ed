//! What is timed: for each thing its inputs, and the call of each side. The strings, numbers and durations are those of the
//! queries where these have enough of the sort.

use crate::calls::{durations, escaping, lexing, numbers, unquoting, Call, Room};
use simmerpath::token::{T_DURATION, T_NUMBER, T_STRING};
use simmerpath::{TokenId, TEXT_LIMIT};

/// The queries, a line for each; those that begin with `#` are about the file.
const QUERIES: &str = include_str!("../queries");

/// Decimal durations, in seconds.
const DECIMALS: [&str; 8] = [
    "1", "30", "0.5", "300", "86400", "1.25", "2.5e3", "0.000125",
];

/// How many bytes a long string has at most, its quotes aside.
const LONG: usize = 4096;
/// What long strings are made of: two that stand between double quotes, and a text to escape.
const PLAIN: &str = "a plain part of a text, ";
const ESCAPED: &str = r#"a \"part\" with\tescapes\n"#;
const TO_ESCAPE: &str = "a \"part\" to\tescape\n";

/// How many bytes a kilobyte has.
const KILOBYTE: usize = 1024;
/// The query texts whose growth is timed, in kilobytes.
const KILOBYTES: [usize; 7] = [1, 2, 4, 8, 16, 32, 64];

/// The names of the sides.
pub const SIDES: [&str; 2] = ["ours", "original"];

/// The calls of both sides.
const LEXING: [Call; 2] = [lexing::ours, lexing::original];
const TO_VECTOR: [Call; 2] = [lexing::ours_to_vector, lexing::original];
const UNQUOTING: [Call; 2] = [unquoting::ours, unquoting::original];
const ESCAPING: [Call; 2] = [escaping::ours, escaping::original];
const NUMBERS: [Call; 2] = [numbers::ours, numbers::original];
const DURATIONS: [Call; 2] = [durations::ours, durations::original];

/// What an operation's time is told for: each byte, or each call.
#[derive(Clone, Copy)]
pub enum Unit {
    Byte,
    Each,
}
use Unit::{Byte, Each};

/// One thing that is timed.
pub struct Operation {
    pub name: String,
    pub unit: Unit,
    pub inputs: Vec<String>,
    /// In the order of `SIDES`.
    pub sides: [Call; 2],
}

impl Operation {
    /// An operation of this name.
    fn new(name: &str, unit: Unit, inputs: Vec<String>, sides: [Call; 2]) -> Self {
        Operation {
            name: name.into(),
            unit,
            inputs,
            sides,
        }
    }

    /// One side's calls on all inputs: the sum of their answers.
    pub fn pass(&self, side: usize, room: &mut Room) -> u64 {
        let answers = self
            .inputs
            .iter()
            .map(|input| self.sides[side](room, input));
        answers.fold(0, u64::wrapping_add)
    }

    /// How many units a pass has.
    pub fn units(&self) -> usize {
        match self.unit {
            Byte => self.bytes(),
            Each => self.inputs.len(),
        }
    }

    /// How many bytes the inputs have.
    pub fn bytes(&self) -> usize {
        self.inputs.iter().map(String::len).sum()
    }

    /// The first input on which the sides do not agree.
    pub fn disagreement(&self, room: &mut Room) -> Option<&str> {
        let [ours, original] = self.sides;
        let mut inputs = self.inputs.iter();
        let found = inputs.find(|input| ours(room, input) != original(room, input));
        found.map(|input| &**input)
    }
}

/// All that is timed on inputs as they come.
pub fn usual() -> Vec<Operation> {
    let queries = queries();
    let numbers = of_kind(T_NUMBER, &queries);
    let durations = of_kind(T_DURATION, &queries);
    let decimals = owned(&DECIMALS);
    let mut operations = vec![
        Operation::new("lexing", Byte, queries.clone(), LEXING),
        Operation::new("lexing to a vector", Byte, queries.clone(), TO_VECTOR),
    ];
    operations.extend(strings(&queries));
    operations.extend([
        Operation::new("numbers", Each, numbers, NUMBERS),
        Operation::new("durations, units", Each, durations, DURATIONS),
        Operation::new("durations, decimals", Each, decimals, DURATIONS),
    ]);
    operations
}

/// Lexing each query by itself.
pub fn single() -> Vec<Operation> {
    let operation = |query: String| Operation::new(&query, Byte, vec![query.clone()], LEXING);
    queries().into_iter().map(operation).collect()
}

/// What is timed of strings: those of the queries, which are escaped as they stand, and long ones.
fn strings(queries: &[String]) -> [Operation; 6] {
    let literals = of_kind(T_STRING, queries);
    let (escaped, plain) = literals
        .iter()
        .cloned()
        .partition(|literal| literal.contains('\\'));
    let long_plain = vec![quoted(&long(PLAIN))];
    let long_escaped = vec![quoted(&long(ESCAPED))];
    let to_escape = vec![long(TO_ESCAPE)];
    [
        Operation::new("unquoting, plain", Each, plain, UNQUOTING),
        Operation::new("unquoting, escaped", Each, escaped, UNQUOTING),
        Operation::new("unquoting, long plain", Byte, long_plain, UNQUOTING),
        Operation::new("unquoting, long escaped", Byte, long_escaped, UNQUOTING),
        Operation::new("escaping", Each, literals, ESCAPING),
        Operation::new("escaping, long", Byte, to_escape, ESCAPING),
    ]
}

/// Lexing of longer and longer query texts.
pub fn growing() -> Vec<Operation> {
    KILOBYTES
        .into_iter()
        .map(|kilobytes| {
            let text = query_of(KILOBYTE * kilobytes);
            let name = format!("lexing {kilobytes} kB");
            Operation::new(&name, Byte, vec![text], LEXING)
        })
        .collect()
}

/// The queries.
fn queries() -> Vec<String> {
    let lines = QUERIES.lines();
    let queries: Vec<&str> = lines.filter(|line| !line.starts_with('#')).collect();
    owned(&queries)
}

/// The same texts, as strings of their own.
fn owned(texts: &[&str]) -> Vec<String> {
    texts.iter().map(|text| (*text).into()).collect()
}

/// The texts of the lexemes of a kind, in all queries.
fn of_kind(kind: TokenId, queries: &[String]) -> Vec<String> {
    let mut texts = Vec::new();
    for query in queries {
        let lexemes = simmerpath::lexer(query).expect("a query that is accepted");
        let found = lexemes.iter().filter(|lexeme| lexeme.kind == kind);
        texts.extend(found.map(|lexeme| lexeme.text(query).to_owned()));
    }
    texts
}

/// A long text, of one part again and again.
fn long(part: &str) -> String {
    part.repeat(LONG / part.len())
}

/// What stands between double quotes, with these.
fn quoted(inside: &str) -> String {
    format!("\"{inside}\"")
}

/// A query text of a length, or of the most that is read: the queries, joined by newlines, again and again, then spaces.
fn query_of(length: usize) -> String {
    let length = length.min(TEXT_LIMIT);
    let queries = queries();
    let mut text = String::with_capacity(length);
    for query in queries.iter().cycle() {
        if text.len() + query.len() >= length {
            break;
        }
        text.push_str(query);
        text.push('\n');
    }
    let spaces = length - text.len();
    text + &" ".repeat(spaces)
}
