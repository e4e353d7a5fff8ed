//! Compares our functions with the Rust's and Go's on generated inputs: `compare [--seed N] [--count N] [--only NAME]`.
//! COUNT is the number of random inputs, beside the fixed ones. NAME is that of one operation, where not all are to be
//! compared. The operations are compared side by side. The exit status is 1 if there is a difference.
//! Without the feature `promql` it compares with Rust's library, not with promql-parser; without `go`, not with Go.

#![cfg_attr(not(all(feature = "promql", feature = "go")), allow(dead_code))]

mod comparison;
#[cfg(feature = "go")]
mod documented;
#[cfg(all(feature = "promql", feature = "go"))]
mod documented_number;
#[cfg(feature = "promql")]
mod duration;
mod ffi;
mod input;
#[cfg(feature = "promql")]
mod lexer;
mod literal;
#[cfg(feature = "promql")]
mod number;
#[cfg(feature = "promql")]
mod reason;
#[cfg(feature = "promql")]
mod safe;
#[cfg(feature = "promql")]
mod string;
#[cfg(feature = "promql")]
mod token;
mod utf8;

use std::env;
use std::process::ExitCode;
use std::thread;

/// A comparison: of a seed and a count, the number of differences.
type Run = fn(u64, usize) -> u64;

/// The name of each operation, and its comparison.
const OPERATIONS: &[(&str, Run)] = &[
    ("utf8", utf8::run),
    #[cfg(feature = "promql")]
    ("token", token::run),
    #[cfg(feature = "promql")]
    ("string", string::run),
    #[cfg(feature = "promql")]
    ("number", number::run),
    #[cfg(feature = "promql")]
    ("duration", duration::run),
    #[cfg(feature = "promql")]
    ("lexer", lexer::run),
    #[cfg(feature = "promql")]
    ("reason", reason::run),
    #[cfg(feature = "promql")]
    ("safe", safe::run),
    #[cfg(feature = "go")]
    ("documented", documented::run),
    #[cfg(all(feature = "promql", feature = "go"))]
    ("documented_number", documented_number::run),
];

/// What the arguments ask for.
struct Options {
    seed: u64,
    count: usize,
    only: Option<String>,
}

impl Options {
    /// What these words ask for; none where they are not arguments of this program.
    fn of(mut words: impl Iterator<Item = String>) -> Option<Self> {
        let mut options = Options {
            seed: 3629,
            count: 5_000_000,
            only: None,
        };
        while let Some(word) = words.next() {
            let value = words.next()?;
            match word.as_str() {
                "--seed" => options.seed = value.parse().ok()?,
                "--count" => options.count = value.parse().ok()?,
                "--only" => options.only = Some(value),
                _ => return None,
            }
        }
        let known = OPERATIONS.iter().any(|&(name, _)| options.asks_for(name));
        known.then_some(options)
    }

    /// Whether an operation is to be compared.
    fn asks_for(&self, name: &str) -> bool {
        self.only.as_deref().map_or(true, |only| only == name)
    }
}

fn main() -> ExitCode {
    let options = match Options::of(env::args().skip(1)) {
        Some(options) => options,
        None => {
            eprintln!("usage: compare [--seed N] [--count N] [--only NAME]");
            return ExitCode::from(2);
        }
    };
    let asked = OPERATIONS.iter().filter(|(name, _)| options.asks_for(name));
    let differences: u64 = thread::scope(|scope| {
        let start = |&(_, run): &(&str, Run)| scope.spawn(move || run(options.seed, options.count));
        let started: Vec<_> = asked.map(start).collect();
        let ended = started.into_iter().map(|run| run.join());
        ended.map(|count| count.expect("a comparison ends")).sum()
    });
    ExitCode::from(u8::from(differences > 0))
}
