//! The documented reading of string literals, by the program of `go/` as `compare/check` builds it; and how that is asked.

use super::literal::Literal;
use crate::texts::{from_hex, hex};
use std::io::{self, BufWriter, Write};
use std::iter;
use std::process::{Command, Stdio};
use std::thread;

#[cfg(feature = "promql")]
pub mod number;

/// The program.
const PROGRAM: &str = concat!(env!("CARGO_MANIFEST_DIR"), "/../target/go/read");

/// The program is asked about so many bytes of texts at a time, or some more.
const BATCH: usize = 1 << 22;

/// A literal, and what Go says that it stands for.
#[derive(Clone)]
pub struct Documented {
    pub bytes: Vec<u8>,
    text: Option<Vec<u8>>,
}

impl Documented {
    /// The literal in this reading.
    pub fn literal(&self) -> Literal<'_> {
        Literal::new(&self.bytes, |_| self.text.clone())
    }
}

/// The literals, with what Go says of each.
pub fn documented(literals: impl Iterator<Item = Vec<u8>>) -> impl Iterator<Item = Documented> {
    asked("literals", literals, text).map(|(bytes, text)| Documented { bytes, text })
}

/// The text that a line of the program has; none where it says `bad`.
fn text(line: &str) -> Option<Vec<u8>> {
    let text = line.strip_prefix("ok ").and_then(from_hex);
    assert!(text.is_some() || line == "bad", "{PROGRAM} says {line}");
    text
}

/// Texts, with what the program says of each as literals or as numbers, given what a line of it means.
fn asked<T>(
    kind: &'static str,
    mut texts: impl Iterator<Item = Vec<u8>>,
    meant: fn(&str) -> T,
) -> impl Iterator<Item = (Vec<u8>, T)> {
    let batches = iter::from_fn(move || batch(&mut texts));
    batches.flat_map(move |texts| {
        let said = ask(kind, &texts)
            .unwrap_or_else(|error| panic!("{PROGRAM}: {error} (compare/check builds it)"));
        let said: Vec<_> = said.lines().map(meant).collect();
        assert_eq!(said.len(), texts.len(), "{PROGRAM} answers each line");
        texts.into_iter().zip(said)
    })
}

/// The texts that are asked about next; none at the end.
fn batch(texts: &mut impl Iterator<Item = Vec<u8>>) -> Option<Vec<Vec<u8>>> {
    let mut batch = vec![texts.next()?];
    let mut bytes = batch[0].len();
    while bytes < BATCH {
        match texts.next() {
            Some(text) => {
                bytes += text.len();
                batch.push(text);
            }
            None => break,
        }
    }
    Some(batch)
}

/// What the program writes, given a line for each text. These are written by another thread, lest both programs wait.
fn ask(kind: &str, texts: &[Vec<u8>]) -> io::Result<String> {
    let mut program = Command::new(PROGRAM)
        .arg(kind)
        .stdin(Stdio::piped())
        .stdout(Stdio::piped())
        .spawn()?;
    let input = program.stdin.take().expect("its input is piped");
    let output = thread::scope(|scope| {
        scope.spawn(|| {
            let mut input = BufWriter::new(input);
            let mut lines = texts.iter().map(|text| hex(text));
            lines.try_for_each(|line| writeln!(input, "{line}"))
        });
        program.wait_with_output()
    })?;
    Ok(String::from_utf8_lossy(&output.stdout).into_owned())
}
