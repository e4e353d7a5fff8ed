//! Counts instructions: valgrind runs this program on passes of one operation and one side, and says how many instructions it
//! saw. The difference between a few passes and one is that of the passes alone.

use crate::operations::{Operation, SIDES};
use std::env;
use std::io;
use std::process::{Command, Stdio};

/// The word that asks the program for passes alone, before the operation's name, the side and how many.
pub const PASSES: &str = "--passes";

/// How many passes are counted, behind a first.
const COUNTED: u64 = 4;

/// What valgrind says before the number.
const SAID: &str = "Collected :";

/// Whether there is a valgrind.
pub fn is_at_hand() -> bool {
    let mut asked = Command::new("valgrind");
    let asked = asked.arg("--version").stdout(Stdio::null());
    asked.status().map_or(false, |status| status.success())
}

/// The instructions that a unit of an operation takes on each side.
pub fn count(operation: &Operation) -> io::Result<[f64; 2]> {
    let mut sides = [0.0; 2];
    for (side, counted) in sides.iter_mut().enumerate() {
        let first = instructions(operation, side, 1)?;
        let all = instructions(operation, side, 1 + COUNTED)?;
        let units = COUNTED as f64 * operation.units() as f64;
        *counted = all.saturating_sub(first) as f64 / units;
    }
    Ok(sides)
}

/// The instructions of the whole program that does some passes of a side.
fn instructions(operation: &Operation, side: usize, passes: u64) -> io::Result<u64> {
    let program = env::current_exe()?;
    let mut valgrind = Command::new("valgrind");
    valgrind.args(["--tool=callgrind", "--callgrind-out-file=/dev/null"]);
    valgrind.arg(program).args([PASSES, &operation.name]);
    valgrind.args([SIDES[side], &passes.to_string()]);
    let said = String::from_utf8_lossy(&valgrind.output()?.stderr).into_owned();
    let number = said.split_once(SAID).and_then(|(_, behind)| {
        let word = behind.split_whitespace().next()?;
        word.parse().ok()
    });
    number.ok_or_else(|| io::Error::new(io::ErrorKind::Other, said))
}
