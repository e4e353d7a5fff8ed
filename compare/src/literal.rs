//! Compares the reading of a string literal with what it must say.

use crate::comparison::{Difference, Outcome};
use crate::ffi::{self, Lent, Readings};
use compare::oracle::literal::Literal;

/// How many rooms a literal is read in.
const ROOMS: usize = 4;

/// The bytes around a literal in each room. A function that reads past the end finds there what an escape cut short lacks, a
/// sign that closes the literal, or another escape.
const AROUND: [u8; ROOMS] = *b"0\"'\\";

/// What stands where a text may be written, and around it.
const BLANK: u8 = 0xee;

/// Where reading a literal differs, with more room than any text of it needs, with just enough, with a byte less, and none.
pub fn difference(bytes: &[u8], literal: &Literal, readings: Readings) -> Option<Difference> {
    let needed = literal.needed();
    let rooms = [bytes.len(), needed, needed.saturating_sub(1), 0];
    let mut lent = Lent::new(bytes, BLANK);
    (0..ROOMS).find_map(|turn| {
        let (room, reading) = (rooms[turn], readings[turn]);
        lent.guard(AROUND[turn]);
        let mut expected = vec![BLANK; room];
        let mut out = Lent::new(&expected, BLANK);
        let answer = literal.hand_back(&mut expected);
        let text = literal.text(room as u64).unwrap_or(&[]);
        let must = Outcome::of(answer, [text, &expected]);
        let ours = ffi::unquote_string(&mut lent, reading, &mut out);
        Difference::between(|| format!("reading {reading}, room {room}"), &ours, &must)
    })
}
