//! Compares lexing: in the crate reading with the Rust's, in the documented reading with what that must be.

use crate::comparison::{compare, nowhere, Difference, Function, Outcome};
use crate::ffi::{self, Lent, Readings, CRATE, DOCUMENTED};
use compare::oracle::lexer::Lexed;
use compare::oracle::{separators, token};
use compare::texts::queries;

/// One random query is compared for so many of the count; one with separators, and one with backslashes between backquotes.
const SHARE: usize = 2;
const SEPARATED_SHARE: usize = 25;
const BACKQUOTED_SHARE: usize = 25;

/// The bytes around a query, by turns. A function that reads past the end finds there what goes on with a word, a number, a
/// sign or a character cut short; what a point, `!`, `fill` or `or` needs behind it; what closes a string, a comment, braces,
/// brackets or parentheses; and more white space.
const AROUND: &[u8] = b"a5m_=~.([ \n\"'`\\}])\x80\xbf";

/// How many lists a query is lexed into.
const LISTS: usize = 4;

/// What stands where the kinds, the starts, the lengths and the depths may be written, and around these.
const BLANK: (u16, u32, u32, u32) = (0xeeee, 0xdddd_dddd, 0xcccc_cccc, 0xbbbb_bbbb);

/// The function on a query.
const ON_QUERIES: [Function<[u8]>; 1] = [Function {
    name: "lexer",
    difference: lexer,
    known: nowhere,
}];

/// The function on a query with separators, in each reading. Where these differ, the Rust is known to answer otherwise.
const ON_SEPARATED: [Function<[u8]>; 2] = [
    Function {
        name: "lexer, with separators",
        difference: lexer,
        known: nowhere,
    },
    Function {
        name: "lexer, with separators, documented",
        difference: documented,
        known: separators::differ_in_lexing,
    },
];

/// The same with backslashes between backquotes.
const ON_BACKQUOTED: [Function<[u8]>; 2] = [
    Function {
        name: "lexer, with backquotes",
        difference: lexer,
        known: nowhere,
    },
    Function {
        name: "lexer, with backquotes, documented",
        difference: documented,
        known: separators::differ_in_lexing,
    },
];

/// The function on another query in the documented reading.
const ON_OTHERS: [Function<[u8]>; 1] = [Function {
    name: "lexer, documented",
    difference: documented,
    known: separators::differ_in_lexing,
}];

/// Compares the function on all fixed queries, and on a share of `count` random ones; in the documented reading on those with
/// separators and those with backquotes, and on some of the others.
pub fn run(seed: u64, count: usize) -> u64 {
    let words = token::words();
    let random = |share| queries::random(seed, &words).take(count / share);
    let separated = queries::random_separated(seed, &words).take(count / SEPARATED_SHARE);
    let backquoted = queries::random_backquoted(seed, &words).take(count / BACKQUOTED_SHARE);
    let others = queries::fixed(&words)
        .step_by(SEPARATED_SHARE)
        .chain(random(SEPARATED_SHARE));
    compare(&ON_QUERIES, queries::fixed(&words).chain(random(SHARE)))
        + compare(&ON_SEPARATED, queries::fixed_separated().chain(separated))
        + compare(
            &ON_BACKQUOTED,
            queries::fixed_backquoted().chain(backquoted),
        )
        + compare(&ON_OTHERS, others)
}

/// The rooms of the lists for so many lexemes: more than enough, just enough, one too little, and none; then with each list in
/// turn shorter than the others, by the one that is missing, and where none is.
fn rooms(count: usize) -> [[usize; LISTS]; 12] {
    let (more, less) = (count + 1, count.saturating_sub(1));
    [
        [count + 2; LISTS],
        [count; LISTS],
        [less; LISTS],
        [0; LISTS],
        [less, count, count, count],
        [count, less, count, count],
        [count, count, less, count],
        [count, count, count, less],
        [count, more, more, more],
        [more, count, more, more],
        [more, more, count, more],
        [more, more, more, count],
    ]
}

/// Where the crate reading differs.
fn lexer(query: &[u8]) -> Option<Difference> {
    difference(query, &Lexed::new(query), CRATE)
}

/// Where the documented reading differs.
fn documented(query: &[u8]) -> Option<Difference> {
    difference(query, &separators::lexed(query), DOCUMENTED)
}

/// Where the answer to a query or the lexemes differ, in several rooms.
fn difference(query: &[u8], lexed: &Lexed, readings: Readings) -> Option<Difference> {
    let mut lent = Lent::new(query, 0);
    let around = AROUND.iter().cycle().skip(query.len() % AROUND.len());
    let asked = readings.iter().cycle().zip(around);
    let mut turns = rooms(lexed.count()).into_iter().zip(asked);
    turns.find_map(|(room, (&reading, &around))| {
        lent.guard(around);
        let mut kinds = vec![BLANK.0; room[0]];
        let mut starts = vec![BLANK.1; room[1]];
        let mut lengths = vec![BLANK.2; room[2]];
        let mut depths = vec![BLANK.3; room[3]];
        let mut lists = (
            Lent::new(&kinds, BLANK.0),
            Lent::new(&starts, BLANK.1),
            Lent::new(&lengths, BLANK.2),
            Lent::new(&depths, BLANK.3),
        );
        let answer = lexed.write(&mut kinds, &mut starts, &mut lengths, &mut depths);
        let must = Outcome::of(answer, (&kinds[..], &starts[..], &lengths[..], &depths[..]));
        let ours = ffi::lexer(
            &mut lent,
            reading,
            &mut lists.0,
            &mut lists.1,
            &mut lists.2,
            &mut lists.3,
        );
        let call = || format!("reading {reading}, rooms {room:?}, {around:x} around");
        Difference::between(call, &ours, &must)
    })
}
