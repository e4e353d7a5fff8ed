//! The records of the reasons of words.

use super::decimal;
use compare::oracle::lexer::Lexed;
use compare::oracle::reason::Reasons;
use compare::oracle::token::words;
use compare::oracle::{separators, MOST_BYTES};
use compare::texts::hex;
use compare::texts::queries::{of_length, QUERIES};

/// Lines written by hand: records in every form, and lines that are no record.
const BY_HAND: &[&str] = &[
    "reason -",
    "reason 20",
    "reason 30",
    "reason 3020",
    "reason 302061",
    "reason 30206F52",
    "reason 302061 0",
    "reason 302061 18446744073709551616",
    "reason 302061 x",
    "reason",
    "reason ",
    "reason 3",
    "reasons 302061",
    "Reason 302061",
    "reasoncrate -",
    "reasoncrate 30",
    "reasoncrate 3020",
    "reasoncrate 302061 0",
    "reasoncrate 302061 x",
    "reasoncrate",
    "reasoncrates 302061",
    "reasonCrate 302061",
];

/// Numbers and queries that are nearly none, and numbers at bounds.
const NUMBERED: &[&str] = &[
    " up",
    "x up",
    "0\tup",
    "0\nup",
    "0,up",
    "+0 up",
    "-0 up",
    "0x0 up",
    "0. up",
    "00 up",
    "01 up",
    "00000000000000000000000000000000 up",
    "\u{660} up",
    "0  up",
    "0 0 up",
    "0 1 2",
    "1 1 or 2",
    "2 up",
    "3 up",
    "255 up",
    "256 up",
    "65535 up",
    "65536 up",
    "65537 up",
    "4294967295 up",
    "4294967296 up",
    "4294967297 up",
    "9223372036854775807 up",
    "9223372036854775808 up",
    "18446744073709551614 up",
    "18446744073709551615 up",
    "18446744073709551616 up",
    "36893488147419103232 up",
    "4294967296 $",
    "18446744073709551615 (",
    "18446744073709551615 ",
];

/// Queries of which each lexeme is asked for, and the number behind the last: every reason beside others, what is like a word and
/// is none, and words behind what could hide them.
const EACH: &[&str] = &[
    "",
    " ",
    "# fill (",
    "up",
    "Up_1:",
    ":",
    "::",
    ":a",
    "a:b",
    "a:",
    "sum:",
    ":sum",
    "fill:",
    "_",
    "__name__",
    "a1",
    "sum1",
    "order",
    "xor",
    "infinity",
    "inf nan INF NaN",
    "or or",
    "sum by (job) (up)",
    "SUM BY (JOB) (UP)",
    "start() end()",
    "a and b or c unless d atan2 e",
    "rate(http_requests_total{code=~\"5..\",job!=\"\"}[5m])",
    "{or }",
    "{order}",
    "{or or or}",
    "{or or or }",
    "{OR or oR }",
    "{sum,by,inf,fill}",
    "{fill (",
    "{fill}",
    "{fill=\"(\"}",
    "{a='b' or c=\"d\"}",
    "{a=`b`,or='}'}",
    "{__name__=~'or '}or ",
    "{a}or {or }or",
    "{}or{or}",
    "{'or ',or }",
    "{ #or \nor #or \n}",
    "a[5m]or b[5m:1m]",
    "a[ :]",
    "a[5m:]:b",
    "[ : ]:",
    "a[5]{or }[5]or ",
    "fill(fill (fill))",
    "fill fill (1)",
    "fill_left fill_right(1)",
    "fill or fill()",
    "\"or\" or 'fill' (1)",
    "`sum`sum`by`",
    "1 or 0x1f or 5m or .5",
    "1or 2",
    "@ start() offset 5m",
    "bool on ignoring group_left group_right",
    "a#b\nor#c\r(d)",
    "\"\u{e9}\u{20ac}\" or a{\u{6c}=\"\u{10ffff}\"} or fill",
];

/// Queries whose answers differ in the readings, or could.
const READINGS: &[&str] = &[
    "1_0 or a",
    "a > 1_000 or fill (0x_f)",
    "1__0 or a",
    "{a=~`\\d` or b}",
    "`\\` or `",
    "`\\`or\"\"",
    "`\\\\` or a",
    "fill `\\`(`",
];

/// Queries that are refused, one for each row and more, which comes before any number.
const REFUSED: &[&[u8]] = &[
    b"up (",
    b"up =~",
    b"up !a",
    b"up !",
    b"up .a",
    b"up .",
    b"up )",
    b"up }",
    b"up ]",
    b"up $",
    b"up 5m3",
    b"up '\\q'",
    b"up '\\",
    b"up '",
    b"{up !a",
    b"{up {",
    b"{up +",
    b"{or ",
    b"{or :a}",
    b"up[1::",
    b"up[:",
    b"up[[",
    b"up[a",
    b"up[",
    b"fill (",
    b"fill\x0b(1)",
    b"fill\xc2\xa0(1)",
    b"up \xff",
    b"{or \xc3}",
    b"\xe9",
];

/// The numbers that a refused query is asked for.
const OF_REFUSED: [usize; 3] = [0, 1, 100];

/// Fill words, and what stands behind one: `(` at once, behind each byte of white space, and behind what is none; and none.
const FILLS: &[&str] = &["fill", "fill_left", "fill_right", "FILL", "Fill_Left"];
const BEHIND_FILL: &[&str] = &[
    "",
    "()",
    " ()",
    "\t()",
    "\n()",
    "\u{c}()",
    "\r()",
    " \t\n\u{c}\r ()",
    "#\n()",
    "#(\n",
    " #\n()",
    "\n# (",
    " ",
    "\n",
    "+()",
    " a ()",
    ",()",
    "{}()",
    "[5m]()",
    "1()",
    "_()",
    ":()",
    ": ()",
];

/// `or` in each case, and what stands behind it in braces.
const ORS: &[&str] = &["or", "OR", "oR", "Or"];
const BEHIND_OR: &[&str] = &[
    "", " ", "  ", "\t", "\n", "\r", "\u{c}", "\t ", " \t", ",", "=", "='a'", "'a'", "#\n", " #\n",
    "1 ", "_ ", "x ", " or", " or ",
];

/// One of so many real queries is recorded, and one of so many generated ones in the crate reading too.
const QUERY_SHARE: usize = 6;
const CRATE_SHARE: usize = 5;

/// A query of as many lexemes as can be, by what it is filled with; its last is a word.
const LONGEST: [&str; 3] = ["", ",", "a"];

/// The recorded lines.
pub fn inputs() -> Vec<String> {
    let mut lines: Vec<String> = BY_HAND.iter().map(|line| line.to_string()).collect();
    lines.extend(
        NUMBERED
            .iter()
            .map(|text| record("reason", text.as_bytes())),
    );
    let real = QUERIES.iter().step_by(QUERY_SHARE);
    for query in EACH.iter().chain(READINGS).chain(real) {
        lines.extend(each("reason", query));
    }
    for query in EACH.iter().step_by(CRATE_SHARE).chain(READINGS) {
        lines.extend(each("reasoncrate", query));
    }
    for query in REFUSED {
        lines.extend(OF_REFUSED.map(|number| line("reason", number, query)));
    }
    let generated = generated();
    let asked =
        |operation, (number, query): &(usize, String)| line(operation, *number, query.as_bytes());
    lines.extend(generated.iter().map(|query| asked("reason", query)));
    let share = generated.iter().step_by(CRATE_SHARE);
    lines.extend(share.map(|query| asked("reasoncrate", query)));
    lines.extend(long());
    lines
}

/// Fill words and `or` with what stands behind them, and the words of the table outside braces, in two cases, and in braces; each
/// with the number of its lexeme.
fn generated() -> Vec<(usize, String)> {
    let fill = |word: &str, behind: &&str| (0, [word, behind].concat());
    let or = |word: &str, behind: &&str| (1, ["{", word, behind, "}"].concat());
    let mut queries = Vec::new();
    for word in FILLS {
        queries.extend(BEHIND_FILL.iter().map(|behind| fill(word, behind)));
    }
    for word in ORS {
        queries.extend(BEHIND_OR.iter().map(|behind| or(word, behind)));
    }
    for word in words() {
        queries.push((0, word.to_string()));
        queries.push((0, word.to_uppercase()));
        queries.push((1, ["{", word, " }"].concat()));
    }
    queries
}

/// The records of each lexeme of a query, and of the number behind the last.
fn each(operation: &str, query: &str) -> Vec<String> {
    let count = separators::lexed(query.as_bytes()).count();
    let record = |number| line(operation, number, query.as_bytes());
    (0..=count).map(record).collect()
}

/// Those of a query as long as the limit: its last word, and a query that is a byte longer.
fn long() -> [String; 2] {
    let longest = of_length(LONGEST, MOST_BYTES);
    [
        line("reason", MOST_BYTES - 1, longest.as_bytes()),
        line("reason", 0, [&longest, "a"].concat().as_bytes()),
    ]
}

/// The record of a number and a query.
fn line(operation: &str, number: usize, query: &[u8]) -> String {
    let front = format!("{number} ").into_bytes();
    record(operation, &[&front, query].concat())
}

/// The record of these bytes.
fn record(operation: &str, bytes: &[u8]) -> String {
    format!("{operation} {}", hex(bytes))
}

/// The answer to `reason`: of a number in decimal digits, and a query behind a space; none for any other text.
pub fn reason(text: &[u8]) -> Option<String> {
    answer(text, separators::lexed)
}

/// The answer to `reasoncrate`.
pub fn reasoncrate(text: &[u8]) -> Option<String> {
    answer(text, Lexed::new)
}

/// The same, by what reads a query.
fn answer(text: &[u8], lexed: fn(&[u8]) -> Lexed) -> Option<String> {
    let space = text.iter().position(|&byte| byte == b' ')?;
    let (number, query) = (decimal(&text[..space])?, &text[space + 1..]);
    Some(Reasons::of(query, &lexed(query)).answer(number).to_string())
}
