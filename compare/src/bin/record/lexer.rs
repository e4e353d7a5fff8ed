//! The records of lexing.

use super::decimal;
use compare::oracle::lexer::Lexed;
use compare::oracle::separators;
use compare::oracle::token::words;
use compare::oracle::{Answer, MOST_BYTES};
use compare::texts::hex;
use compare::texts::queries::{self, of_length, QUERIES, SEPARATED};
use compare::texts::words::cased;

/// Lines written by hand: records in every form, and lines that are no record.
const BY_HAND: &[&str] = &[
    "lex -",
    "lex - 0",
    "lex - 1",
    "lex 5B356D5D",
    "lex 5b356d5d 4",
    "lex 5b356d5d 18446744073709551615",
    "lex 5b356d5d 18446744073709551616",
    "lex",
    "lex ",
    "lex 5",
    "lex 5b x",
    "lex 5b 1 ",
    "lexer 61",
    "Lex 61",
];

/// The values of document 01.
const VALUES: &[&str] = &[
    "{or }", "{order}", "[:5m]", "[ :5m]", "fill ()", "fill #", "5m3", "0x", "1.5h", "a[5m]",
    "\"\u{e9}", "0x1e+5",
];

/// The signs, alone and in a row, and one of each other kind but those of words.
const SIGNS: &[&str] = &[
    "()",
    "{}",
    "[]",
    "{,}",
    "[ :]",
    "=",
    "+",
    "-",
    "*",
    "/",
    "%",
    "^",
    "==",
    "===",
    "!=",
    "<=",
    "<",
    ">=",
    ">",
    "{=~}",
    "{!~}",
    "{=}",
    "{!=}",
    "@",
    ",",
    "+-*/%^==!=<=<>=>@=,",
    "a",
    "a:b",
    ":",
    "_",
    "__name__",
    "A9_z",
    "\"\"",
    "'a'",
    "`a`",
    "{\"\"'a'`a`}",
    "0",
    "5m",
];

/// Numbers and durations: what their digits may be, units, and where they end.
const NUMBERS: &[&str] = &[
    "1.",
    "1e",
    "1e+",
    "1E-5",
    ".5",
    ".5e5",
    "00",
    "0x1F",
    "0Xf",
    "0x.8",
    "0x1.8",
    "1em",
    "5.m",
    "0xs",
    "0x5m",
    "0x5d",
    "1s",
    "1m",
    "1h",
    "1d",
    "1w",
    "1y",
    "1ms",
    "1ys",
    "1y2w3d4h5m6s7ms",
    "1ms1ms",
    "1s1m",
    "5 m",
    "5:",
    ":5",
    "5m:",
    "[5m:5]",
    "[1.5h]",
    "[5. 5]",
    "5-5",
    "5m-5m",
    "5\"\"",
    "5m(5)",
    "1e5,1e5s",
    "5m3s",
    "5_",
    "5m_",
    "1_000",
    "5mm",
    "1mss",
    "1y2y",
    "5m3y",
    "1ms5",
    "1.5.2",
    ".5.",
    "5..",
    "5m5.5",
    "0xg",
    "0x.8p",
    "1e5x",
    "5a",
    "5M",
    "5S",
    "[5m5]",
    "[5m3",
    "[5m5",
    "[5..]",
    "5\u{e9}",
    "5m\u{e9}",
    "5m.",
    "5m5\u{e9}",
    "5a\u{e9}",
    "[5\u{e9}",
];

/// Words outside braces and in them.
const WORDS: &[&str] = &[
    "sum:",
    ":sum",
    "sum_",
    "sum5",
    "summ",
    "infinity",
    "step",
    "a:",
    "a::b",
    "a5:5",
    "a.b",
    "fill",
    "fill(",
    "fill (1)",
    "FILL\t\n\u{c}\r (1)",
    "fill\u{b}(",
    "fill_left(1)",
    "fill_left 1",
    "Fill_Right\n(1)",
    "fill_right",
    "fill{}",
    "fill #\n()",
    "fill#\n()",
    "fill\u{a0}(",
    "fill+(1)",
    "fill:(1)",
    "filler(1)",
    "{fill (",
    "{fill}",
    "{sum}",
    "{or}",
    "{or\t}",
    "{or\n}",
    "{orx}",
    "{or5 }",
    "{or_ }",
    "{xor }",
    "{oR }",
    "{Or or OR }",
    "{o r }",
    "{or  }",
    "{or or}",
    "{or #\n}",
    "or",
    "or ",
    "{o}",
    "{__name__}",
    "{a9}",
    "{a:b}",
    "\u{e9}a",
    "a\u{e9}",
    "{a\u{e9}}",
    "top\u{212a}",
    "\u{17f}um",
];

/// Strings, comments and white space.
const STRINGS: &[&str] = &[
    "\"\\a\\b\\f\\n\\r\\t\\v\\\\\\\"\"",
    "'\\0\\1\\2\\3\\4\\5\\6\\7\\x\\u\\U\\''",
    "`\\a\\x\\``",
    "\"'`\" '\"`' `\"'`",
    "\"a\nb\"",
    "\"\u{e9}\u{20ac}\u{10ffff}\" a",
    "\"\"\"\"",
    "\"a\"\"b\"",
    "a\"b\"c",
    "{a=\"}\",b='{'}",
    "'\\\"'",
    "\"\\'\"",
    "`\\'`",
    "`\\``",
    "\"\\\"",
    "\"\\8\"",
    "\"\\X\"",
    "\"\\\n\"",
    "\"\\\u{e9}\"",
    "'\u{e9}\\\u{e9}'",
    "`\\q`",
    "#",
    "# a",
    "#a\r\n",
    "#a\r\nb",
    "#a\rb#c\nd",
    "#\u{b}\u{85}\u{2028}a\nb",
    "a#\"'`([{\n5",
    "{a#}\n}",
    "{#}",
    "(#)\n)",
    "(#",
    "[#]",
    " \t\n\u{c}\r",
    "a \t\n\u{c}\rb",
    "a\u{b}b",
    "a\0b",
    "a\u{7f}",
    "a\u{a0}b",
    "a\u{2003}b",
    "\u{feff}a",
];

/// Brackets and parentheses, one in another, and what ends in them.
const NESTED: &[&str] = &[
    "[]",
    "[5 5]",
    "[5m:]",
    "[5m:5m]",
    "[ 5m : 5m ]",
    "[\t:]",
    "[5:][5:]",
    "[5m 5m:5m 5m]",
    "(([5m]))",
    "({a=\"b\"}[5m])",
    "((()))",
    "(()",
    "())",
    "({)})",
    "([)])",
    "{}{}",
    "[5][5]",
    "{a}[5m:1m]",
    "({",
    "([",
    "(\"",
    "(.",
    "(!",
    "{!",
    "{\"",
    "{\"\\",
    "{or",
    "[!",
    "[:",
    "[::",
    "[5::",
    "[5: :5]",
    "[5m:1m:]",
    "[[",
    "[5[",
    "{{",
    "{a{",
    "[a]",
    "[5m]]",
    "{}}",
    "[{",
    "[(",
    "[)",
    "[}",
    "[.5]",
    "[=",
    "[\"\"]",
    "[,]",
    "[5,5]",
    "[-5]",
    "{(",
    "{)",
    "{[",
    "{]",
    "{:",
    "{5}",
    "{.5}",
    "{==}",
    "{===}",
    "{<}",
    "{+}",
    "{@}",
    "{~}",
    "{a!~~}",
];

/// What is refused behind good lexemes: at least one for each refusal of the reading.
const REFUSED: &[&str] = &[
    "(",
    "(a",
    "((a)",
    "(# )",
    "=~",
    "= =~",
    "==~",
    "!=~",
    "===~",
    "!",
    "!!",
    "! =",
    "!~",
    "!\u{e9}",
    "!\u{10ffff}",
    ".",
    "..",
    ".a",
    ". 5",
    ".\u{e9}",
    ".\n",
    ")",
    "a)",
    "}",
    "]",
    "~",
    ";",
    "$",
    "&",
    "?",
    "|",
    "\\",
    "\u{7f}",
    "\0",
    "\u{e9}",
    "\u{20ac}",
    "\u{10ffff}",
    "5x",
    "5m3",
    "0xg",
    "1.5.",
    "5m5\u{e9}",
    "\"\\q\"",
    "'\\\"'",
    "`\\\u{20ac}`",
    "\"\\",
    "'a\\",
    "`\u{e9}\\",
    "\"",
    "'a",
    "`\u{e9}\\`",
    "{!",
    "{a!",
    "{a!a",
    "{!!",
    "{!\u{e9}",
    "{!\"a\"",
    "{{",
    "{a, {",
    "{a:",
    "{5",
    "{;",
    "{\u{e9}",
    "{a\u{20ac}",
    "{",
    "{a",
    "{a=",
    "{a=\"b\" ",
    "{#",
    "[5::",
    "[5 : 5 :",
    "[ ::",
    "[:",
    "(a[:",
    "[[",
    "[5 [",
    "[a",
    "[5a",
    "[5 a",
    "[\u{e9}",
    "[5m \u{20ac}",
    "[ #",
    "[",
    "[5",
    "[5m:",
    "[ ",
];

/// What stands before these.
const FRONTS: [&str; 4] = [
    "",
    "a - ",
    "'\u{e9}\u{20ac}'\n",
    "#\u{10ffff}\r{\"\u{e9}\"}",
];

/// What is not UTF-8, also behind what is refused, and with what would be.
const NOT_UTF8: &[&[u8]] = &[
    b"\xff",
    b"a \xff",
    b") \xff",
    b"\"\xc3\xa9\xc3\"",
    b"\"\xf4\x8f\xbf\"",
    b"# \xed\xa0\x80\n",
    b"{\xc3\xa9\xff",
    b"5m\xc3",
    b"[\x80:",
];

/// Parentheses, one in another and beside each other, next to braces, brackets and fill words; strings and comments that have some,
/// which count for nothing; and what is open or closes nothing.
const DEPTHS: &[&str] = &[
    "(a)",
    "((a))",
    "(((a)))",
    "()()",
    "()(())",
    "(()())",
    "((a) b) c",
    "(,(,),)",
    "((a + (b)) * (c))",
    "(\n((\t)\r) )",
    "sum(rate(a[5m])) by (b)",
    "{}()",
    "(){}()",
    "({}(){})",
    "({a=\"(\"}(b))",
    "({a=')'})",
    "{a=`((`}(`)`)",
    "([5m])",
    "([5m]([5m:]))",
    "(a)[5m:1m](b)",
    "fill (fill ())",
    "fill(FILL_left(fill_Right((1))))",
    "(fill)(fill)",
    "(\"))\" + '(' - `(`)",
    "('\\'(' (\"\\\")\"))",
    "(`\\(` (`\\`))",
    "(\"\u{e9}(\" ('\u{10ffff}'))",
    "#(\n()",
    "(# ))\na#(\n)",
    "((#)\r))",
    "(((a))",
    "((a)))",
    "(a))(",
    "a) + (b",
    ")(",
    "((((",
    "))))",
    "(()#)",
    "((\")\"",
    "({(",
    "{(a)}",
    "([(5m)])",
    "({)}",
    "([)]",
];

/// How deep parentheses are nested, as deep as that, and with one too few or too many that close them.
const DEEP: [usize; 3] = [100, 256, 600];

/// Queries that are lexed in every room up to one more than they need.
const IN_ROOMS: &[&str] = &[
    "",
    " # a",
    "a",
    "a[5m]",
    "{a=~'\u{e9}'}",
    "sum(a) by (b)",
    "((a) b)",
    ")",
    "a + )",
    "(a",
    "\u{e9}",
];

/// How many lists lexemes are written to.
const LISTS: usize = 4;

/// Queries that are lexed with each list in turn shorter than the others, by the one that is missing, and where none is.
const IN_LISTS: &[&str] = &["", "a", "((a) b)", "a[5m] # (", "(a", "())"];

/// What is no record of such a query, or has more room than any needs.
const NO_ROOMS: &[&str] = &[
    "",
    "a",
    "2 2 2 a",
    "2 2 2 2",
    "2 2 2 2 ",
    "2  2 2 2 a",
    " 2 2 2 2 a",
    "2 2 2 -2 a",
    "2 2 2 +2 a",
    "2 2 2 0x2 a",
    "2 2 2 18446744073709551616 a",
    "2 2 2 18446744073709551615 a",
    "002 65536 65537 4294967298 a",
    "2 2 2 2  a",
];

/// The longest queries that are recorded: what they begin with, what fills them, and what they end with.
const LONGEST: [[&str; 3]; 3] = [
    ["a{b=\"", "\u{20ac}", "\"}"],
    ["sum(", " ", "5m5"],
    ["{#", "\u{e9}", ""],
];

/// The seed and the number of the generated queries.
const GENERATED: (u64, usize) = (3629, 300);

/// Queries with separators beside those of the comparison: next to other signs, in brackets, and where they are of no number.
const SEPARATED_BESIDE: &[&str] = &[
    "0X_f+1",
    "1_0e+1_0",
    "0x1_g",
    "1_0y",
    "1m_",
    "1_\u{e9}",
    "[1_0]",
    "[1_0m]",
    "[5m:1_0]",
    "[1__0]",
    "a[5m] > 1_000_000_000",
    "rate(a_1[1m]) / 1_0 # 1__0",
    "{a_1=\"1__0\"} == 0x_ff",
];

/// Backslashes between backquotes and elsewhere: before what they escape and what they do not, before the closing backquote and at the
/// end; alone, in braces, in parentheses, in comments and within other signs.
const BACKQUOTED: &[&str] = &[
    "`\\d`",
    "`\\``",
    "`\\`",
    "`\\",
    "`\\\\`",
    "`\\\\``",
    "`\\```",
    "`\\n\\q\\8`",
    "`\\\n`",
    "`\\\u{e9}` \u{e9}",
    "`\u{20ac}\\` \\",
    "`\\d",
    "`\u{10ffff}\\\\",
    "`\\`\"",
    "`\\` '`",
    "`\\`#`",
    "`\\`[`]",
    "`\\`5x`",
    "`a\\``\\b`",
    "{a=~`\\d+\\.\\w*`}",
    "{a=`\\`}",
    "{a=`\\`,b=`\\`}",
    "{`\\q",
    "(`\\(`)",
    "(`\\`",
    "rate(a{path!~`/v\\d/.*`}[5m]) # `\\",
    "#`\\\n`\\#`",
    "\"`\\d`\"",
    "\"`\\\"`\\`",
    "'\\`'",
    "[`\\d`",
    "5m3 `\\",
    "`\\d` 1_0",
    "`\\1_` 1__0",
];

/// The recorded lines.
pub fn inputs() -> Vec<String> {
    let mut lines: Vec<String> = BY_HAND.iter().map(|line| line.to_string()).collect();
    let texts = [VALUES, SIGNS, NUMBERS, WORDS, STRINGS, NESTED, &QUERIES].concat();
    lines.extend(texts.iter().map(|text| line(text.as_bytes())));
    let words = words();
    let cased = words.iter().flat_map(|word| cased(word));
    lines.extend(cased.map(|word| line(&word)));
    for refused in REFUSED {
        lines.extend(FRONTS.map(|front| line([front, refused].concat().as_bytes())));
    }
    lines.extend(NOT_UTF8.iter().map(|text| line(text)));
    lines.extend(IN_ROOMS.iter().flat_map(|text| in_rooms(text.as_bytes())));
    let (seed, count) = GENERATED;
    lines.extend(
        queries::random(seed, &words)
            .take(count)
            .map(|text| line(&text)),
    );
    lines.extend(long());
    let later = [&SEPARATED, SEPARATED_BESIDE, BACKQUOTED, DEPTHS].concat();
    lines.extend(later.iter().map(|text| line(text.as_bytes())));
    lines.extend(deep());
    lines.extend(IN_LISTS.iter().flat_map(|query| in_lists(query)));
    lines.extend(NO_ROOMS.iter().map(|text| lists_line(text)));
    let documented = [&later, NUMBERS, STRINGS, &QUERIES[..]].concat();
    lines.extend(
        documented
            .iter()
            .map(|text| format!("lexdoc {}", hex(text.as_bytes()))),
    );
    lines
}

/// The record of a query.
fn line(query: &[u8]) -> String {
    format!("lex {}", hex(query))
}

/// The records of a query that name a room: each that is too little, just enough, and one more.
fn in_rooms(query: &[u8]) -> Vec<String> {
    let line = line(query);
    (0..=Lexed::new(query).count() + 1)
        .map(|room| format!("{line} {room}"))
        .collect()
}

/// The records of a query with a room for each list.
fn in_lists(query: &str) -> Vec<String> {
    let count = Lexed::new(query.as_bytes()).count();
    let (more, less) = (count + 1, count.saturating_sub(1));
    let mut rooms = vec![[count; LISTS], [count, more, count + 2, count + 3]];
    for (one, others) in [(less, count), (count, more), (0, more)] {
        rooms.extend((0..LISTS).map(|list| {
            let mut rooms = [others; LISTS];
            rooms[list] = one;
            rooms
        }));
    }
    let text = |rooms: [usize; LISTS]| rooms.map(|room| format!("{room} ")).concat() + query;
    rooms
        .into_iter()
        .map(|rooms| lists_line(&text(rooms)))
        .collect()
}

/// The record of rooms and a query.
fn lists_line(text: &str) -> String {
    format!("lexrooms {}", hex(text.as_bytes()))
}

/// Queries of deep parentheses.
fn deep() -> impl Iterator<Item = String> {
    DEEP.into_iter().flat_map(|depth| {
        [depth - 1, depth, depth + 1].map(|closed| {
            let query = ["(".repeat(depth), "a".into(), ")".repeat(closed)].concat();
            line(query.as_bytes())
        })
    })
}

/// Queries as long as the limit, one with more lexemes than its room has, and one that is a byte longer.
fn long() -> Vec<String> {
    let mut lines: Vec<String> = LONGEST
        .iter()
        .map(|&parts| line(of_length(parts, MOST_BYTES).as_bytes()))
        .collect();
    let commas = ",".repeat(MOST_BYTES);
    lines.push(format!("{} {MOST_BYTES}", line(commas.as_bytes())));
    lines.push(line(" ".repeat(MOST_BYTES + 1).as_bytes()));
    lines
}

/// The answer to `lex`.
pub fn lex(query: &[u8], room: u64) -> String {
    told(&Lexed::new(query), room)
}

/// The answer to `lexdoc`.
pub fn lexdoc(query: &[u8], room: u64) -> String {
    told(&separators::lexed(query), room)
}

/// The answer to `lexrooms`: the rooms of the four lists in decimal digits, a space behind each, and the query; none for any
/// other text.
pub fn lexrooms(text: &[u8]) -> Option<String> {
    let mut words = text.splitn(LISTS + 1, |&byte| byte == b' ');
    let mut room = u64::MAX;
    for _ in 0..LISTS {
        room = room.min(decimal(words.next()?)?);
    }
    Some(told(&Lexed::new(words.next()?), room))
}

/// The kind, start, length and depth of each lexeme.
fn told(lexed: &Lexed, room: u64) -> String {
    match lexed.answer(room) {
        Answer::Value(_) => {
            let Lexed {
                kinds,
                starts,
                lengths,
                depths,
                ..
            } = lexed;
            let lexeme = |at| {
                let (kind, start) = (kinds[at], starts[at]);
                format!(" {kind},{start},{},{}", lengths[at], depths[at])
            };
            format!("ok{}", (0..lexed.count()).map(lexeme).collect::<String>())
        }
        refused => refused.to_string(),
    }
}
