//! Queries, and texts that are nearly such.

use super::durations::any_units;
use super::literals::literal;
use super::numbers::{any_decimal, near, spoiled, NO_WHITE_SPACE, WHITE_SPACE};
use super::words::{cased, recased};
use super::{
    cut_characters, grouped, replaced, separated, sequences, short, table_ends, well_formed,
};
use crate::oracle::MOST_BYTES;
use crate::random::Random;
use std::iter;

/// Queries as dashboards and alerts have them.
pub const QUERIES: [&str; 62] = [
    "up",
    "up == 0",
    "up{job=\"node\"}",
    "node_load1 / on(instance) group_left count by (instance) (node_cpu_seconds_total)",
    "100 - (avg by (instance) (rate(node_cpu_seconds_total{mode=\"idle\"}[5m])) * 100)",
    "sum(rate(http_requests_total{job=\"api\", code=~\"5..\"}[5m])) / sum(rate(all_total[5m]))",
    "histogram_quantile(0.99, sum by (le, handler) (rate(http_seconds_bucket[5m])))",
    "topk(10, sum by (__name__) ({__name__=~\".+\"}))",
    "bottomk(3, avg_over_time(node_memory_MemAvailable_bytes[1h]))",
    "rate(node_network_receive_bytes_total{device!~\"lo|veth.*|br-.*\"}[$__interval])",
    "increase(kube_pod_container_status_restarts_total{namespace=\"prod\"}[1h]) > 3",
    "absent(up{job=\"prometheus\"} == 1)",
    "predict_linear(node_filesystem_free_bytes{mountpoint=\"/\"}[6h], 4 * 3600) < 0",
    "sum without (instance, pod) (container_memory_bytes{container!=\"\", image!=\"\"})",
    "label_replace(up, \"host\", \"$1\", \"instance\", \"([^:]+):\\\\d+\")",
    "label_join(up, 'all', ',', 'job', 'instance')",
    "max_over_time((time() - process_start_time_seconds)[1d:5m])",
    "job:http_requests:rate5m{job=\"api\"} offset 1w",
    "instance:node_cpu:avg_rate5m > bool 0.9",
    "http_requests_total @ 1609746000 offset 5m",
    "rate(http_requests_total[5m] @ end())",
    "sum(http_requests_total @ start()) by (group)",
    "count_values(\"version\", build_version)",
    "quantile(0.9, rate(http_requests_total[5m]))",
    "stddev(rate(cpu[5m])) > 2 or stdvar(rate(cpu[5m])) > 4",
    "limitk(5, http_requests_total) and limit_ratio(-0.1, http_requests_total)",
    "method_code:http_errors:rate5m / ignoring(code) group_left method:http_requests:rate5m",
    "a * on(x, y) group_right(z) b unless on(x) c",
    "(a and b) or (c unless d) ^ 2 % 3 atan2 4",
    "vector(1) == +Inf or vector(NaN) != -inf",
    "0x1F + 017 + 1e3 + 1.5e-9 + .5 + 5. + 0x1e+5",
    "rate(x[1h30m]) + rate(x[1y2w3d4h5m6s7ms]) + rate(x[100ms])",
    "x[5m:] + x[5m:1m] + x[ 1d : 2h ] + x[300]",
    "a{b=\"c\", d=~\"e|f\", g!=\"h\", i!~\"j\",}",
    "{__name__=\"a\", job='b', path=`/c\\d`}",
    "{__name__=\"a\", job='b', path=`/c\\\\d`}",
    "{\"http.status\", \"service.name\"=\"cart\"}",
    "{job=\"a\" or job=\"b\"} + {a=\"1\" OR b=\"2\" or order=\"3\"}",
    "a + fill(0) b and fill_left(1) fill_right (2)",
    "fill + fill_left / fill_right{fill=\"fill\"}",
    "sum by (job) (up) + ON (instance) Group_Left (env) INFO * IGNORING (x) y",
    "rate(x[5m] smoothed) + increase(x[5m] anchored)",
    "# requests by route\nsum by (route) (rate(requests[5m])) # per second\r\n> 10 # alert",
    "sum(\n  rate(a[5m])\n)\n/\nsum(\n\trate(b[5m]) # all\n)\n",
    "{ # matchers\n  job=\"a\", # the job\r  env!=\"dev\"\n}",
    "a{b=\"\\\"quoted\\\"\\n\\t\\\\\", c='it\\'s', d=`back\\`}",
    "a{b=\"\\x41\\101\\u00e9\\U0001F600\"}",
    "temperature{city=\"Z\u{fc}rich\", unit=\"\u{b0}C\"} > 30",
    "{\"\u{6e29}\u{5ea6}\"} + {\"caf\u{e9}\"=\"\u{1f600}\"} # \u{2713} fertig",
    "((((a))) + (((b)[5m:1m])))",
    "min(a) + max(a) + avg(a) + count(a) + group(a) - sum(a)",
    "clamp_max(a, 1e6) <= clamp_min(b, -1) >= 3 < 4 > 5 == 6 != 7",
    "avg_over_time({__name__=~\"job:.*\"}[5m:10s] offset -1d)",
    "sum(rate(x{le=\"+Inf\"}[5m])) by (a) / ignoring(b) sum(rate(y[5m])) without (c)",
    "time() - max(backup_seconds{host=~\"db-[0-9]+\\\\.example\\\\.org\"}) > 86400",
    "ALERTS{alertname=\"HighLoad\", alertstate=\"firing\"}",
    "round(100 * (1 - (a - b) / a), 0.01)",
    "sum by(le)(rate(x_bucket{path!~`/health|/metrics`}[5m]))",
    "absent_over_time(up{job='backup'}[26h]) unless on() (hour() < 6)",
    "sort_desc(count by (app, version) (kube_pod_labels{label_app!=\"\"}))",
    "-1 ^ -a * +b",
    "a[5m] offset 1h30m @ 1.5e9",
];

/// Characters that tell the rules of lexing apart.
const TELLING: [&str; 26] = [
    "{", "}", "[", "]", "(", ")", "\"", "\\", "#", "\n", " ", ":", "=", "!", "~", "<", ".", "0",
    "5", "x", "m", "s", "o", "r", ",", "\u{e9}",
];

/// What stands before something, and what behind it.
type Around = [&'static str; 2];

/// What stands around every row, what it is made of, and how much of that it has at most: for numbers and durations, braces,
/// brackets, strings, signs, comments, depths, and what is behind a fill word.
const ROWS: [(&[Around], &[&str], u32); 8] = [
    (
        &[["", ""], ["[", "]"]],
        &["0", "7", "x", ".", "e", "+", "m", "s", "y", "f"],
        5,
    ),
    (
        &[["{", ""]],
        &["o", "R", "x", "5", " ", "\t", "=", "!", "~", "}"],
        5,
    ),
    (&[["[", ""]], &["[", "]", ":", "5", "m", " ", "\n", "a"], 5),
    (
        &[["\"", ""], ["'", ""], ["`", ""], ["{\"", "}"]],
        &["\"", "'", "`", "\\", "n", "8", "\u{e9}", "\n"],
        5,
    ),
    (&[["", ""]], &["=", "!", "~", "<", ">", "-", " "], 6),
    (
        &[["", ""], ["{", "}"]],
        &["(", ")", "#", "\r", "\n", " ", "}", "a"],
        5,
    ),
    (
        &[["", ""], ["((", "))"]],
        &["(", ")", "a", "{}", "')'", "#(\n"],
        6,
    ),
    (
        &[
            ["fill", ""],
            ["FILL_left", ""],
            ["fill_Right", ""],
            ["filler", ""],
        ],
        &[
            " ", "\t", "\n", "\r", "\u{b}", "\u{c}", "()", "#", ":", "\u{e9}",
        ],
        4,
    ),
];

/// The signs, and characters that are none.
const SIGNS: [&str; 34] = [
    "+", "-", "*", "/", "%", "^", "==", "!=", "<=", "<", ">=", ">", "=~", "!~", "@", "=", ",", ":",
    "(", ")", "{", "}", "[", "]", "===", "==~", "!=~", "!", "~", ";", "$", "&", ".", "\\",
];

/// Words, most of them not of the table.
const WORDS: [&str; 20] = [
    "a",
    "_",
    "foo_1",
    ":",
    ":5",
    "a:b",
    "job:x:rate5m",
    "sum:",
    "or",
    "OR ",
    "order",
    "oR5",
    "infinity",
    "fill",
    "Fill (",
    "fill_left\n\t(",
    "FILL_RIGHT#\n(",
    "fill\u{a0}(",
    "offset5m",
    "sum2",
];

/// Numbers and durations, and what is nearly one.
const NUMBERS: [&str; 31] = [
    "0", "5", "017", "1.5", ".5", "5.", "1e3", "1E-9", "1e", "1e+", "0x", "0X1F", "0x.8", "0x1.8",
    "0x1e+5", "1.e5", ".5e-5", "5m", "1s", "100ms", "1h30m", "2w", "1y2w3d", "1.5h", "1em", "5.m",
    "0xs", "0x5m", "0x5d", "1hs", "1m1m",
];
const NO_NUMBERS: [&str; 15] = [
    "1_000",
    "1.5.2",
    ".5.",
    "5..",
    "0xg",
    "0x.8p",
    "5mm",
    "1mss",
    "1y2y",
    "5m3",
    "1ms5",
    "5m_",
    "5M",
    "5m5\u{e9}",
    "5a\u{e9}",
];

/// Numbers with separators, and what is nearly one.
pub const SEPARATED: [&str; 42] = [
    "1_000",
    "0x_1f",
    "0x1_e",
    "1_0e1_0",
    ".5_0",
    "1.5_0",
    "1_0e",
    "0x1.8_8",
    "0_17",
    "1_0.",
    "0X_f_F",
    "0x_1.8_8",
    "1_0.0_1e+1_0",
    "0x1_e+5_0",
    "1_0e-",
    "1__0",
    "1_",
    "1_.5",
    "1._5",
    "1e_5",
    "1e+_5",
    "0x_",
    "0x__1",
    "0x._8",
    "0x_.8",
    "0x1_.8",
    "0_x1",
    "1_000m",
    "1_0em",
    "1_0.5s",
    "0x_5m",
    "1_0z",
    "1_0.5.",
    "1_0..",
    "5_m",
    "5m_",
    "1h3_0m",
    "1h30_m",
    "1_0_",
    "1_0\u{e9}",
    "_1",
    "._5",
];

/// What numbers with separators are made of.
const SEPARATED_PIECES: [&str; 9] = ["0", "1", "_", ".", "e", "x", "m", "s", "f"];

/// Strings, and what is nearly one.
const STRINGS: [&str; 13] = [
    "\"\"",
    "'a'",
    "`b`",
    "\"{[(#)]}\"",
    "'\\''",
    "\"\\\"\"",
    "`\\``",
    "\"\\a\\b\\f\\n\\r\\t\\v\\\\\\0\\7\\x\\u\\U\"",
    "'\\x41\\101\\u00e9\\U0001f600'",
    "\"a\nb\r\"",
    "`\u{e9}\u{20ac}\u{10ffff}`",
    "'\\\\\u{e9}'",
    "\"'`\"",
];
const NO_STRINGS: [&str; 13] = [
    "\"\\q\"",
    "'\\\"'",
    "`\\d`",
    "\"\\8\"",
    "\"\\\n\"",
    "'\\\u{e9}'",
    "\"\u{e9}\\\u{10ffff}\"",
    "\"",
    "'a",
    "`\u{20ac}",
    "\"\\",
    "'\u{e9}\\",
    "\"\\\"",
];

/// Strings between backquotes with backslashes, and what is nearly one.
const BACKQUOTED: [&str; 22] = [
    "`\\d`",
    "`\\d+\\.\\w*`",
    "`\\\\`",
    "`\\\\\\`",
    "`\\``",
    "`\\```",
    "`a\\` `\\b`",
    "`\\n\\x\\8\\q`",
    "`\\\n`",
    "`\\\u{e9}\\\u{10ffff}`",
    "`\\\"` \"",
    "`\"\\'#`",
    "`\\",
    "`\u{e9}\\\\",
    "`\\d",
    "\"`\\\\`\"",
    "'`\\'`\\d`'",
    "\"\\`\"",
    "'`\\q`'",
    "# `\\\n`\\d`",
    "#`\\``\r",
    "\\`",
];

/// What tells these strings apart from others.
const BACKQUOTED_PIECES: [&str; 9] = ["`", "\\", "\"", "'", "#", "\n", "d", "x", "\u{e9}"];

/// Comments, with each end.
const COMMENTS: [&str; 8] = [
    "#\n",
    "# a\r",
    "#\r\n",
    "#\n\r",
    "#\u{b}\u{85}\n",
    "# \"'`{[(\u{e9}\n",
    "#",
    "# \u{10ffff}",
];

/// Braces, good and bad.
const BRACES: [&str; 30] = [
    "{}",
    "{a=\"b\"}",
    "{a=~'x.*',b!~`y`,c!=\"\",}",
    "{or }",
    "{OR  a=\"1\"}",
    "{a=\"1\" oR b=\"2\"}",
    "{or}",
    "{or\t}",
    "{orx}",
    "{or5 }",
    "{xor }",
    "{sum,by,fill (}",
    "{a==\"b\"}",
    "{\"a.b\",'c'=`d`}",
    "{#}",
    "{# or \n a}",
    "{ \t\r\n\u{c}}",
    "{a",
    "{or",
    "{!",
    "{a!}",
    "{!x",
    "{=~",
    "{a:b}",
    "{5}",
    "{.5}",
    "{{",
    "{(",
    "{\u{e9}",
    "{\"",
];

/// Brackets, good and bad.
const BRACKETS: [&str; 26] = [
    "[]",
    "[5m]",
    "[ 1h : ]",
    "[5m:1m]",
    "[\n:5m]",
    "[5 5m]",
    "[1.5h]",
    "[0x1f:0x]",
    "[5m:][5m:]",
    "[:5m]",
    "[:",
    "[5m::]",
    "[5m:1m:]",
    "[5m",
    "[5m:",
    "[",
    "[a]",
    "[.5]",
    "[#\n]",
    "[\"\"]",
    "[[",
    "[5m[",
    "[}",
    "[5m5]",
    "[5m\u{e9}]",
    "[=",
];

/// White space, what is like that, and other characters.
const OTHERS: [&str; 22] = [
    " ",
    "\t",
    "\n",
    "\r",
    "\u{c}",
    "  \r\n ",
    "\u{b}",
    "\0",
    "\u{1f}",
    "\u{7f}",
    "\u{85}",
    "\u{a0}",
    "\u{e9}",
    "\u{17f}",
    "\u{212a}",
    "\u{661}",
    "\u{2003}",
    "\u{2028}",
    "\u{20ac}",
    "\u{feff}",
    "\u{1f600}",
    "\u{10ffff}",
];

/// All that queries are made of.
const PIECES: [&[&str]; 10] = [
    &SIGNS,
    &WORDS,
    &NUMBERS,
    &NO_NUMBERS,
    &STRINGS,
    &NO_STRINGS,
    &COMMENTS,
    &BRACES,
    &BRACKETS,
    &OTHERS,
];

/// Forms of queries, of braces and of brackets. In these `E` stands for a query, `B` for braces, `R` for brackets, `W` for a
/// word, `L` for one without a colon, `K` for one of the table, `N` for a number or a duration, `T` for a string, `O` for a
/// sign between two values, and a space for white space or a comment.
const FORMS: [&str; 24] = [
    "N",
    "T",
    "W",
    "WB",
    "WR",
    "WBR",
    "B",
    "BR",
    "(E)",
    "-E",
    "W(E)",
    "W(E, E)",
    "K(E)",
    "K by (L, L) (E)",
    "K(E) without (L)",
    "E O E",
    "E OE",
    "E O bool E",
    "E K E",
    "E K on(L) group_left(L) E",
    "E O fill (N) E",
    "E offset N",
    "E @ N",
    " E ",
];
const BRACE_FORMS: [&str; 10] = [
    "{}",
    "{ }",
    "{L=T}",
    "{L =~ T, L != T}",
    "{L!~T or L=T,}",
    "{ T, T=T}",
    "{or L, oR }",
    "{K,L}",
    "{L==T}",
    "{L=T",
];
const BRACKET_FORMS: [&str; 8] = [
    "[N]",
    "[N:N]",
    "[N:]",
    "[ N : N ]",
    "[ :N]",
    "[N N]",
    "[:N]",
    "[N:N:",
];

/// White space and comments; most often one space.
const SPACES: [&str; 12] = [
    " ",
    " ",
    " ",
    " ",
    " ",
    "",
    "\n",
    "\t\r\n ",
    "\u{c}",
    "# a\n",
    "#\u{e9}\r",
    " #(\n ",
];

/// The letters of random words, and of those in braces.
const WORD_BYTES: &[u8] = b"abzABZ_059::";
const LABEL_BYTES: &[u8] = b"abzorORZ_059";

/// What is put into queries.
const PUT_IN: [&str; 16] = [
    "\"",
    "\\",
    "#",
    "\n",
    " ",
    "{",
    "]",
    "(",
    ":",
    "=",
    "!",
    ".",
    "5",
    "\u{e9}",
    "\u{20ac}",
    "\u{10ffff}",
];

/// What stands around queries: nothing, parentheses, braces, brackets; and characters that make the character number another
/// than the byte offset.
const AROUND: [Around; 6] = [
    ["", ""],
    ["(", ")"],
    ["{", "}"],
    ["[", "]"],
    ["\"\u{e9}\u{20ac}\u{10ffff}\" ", ""],
    ["#\u{10ffff}\n{`\u{e9}`,", "}"],
];

/// What stands around a word, what is behind it, and what stands around a character.
const AROUND_WORD: [Around; 9] = [
    ["", ""],
    ["(", ")"],
    ["{", "}"],
    ["[", "]"],
    ["a ", ""],
    ["5", ""],
    [":", ""],
    ["_", ""],
    [".", ""],
];
const BEHIND_WORD: [&str; 14] = [
    "", "()", " ()", ":", "5", "_", "s", " ", "\u{e9}", "}", ".", "\"\"", "=", "#\n()",
];
const AROUND_CHARACTER: [Around; 18] = [
    ["", ""],
    ["", "a"],
    ["a", "b"],
    ["5", "m"],
    ["5m", ""],
    ["0x", ""],
    ["=", "="],
    ["!", "="],
    [".", "5"],
    ["{", "}"],
    ["{!", "\"\"}"],
    ["{or", " }"],
    ["[", ":]"],
    ["[5m", "]"],
    ["\"\\", "\""],
    ["`", "` !"],
    ["#", "\n)"],
    ["fill", "()"],
];

/// How deep parentheses are nested.
const DEPTHS: [usize; 16] = [
    1, 2, 3, 4, 5, 7, 8, 9, 31, 32, 255, 256, 257, 4_096, 10_000, 32_767,
];

/// What stands between parentheses and has none that count.
const BETWEEN: [&str; 14] = [
    "",
    " ",
    ",",
    "a ",
    "sum by",
    "fill ",
    "[5m]",
    "[5m:1m]",
    "{}",
    "{a=\"(\"}",
    "')'",
    "`\u{e9}(`",
    "#)\n",
    "# (\u{e9}\r",
];

/// What stands in the innermost parentheses.
const INNERMOST: [&str; 12] = [
    "", "a", "{", "{}", "[5m", "[5m]", "!", "\"", "\"\"", "# )", ",)", "}",
];

/// The longest queries: what they begin with, what fills them, and what they end with.
const LONGEST: [[&str; 3]; 70] = [
    ["", ",", ""],
    ["", " ", ""],
    ["", " ", "a"],
    ["", "a", ""],
    ["", "a", ":"],
    ["", "sum ", ""],
    ["", ":", ""],
    ["", "\u{e9}", ""],
    ["", "5", ""],
    ["", "5", "m"],
    ["", "5", "mm"],
    ["", "5", "."],
    ["", "5", "_"],
    ["", "0", "x"],
    ["0x", "f", ""],
    ["0x", "f", "g"],
    [".", "5", "e"],
    ["1e", "5", "y"],
    ["", "1m", ""],
    ["", "1m", "5"],
    ["", "1m", "5\u{e9}"],
    ["", "1ms ", ""],
    ["\"", "a", "\""],
    ["\"", "\u{e9}", "\""],
    ["'", "\\n", "'"],
    ["`", "\u{10ffff}", "`"],
    ["\"", "a", ""],
    ["\"", "\u{20ac}", "\\"],
    ["'", "\u{e9}", "\\q"],
    ["`", "\\", ""],
    ["", "\"\"", ""],
    ["", "'\u{e9}'", "'"],
    ["#", "a", ""],
    ["#", "\u{e9}", "\n"],
    ["#", "\u{20ac}", "\n)"],
    ["(#", "\u{10ffff}", ""],
    ["", "#\r\n", ""],
    ["", "#\n", "!"],
    ["", "(", ""],
    ["", "()", ""],
    ["(", "()", ""],
    ["", "()", ")"],
    ["(", "a ", ")"],
    ["{", "a,", "}"],
    ["{", "or ", "}"],
    ["{", "a=\"\u{e9}\",", ""],
    ["{", "a=~'b'", "!"],
    ["{", "a!~'\u{e9}'", "!\u{e9}"],
    ["{", " ", "{"],
    ["{", "#\n", ":"],
    ["", "{}", "}"],
    ["", "{a}", ""],
    ["[", "5 ", "]"],
    ["[", "5m ", ":]"],
    ["[", " ", ":]"],
    ["[5m:", " ", ":"],
    ["[", "5 ", ""],
    ["[", "5 ", "["],
    ["[", "1h1m ", "\u{e9}"],
    ["[", "5", "e5m5"],
    ["", "[]", "]"],
    ["", "[5:]", ""],
    ["fill", " ", "()"],
    ["fill_left", "\n", ""],
    ["", "fill ", "()"],
    ["", "!=", "!"],
    ["", "a<", "=~"],
    ["", "a ", "."],
    ["", "'\u{e9}' ", ".a"],
    ["", "'\u{e9}' ", "$"],
];

/// The same, of one long number with separators each.
const LONGEST_SEPARATED: [[&str; 3]; 9] = [
    ["1", "_0", ""],
    ["1", "_0", "_"],
    ["1", "_0", "m"],
    ["0x", "_f", ""],
    ["0x", "f_", "f.8"],
    [".5", "_5", "e_"],
    ["1e", "0_", "5"],
    ["1h", "0_", "5m"],
    ["[5m:", "1_", "1]"],
];

/// The same, of strings between backquotes.
const LONGEST_BACKQUOTED: [[&str; 3]; 8] = [
    ["`", "\\", "`"],
    ["`", "\\d", "`"],
    ["`", "\\", "``"],
    ["`", "\\\u{20ac}", ""],
    ["{a=~`", "\\q", "`}"],
    ["", "`\\`", ""],
    ["", "`\\d` ", "`\\"],
    ["\"", "`\\\\", "\"`\\`"],
];

/// Every text of at most two bytes, and of at most four telling characters; every row of the pieces of each rule; any two
/// pieces; the words, and every character, with much around them; deep parentheses; escapes; texts that are not UTF-8; queries
/// cut short at each byte, and with a byte changed; texts around the limit.
pub fn fixed<'a>(words: &'a [&str]) -> impl Iterator<Item = Vec<u8>> + 'a {
    let texts = telling()
        .chain(rows())
        .chain(pairs())
        .chain(in_words(words))
        .chain(characters())
        .chain(nested());
    short()
        .chain(texts.map(String::into_bytes))
        .chain(escapes())
        .chain(not_utf8())
        .chain(samples())
        .chain(long())
}

/// Queries with separators: every text of at most six pieces of numbers, and of at most five in brackets and behind a longer
/// character; a number with separators and another piece, together and apart; the queries with separators between all their
/// digits, and with one, or with a number, put in at each place; texts around the limit.
pub fn fixed_separated() -> impl Iterator<Item = Vec<u8>> {
    let arounds = [
        (["", ""], 6),
        (["[", "]"], 5),
        (["a + '\u{e9}' - ", " + 1_0"], 5),
    ];
    let rows = arounds.into_iter().flat_map(|([front, back], most)| {
        let rows = sequences(&SEPARATED_PIECES, most).map(|pieces| pieces.concat());
        rows.filter(|row| row.contains('_'))
            .map(move |row| [front, &row, back].concat())
    });
    let samples = QUERIES.into_iter().flat_map(|query| {
        let grouped = grouped(query).into_bytes();
        let put_in = ["_", "1_0", "0x_f", "1_0m", " 1__0"];
        [query.as_bytes(), &grouped].map(|query| near(query, &put_in))
    });
    rows.chain(beside_pieces(&SEPARATED, "+"))
        .map(String::into_bytes)
        .chain(samples.flatten())
        .chain(around_limit(&LONGEST_SEPARATED))
}

/// Random texts without end, with separators in what has digits.
pub fn random_separated<'a>(seed: u64, words: &'a [&str]) -> impl Iterator<Item = Vec<u8>> + 'a {
    let mut places = Random::new(!seed);
    random(seed, words).map(move |text| separated(&mut places, &text))
}

/// Queries with backslashes between backquotes: every row of at most six pieces that has both, and of at most five in braces and
/// behind a longer character; every byte behind a backslash, before the closing backquote, before one more backslash and that, and
/// at the end; such a string and another piece, together and apart; the queries as they are and with backquotes for all other
/// signs, with something put in at each place; texts around the limit.
pub fn fixed_backquoted() -> impl Iterator<Item = Vec<u8>> {
    let arounds = [(["", ""], 6), (["{", "}"], 5), (["'\u{e9}' - (", "`)"], 5)];
    let rows = arounds.into_iter().flat_map(|([front, back], most)| {
        let rows = sequences(&BACKQUOTED_PIECES, most).map(|pieces| pieces.concat());
        rows.filter(|row| row.contains('`') && row.contains('\\'))
            .map(move |row| [front, &row, back].concat())
    });
    let bytes = (0..=u8::MAX).flat_map(|byte| {
        let strings = [
            vec![b'`', b'\\', byte, b'`'],
            vec![b'`', b'a', b'\\', byte, b'\\', b'`'],
            vec![b'`', b'\\', byte],
        ];
        strings.into_iter().flat_map(|string| {
            AROUND.map(|[front, back]| [front.as_bytes(), &string, back.as_bytes()].concat())
        })
    });
    let samples = QUERIES.into_iter().flat_map(|query| {
        let signed = query.replace(&['"', '\''][..], "`").into_bytes();
        let put_in = ["`", "\\", "`\\d`", "`\\``", "#`\\\n"];
        [query.as_bytes(), &signed].map(|query| near(query, &put_in))
    });
    rows.chain(beside_pieces(&BACKQUOTED, ","))
        .map(String::into_bytes)
        .chain(bytes)
        .chain(samples.flatten())
        .chain(around_limit(&LONGEST_BACKQUOTED))
}

/// Random texts without end, with backquotes for other signs, and backslashes put in.
pub fn random_backquoted<'a>(seed: u64, words: &'a [&str]) -> impl Iterator<Item = Vec<u8>> + 'a {
    let mut places = Random::new(!seed);
    random(seed, words).map(move |text| backquoted(&mut places, &text))
}

/// The text with backquotes for some of the other signs, or all, and with backslashes at random places: many next to backquotes,
/// few elsewhere.
fn backquoted(random: &mut Random, text: &[u8]) -> Vec<u8> {
    let all = random.below(2) == 0;
    let mut backquoted = Vec::new();
    for &byte in text {
        let is_other = matches!(byte, b'"' | b'\'');
        let is_changed = is_other && (all || random.below(2) == 0);
        let byte = if is_changed { b'`' } else { byte };
        let rarity = match byte {
            b'`' => 4,
            0..=0x7f => 32,
            _ => usize::MAX,
        };
        if random.below(rarity) == 0 {
            backquoted.push(b'\\');
        }
        backquoted.push(byte);
        if byte == b'`' && random.below(8) == 0 {
            backquoted.push(b'\\');
        }
    }
    backquoted
}

/// Every text of at most four telling characters.
fn telling() -> impl Iterator<Item = String> {
    sequences(&TELLING, 4).map(|pieces| pieces.concat())
}

/// Every row of the pieces of each rule, with what stands around it.
fn rows() -> impl Iterator<Item = String> {
    ROWS.iter().flat_map(|&(around, pieces, most)| {
        sequences(pieces, most).flat_map(move |row| {
            let row = row.concat();
            let around = around.iter();
            around.map(move |[front, back]| [front, &row[..], back].concat())
        })
    })
}

/// Any two pieces, together and apart, with each thing around them.
fn pairs() -> impl Iterator<Item = String> {
    let pieces = || PIECES.iter().copied().flatten();
    let glued = pieces().flat_map(move |first| {
        ["", " "]
            .into_iter()
            .flat_map(move |between| pieces().map(move |last| [first, between, last].concat()))
    });
    glued.flat_map(|text| AROUND.map(|[front, back]| [front, &text, back].concat()))
}

/// Each of these and any piece, or another of them, together and apart, with each thing around them.
fn beside_pieces(
    texts: &'static [&'static str],
    sign: &'static str,
) -> impl Iterator<Item = String> {
    let pieces = move || PIECES.into_iter().flatten().chain(texts);
    let pairs = texts.iter().flat_map(move |text| {
        pieces().flat_map(move |piece| {
            ["", " ", sign].into_iter().flat_map(move |between| {
                let pairs = [[text, between, piece], [piece, between, text]];
                pairs.map(|pair| pair.concat())
            })
        })
    });
    pairs.flat_map(|pair| AROUND.map(|[front, back]| [front, &pair, back].concat()))
}

/// The words of the table in each case, with something around and behind them.
fn in_words<'a>(words: &'a [&str]) -> impl Iterator<Item = String> + 'a {
    let cased = words.iter().flat_map(|word| cased(word));
    cased.flat_map(|word| {
        let word = String::from_utf8_lossy(&word).into_owned();
        AROUND_WORD.into_iter().flat_map(move |[front, back]| {
            let word = word.clone();
            BEHIND_WORD.map(move |behind| [front, &word, behind, back].concat())
        })
    })
}

/// Every character of one or two bytes, white space and what is like it, and the last characters of all, with something around
/// them.
fn characters() -> impl Iterator<Item = String> {
    let few = ('\0'..='\u{7ff}').chain(WHITE_SPACE).chain(NO_WHITE_SPACE);
    let all = few.chain(['\u{800}', '\u{ffff}', '\u{10000}', '\u{10ffff}']);
    all.flat_map(|c| AROUND_CHARACTER.map(|[front, back]| format!("{front}{c}{back}")))
}

/// Parentheses of each depth, with one too few, just enough, or one too many that close them.
fn nested() -> impl Iterator<Item = String> {
    DEPTHS.into_iter().flat_map(|depth| {
        INNERMOST.into_iter().flat_map(move |inner| {
            [depth - 1, depth, depth + 1]
                .map(|closed| ["(".repeat(depth), inner.into(), ")".repeat(closed)].concat())
        })
    })
}

/// Every byte behind a backslash in each kind of string, outside and in braces.
fn escapes() -> impl Iterator<Item = Vec<u8>> {
    (0..=u8::MAX).flat_map(|byte| {
        b"\"'`".iter().flat_map(move |&sign| {
            let string = [sign, b'a', b'\\', byte, sign];
            ["", "{", "'\u{e9}'{"].map(|front| [front.as_bytes(), &string].concat())
        })
    })
}

/// What is not UTF-8, at places of a query.
fn not_utf8() -> impl Iterator<Item = Vec<u8>> {
    let texts = table_ends().into_iter().chain(cut_characters());
    let around = [
        ["", ""],
        ["a(\"", "\")"],
        ["{a='\u{e9}", "'}"],
        ["[5m", "]"],
        ["#\u{20ac}", "\n"],
        ["!\u{e9}", ""],
        [")", "\""],
    ];
    texts.flat_map(move |text| {
        around.map(|[front, back]| [front.as_bytes(), &text, back.as_bytes()].concat())
    })
}

/// The queries, cut short at each byte with each thing around them, and with a byte changed.
fn samples() -> impl Iterator<Item = Vec<u8>> {
    QUERIES.iter().flat_map(|query| {
        let query = query.as_bytes();
        let cut = (0..=query.len()).flat_map(move |end| {
            let around = AROUND.map(|parts| parts.map(str::as_bytes));
            around.map(|[front, back]| [front, &query[..end], back].concat())
        });
        cut.chain(near(query, &PUT_IN))
    })
}

/// Texts as long as the limit, a byte shorter and a byte longer; whole, and with a last byte that is wrong.
fn long() -> impl Iterator<Item = Vec<u8>> {
    let queries = QUERIES.map(|query| ["", query, ""]);
    let filled = LONGEST.into_iter().chain(queries);
    filled.flat_map(|parts| {
        let lengths = MOST_BYTES - 1..=MOST_BYTES + 1;
        let whole = lengths.map(move |length| of_length(parts, length).into_bytes());
        let longest = of_length(parts, MOST_BYTES).into_bytes();
        whole.chain([replaced(&longest, MOST_BYTES - 1..MOST_BYTES, b"\xff")])
    })
}

/// Of each a text as long as the limit, one a byte shorter and one a byte longer.
fn around_limit(filled: &'static [[&'static str; 3]]) -> impl Iterator<Item = Vec<u8>> {
    filled.iter().flat_map(|&parts| {
        (MOST_BYTES - 1..=MOST_BYTES + 1).map(move |length| of_length(parts, length).into_bytes())
    })
}

/// A text of so many bytes: what it begins with, what fills it, and what it ends with, behind spaces for what is missing.
pub fn of_length([front, fill, back]: [&str; 3], length: usize) -> String {
    let room = length - front.len() - back.len();
    let spaces = " ".repeat(room % fill.len());
    [&spaces, front, &fill.repeat(room / fill.len()), back].concat()
}

/// Random texts without end: rounds of queries, whole, spoiled and cut short, of pieces in a row, and of what is hardly a
/// query.
pub fn random<'a>(seed: u64, words: &'a [&str]) -> impl Iterator<Item = Vec<u8>> + 'a {
    let mut random = Random::new(seed);
    iter::repeat_with(move || round(&mut random, words)).flatten()
}

/// One round of random texts. One in 512 has a text that is about as long as the limit.
fn round(random: &mut Random, words: &[&str]) -> Vec<Vec<u8>> {
    let made = formed(random, words, "E", 4);
    let other = formed(random, words, "E", 2);
    let sample = random.one_of(&QUERIES).as_bytes();
    let pieces = pieces(random, words);
    let count = random.below(12);
    let mut texts = vec![
        spoiled(random, &made, &PUT_IN),
        cut(random, &made),
        crossed(random, &made, sample),
        behind(random, &made),
        spoiled(random, sample, &PUT_IN),
        crossed(random, sample, &other),
        spoiled(random, &pieces, &PUT_IN),
        in_parentheses(random, &other),
        in_pairs(random),
        (0..count).map(|_| random.byte()).collect(),
        (0..count).map(|_| random.byte() % 0x80).collect(),
        (0..count)
            .flat_map(|_| random.one_of(&TELLING).bytes())
            .collect(),
        well_formed(random),
    ];
    if random.below(512) == 0 {
        let length = MOST_BYTES + 4 - random.below(64);
        texts.push(made.iter().copied().cycle().take(length).collect());
    }
    texts.extend([made, other, pieces]);
    texts
}

/// The text up to a place.
fn cut(random: &mut Random, text: &[u8]) -> Vec<u8> {
    text[..random.below(text.len() + 1)].to_vec()
}

/// The beginning of a text, and the end of another.
fn crossed(random: &mut Random, front: &[u8], back: &[u8]) -> Vec<u8> {
    let end = random.below(back.len() + 1);
    [&cut(random, front), &back[end..]].concat()
}

/// The text behind a string or a comment of any characters, or behind what may stand before others.
fn behind(random: &mut Random, text: &[u8]) -> Vec<u8> {
    let any = well_formed(random);
    match random.below(3) {
        0 => [&b"`"[..], &any, b"` ", text].concat(),
        1 => [&b"#"[..], &any, b"\n", text].concat(),
        _ => [random.one_of(&AROUND)[0].as_bytes(), text].concat(),
    }
}

/// The text in parentheses, a few of which may be missing or too many.
fn in_parentheses(random: &mut Random, text: &[u8]) -> Vec<u8> {
    let depth = random.below(20);
    let closed = depth + random.one_of(&[0, 0, 1, 2]);
    let closed = closed.saturating_sub(random.one_of(&[0, 0, 1, 2]));
    [
        "(".repeat(depth).as_bytes(),
        text,
        ")".repeat(closed).as_bytes(),
    ]
    .concat()
}

/// Pairs of parentheses, one in another and beside each other; one in eight times one too few or too many closes them.
fn in_pairs(random: &mut Random) -> Vec<u8> {
    let (mut text, mut open) = (String::new(), 0_usize);
    for _ in 0..random.below(40) {
        match random.below(3) {
            0 => {
                text += "(";
                open += 1;
            }
            1 if open > 0 => {
                text += ")";
                open -= 1;
            }
            _ => text += random.one_of(&BETWEEN),
        }
    }
    let closed = match random.below(16) {
        0 => open + 1,
        1 => open.saturating_sub(1),
        _ => open,
    };
    (text + &")".repeat(closed)).into_bytes()
}

/// Up to twelve pieces in a row, with or without a space behind each; one in 64 times up to 200.
fn pieces(random: &mut Random, words: &[&str]) -> Vec<u8> {
    let most = if random.below(64) == 0 { 200 } else { 12 };
    let count = 1 + random.below(most);
    let behind = random.one_of(&["", " "]).as_bytes();
    let row = (0..count).map(|_| [&piece(random, words), behind].concat());
    row.collect::<Vec<_>>().concat()
}

/// A piece of any kind.
fn piece(random: &mut Random, words: &[&str]) -> Vec<u8> {
    let kind = random.one_of(&PIECES);
    let one = random.one_of(kind);
    let form = random.one_of(&["K", "N", "T", "B", "R"]);
    let form = random.one_of(&[one, one, form]);
    if form == one {
        return one.into();
    }
    formed(random, words, form, 0)
}

/// What a form stands for. At the last depth, a word stands for a query.
fn formed(random: &mut Random, words: &[&str], form: &str, depth: usize) -> Vec<u8> {
    let mut text = Vec::new();
    for sign in form.bytes() {
        let forms = match sign {
            b'E' if depth > 0 => &FORMS[..],
            b'B' => &BRACE_FORMS,
            b'R' => &BRACKET_FORMS,
            _ => &[],
        };
        text.extend(match sign {
            _ if !forms.is_empty() => {
                let form = random.one_of(forms);
                formed(random, words, form, depth.saturating_sub(1))
            }
            b'E' | b'W' => word(random, WORD_BYTES),
            b'L' => word(random, LABEL_BYTES),
            b'K' => recased(random, words),
            b'N' => number(random),
            b'T' => string(random),
            b'O' => random.one_of(&SIGNS[..12]).into(),
            b' ' => random.one_of(&SPACES).into(),
            _ => vec![sign],
        });
    }
    text
}

/// A word of some of these bytes, with a letter first.
fn word(random: &mut Random, bytes: &[u8]) -> Vec<u8> {
    let rest = random.below(8);
    let bytes = (0..rest).map(|_| random.one_of(bytes));
    iter::once(b'a').chain(bytes).collect()
}

/// A number or a duration; one in 16 is none.
fn number(random: &mut Random) -> Vec<u8> {
    match random.below(16) {
        0 => random.one_of(&NO_NUMBERS).into(),
        1..=3 => any_decimal(random)
            .trim_start_matches(&['+', '-'][..])
            .into(),
        4..=6 => any_units(random).into(),
        7..=9 => format!("0x{:x}", random.number() >> random.below(64)).into(),
        _ => random.one_of(&NUMBERS).into(),
    }
}

/// A string; one in 16 is none, and others may have a byte changed.
fn string(random: &mut Random) -> Vec<u8> {
    match random.below(16) {
        0 => random.one_of(&NO_STRINGS).into(),
        1..=6 => literal(random),
        _ => random.one_of(&STRINGS).into(),
    }
}
