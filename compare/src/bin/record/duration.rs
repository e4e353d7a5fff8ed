//! The records of the functions on durations.

use crate::{decimal, filled};
use compare::oracle::duration::{self, displayed};
use compare::oracle::{Answer, NO_ROOM};
use compare::texts::durations::UNITS;
use compare::texts::hex;
use std::str;
use std::time::Duration;

/// Lines written by hand: records in every form, and lines that are no record.
const BY_HAND: &[&str] = &[
    "duration -",
    "duration 356d 0",
    "duration 356D",
    "duration 356d 18446744073709551616",
    "duration",
    "duration ",
    "duration 3",
    "duration 356d x",
    "durations 356d",
    "Duration 356d",
    "durexact -",
    "durexact 356d 0",
    "durexact 356D",
    "durexact",
    "durexact ",
    "durexact 3",
    "durexact 356d x",
    "durexacts 356d",
    "durExact 356d",
    "durwrite -",
    "durwrite - 0",
    "durwrite",
    "durwrite ",
    "durwrite 3",
    "durwrite 302030 18446744073709551616",
    "durwrite 302030 x",
    "durwrites 302030",
    "durWrite 302030",
];

/// Texts of units: each unit, their order, numbers at their bounds, and what is nearly such a text; then decimals: their
/// grammar, the rounding, the exact range, 2^64, what is negative, names; then what is not UTF-8.
const TEXTS: &[&[u8]] = &[
    b"0",
    b"1y",
    b"1w",
    b"1d",
    b"1h",
    b"1m",
    b"1s",
    b"1ms",
    b"5m",
    b"1h30m",
    b"4d1h",
    b"1m1ms",
    b"1s999ms",
    b"1000ms",
    b"1y2w3d4h5m6s7ms",
    b"1y7ms",
    b"0y0w0d0h0m0s1ms",
    b"0s",
    b"0ms",
    b"00h",
    b"0y0w0d0h0m0s0ms",
    b"4294967295s",
    b"4294967296s",
    b"4294967295ms",
    b"4294967296ms",
    b"4294967295y",
    b"4294967296y",
    b"00004294967295s",
    b"00004294967296s",
    b"4294967295y4294967295w4294967295d4294967295h4294967295m4294967295s4294967295ms",
    b"4294967296y1w",
    b"1d5000000000ms",
    b"5000000000s",
    b"18446744073709551616s",
    b"18446744073709551617s1ms",
    b"1ms1s",
    b"1s1m",
    b"1m1h",
    b"1h1d",
    b"1d1w",
    b"1w1y",
    b"1y2y",
    b"1m1m",
    b"1ms1ms",
    b"1s1s",
    b"5M",
    b"5MS",
    b"5mS",
    b"1Y",
    b"1us",
    b"1ns",
    "1\u{b5}s".as_bytes(),
    b"1mo",
    b"1mss",
    b"1msm",
    b"1sm",
    b"ms",
    b"s",
    b"m5",
    b"1m5",
    b"1h5m3",
    b" 5m",
    b"5m ",
    b"5 m",
    b"5m\n",
    b"+5m",
    b"-5m",
    b"-0s",
    b"1.5h",
    b".5s",
    b"1e5s",
    b"1e5",
    b"1_0s",
    "\u{661}s".as_bytes(),
    "1\u{17f}".as_bytes(),
    b"00",
    b"+0",
    b"-0",
    b"0.0",
    b"-.0",
    b"0.",
    b"0e5",
    b"-0e999",
    b"0e99999999999999999999",
    b"1",
    b"+15",
    b"017",
    b"1.5",
    b".25",
    b"5.",
    b"1E+2",
    b"1.50e-3",
    b"0.000000001",
    b"1e-9",
    b"5e-10",
    b"4e-10",
    b"1e-10",
    b"1e-22",
    b"1e-23",
    b"1.5e-9",
    b"2.5e-9",
    b"3.5e-9",
    b"0.0009765625",
    b"0.00097656250001",
    b"0.00097656249999",
    b"0.0029296875",
    b"0.0048828125",
    b"1.0009765625",
    b"0.9999999994",
    b"0.9999999995",
    b"0.9999999999",
    b"59.9999999999",
    b"900719925474.0992",
    b"9007199254740991",
    b"9007199254740992",
    b"9007199254740993",
    b"9007199254740992.5",
    b"90071992547409920",
    b"1844674407370955e4",
    b"1844674407370956e4",
    b"1.8446744073709551e19",
    b"18446744073709551615",
    b"18446744073709551616",
    b"1e19",
    b"2e19",
    b"1e22",
    b"1e23",
    b"1e308",
    b"1e309",
    b"1e400",
    b"1e-400",
    b"0.1000000000000000055511151231257827",
    b"-1",
    b"-1e-10",
    b"-5e-324",
    b"-1e-400",
    b"-1e400",
    b"-9007199254740993",
    b"-1e99999999999999999999",
    b"-1e-99999999999999999999",
    b"inf",
    b"-inf",
    b"+Infinity",
    b"NaN",
    b"-nan",
    b"in",
    b"infs",
    b"nan5m",
    b".",
    b"-",
    b"+",
    b"1e",
    b"1e+",
    b"e5",
    b"1.2.3",
    b"--1",
    b"0x5",
    b"0x10",
    b"1 ",
    b" 1",
    b"\xff",
    b"5m\xff",
    b"\xc3\xa95\xc3",
    b"1s\xed\xa0\x80",
];

/// Texts for the exact reading: document 02's cases; an oversized part before, behind and between others; what comes before it; and
/// what is like it in a decimal.
const EXACT_TEXTS: &[&[u8]] = &[
    b"1d5000000000ms",
    b"1d4294967295ms",
    b"4294967296s",
    b"4294967296s1",
    b"4294967296",
    b"0s",
    b"4294967295d",
    b"4294967296d",
    b"5000000000h1ms",
    b"1y5000000000w1d",
    b"4294967296y4294967296ms",
    b"0h4294967296m0s",
    b"18446744073709551616s",
    b"18446744073709551617s1ms",
    b"4294967295y4294967295w4294967295d4294967295h4294967295m4294967295s4294967295ms",
    b"4294967295y4294967295w4294967295d4294967295h4294967295m4294967295s4294967296ms",
    b"0",
    b"0y0w0d0h0m0s0ms",
    b"1.5h",
    b"1ms1s",
    b"1s5000000000s",
    b"5000000000s1h",
    b"5000000000S",
    b"5000000000m ",
    b" 5000000000m",
    b"+5000000000m",
    b"-5000000000m",
    b"5000000000.5m",
    b"5000000000us",
    b"5000000000m\n",
    b"5000000000m\xff",
    "5000000000\u{17f}".as_bytes(),
    b"5000000000",
    b"00005000000000.5",
    b"5000000000e-9",
    b"0e5000000000",
    b"9007199254740993",
    b"1e400",
    b"-5000000000",
    b"-1e400",
    b"inf",
    b"2e19",
];

/// One of so many texts is recorded for the exact reading too.
const EXACT_SHARE: usize = 4;

/// Seconds and nanoseconds: what is under a millisecond, each unit with a little less and more, units together, the greatest,
/// nanoseconds above what is written.
const PAIRS: &[(u64, u32)] = &[
    (0, 0),
    (0, 1),
    (0, 999_999),
    (0, 1_000_000),
    (0, 1_000_001),
    (0, 1_999_999),
    (0, 9_000_000),
    (0, 10_000_000),
    (0, 99_999_999),
    (0, 100_000_000),
    (0, 999_000_000),
    (0, 999_999_999),
    (0, 1_000_000_000),
    (0, 1_000_000_001),
    (0, u32::MAX),
    (1, 0),
    (1, 1),
    (1, 999_999),
    (1, 1_000_000),
    (1, 999_999_999),
    (1, 1_000_000_000),
    (9, 0),
    (10, 0),
    (59, 999_999_999),
    (60, 0),
    (60, 1),
    (60, 1_000_000),
    (61, 0),
    (90, 0),
    (120, 0),
    (3_599, 0),
    (3_599, 999_999_999),
    (3_600, 0),
    (3_600, 1_000_000),
    (3_601, 0),
    (3_660, 0),
    (3_661, 1_000_000),
    (5_400, 0),
    (7_200, 0),
    (86_399, 0),
    (86_399, 999_999_999),
    (86_400, 0),
    (86_400, 1_000_000),
    (86_401, 0),
    (86_460, 0),
    (90_000, 0),
    (90_061, 1_000_000),
    (172_800, 0),
    (604_799, 0),
    (604_799, 999_999_999),
    (604_800, 0),
    (604_800, 999_999),
    (604_800, 1_000_000),
    (604_801, 0),
    (691_200, 0),
    (1_209_600, 0),
    (6_048_000, 0),
    (7_776_000, 0),
    (31_449_600, 0),
    (31_535_999, 0),
    (31_535_999, 999_999_999),
    (31_536_000, 0),
    (31_536_000, 1),
    (31_536_000, 999_999),
    (31_536_000, 1_000_000),
    (31_536_001, 0),
    (31_622_400, 0),
    (32_140_800, 0),
    (63_072_000, 0),
    (220_752_000, 0),
    (220_752_001, 0),
    (4_294_967_295, 0),
    (4_294_967_296, 0),
    (9_007_199_254_740_992, 0),
    (9_007_199_254_740_993, 0),
    (18_446_744_073_707_280_000, 0),
    (18_446_744_073_709_440_000, 0),
    (18_446_744_073_709_526_400, 0),
    (18_446_744_073_709_551_614, 999_999_999),
    (u64::MAX, 0),
    (u64::MAX, 999_999),
    (u64::MAX, 1_000_000),
    (u64::MAX, 999_999_999),
    (u64::MAX, 1_000_000_000),
    (u64::MAX, u32::MAX),
];

/// Seconds and nanoseconds that are written in several rooms.
const IN_ROOMS: &[(u64, u32)] = &[
    (0, 0),
    (0, 999_999),
    (0, 1_000_000_000),
    (300, 0),
    (31_536_000, 0),
    (90_061, 1_000_000),
];

/// Those that are written in the greatest rooms that are too little, just enough, and one more.
const LONGEST: (u64, u32) = (18_446_744_073_709_502_399, 999_999_999);

/// Inputs of `durwrite` that are no two numbers, or nearly none.
const NO_PAIRS: &[&[u8]] = &[
    b"0",
    b"0 ",
    b" 0",
    b" ",
    b" 0 0",
    b"0  0",
    b"0 0 ",
    b"0 0 0",
    b"0\t0",
    b"0 0\n",
    b"0,0",
    b"+1 0",
    b"1 -0",
    b"1 x",
    b"1. 0",
    b"0x1 0",
    "\u{661} 0".as_bytes(),
    b"00 00",
    b"007 0001000000",
    b"00000000000000000000000000000001 0",
    b"18446744073709551616 0",
    b"18446744073709551616 1000000000",
    b"0 4294967296",
    b"0 18446744073709551615",
    b"0 18446744073709551616",
    b"0 \xff",
];

/// The recorded lines.
pub fn inputs() -> Vec<String> {
    let mut lines: Vec<String> = BY_HAND.iter().map(|line| line.to_string()).collect();
    lines.extend(TEXTS.iter().map(|text| line("duration", text)));
    lines.extend(long().map(|text| line("duration", text.as_bytes())));
    lines.extend(exact_texts().map(|text| line("durexact", &text)));
    lines.extend(PAIRS.iter().map(|&pair| pair_line(pair)));
    for &pair in IN_ROOMS {
        lines.extend((0..=needed(pair) + 1).map(|room| room_line(pair, room)));
    }
    let needed = needed(LONGEST);
    lines.extend([needed - 1, needed, needed + 1].map(|room| room_line(LONGEST, room)));
    lines.extend(NO_PAIRS.iter().map(|pair| line("durwrite", pair)));
    lines
}

/// The texts for the exact reading: its own, both sides of the bound of each unit, a share of the others, long ones.
fn exact_texts() -> impl Iterator<Item = Vec<u8>> {
    let own = EXACT_TEXTS.iter().map(|text| text.to_vec());
    let bounds = UNITS.iter().flat_map(|unit| {
        let numbers = [
            "4294967295",
            "4294967296",
            "00004294967295",
            "00004294967296",
        ];
        numbers.map(|number| [number, unit].concat().into_bytes())
    });
    let share = TEXTS.iter().step_by(EXACT_SHARE).map(|text| text.to_vec());
    let long = long().into_iter().map(String::into_bytes);
    own.chain(bounds).chain(share).chain(long)
}

/// The record of an operation on these bytes.
fn line(operation: &str, bytes: &[u8]) -> String {
    format!("{operation} {}", hex(bytes))
}

/// The record that writes seconds and nanoseconds.
fn pair_line((secs, nanos): (u64, u32)) -> String {
    line("durwrite", format!("{secs} {nanos}").as_bytes())
}

/// The record that writes them in a room.
fn room_line(pair: (u64, u32), room: usize) -> String {
    format!("{} {room}", pair_line(pair))
}

/// How many bytes the text of seconds and nanoseconds has; none where it is refused.
fn needed((secs, nanos): (u64, u32)) -> usize {
    displayed(secs, nanos).map_or(0, |text| text.len())
}

/// Texts as long as the limit, and a byte longer: with many digits in a part, with many zeros that an exponent makes up for,
/// and with a long exponent.
fn long() -> [String; 10] {
    [
        filled("", "0", ""),
        filled("", "0", "5m"),
        filled("1h", "0", "5m"),
        filled("1h", "9", "ms"),
        filled("", "9", "y"),
        filled("0.", "0", "1e249"),
        filled("1", "0", "e-251"),
        filled("1e-", "0", "9"),
        filled("-1e-", "9", ""),
        filled("", "0", "5m") + "s",
    ]
}

/// The answer to `duration`: the seconds and the nanoseconds of a text.
pub fn duration(text: &[u8]) -> String {
    timed(duration::duration(text))
}

/// The answer to `durexact`: the same in the exact reading.
pub fn durexact(text: &[u8]) -> String {
    timed(duration::exact_duration(text))
}

/// The seconds and the nanoseconds of a duration, or the refusal.
fn timed(read: Result<Duration, Answer>) -> String {
    match read {
        Ok(duration) => format!("ok {} {}", duration.as_secs(), duration.subsec_nanos()),
        Err(refused) => refused.to_string(),
    }
}

/// The answer to `durwrite`: the text of seconds and nanoseconds; none where the input is not these.
pub fn durwrite(pair: &[u8], room: u64) -> Option<String> {
    let (secs, nanos) = str::from_utf8(pair).ok()?.split_once(' ')?;
    let nanos = decimal(nanos.as_bytes())?.try_into().ok()?;
    let answer = match displayed(decimal(secs.as_bytes())?, nanos) {
        Ok(text) if text.len() as u64 > room => Answer::refused(NO_ROOM).to_string(),
        Ok(text) => format!("ok {}", hex(text.as_bytes())),
        Err(refused) => refused.to_string(),
    };
    Some(answer)
}
